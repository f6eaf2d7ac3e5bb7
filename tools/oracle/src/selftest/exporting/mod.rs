//! The exporter: image to schema to image gives the same bytes, `check` answers
//! the same, and what can't be an image is refused by number and place.

mod lost;
mod refusals;
mod stubs;
mod tombstones;

use super::tombstones::struck;
use super::widths::widened;
use super::Tests;
use crate::cases;
use crate::commands::random_pair_in;
use crate::edits::edited;
use crate::formats::first_or_second;
use crate::limits::FORMATS;
use crate::model::{alias_pair, PLAIN};
use crate::random::random_schema;
use crate::reader::read_image;
use crate::record::SEED;
use crate::rng::Rng;
use crate::schema::Schema;
use crate::vexil::exporter::{export, Exported, Format, Refused};
use crate::vexil::{compile, real_answer};
use crate::writer::image;

pub fn run(tests: &mut Tests) {
    recorded(tests);
    random(tests);
    later(tests);
    formats(tests);
    lost::run(tests);
    refusals::run(tests);
    stubs::run(tests);
    tombstones::run(tests);
}

/// What went through the exporter, and the pairs in which something came out
/// changed.
#[derive(Default)]
struct RoundTrips {
    images: usize,
    verdicts: usize,
    changed: Vec<String>,
}

impl RoundTrips {
    /// Both images as far as they are accepted, then what `check` says of them.
    fn pair(&mut self, name: &str, old: &[u8], new: &[u8]) {
        let schemas = [old, new].map(|image| read_image(image).ok());
        let again = [0, 1].map(|side| {
            let schema = schemas[side].as_ref()?;
            self.images += 1;
            let exported = again(schema).unwrap_or_else(|refused| {
                self.changed.push(format!("{name}: {refused}"));
                Exported::default()
            });
            if exported.image != [old, new][side] {
                self.changed.push(format!("{name}: bytes of image {side}"));
            }
            let warned: Vec<u32> = exported.warnings.iter().map(|w| w.id).collect();
            if warned != empty_entries(schema) {
                self.changed
                    .push(format!("{name}: warnings of image {side}"));
            }
            read_image(&exported.image).ok()
        });
        let ([Some(old), Some(new)], [Some(old_again), Some(new_again)]) = (&schemas, &again)
        else {
            return;
        };
        if alias_pair(old, new, PLAIN) {
            return;
        }
        self.verdicts += 1;
        if answer(old, new) != answer(old_again, new_again) {
            self.changed.push(format!("{name}: the answer of check"));
        }
    }
}

/// Exported in the schema's own format.
fn again(schema: &Schema) -> Result<Exported, Refused> {
    let format = Format::of(schema.format);
    export(&compile(schema), format.expect("every format is exported"))
}

fn empty_entries(schema: &Schema) -> Vec<u32> {
    let entries = (0..).zip(&schema.registry);
    let empty = entries.filter(|(_, entry)| entry.is_none());
    empty.map(|(id, _)| id).collect()
}

fn answer(old: &Schema, new: &Schema) -> Vec<String> {
    real_answer(&compile(old), &compile(new))
}

fn recorded(tests: &mut Tests) {
    let mut trips = RoundTrips::default();
    for case in cases::all(SEED) {
        trips.pair(&case.name, &case.old, &case.new);
    }
    tests.equal("recorded images come out the same", trips.changed, vec![]);
    tests.holds("8,000 recorded images or more", trips.images >= 8_000);
    tests.holds("2,500 recorded verdicts or more", trips.verdicts >= 2_500);
}

fn random(tests: &mut Tests) {
    let mut trips = RoundTrips::default();
    let mut rng = Rng::new(SEED);
    for place in 0..4_000 {
        let (old, new) = random_pair_in(&mut rng, first_or_second);
        trips.pair(&format!("random pair {place}"), &old, &new);
    }
    tests.equal("random images come out the same", trips.changed, vec![]);
    tests.holds("6,000 random images or more", trips.images >= 6_000);
    tests.holds("2,000 random verdicts or more", trips.verdicts >= 2_000);
}

/// The same pairs with widths, and with tombstones too; in an earlier format each image is
/// that of the schema without what it does not hold.
fn later(tests: &mut Tests) {
    let mut rng = Rng::new(SEED);
    for (format, enrich) in [(2, widened as fn(&mut Rng, Schema) -> Schema), (3, struck)] {
        let mut trips = RoundTrips::default();
        let mut left_out = true;
        for place in 0..2_000 {
            let old = random_schema(&mut rng, 8);
            let new = edited(&mut rng, &old, 6);
            let [old, new] = [old, new].map(|schema| enrich(&mut rng, schema));
            let name = format!("format {format}, pair {place}");
            trips.pair(&name, &image(&old), &image(&new));
            left_out &= (1..format).all(|earlier| in_earlier(&old, earlier));
            left_out &= (1..format).all(|earlier| in_earlier(&new, earlier));
        }
        tests.equal("later images come out the same", trips.changed, vec![]);
        tests.equal("later images", trips.images, 4_000);
        tests.holds("1,000 later verdicts or more", trips.verdicts >= 1_000);
        tests.holds(
            "earlier formats leave out what they have no room for",
            left_out,
        );
    }
}

/// Whether it is exported in an earlier format as what that one holds of it.
fn in_earlier(schema: &Schema, number: u16) -> bool {
    let format = Format::of(number).expect("every format is exported");
    let exported = export(&compile(schema), format).map(|exported| exported.image);
    exported == Ok(image(&schema.clone().in_format(number)))
}

/// Every format that the reader knows is exported, and no other.
fn formats(tests: &mut Tests) {
    for number in 0..=u16::MAX {
        let found = Format::of(number).map(Format::number);
        let wanted = FORMATS.contains(&number).then_some(number);
        if found != wanted {
            tests.equal("a format", found, wanted);
        }
    }
}
