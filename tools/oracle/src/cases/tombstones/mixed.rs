//! The pairs in all nine combinations of formats: what the earlier verdicts ignore, and
//! refusal 16 beside the others.

use super::{holding, third, using};
use crate::cases::both_bad::refused_by;
use crate::cases::rich::rich;
use crate::cases::sizes::reporting;
use crate::cases::{mixed, Cases};
use crate::formats::{in_formats, THIRD_FORMAT};
use crate::limits::REPORT_BYTES;
use crate::make::*;
use crate::refiling::unrepeated_releases;
use crate::rng::Rng;
use crate::schema::Schema;
use crate::writer::image;

pub fn add(cases: &mut Cases) {
    plain(cases);
    widths(cases);
    refused(cases);
    both_refused(cases);
    aliases(cases);
    ignored(cases);
}

/// In the nine ways in which its images can be of the three formats; where the format has
/// none the tombstones go.
fn in_each_format(cases: &mut Cases, name: &str, old: &Schema, new: &Schema) {
    for from in 1..=THIRD_FORMAT {
        for to in 1..=THIRD_FORMAT {
            let [old, new] = [(old, from), (new, to)].map(|(s, f)| s.clone().in_format(f));
            let name = format!("tombstones: {name}, formats {from} and {to}");
            cases.pair(&name, &old, &new);
        }
    }
}

fn plain(cases: &mut Cases) {
    let nothing = Schema::default();
    in_each_format(cases, "nothing", &nothing, &nothing);
    for kind in 0..9 {
        if kind != 6 {
            let one = schema(vec![of_kind(kind, "K")]);
            in_each_format(cases, &format!("kind {kind}"), &one, &one);
        }
    }
    let of = |used: &[u32], struck: &[u32]| third(vec![using(2, "F", used, struck)]);
    in_each_format(cases, "reused", &of(&[], &[3]), &of(&[3], &[]));
    in_each_format(cases, "dropped", &of(&[], &[3]), &of(&[], &[]));
    in_each_format(cases, "kept", &of(&[1], &[3]), &of(&[1], &[3]));
    let of =
        |used: &[u32], struck: &[u32]| third(vec![union("U", vec![holding(0, "v", used, struck)])]);
    in_each_format(cases, "reused in a variant", &of(&[], &[3]), &of(&[3], &[]));
    let old = schema(vec![of_kind(0, "M"), of_kind(1, "E")]);
    let new = old.clone().with_entries(vec![Some(config("C"))]);
    let new = new.listing(&[0, 1, 2]);
    in_each_format(cases, "Minor by 01", &old, &new);
}

/// Widths hold in format 3 as in format 2.
fn widths(cases: &mut Cases) {
    let of = |width, bytes, struck: &[u32]| {
        third(vec![
            enumeration("E", 0, items(&[(0, "a")]))
                .of_width(width)
                .striking(struck),
            flags("F", items(&[(0, "a")]))
                .of_width(bytes)
                .striking(struck),
        ])
    };
    for (from, to) in [((0, 1), (255, 8)), ((8, 1), (9, 1)), ((8, 4), (8, 2))] {
        let old = of(from.0, from.1, &[]);
        let new = of(to.0, to.1, &[]);
        in_each_format(cases, &format!("widths {from:?} and {to:?}"), &old, &new);
        let old = of(from.0, from.1, &[0, 7]);
        let name = format!("tombstones: widths {from:?} and {to:?}, and two told");
        cases.both_ways(&name, &old, &new);
    }
    for bytes in [0, 3, 5, 16, 255] {
        let flags = vec![2, 1, b'F', bytes, 0, 0, 0, 0];
        let name = format!("tombstones: flags of {bytes}");
        cases.beside_ride(&name, super::bodies::with_body(flags));
    }
}

/// The image refused by each number beside an accepted one of each format.
fn refused(cases: &mut Cases) {
    for number in 1..=10 {
        let faulty = match number {
            2 => vec![3, 0, 1, 0, 0, 0, 0, 0],
            3 => vec![4, 0, 0, 0, 0, 0, 0, 0],
            _ => in_third(refused_by(number)),
        };
        for beside in 1..=THIRD_FORMAT {
            // One that is too long is large.
            if number == 1 && beside < THIRD_FORMAT {
                continue;
            }
            let other = image(&schema(vec![alias("A")]).in_format(beside));
            let name = format!("tombstones: {number} in format 3, beside {beside}");
            cases.bytes(&format!("{name}, old"), faulty.clone(), other.clone());
            cases.bytes(&format!("{name}, new"), other, faulty.clone());
        }
        if ![1, 3].contains(&number) {
            let other = image(&third(vec![]));
            for format in [1, 2] {
                let mut faulty = faulty.clone();
                faulty[0] = format;
                let name = format!("tombstones: {number} in format {format}, beside 3");
                cases.bytes(&format!("{name}, old"), faulty.clone(), other.clone());
                cases.bytes(&format!("{name}, new"), other.clone(), faulty);
            }
        }
    }
}

/// The image with format 3 in its head.
fn in_third(mut image: Vec<u8>) -> Vec<u8> {
    image[..2].copy_from_slice(&THIRD_FORMAT.to_le_bytes());
    image
}

fn both_refused(cases: &mut Cases) {
    for (old, new) in [(2, 10), (10, 2), (3, 9), (8, 8), (5, 7)] {
        let name = format!("tombstones: old refused by {old}, new by {new}, of formats 1 and 3");
        cases.bytes(&name, refused_by(old), in_third(refused_by(new)));
    }
}

/// 16 before 11 and 12, whatever else the images hold.
fn aliases(cases: &mut Cases) {
    let one = schema(vec![alias("A")]);
    in_each_format(cases, "an alias pair", &one, &one);
    let struck = |struck: &[u32]| third(vec![alias("A"), using(2, "F", &[], struck)]);
    let name = "tombstones: 11 beside a tombstone";
    cases.both_ways(name, &struck(&[3]), &struck(&[]));
    let reached = schema(vec![newtype("N", named(1)), alias("A")]).listing(&[0]);
    in_each_format(cases, "an alias pair reached", &reached, &reached);
    let (old, new) = reporting(REPORT_BYTES + 1);
    for (from, to) in [(1, 3), (2, 3), (3, 2)] {
        let [old, new] = [(&old, from), (&new, to)].map(|(s, f)| s.clone().in_format(f));
        let name = format!("tombstones: a report too long, formats {from} and {to}");
        cases.pair(&name, &old, &new);
    }
}

/// The same pairs in every format, with other widths and tombstones.
fn ignored(cases: &mut Cases) {
    let mut rng = Rng::new(10);
    let (old, new) = (mixed::before(), mixed::after());
    in_each_format(cases, "every kind of change", &old, &new);
    every_kind(cases, &old, &new);
    in_each_format(cases, "rich", &rich(), &rich());
    let imports = |code, list: &[(u32, &str)]| {
        let entries = vec![
            newtype("N", double(8, named(1), named(2))),
            enumeration("E", 2, items(list)),
            flags("F", items(list)),
            message("M", vec![field(0, "f", primitive(code))]),
        ];
        schema(entries).listing(&[0, 3])
    };
    let reached = (imports(1, &[(0, "a")]), imports(1, &[(0, "a"), (9, "b")]));
    let mut releases = vec![("every kind of change", old, new), ("rich", rich(), rich())];
    releases.push(("imports", reached.0, reached.1));
    for (name, old, new) in releases {
        struck_anew(cases, &mut rng, name, [old, new]);
    }
    for n in 0..12 {
        let releases = unrepeated_releases(&mut rng, 6);
        let [old, new] = &releases;
        in_each_format(cases, &format!("release {n}"), old, new);
        struck_anew(cases, &mut rng, &format!("release {n}"), releases);
    }
}

/// Every kind of change, with those that the mended verdict alone reports.
fn every_kind(cases: &mut Cases, old: &Schema, new: &Schema) {
    let [mut old, mut new] = [old, new].map(|schema| schema.clone().in_format(THIRD_FORMAT));
    for declaration in old.registry.iter_mut().flatten() {
        if declaration.name == "Message" {
            declaration.tombstones = vec![5, 6];
        }
    }
    for declaration in new.registry.iter_mut().flatten() {
        if let Some(width) = declaration.width_mut() {
            *width = Some(4);
        }
    }
    cases.both_ways("tombstones: every kind of change and more", &old, &new);
}

/// In format 3 with other tombstones.
fn struck_anew(cases: &mut Cases, rng: &mut Rng, name: &str, [old, new]: [Schema; 2]) {
    for n in 0..3 {
        let releases = [old.clone(), new.clone()];
        let [old, new] = in_formats(rng, releases, [THIRD_FORMAT; 2]);
        cases.pair(&format!("tombstones: {name}, struck {n}"), &old, &new);
    }
}
