//! Formats and widths: the answers with their texts written out, what the earlier
//! verdicts ignore, and that pairs made for the mended verdict, and the recorded edges,
//! tell wrong readings.

use super::wrong_widths::{answer, Images, Wrong, WRONG};
use crate::answer::{judge, Answer, Side, Verdict, VERDICTS};
use crate::cases;
use crate::cases::both_bad::refused_by;
use crate::changes::ChangeKind::WidthChanged;
use crate::formats::{any_formats, in_formats, SECOND_FORMAT};
use crate::listing::listing;
use crate::made::pair_for;
use crate::make::*;
use crate::mended::releases_in;
use crate::reader::read_image;
use crate::record::SEED;
use crate::rng::Rng;
use crate::schema::{Declaration, Schema};
use crate::selftest::Tests;
use crate::writer::image;

use Verdict::{Imports, Mended, Plain};

const SILENT: &str = "Compatible;Patch;0\n";
const MIXED: &str = "refused 16 both\n";

pub fn run(tests: &mut Tests) {
    ninth_bit(tests);
    order(tests);
    not_compared(tests);
    mixed(tests);
    after_ten(tests);
    selectors(tests);
    ignored(tests);
    wrong(tests);
}

fn report(verdict: Verdict, old: &Schema, new: &Schema) -> String {
    let answer = judge(&image(old), &image(new)).by(verdict);
    String::from_utf8_lossy(&answer.printed()).into_owned()
}

/// Of format 2; each of these has its width.
fn wide(declarations: Vec<Declaration>) -> Schema {
    schema(declarations).in_format(SECOND_FORMAT)
}

fn faults(width: u8, bits: &[(u32, &str)]) -> Declaration {
    flags("F", items(bits)).of_width(width)
}

fn mode(width: u8, marks: u8, variants: &[(u32, &str)]) -> Declaration {
    enumeration("E", marks, items(variants)).of_width(width)
}

fn ninth_bit(tests: &mut Tests) {
    let old = wide(vec![faults(1, &[(7, "h")])]);
    let new = wide(vec![faults(2, &[(7, "h"), (8, "i")])]);
    let bit = "FlagsBitAdded;Minor;F;+i;bit 'i' @8 was added\n";
    for former in [Plain, Imports] {
        let wanted = format!("{bit}Compatible;Minor;1\n");
        tests.equal("a ninth bit", report(former, &old, &new), wanted);
    }
    let width = "WidthChanged;Major;F;-;width changed from 1 to 2\n";
    let wanted = format!("{width}{bit}Breaking;Major;2\n");
    tests.equal("a ninth bit", report(Mended, &old, &new), wanted);
    let wanted = "WidthChanged;Major;F;-;width changed from 2 to 1\n\
                  FlagsBitRemoved;Major;F;+i;bit 'i' @8 was removed\n\
                  Breaking;Major;2\n";
    tests.equal("and back", report(Mended, &new, &old).as_str(), wanted);
    let kept = wide(vec![faults(1, &[(7, "h"), (8, "i")])]);
    let wanted = format!("{bit}Compatible;Minor;1\n");
    tests.equal("as wide", report(Mended, &old, &kept), wanted);
    for same in [&old, &new] {
        tests.equal("itself", report(Mended, same, same).as_str(), SILENT);
    }
}

/// First in its declaration, whatever else changes in it and before it.
fn order(tests: &mut Tests) {
    let old = wide(vec![mode(8, 0, &[(0, "a")]), faults(1, &[])]);
    let new = wide(vec![mode(16, 2, &[(1, "b")]), faults(8, &[]), config("A")]);
    let new = new.in_namespace(&["other"]);
    let wanted = "NamespaceChanged;Major;;-;namespace changed from 'ride' to 'other'\n\
                  DeclarationAdded;Minor;A;-;config 'A' was added\n\
                  WidthChanged;Major;E;-;width changed from 8 to 16\n\
                  NonExhaustiveChanged;Major;E;-;@non_exhaustive changed from false to true\n\
                  VariantRemoved;Major;E;+a;variant 'a' @0 was removed\n\
                  VariantAdded;Minor;E;+b;variant 'b' @1 was added\n\
                  WidthChanged;Major;F;-;width changed from 1 to 8\n\
                  Breaking;Major;7\n";
    tests.equal("the order", report(Mended, &old, &new).as_str(), wanted);
    for (from, to) in [(0, 255), (255, 0), (7, 8)] {
        let [old, new] = [from, to].map(|width| wide(vec![mode(width, 0, &[])]));
        let line = format!("WidthChanged;Major;E;-;width changed from {from} to {to}\n");
        let wanted = format!("{line}Breaking;Major;1\n");
        tests.equal("an enum's", report(Mended, &old, &new), wanted);
        tests.equal("by 01", report(Plain, &old, &new).as_str(), SILENT);
    }
}

fn not_compared(tests: &mut Tests) {
    let kinds = "DeclarationKindChanged;Major;E;-;'E' changed from enum to flags\n\
                 Breaking;Major;1\n";
    let old = wide(vec![mode(8, 0, &[])]);
    let new = wide(vec![flags("E", vec![]).of_width(1)]);
    tests.equal("kinds", report(Mended, &old, &new).as_str(), kinds);
    let mut silent = |name: &str, old: &Schema, new: &Schema| {
        tests.equal(name, report(Mended, old, new).as_str(), SILENT);
    };
    let two = |first, last| wide(vec![faults(first, &[]), faults(last, &[])]);
    silent("of a dead one", &two(1, 4), &two(2, 4));
    let unlisted = |width| wide(vec![config("C"), faults(width, &[])]).listing(&[0]);
    silent("of one not listed", &unlisted(1), &unlisted(2));
    let reached = |width| wide(vec![newtype("N", named(1)), faults(width, &[])]).listing(&[0]);
    silent("of one reached", &reached(1), &reached(2));
    let with_imports = report(Imports, &reached(1), &reached(2));
    tests.equal("with imports", with_imports.as_str(), SILENT);
}

/// The formats of the old and the new image, and whether the mended verdict takes them.
const FORMATS: [([u16; 2], bool); 4] = [
    ([1, 1], false),
    ([1, 2], false),
    ([2, 1], false),
    ([2, 2], true),
];

fn mixed(tests: &mut Tests) {
    let mut in_formats = |name: &str, schema: &Schema, said: [&str; 3]| {
        for (formats, taken) in FORMATS {
            let [old, new] = formats.map(|format| schema.clone().in_format(format));
            for (verdict, said) in VERDICTS.into_iter().zip(said) {
                let mended = verdict == Mended && !taken;
                let wanted = if mended { MIXED } else { said };
                let name = format!("{name}, formats {formats:?}");
                tests.equal(&name, report(verdict, &old, &new).as_str(), wanted);
            }
        }
    };
    let nothing = Schema::default();
    in_formats("nothing", &nothing, [SILENT; 3]);
    let all = schema(
        (0..9)
            .filter(|k| *k != 6)
            .map(|k| of_kind(k, "K"))
            .collect(),
    );
    in_formats("all kinds", &all, [SILENT; 3]);
    let pair = "refused 11 both\n";
    in_formats("an alias pair", &schema(vec![alias("A")]), [pair; 3]);
    let reached = schema(vec![newtype("N", named(1)), alias("A")]).listing(&[0]);
    let said = [SILENT, pair, SILENT];
    in_formats("an alias pair reached", &reached, said);
}

/// 1 to 10 of either image come before 16.
fn after_ten(tests: &mut Tests) {
    for number in 1..=10 {
        let faulty = refused_by(number);
        for format in [1, SECOND_FORMAT] {
            let other = image(&schema(vec![alias("A")]).in_format(format));
            let found = [(&faulty, &other), (&other, &faulty)].map(|(old, new)| {
                let answer = judge(old, new).by(Mended);
                (answer.number, answer.side)
            });
            let wanted = [(number, Side::Old), (number, Side::New)];
            tests.equal("before 16", found, wanted);
        }
    }
}

fn selectors(tests: &mut Tests) {
    let two = |width: u8| {
        let more = flags("G", vec![]).of_width(2 * width);
        wide(vec![faults(width, &[]), more])
    };
    let (old, new) = (image(&two(1)), image(&two(2)));
    let pair = judge(&old, &new);
    let counted = VERDICTS.map(|verdict| {
        let answer = pair.by(verdict);
        [23, 24].map(|selector| answer.select(selector))
    });
    tests.equal("the count", counted, [[0, 0], [0, 0], [2, 0]]);
    let counts = pair.by(Mended).counts;
    let others = counts.iter().sum::<u32>() - counts[WidthChanged as usize];
    tests.equal("no other count", others, 0);
}

/// Each pair in all formats and with any widths: one answer by 01, one with imports, and
/// one listing of each image.
fn ignored(tests: &mut Tests) {
    let mut rng = Rng::new(SEED + 6);
    let (mut held, mut anew) = (true, 0);
    for _ in 0..1_500 {
        let [old, new, _] = releases_in(&mut rng, [1; 3]);
        let said = |old: &Schema, new: &Schema| {
            let pair = judge(&image(old), &image(new));
            let listings = [old, new].map(listing);
            ([Plain, Imports].map(|verdict| pair.by(verdict)), listings)
        };
        let wanted = said(&old, &new);
        for _ in 0..3 {
            let formats = any_formats(&mut rng);
            let [o, n] = in_formats(&mut rng, [old.clone(), new.clone()], formats);
            held &= said(&o, &n) == wanted;
            anew += usize::from([&o, &n] != [&old, &new]);
        }
    }
    tests.holds("formats and widths are ignored", held);
    tests.holds(&format!("in 3,000 pairs or more, {anew}"), anew >= 3_000);
}

/// So many random pairs or more tell each, and so does an edge; what needs a fault of its
/// own is told by the edges.
const OFTEN: usize = 10;
const SELDOM: [&str; 4] = [
    "format 4 is known",
    "9 after the count",
    "flags of any width",
    "flags of 0",
];

fn wrong(tests: &mut Tests) {
    let mut rng = Rng::new(SEED);
    let images = |bytes: [Vec<u8>; 2]| Images {
        read: bytes.each_ref().map(|image| read_image(image)),
        bytes,
    };
    let random = (0..20_000).map(|_| pair_for(Mended, &mut rng));
    let random: Vec<Images> = random.map(|(old, new)| images([old, new])).collect();
    let edges = cases::all(SEED).into_iter();
    let edges = edges.filter(|case| case.name.starts_with("widths: "));
    let edges: Vec<Images> = edges.map(|case| images([case.old, case.new])).collect();
    tests.holds("500 edges or more", edges.len() >= 500);
    for (name, verdict, wrong) in WRONG as [Wrong; WRONG.len()] {
        let right = |images: &Images| -> Answer { answer(&images.read, verdict.reading()) };
        let tells = |images: &&Images| wrong(images) != right(images);
        let found = [&random, &edges].map(|pairs| pairs.iter().filter(tells).count());
        let least = if SELDOM.contains(&name) { 0 } else { OFTEN };
        let name = format!("{found:?} pairs tell: {name}");
        tests.holds(&name, found[0] >= least && found[1] >= 1);
    }
}
