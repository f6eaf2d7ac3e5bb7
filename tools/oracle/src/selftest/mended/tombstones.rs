//! Tombstones: the answers with their texts written out, what the earlier verdicts
//! ignore, and that pairs made for the mended verdict, and the recorded edges, tell wrong
//! readings.

use super::wrong_tombstones;
use super::wrong_widths::{answer, Images};
use crate::answer::{judge, Verdict, SELECTORS, VERDICTS};
use crate::cases;
use crate::changes::ChangeKind::{TombstoneDropped, TombstoneReused};
use crate::formats::in_formats;
use crate::listing::listing;
use crate::made::pair_for;
use crate::make::*;
use crate::mended::releases_in;
use crate::reader::read_image;
use crate::record::SEED;
use crate::rng::Rng;
use crate::schema::{Declaration, Schema};
use crate::selftest::Tests;
use crate::writer::image;

use Verdict::{Imports, Mended, Plain};

const SILENT: &str = "Compatible;Patch;0\n";
const MIXED: &str = "refused 16 both\n";

pub fn run(tests: &mut Tests) {
    reuse(tests);
    four_ways(tests);
    every_kind(tests);
    of_variants(tests);
    order(tests);
    numbers(tests);
    not_compared(tests);
    formats(tests);
    selectors(tests);
    ignored(tests);
    wrong(tests);
}

fn report(verdict: Verdict, old: &Schema, new: &Schema) -> String {
    let answer = judge(&image(old), &image(new)).by(verdict);
    String::from_utf8_lossy(&answer.printed()).into_owned()
}

fn third(declarations: Vec<Declaration>) -> Schema {
    schema(declarations).in_format(3)
}

fn lamps(bits: &[(u32, &str)], struck: &[u32]) -> Declaration {
    flags("F", items(bits)).of_width(1).striking(struck)
}

/// A lamp's bit goes and is struck off, and another lamp takes it.
fn reuse(tests: &mut Tests) {
    let first = third(vec![lamps(&[(3, "red")], &[])]);
    let second = third(vec![lamps(&[], &[3])]);
    let last = third(vec![lamps(&[(3, "green")], &[])]);
    let removed = "FlagsBitRemoved;Major;F;+red;bit 'red' @3 was removed\nBreaking;Major;1\n";
    tests.equal(
        "struck off",
        report(Mended, &first, &second).as_str(),
        removed,
    );
    let added = "FlagsBitAdded;Minor;F;+green;bit 'green' @3 was added\n";
    let by_01 = format!("{added}Compatible;Minor;1\n");
    tests.equal("by 01", report(Plain, &second, &last), by_01.clone());
    tests.equal("with imports", report(Imports, &second, &last), by_01);
    let mended =
        format!("{added}TombstoneReused;Major;F;-;tombstone @3 was reused\nBreaking;Major;2\n");
    tests.equal("reused", report(Mended, &second, &last), mended);
    let middle = third(vec![lamps(&[], &[])]);
    let dropped = "TombstoneDropped;Major;F;-;tombstone @3 was dropped\nBreaking;Major;1\n";
    tests.equal(
        "dropped",
        report(Mended, &second, &middle).as_str(),
        dropped,
    );
    let hidden = format!("{added}Compatible;Minor;1\n");
    tests.equal("behind it", report(Mended, &middle, &last), hidden);
}

/// The new side uses the number or not, and strikes it off or not.
fn four_ways(tests: &mut Tests) {
    let reused = "TombstoneReused;Major;F;-;tombstone @3 was reused\nBreaking;Major;1\n";
    let dropped = "TombstoneDropped;Major;F;-;tombstone @3 was dropped\nBreaking;Major;1\n";
    for used in [true, false] {
        let bits = if used { &[(3, "a")][..] } else { &[] };
        for struck in [&[3][..], &[]] {
            // The old side struck it off; whether it used it does not matter.
            let old = third(vec![lamps(bits, &[3])]);
            let new = third(vec![lamps(bits, struck)]);
            let wanted = match (used, struck) {
                (true, _) => reused,
                (false, []) => dropped,
                _ => SILENT,
            };
            tests.equal("four ways", report(Mended, &old, &new).as_str(), wanted);
            let former = [Plain, Imports].map(|verdict| report(verdict, &old, &new));
            tests.equal("by the others", former, [SILENT; 2].map(str::to_string));
            // What the new side alone strikes off is not told.
            let nothing = third(vec![lamps(bits, &[])]);
            let found = report(Mended, &nothing, &new);
            tests.equal("newly struck off", found.as_str(), SILENT);
        }
    }
}

fn every_kind(tests: &mut Tests) {
    let of = |kind: u8, struck: &[u32]| third(vec![of_kind(kind, "K").striking(struck)]);
    for kind in 0..4 {
        let reused = "TombstoneReused;Major;K;-;tombstone @0 was reused\n\
                      TombstoneDropped;Major;K;-;tombstone @5 was dropped\n\
                      Breaking;Major;2\n";
        let found = report(Mended, &of(kind, &[5, 0]), &of(kind, &[0]));
        tests.equal("of every kind", found.as_str(), reused);
    }
}

fn of_variants(tests: &mut Tests) {
    let of = |name: &str, fields: &[u32], struck: &[u32], own: &[u32]| {
        let fields = fields
            .iter()
            .map(|n| field(*n, "f", primitive(2)))
            .collect();
        let variants = vec![
            variant(1, "dead", vec![]).striking(&[77]),
            variant(1, name, fields).striking(struck),
        ];
        third(vec![union("U", variants).striking(own)])
    };
    // A variant's fields are none of the union's, nor its variants those of a variant.
    let old = of("v", &[], &[2, 1], &[1, 2]);
    let wanted = "FieldAdded;Major;U::v;+f;field 'f' @2 was added\n\
                  TombstoneReused;Major;U::v;-;tombstone @2 was reused\n\
                  TombstoneDropped;Major;U::v;-;tombstone @1 was dropped\n\
                  TombstoneReused;Major;U;-;tombstone @1 was reused\n\
                  TombstoneDropped;Major;U;-;tombstone @2 was dropped\n\
                  Breaking;Major;5\n";
    let found = report(Mended, &old, &of("w", &[2], &[3], &[]));
    tests.equal("of a variant", found.as_str(), wanted);
    let gone = third(vec![union("U", vec![]).striking(&[1, 2])]);
    let wanted = "VariantRemoved;Major;U;+v;variant 'v' @1 was removed\nBreaking;Major;1\n";
    tests.equal(
        "one that is gone",
        report(Mended, &of("v", &[], &[2], &[]), &gone).as_str(),
        wanted,
    );
}

fn order(tests: &mut Tests) {
    let old = third(vec![
        marked_message("M", 0, vec![field(0, "f", primitive(2))]).striking(&[9, 2, 300, 8, 2, 70]),
        enumeration("E", 0, items(&[(0, "a")]))
            .of_width(8)
            .striking(&[1]),
    ]);
    let fields = vec![field(300, "g", primitive(2)), field(8, "h", primitive(2))];
    let new = third(vec![
        marked_message("M", 1, fields).striking(&[70, 8]),
        enumeration("E", 2, items(&[(1, "b")])).of_width(9),
    ]);
    let wanted = "WidthChanged;Major;E;-;width changed from 8 to 9\n\
                  NonExhaustiveChanged;Major;E;-;@non_exhaustive changed from false to true\n\
                  VariantRemoved;Major;E;+a;variant 'a' @0 was removed\n\
                  VariantAdded;Minor;E;+b;variant 'b' @1 was added\n\
                  TombstoneReused;Major;E;-;tombstone @1 was reused\n\
                  FieldRemoved;Major;M;+f;field 'f' @0 was removed\n\
                  FieldAdded;Major;M;+h;field 'h' @8 was added\n\
                  FieldAdded;Major;M;+g;field 'g' @300 was added\n\
                  FieldDeprecated;Patch;M;-;declaration was marked @deprecated\n\
                  TombstoneReused;Major;M;-;tombstone @8 was reused\n\
                  TombstoneReused;Major;M;-;tombstone @300 was reused\n\
                  TombstoneDropped;Major;M;-;tombstone @2 was dropped\n\
                  TombstoneDropped;Major;M;-;tombstone @9 was dropped\n\
                  Breaking;Major;13\n";
    tests.equal("the order", report(Mended, &old, &new).as_str(), wanted);
}

fn numbers(tests: &mut Tests) {
    for number in [0, 1, 255, 256, 65_535, 65_536, 0x1_0003, u32::MAX] {
        let old = third(vec![lamps(&[], &[number])]);
        let kept = third(vec![lamps(&[], &[number ^ 1, number])]);
        tests.equal("kept", report(Mended, &old, &kept).as_str(), SILENT);
        let other = third(vec![lamps(&[(number % 65_536 + 4, "a")], &[number ^ 1])]);
        let line = format!("TombstoneDropped;Major;F;-;tombstone @{number} was dropped\n");
        let found = report(Mended, &old, &other);
        tests.holds(
            "dropped",
            found.contains(&line) && !found.contains("Reused"),
        );
    }
}

fn not_compared(tests: &mut Tests) {
    let mut said = |name: &str, old: Schema, new: Schema, wanted: &str| {
        tests.equal(name, report(Mended, &old, &new).as_str(), wanted);
    };
    let kinds = "DeclarationKindChanged;Major;F;-;'F' changed from flags to message\n\
                 Breaking;Major;1\n";
    let other = third(vec![message("F", vec![])]);
    said("kinds", third(vec![lamps(&[], &[3])]), other, kinds);
    let gone = "DeclarationRemoved;Major;F;-;flags 'F' was removed\nBreaking;Major;1\n";
    said(
        "removed",
        third(vec![lamps(&[], &[3])]),
        third(vec![]),
        gone,
    );
    let came = "DeclarationAdded;Minor;F;-;flags 'F' was added\nCompatible;Minor;1\n";
    said(
        "added",
        third(vec![]),
        third(vec![lamps(&[(3, "a")], &[3])]),
        came,
    );
    let two = |first: &[u32], last: &[u32]| third(vec![lamps(&[], first), lamps(&[], last)]);
    said("of a dead one", two(&[3], &[4]), two(&[5], &[4]), SILENT);
    let reached = |struck: &[u32]| third(vec![newtype("N", named(1)), lamps(&[], struck)]);
    let (old, new) = (reached(&[1]).listing(&[0]), reached(&[]).listing(&[0]));
    said("of one reached", old, new, SILENT);
}

/// 16 for all pairs of formats but 2 and 2, 3 and 3.
fn formats(tests: &mut Tests) {
    let both = schema(vec![of_kind(0, "M"), of_kind(2, "F")]);
    for old in 1..=3 {
        for new in 1..=3 {
            let pair = [old, new].map(|format| both.clone().in_format(format));
            let found = VERDICTS.map(|verdict| report(verdict, &pair[0], &pair[1]));
            let mended = if old == new && old > 1 { SILENT } else { MIXED };
            tests.equal(
                "formats",
                found,
                [SILENT, SILENT, mended].map(str::to_string),
            );
        }
    }
}

fn selectors(tests: &mut Tests) {
    tests.equal("selectors", SELECTORS, 26);
    let places = [TombstoneReused, TombstoneDropped].map(|kind| kind as u64);
    tests.equal("kinds", places, [19, 20]);
    let old = third(vec![lamps(&[], &[1, 2, 3, 4, 5])]);
    let new = third(vec![lamps(&[(2, "a"), (4, "b")], &[])]);
    let pair = judge(&image(&old), &image(&new));
    let counted = VERDICTS.map(|verdict| {
        let answer = pair.by(verdict);
        [23, 24, 25, 26].map(|selector| answer.select(selector))
    });
    tests.equal("the counts", counted, [[0; 4], [0; 4], [0, 2, 3, 0]]);
}

/// Each pair in format 3 with any tombstones: one answer by 01, one with imports, and one
/// listing of each image.
fn ignored(tests: &mut Tests) {
    let mut rng = Rng::new(SEED + 10);
    let (mut held, mut told) = (true, 0);
    for _ in 0..1_500 {
        let [old, new, _] = releases_in(&mut rng, [1; 3]);
        let said = |old: &Schema, new: &Schema| {
            let pair = judge(&image(old), &image(new));
            let listings = [old, new].map(listing);
            ([Plain, Imports].map(|verdict| pair.by(verdict)), listings)
        };
        let wanted = said(&old, &new);
        for _ in 0..2 {
            let [o, n] = in_formats(&mut rng, [old.clone(), new.clone()], [3; 2]);
            held &= said(&o, &n) == wanted;
            let counts = judge(&image(&o), &image(&n)).by(Mended).counts;
            told += usize::from(counts[TombstoneReused as usize..].iter().any(|n| *n > 0));
        }
    }
    tests.holds("tombstones are ignored", held);
    tests.holds(
        &format!("600 pairs of them or more tell one, {told}"),
        told >= 600,
    );
}

/// So many random pairs or more tell each, and so does an edge; what needs a fault of its
/// own is told by the edges.
const OFTEN: usize = 10;
const SELDOM: [&str; 4] = [
    "format 4 is known",
    "a format of one byte",
    "9 where a body ends inside",
    "5 where a body ends inside",
];

fn wrong(tests: &mut Tests) {
    let mut rng = Rng::new(SEED);
    let images = |bytes: [Vec<u8>; 2]| Images {
        read: bytes.each_ref().map(|image| read_image(image)),
        bytes,
    };
    let random = (0..20_000).map(|_| pair_for(Mended, &mut rng));
    let random: Vec<Images> = random.map(|(old, new)| images([old, new])).collect();
    let edges = cases::all(SEED).into_iter();
    let edges = edges.filter(|case| case.name.starts_with("tombstones: "));
    let edges: Vec<Images> = edges.map(|case| images([case.old, case.new])).collect();
    tests.holds("1,500 edges or more", edges.len() >= 1_500);
    for (name, verdict, wrong) in wrong_tombstones::all() {
        let right = |images: &Images| answer(&images.read, verdict.reading());
        let tells = |images: &&Images| wrong(images) != right(images);
        let found = [&random, &edges].map(|pairs| pairs.iter().filter(tells).count());
        let least = if SELDOM.contains(&name) { 0 } else { OFTEN };
        let name = format!("{found:?} pairs tell: {name}");
        tests.holds(&name, found[0] >= least && found[1] >= 1);
    }
}
