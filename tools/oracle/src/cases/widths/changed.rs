//! Widths that are kept or change, alone and beside other changes.

use super::{all_ways, second};
use crate::cases::sizes::reporting;
use crate::cases::Cases;
use crate::formats::SECOND_FORMAT;
use crate::limits::REPORT_BYTES;
use crate::make::*;
use crate::schema::{Declaration, Item, Schema, Variant, WIRE_BYTES};

pub fn add(cases: &mut Cases) {
    ninth_bit(cases);
    enums(cases);
    lamps(cases);
    beside_in_enum(cases);
    beside_in_flags(cases);
    kinds(cases);
    several(cases);
    not_compared(cases);
    vectors(cases);
    reports(cases);
}

fn mode(width: u8, marks: u8, list: &[(u32, &str)]) -> Declaration {
    enumeration("E", marks, items(list)).of_width(width)
}

fn faults(width: u8, bits: u32) -> Declaration {
    let bits: Vec<Item> = (0..bits).map(|n| item(n, &format!("b{n}"))).collect();
    flags("F", bits).of_width(width)
}

fn ninth_bit(cases: &mut Cases) {
    let of = |width, bits| {
        let status = vec![
            field(0, "faults", named(1)),
            field(1, "speed", primitive(2)),
        ];
        second(vec![message("Status", status), faults(width, bits)])
    };
    all_ways(cases, "a ninth bit", &of(1, 8), &of(2, 9));
    all_ways(cases, "a ninth bit, no wider", &of(2, 8), &of(2, 9));
    all_ways(cases, "wider before the ninth bit", &of(1, 8), &of(2, 8));
    let name = "a ninth bit, wider before";
    all_ways(cases, name, &of(2, 8), &of(2, 9));
    let name = "a bit more, and narrower";
    all_ways(cases, name, &of(8, 8), &of(4, 9));
}

fn enums(cases: &mut Cases) {
    let of = |width| second(vec![mode(width, 0, &[(0, "a")])]);
    for (from, to) in [
        (0, 1),
        (0, 8),
        (0, 255),
        (1, 2),
        (8, 16),
        (127, 128),
        (254, 255),
        (255, 8),
        (16, 17),
    ] {
        let name = format!("an enum's from {from} to {to}");
        all_ways(cases, &name, &of(from), &of(to));
    }
    let same = of(255);
    cases.pair("widths: an enum of 255", &same, &same);
    // In format 1 an enum has none: nothing is missing from 8, which 255 is not.
    let first = schema(vec![enumeration("E", 0, items(&[(0, "a")]))]);
    for width in [0, 8, 255] {
        let name = format!("widths: an enum in format 1 and one of {width}");
        cases.both_ways(&name, &first, &of(width));
    }
}

fn lamps(cases: &mut Cases) {
    for from in WIRE_BYTES {
        for to in WIRE_BYTES {
            let name = format!("widths: flags from {from} to {to}");
            let [old, new] = [from, to].map(|width| second(vec![faults(width, 1)]));
            cases.pair(&name, &old, &new);
        }
    }
    let first = schema(vec![flags("F", items(&[(0, "b0")]))]);
    for width in WIRE_BYTES {
        let name = format!("widths: flags in format 1 and some of {width}");
        cases.both_ways(&name, &first, &second(vec![faults(width, 1)]));
    }
}

/// Beside all else that an enum can have; the width comes first.
fn beside_in_enum(cases: &mut Cases) {
    let of = |width, marks, list: &[(u32, &str)]| second(vec![mode(width, marks, list)]);
    let mut both = |name: &str, old: &Schema, new: &Schema| {
        cases.both_ways(&format!("widths: an enum, {name}"), old, new);
    };
    let one = &[(0, "a")][..];
    let two = &[(0, "a"), (1, "b")][..];
    let other = &[(1, "b"), (2, "c")][..];
    both("opened", &of(8, 0, one), &of(16, 2, one));
    both("opened and deprecated", &of(8, 1, one), &of(16, 2, one));
    both("a variant added, open", &of(8, 2, one), &of(16, 2, two));
    both("a variant added, closed", &of(8, 0, one), &of(16, 0, two));
    both("opened, a variant added", &of(8, 0, one), &of(16, 2, two));
    both(
        "opened, one gone, one added",
        &of(8, 0, two),
        &of(16, 2, other),
    );
    both("one gone, one added", &of(16, 2, two), &of(8, 2, other));
    both("a variant renamed", &of(8, 2, one), &of(16, 2, &[(0, "x")]));
    both("kept, opened", &of(8, 0, two), &of(8, 2, other));
}

fn beside_in_flags(cases: &mut Cases) {
    let of = |width, list: &[(u32, &str)]| second(vec![flags("F", items(list)).of_width(width)]);
    let mut both = |name: &str, old: &Schema, new: &Schema| {
        cases.both_ways(&format!("widths: flags, {name}"), old, new);
    };
    let one = &[(0, "a")][..];
    let other = &[(1, "b"), (31, "c")][..];
    both("a bit added", &of(1, one), &of(4, &[(0, "a"), (31, "c")]));
    both("one gone, two added", &of(1, one), &of(4, other));
    both("a bit renamed", &of(1, one), &of(2, &[(0, "x")]));
    both("without bits", &of(1, &[]), &of(8, &[]));
    both("kept, one gone, two added", &of(2, one), &of(2, other));
}

/// Of declarations whose kinds differ no width is compared.
fn kinds(cases: &mut Cases) {
    let of = |declaration: Declaration| second(vec![declaration]);
    let named_enum = |width| enumeration("D", 0, items(&[(0, "a")])).of_width(width);
    let named_flags = |width| flags("D", items(&[(0, "a")])).of_width(width);
    for (from, to) in [(8, 1), (1, 1), (1, 8), (0, 2), (255, 4)] {
        let name = format!("widths: an enum of {from} and flags of {to}");
        cases.both_ways(&name, &of(named_enum(from)), &of(named_flags(to)));
    }
    for kind in [0, 3, 4, 5, 6, 7] {
        let other = of(of_kind(kind, "D"));
        let name = format!("widths: an enum and kind {kind}");
        cases.both_ways(&name, &of(named_enum(16)), &other);
        let name = format!("widths: flags and kind {kind}");
        cases.both_ways(&name, &of(named_flags(2)), &other);
    }
}

/// Each stands first in its own declaration; the namespace's line before all.
fn several(cases: &mut Cases) {
    let all = |widths: [u8; 4], marks: u8| {
        second(vec![
            flags("Zb", items(&[(0, "a")])).of_width(widths[0]),
            enumeration("B", marks, items(&[(marks.into(), "v")])).of_width(widths[1]),
            message("C", vec![field(marks.into(), "f", primitive(1))]),
            flags("A", items(&[(marks.into(), "b")])).of_width(widths[2]),
            enumeration("", marks, items(&[])).of_width(widths[3]),
        ])
    };
    let old = all([1, 8, 2, 0], 0);
    all_ways(cases, "four at once", &old, &all([2, 16, 4, 255], 2));
    all_ways(cases, "the first only", &old, &all([1, 8, 4, 0], 0));
    all_ways(cases, "the last only", &old, &all([2, 8, 2, 0], 0));
    let other = all([1, 8, 2, 1], 2).in_namespace(&["other"]);
    all_ways(cases, "the unnamed one, and the namespace", &old, &other);
    let more = old.clone().with_entries(vec![Some(config("Aa"))]);
    let more = more.listing(&[0, 1, 3, 5]).in_namespace(&[]);
    let wider = all([8, 9, 8, 7], 2).listing(&[1, 3, 4]);
    all_ways(cases, "declarations come and go", &more, &wider);
}

/// What does not stand on both sides under one name.
fn not_compared(cases: &mut Cases) {
    let e = |width| enumeration("E", 0, items(&[(0, "a")])).of_width(width);
    let f = |width| flags("F", items(&[(0, "a")])).of_width(width);
    let two = |first, second_one| second(vec![e(first), e(second_one)]);
    all_ways(cases, "of a dead enum", &two(8, 16), &two(32, 16));
    all_ways(cases, "of the last of two", &two(8, 16), &two(8, 32));
    all_ways(cases, "turned round", &two(8, 16), &two(16, 8));
    let listed_again = two(8, 16).listing(&[0, 1, 0]);
    all_ways(cases, "listed again", &two(8, 16), &listed_again);
    let lamps = |first, second_one| second(vec![f(first), f(second_one)]);
    all_ways(cases, "of dead flags", &lamps(1, 2), &lamps(4, 2));
    let one = |declaration: Declaration| second(vec![declaration]);
    all_ways(cases, "of another name", &one(e(8)), &one(f(2)));
    all_ways(cases, "added", &one(e(8)), &second(vec![e(8), f(1)]));
    let unlisted = |width| second(vec![e(width), config("C")]).listing(&[1]);
    all_ways(cases, "not listed", &unlisted(8), &unlisted(16));
    all_ways(cases, "listed on one side", &unlisted(8), &one(e(16)));
    let reached = |width| second(vec![newtype("N", named(1)), f(width)]).listing(&[0]);
    all_ways(cases, "reached only", &reached(1), &reached(2));
    let listed = reached(2).listing(&[0, 1]);
    all_ways(cases, "reached and listed", &reached(1), &listed);
    all_ways(cases, "reached, and by its name", &listed, &{
        second(vec![newtype("N", named(1)), f(4)])
    });
}

/// Beside vectors, which the earlier verdicts tell.
fn vectors(cases: &mut Cases) {
    let seat = || newtype("Seat", wrapped(11, primitive(9)));
    let of = |width| second(vec![seat(), faults(width, 1)]);
    all_ways(cases, "beside a vector", &of(1), &of(2));
    let other = second(vec![
        newtype("Seat", wrapped(10, primitive(9))),
        faults(2, 1),
    ]);
    all_ways(cases, "beside a vector that changes", &of(1), &other);
    let variants = |name: &str| -> Vec<Variant> {
        vec![variant(
            0,
            name,
            vec![field(0, "at", wrapped(13, primitive(9)))],
        )]
    };
    let of = |width, name: &str| second(vec![union("U", variants(name)), faults(width, 1)]);
    all_ways(cases, "beside a quaternion", &of(1, "a"), &of(2, "b"));
}

/// Reports that are short by 01 and long by the mended verdict, and lengths around the
/// small program's buffer.
fn reports(cases: &mut Cases) {
    let all = |width| {
        let lamps = |n: u32| flags(&format!("F{n}"), vec![]).of_width(width);
        second((0..512).map(lamps).collect())
    };
    cases.pair("widths: 512 flags, all wider", &all(1), &all(8));
    for length in [REPORT_BYTES, REPORT_BYTES + 1, 80_000] {
        let (old, new) = wider(length - LINE);
        cases.pair(&format!("widths: report of {length} bytes"), &old, &new);
    }
    let (old, new) = reporting(REPORT_BYTES + 1);
    let [old, new] = [old, new].map(|schema| schema.in_format(SECOND_FORMAT));
    cases.pair("widths: a report too long without a width", &old, &new);
}

/// The line on the width of the one enum below, whose name has 150 bytes.
const LINE: usize = "WidthChanged;Major;;-;width changed from 8 to 9\n".len() + 150;

/// A pair whose report has this length by 01, and a line more by the mended verdict.
fn wider(length: usize) -> (Schema, Schema) {
    let (old, new) = reporting(length);
    let [old, mut new] = [old, new].map(|schema| schema.in_format(SECOND_FORMAT));
    for declaration in new.registry.iter_mut().flatten() {
        *declaration = declaration.clone().of_width(9);
    }
    (old, new)
}
