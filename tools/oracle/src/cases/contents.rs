//! Refusal 5: entries and what stands after the last body.

use super::Cases;
use crate::make::*;
use crate::writer::Parts;

pub fn add(cases: &mut Cases) {
    moved_starts(cases);
    offsets(cases);
    lengths(cases);
    empty_in_part(cases);
    nearly_empty(cases);
    left_over(cases);
    empty_entries(cases);
    before_bodies(cases);
}

fn two() -> Parts {
    Parts::of(&schema(vec![config("A"), trait_of("B")]))
}

/// Where the two bodies start; each has three bytes.
fn starts() -> (u16, u16) {
    (two().contents[0].0, two().contents[1].0)
}

fn with_entries(cases: &mut Cases, spoiled: &[(&str, [(u16, u16); 2])]) {
    for (name, contents) in spoiled {
        let mut parts = two();
        parts.contents = contents.to_vec();
        cases.beside_ride(name, parts.bytes());
    }
}

/// The body's end stays in its place.
fn moved_starts(cases: &mut Cases) {
    let (first, second) = starts();
    let spoiled = [
        ("first entry one byte late", [(first + 1, 2), (second, 3)]),
        ("first entry one byte early", [(first - 1, 4), (second, 3)]),
        ("second entry one byte late", [(first, 3), (second + 1, 2)]),
        ("second entry one byte early", [(first, 3), (second - 1, 4)]),
        ("offset in the names", [(first - 4, 7), (second, 3)]),
    ];
    with_entries(cases, &spoiled);
}

/// Only the offsets are wrong: the lengths add up.
fn offsets(cases: &mut Cases) {
    let (first, second) = starts();
    let spoiled = [
        ("first offset one more", [(first + 1, 3), (second, 3)]),
        ("first offset one less", [(first - 1, 3), (second, 3)]),
        ("first offset 256 more", [(first + 256, 3), (second, 3)]),
        ("second offset one more", [(first, 3), (second + 1, 3)]),
        ("second offset one less", [(first, 3), (second - 1, 3)]),
        ("second offset 256 more", [(first, 3), (second + 256, 3)]),
        ("offset in the head", [(4, 3), (second, 3)]),
        ("offset in the contents", [(8, 3), (second, 3)]),
        ("offset 0, length 3", [(first, 3), (0, 3)]),
        ("offset at the image's end", [(first, 3), (second + 3, 3)]),
        ("entries swapped", [(second, 3), (first, 3)]),
        ("entries on one body", [(first, 3), (first, 3)]),
        ("entries on the other body", [(second, 3), (second, 3)]),
    ];
    with_entries(cases, &spoiled);
}

fn lengths(cases: &mut Cases) {
    let (first, second) = starts();
    let spoiled = [
        ("first entry one byte longer", [(first, 4), (second, 3)]),
        ("first entry one byte shorter", [(first, 2), (second, 3)]),
        ("lengths 4 and 2", [(first, 4), (second, 2)]),
        ("lengths 2 and 4", [(first, 2), (second, 4)]),
        ("body one byte past the end", [(first, 3), (second, 4)]),
        ("body 256 bytes past the end", [(first, 3), (second, 259)]),
        ("body far past the end", [(first, 3), (second, 65_535)]),
        ("both numbers 65,535", [(first, 3), (65_535, 65_535)]),
        ("first body past the end", [(first, 7), (second, 3)]),
        ("a byte after the last body", [(first, 3), (second, 2)]),
        ("an entry over both bodies", [(first, 6), (second, 3)]),
        ("an entry within a body", [(first, 3), (first + 1, 2)]),
        ("offset 0, length 1", [(0, 1), (second, 3)]),
    ];
    with_entries(cases, &spoiled);
}

fn empty_in_part(cases: &mut Cases) {
    let (first, second) = starts();
    let spoiled = [
        ("length 0, offset in its place", [(first, 3), (second, 0)]),
        ("length 0, offset 1", [(1, 0), (second, 3)]),
        ("length 0, offset 1, body kept", [(first, 6), (1, 0)]),
        ("length 0, offset at the end", [(first, 6), (second + 3, 0)]),
        ("length 0, offset 256", [(first, 6), (256, 0)]),
        ("last body without its entry", [(first, 3), (0, 0)]),
        ("first body without its entry", [(0, 0), (second, 3)]),
        ("both bodies without entries", [(0, 0), (0, 0)]),
    ];
    with_entries(cases, &spoiled);
}

/// One body, and an entry that is empty but for one of its numbers.
fn nearly_empty(cases: &mut Cases) {
    let mut parts = Parts::of(&schema(vec![config("A")]).with_entries(vec![None]));
    let (first, _) = parts.contents[0];
    for entry in [
        (1, 0),
        (256, 0),
        (first, 0),
        (first + 3, 0),
        (0, 1),
        (0, 3),
        (0, 256),
    ] {
        parts.contents[1] = entry;
        cases.beside_ride(&format!("entry {entry:?} beside a body"), parts.bytes());
    }
}

fn left_over(cases: &mut Cases) {
    for count in [1, 2, 300] {
        let mut image = two().bytes();
        image.extend(vec![8; count]);
        cases.beside_ride(&format!("{count} bytes after the last body"), image);
        let mut image = Parts::of(&schema(vec![])).bytes();
        image.extend(vec![8; count]);
        cases.beside_ride(&format!("{count} bytes after the names"), image);
    }
}

fn empty_entries(cases: &mut Cases) {
    let empty = || vec![None, None];
    let full = || Some(config("A"));
    let around = |entries: Vec<_>| schema(vec![]).with_entries(entries).listing(&[0, 1, 2]);
    let one = [vec![full()], empty()].concat();
    let middle = vec![None, full(), None];
    let last = [empty(), vec![full()]].concat();
    cases.both_ways(
        "empty entries after and before",
        &around(one),
        &around(last),
    );
    let nothing = around(vec![None; 3]);
    cases.both_ways("empty entries only", &around(middle), &nothing);
    cases.pair("empty entries on both sides", &nothing, &nothing);
}

/// Refusal 5 of any entry comes before a fault in any body.
fn before_bodies(cases: &mut Cases) {
    let faulty = [&[9][..], &[5, 1, b'-'], &[5], &[4, 0, 17], &[8]];
    for (place, body) in faulty.iter().enumerate() {
        let bodies = vec![Some(body.to_vec()), Some(vec![8])];
        let mut parts = Parts::around(&names(&["ride"]), &[0, 1], bodies);
        parts.contents[1].1 += 1;
        cases.beside_ride(&format!("5 before a faulty body, {place}"), parts.bytes());
    }
}
