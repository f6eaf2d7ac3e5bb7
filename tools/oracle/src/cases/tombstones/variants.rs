//! A union's variants: each has tombstones of its own, for its fields.

use super::{all_ways, holding, third};
use crate::cases::Cases;
use crate::make::*;
use crate::schema::{Schema, Variant};

pub fn add(cases: &mut Cases) {
    own(cases);
    gone(cases);
    two_of_one_ordinal(cases);
    union_and_two(cases);
    named_as(cases);
    order(cases);
}

fn of(variants: Vec<Variant>, struck: &[u32]) -> Schema {
    third(vec![union("U", variants).striking(struck)])
}

/// A variant's fields are none of the union's, and its variants none of a variant's.
fn own(cases: &mut Cases) {
    let v = |used: &[u32], struck: &[u32]| vec![holding(0, "v", used, struck)];
    let name = "a union's, used by a field";
    all_ways(cases, name, &of(v(&[], &[]), &[3]), &of(v(&[3], &[]), &[]));
    let name = "a union's, struck off by a variant";
    all_ways(cases, name, &of(v(&[], &[]), &[3]), &of(v(&[], &[3]), &[]));
    let name = "a variant's, used by a variant";
    let more = || vec![holding(0, "v", &[], &[]), holding(3, "w", &[], &[])];
    all_ways(cases, name, &of(v(&[], &[3]), &[]), &of(more(), &[]));
    let name = "a variant's, struck off by the union";
    all_ways(cases, name, &of(v(&[], &[3]), &[]), &of(v(&[], &[]), &[3]));
    let two =
        |first: &[u32], last: &[u32]| vec![holding(0, "v", &[], first), holding(1, "w", last, &[])];
    let name = "a variant's, used by another";
    all_ways(
        cases,
        name,
        &of(two(&[3], &[]), &[]),
        &of(two(&[], &[3]), &[]),
    );
    let name = "a union's, reused by a variant that strikes it off";
    let self_used = vec![holding(3, "w", &[3], &[3])];
    all_ways(cases, name, &of(v(&[], &[]), &[3]), &of(self_used, &[3]));
}

/// What a variant strikes off that comes or goes is not told.
fn gone(cases: &mut Cases) {
    let with = |variants: Vec<Variant>| of(variants, &[]);
    let one = || holding(0, "v", &[1], &[]);
    let other = |used: &[u32], struck: &[u32]| vec![one(), holding(5, "w", used, struck)];
    let name = "of a variant that goes";
    all_ways(cases, name, &with(other(&[], &[3])), &with(vec![one()]));
    let name = "of a variant that comes, used";
    all_ways(cases, name, &with(vec![one()]), &with(other(&[3], &[3])));
    let moved = vec![one(), holding(6, "w", &[3], &[])];
    let name = "of a variant of another ordinal";
    all_ways(cases, name, &with(other(&[], &[3])), &with(moved));
    let name = "of a variant that goes, and is struck off";
    all_ways(cases, name, &with(other(&[], &[3])), &of(vec![one()], &[5]));
    let name = "of a variant that goes and is reused";
    all_ways(
        cases,
        name,
        &of(vec![one()], &[5]),
        &with(other(&[3], &[3])),
    );
}

/// The last of two counts, on both sides, for its tombstones and its fields.
fn two_of_one_ordinal(cases: &mut Cases) {
    let two = |first: [&[u32]; 2], last: [&[u32]; 2]| {
        let variants = vec![
            holding(2, "first", first[0], first[1]),
            holding(2, "last", last[0], last[1]),
        ];
        of(variants, &[])
    };
    const NONE: &[u32] = &[];
    const THREE: &[u32] = &[3];
    let nothing = two([NONE; 2], [NONE; 2]);
    all_ways(
        cases,
        "the first of two dropped",
        &two([NONE, THREE], [NONE; 2]),
        &nothing,
    );
    all_ways(
        cases,
        "the last of two dropped",
        &two([NONE; 2], [NONE, THREE]),
        &nothing,
    );
    let struck = two([NONE; 2], [NONE, THREE]);
    let name = "struck off by the last, used by the first";
    all_ways(cases, name, &struck, &two([THREE, NONE], [NONE; 2]));
    let name = "struck off by the last, used by the last";
    all_ways(cases, name, &struck, &two([NONE; 2], [THREE, NONE]));
    let name = "struck off by the last, then by the first";
    all_ways(cases, name, &struck, &two([NONE, THREE], [NONE; 2]));
    let name = "struck off by the first, used by the last";
    all_ways(
        cases,
        name,
        &two([NONE, THREE], [NONE; 2]),
        &two([NONE; 2], [THREE, NONE]),
    );
}

/// The union strikes off the ordinal that two variants have.
fn union_and_two(cases: &mut Cases) {
    let name = "two of one ordinal, the union strikes it off";
    let variants = || vec![holding(2, "a", &[], &[1]), holding(2, "b", &[1], &[])];
    all_ways(cases, name, &of(vec![], &[2]), &of(variants(), &[2]));
}

/// By the old variant's name, also where it is empty.
fn named_as(cases: &mut Cases) {
    for (old, new) in [("a", "b"), ("a", ""), ("a", "a"), ("ab", "a")] {
        let struck = of(vec![holding(0, old, &[], &[1, 2])], &[]);
        let used = of(vec![holding(0, new, &[2], &[])], &[]);
        let name = format!("a variant '{old}' to '{new}'");
        all_ways(cases, &name, &struck, &used);
    }
    let unnamed = |used: &[u32], struck: &[u32]| {
        third(vec![
            union("", vec![holding(0, "", used, struck)]).striking(struck)
        ])
    };
    all_ways(
        cases,
        "of no name",
        &unnamed(&[], &[0, 1]),
        &unnamed(&[1], &[]),
    );
}

/// Each behind its variant's fields; the union's own last.
fn order(cases: &mut Cases) {
    let old = vec![
        holding(9, "last", &[0, 1], &[4, 3]),
        holding(1, "first", &[0], &[5, 4, 0]),
        holding(4, "gone", &[0], &[1]),
    ];
    let new = vec![
        holding(1, "other", &[1, 5], &[]),
        holding(9, "last", &[3, 1], &[]),
        holding(7, "came", &[2], &[2]),
    ];
    let (old, new) = (of(old, &[7, 4, 12, 11, 9]), of(new, &[12]));
    all_ways(cases, "a union with all", &old, &new);
    let one = |struck: &[u32], variant: Variant| {
        third(vec![
            union("V", vec![variant]).striking(struck),
            union("U", vec![holding(0, "v", &[1], &[])]).striking(struck),
        ])
    };
    let old = one(&[0, 5], holding(0, "v", &[], &[0, 5]));
    let new = one(&[], holding(0, "w", &[5], &[]));
    all_ways(cases, "two unions", &old, &new);
}
