//! What bodies hold: many fields, variants and bits, and every bump.

use super::Filed;
use crate::make::*;
use crate::schema::{Field, Item, Schema, Variant};

pub fn add(filed: &mut Filed) {
    unions(filed);
    long_lists(filed);
    bumps(filed);
    types(filed);
}

fn f(ordinal: u32, name: &str, code: u8) -> Field {
    field(ordinal, name, primitive(code))
}

fn unions(filed: &mut Filed) {
    let old = vec![
        variant(0, "stop", vec![f(0, "at", 1), f(1, "by", 2), f(7, "on", 3)]),
        variant(4, "gone", vec![f(0, "a", 1), f(1, "b", 1)]),
        variant(u32::MAX, "go", vec![f(u32::MAX, "to", 1), f(0, "in", 2)]),
    ];
    let new = vec![
        variant(u32::MAX, "run", vec![f(0, "in", 3), f(u32::MAX, "at", 1)]),
        variant(3, "came", vec![f(0, "a", 1), f(1, "b", 1)]),
        variant(
            0,
            "stop",
            vec![f(8, "off", 3), f(7, "on", 3).marked(1), f(1, "by", 4)],
        ),
    ];
    let of = |variants: &Vec<Variant>| schema(vec![union("U", variants.clone())]);
    filed.pair("union variants with fields", &of(&old), &of(&new));
    filed.pair("union variants kept", &of(&old), &of(&old));
    let many = |code: u8| {
        let fields = |n: u32| (0..3).map(move |i| f(i, "f", code * u8::from(n % 7 == i)));
        let all = (0..20).map(|n| variant(n, "v", fields(n).collect()));
        schema(vec![union("U", all.collect()), union("V", vec![])])
    };
    filed.pair("20 union variants of one name", &many(1), &many(2));
}

fn long_lists(filed: &mut Filed) {
    let list = |range: std::ops::Range<u32>| -> Vec<Item> { range.map(|i| item(i, "i")).collect() };
    let fields = |code: u8| -> Schema {
        let code = |i: u32| if i % 50 == 49 { code } else { 0 };
        schema(vec![message(
            "M",
            (0..300).map(|i| f(i, "f", code(i))).collect(),
        )])
    };
    filed.pair("300 fields", &fields(1), &fields(2));
    let of = |range: std::ops::Range<u32>| {
        schema(vec![
            enumeration("E", 2, list(range.clone())),
            flags("F", list(range)),
        ])
    };
    filed.pair("290 variants and bits", &of(0..290), &of(10..300));
    let ends = |names: [&str; 3]| {
        let all: Vec<(u32, &str)> = [u32::MAX, 0, 1 << 31].into_iter().zip(names).collect();
        schema(vec![
            flags("F", items(&all)),
            enumeration("E", 0, items(&all[..2])),
        ])
    };
    filed.pair(
        "the least and the largest numbers",
        &ends(["a", "b", "c"]),
        &ends(["c", "a", "b"]),
    );
}

fn bumps(filed: &mut Filed) {
    let marks = |of: u8| {
        let fields = |name: &str| vec![f(0, name, 1), f(1, "b", 1).marked(of), f(2, "c", 1)];
        let name = if of == 0 { "a" } else { "anew" };
        let variants = vec![variant(1, "v", fields(name)), variant(0, "w", vec![])];
        schema(vec![
            marked_message("M", of, fields(name)),
            union("U", variants),
        ])
    };
    filed.pair("a report that is Patch", &marks(0), &marks(1));
    let open = |most: u32| {
        let list: Vec<Item> = (0..most).map(|n| item(n, "i")).collect();
        let variants = list
            .iter()
            .map(|i| variant(i.ordinal, "v", vec![f(0, "f", 1)]));
        let union = union("U", variants.collect());
        schema(vec![
            enumeration("E", 2, list.clone()),
            flags("F", list),
            union,
        ])
    };
    filed.pair("a report that is Minor", &open(2), &open(5));
    let coded = |limit: Option<u64>, deltas| {
        let of = |n| f(n, "f", 2).limited(limit).encoded(deltas, 1);
        schema(vec![
            message("M", vec![of(0), of(1)]),
            message("L", vec![of(5)]),
        ])
    };
    filed.pair(
        "a report that is Major",
        &coded(Some(8), 1),
        &coded(None, 8),
    );
}

fn types(filed: &mut Filed) {
    let lamps = |names: &[&str]| {
        let fields = vec![field(0, "lamps", bits(names)), f(1, "f", 1)];
        schema(vec![
            message("M", fields),
            newtype("N", wrapped(5, bits(names))),
        ])
    };
    let (one, other) = (lamps(&["c", "a", "b"]), lamps(&["a", "b", "c"]));
    filed.pair("inline bits kept", &one, &one);
    filed.pair("inline bits in another order", &one, &other);
    let seats = |tag| {
        field(
            u32::from(tag),
            "seat",
            wrapped(4, wrapped(tag, primitive(9))),
        )
    };
    let seats = schema(vec![message("M", (10..=15).map(seats).collect())]);
    filed.pair("vectors and matrices, never equal", &seats, &seats);
}
