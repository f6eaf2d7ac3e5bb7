//! Large ones: 512 entries and ids, long lists, images of 32,768 bytes, reports
//! around and over 65,536 bytes.

use super::Cases;
use crate::limits::{IMAGE_BYTES, REPORT_BYTES};
use crate::make::*;
use crate::model;
use crate::schema::{Declaration, Field, Item, Schema};
use crate::writer::image;

pub fn add(cases: &mut Cases) {
    entries(cases);
    long_lists(cases);
    full_images(cases);
    long_reports(cases);
}

fn entries(cases: &mut Cases) {
    let of = |kind, letter: &str| -> Schema {
        let named = |n| of_kind(kind, &format!("{letter}{n}"));
        schema((0..512).map(named).collect())
    };
    cases.pair("512 configs kept", &of(5, "c"), &of(5, "c"));
    cases.pair("512 configs to traits", &of(5, "c"), &of(7, "c"));
    cases.pair("512 configs renamed", &of(5, "e"), &of(5, "f"));
    let backward: Vec<u32> = (0..512).rev().collect();
    cases.pair(
        "512 flags listed backward",
        &of(2, "f"),
        &of(2, "f").listing(&backward),
    );
    let one = schema(vec![config("c0")]);
    cases.both_ways("512 configs and one", &of(5, "c"), &one);
    let same = one.clone().listing(&[0; 512]);
    cases.both_ways("one id listed 512 times", &same, &one);
    let far: Vec<u32> = (512..1024).collect();
    cases.both_ways("512 unresolvable ids", &of(5, "c").listing(&far), &one);
    let last = schema(vec![newtype("N", named(511))]).with_entries(vec![None; 510]);
    let to = |kind| last.clone().with_entries(vec![Some(of_kind(kind, "Last"))]);
    cases.pair("the 512th entry named", &to(0), &to(1));
    cases.both_ways("the 512th entry named and none", &to(0), &last);
}

fn long_lists(cases: &mut Cases) {
    let list = |n: u32| -> Vec<Item> { (0..n).map(|i| item(i, "i")).collect() };
    let fields = |n: u32| -> Vec<Field> { (0..n).map(|i| field(i, "f", primitive(0))).collect() };
    let kinds: [(&str, &dyn Fn(u32) -> Declaration); 5] = [
        ("fields", &|n| message("M", fields(n))),
        ("variants", &|n| enumeration("E", 2, list(n))),
        ("bits", &|n| flags("F", list(n))),
        ("union variants", &|n| {
            union("U", (0..n).map(|i| variant(i, "v", vec![])).collect())
        }),
        ("variant's fields", &|n| {
            union("U", vec![variant(0, "v", fields(n))])
        }),
    ];
    for (what, of) in kinds {
        cases.lists(&format!("300 {what} and 40"), vec![of(300)], vec![of(40)]);
        cases.pair(
            &format!("256 {what} kept"),
            &schema(vec![of(256)]),
            &schema(vec![of(256)]),
        );
    }
    let empty = || vec![enumeration("E", 2, vec![])];
    let many = vec![enumeration("E", 2, list(1_100))];
    cases.pair("1,100 variants added", &schema(empty()), &schema(many));
}

/// Adds configs that nobody lists until the image has this length.
pub fn filled(mut schema: Schema, length: usize) -> Schema {
    const LEAST: usize = 6;
    let mut missing = length - image(&schema).len();
    while missing > 0 {
        let mut take = missing.min(LEAST + 255);
        if missing - take > 0 && missing - take < LEAST {
            take -= LEAST;
        }
        let name = "p".repeat(take - LEAST);
        schema.registry.push(Some(config(&name)));
        missing -= take;
    }
    schema
}

/// Its one listed body, the last of the image, renames the field of `ride`.
fn full(length: usize) -> Vec<u8> {
    let pace = field(0, "pace", primitive(2));
    let mut schema = filled(schema(vec![message("Drive", vec![pace])]), length);
    schema.registry.rotate_left(1);
    schema.declarations = vec![schema.registry.len() as u32 - 1];
    image(&schema)
}

fn full_images(cases: &mut Cases) {
    cases.beside_ride("32,768 bytes", full(IMAGE_BYTES));
    let over = full(IMAGE_BYTES + 1);
    cases.beside_ride("32,769 bytes, whole but for the length", over);
    let fields = |last: u8| {
        let code = |n| if n == 2_699 { last } else { 0 };
        let fields = (0..2_700).map(|n| field(n, "f", primitive(code(n))));
        filled(schema(vec![message("M", fields.collect())]), IMAGE_BYTES)
    };
    cases.pair(
        "2,700 fields in 32,768 bytes, the last differs",
        &fields(1),
        &fields(2),
    );
    let one_type = || {
        let names = (0..128).map(|n| format!("{n}{}", "b".repeat(250)));
        let names: Vec<String> = names.collect();
        let names: Vec<&str> = names.iter().map(String::as_str).collect();
        filled(schema(vec![newtype("N", bits(&names))]), IMAGE_BYTES)
    };
    cases.pair("one type in 32,768 bytes", &one_type(), &one_type());
}

/// Variants of a long-named enum are gone, and a namespace whose length makes up
/// what is missing to the report's length.
pub fn reporting(length: usize) -> (Schema, Schema) {
    let name = "E".repeat(150);
    let of = |variants: u32, segment: usize| {
        let list = (0..variants).map(|n| item(n, "v")).collect();
        schema(vec![enumeration(&name, 0, list)]).in_namespace(&[&"n".repeat(segment)])
    };
    let new = of(0, 1);
    let compared = |old: &Schema| model::check(old, &new, model::PLAIN);
    let measure = |old: &Schema| compared(old).report().len();
    let most = (1..).find(|n| measure(&of(*n, 0)) > length);
    let variants = most.expect("some number of variants is too many") - 1;
    let missing = length - measure(&of(variants, 0));
    (of(variants, missing), new)
}

fn long_reports(cases: &mut Cases) {
    for length in [REPORT_BYTES, REPORT_BYTES + 1, 80_000] {
        let (old, new) = reporting(length);
        cases.pair(&format!("report of {length} bytes"), &old, &new);
    }
    let (mut old, mut new) = reporting(REPORT_BYTES + 1);
    for schema in [&mut old, &mut new] {
        schema.registry.push(Some(alias("A")));
        schema.declarations.push(1);
    }
    cases.pair("11 before 12", &old, &new);
}
