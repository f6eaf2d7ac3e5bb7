//! What repeats, and where it is said to.

use super::super::Tests;
use crate::make::*;
use crate::refiling::repeat;
use crate::schema::{Declaration, Schema};

pub fn run(tests: &mut Tests) {
    names(tests);
    numbers(tests);
}

fn equal(tests: &mut Tests, schema: &Schema, wanted: Option<&str>) {
    let name = wanted.unwrap_or("nothing repeats");
    tests.equal(name, repeat(schema), wanted.map(str::to_string));
}

fn names(tests: &mut Tests) {
    let mut listed = |list: Vec<Declaration>, ids: &[u32], wanted: Option<&str>| {
        let base = schema(list).with_entries(vec![None]);
        equal(tests, &base.listing(ids), wanted);
    };
    let two = || vec![config("A"), trait_of("B")];
    listed(two(), &[0, 1], None);
    listed(two(), &[2, 0, 3, 2, 1, 3], None);
    let twice = Some("declarations 1 and 3: both are 'B'");
    listed(two(), &[0, 1, 2, 1], twice);
    let same = || vec![config("A"), trait_of("A"), config("a")];
    listed(same(), &[1, 2], None);
    let both = Some("declarations 0 and 2: both are 'A'");
    listed(same(), &[1, 2, 0], both);
    let impls = || vec![implementation(), implementation(), message("", vec![])];
    listed(impls(), &[0, 1, 0], None);
    listed(impls(), &[2], None);
    let unnamed = Some("declarations 0 and 1: both are ''");
    listed(impls(), &[2, 0], unnamed);
    listed(impls(), &[1, 2], unnamed);
    listed(impls(), &[2, 2], unnamed);
}

/// In entries that nobody lists.
fn numbers(tests: &mut Tests) {
    let mut held = |declaration: Declaration, wanted: Option<&str>| {
        let entries = vec![None, Some(declaration)];
        equal(tests, &schema(vec![]).with_entries(entries), wanted);
    };
    let f = |ordinal| field(ordinal, "f", primitive(0));
    held(message("M", vec![f(0), f(1)]), None);
    let wanted = Some("entry 1, message 'M': field @7 twice");
    held(message("M", vec![f(7), f(0), f(7)]), wanted);
    let wanted = Some("entry 1, enum 'E': variant @0 twice");
    held(enumeration("E", 0, items(&[(0, "a"), (0, "b")])), wanted);
    let wanted = Some("entry 1, flags 'F': bit @4294967295 twice");
    let bits = items(&[(u32::MAX, "a"), (0, "a"), (u32::MAX, "a")]);
    held(flags("F", bits), wanted);
    let v = |ordinal, fields| variant(ordinal, "v", fields);
    held(union("U", vec![v(0, vec![f(0)]), v(1, vec![f(0)])]), None);
    let wanted = Some("entry 1, union 'U': variant @1 twice");
    held(union("U", vec![v(1, vec![]), v(1, vec![f(0)])]), wanted);
    let wanted = Some("entry 1, union 'U': variant @1: field @2 twice");
    let inner = vec![f(2), f(2)];
    held(union("U", vec![v(0, vec![f(2)]), v(1, inner)]), wanted);
}
