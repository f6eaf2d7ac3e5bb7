//! Named nodes below vectors, and names of newtypes of vectors.

use super::{all_ways, of_types, vec2, vec3};
use crate::cases::Cases;
use crate::make::*;
use crate::schema::{Declaration, Schema, Type};

pub fn add(cases: &mut Cases) {
    below(cases);
    newtypes(cases);
    imported(cases);
}

/// Entry 0 has this type; the others are not listed.
fn of(ty: Type, others: Vec<Option<Declaration>>) -> Schema {
    schema(vec![of_types(vec![ty])]).with_entries(others)
}

fn below(cases: &mut Cases) {
    let seat = |id| vec3(wrapped(4, named(id)));
    let first = || of(seat(1), vec![Some(config("A")), Some(config("B"))]);
    let names = |id, names: [&str; 2]| of(seat(id), names.map(|n| Some(config(n))).into());
    let name = "a name under another id";
    all_ways(cases, name, &first(), &names(2, ["B", "A"]));
    let mut way = |name: &str, other: &Schema| {
        cases.both_ways(&format!("mended: {name}"), &first(), other);
    };
    way("another name", &names(2, ["A", "B"]));
    way("another name under one id", &names(1, ["B", "A"]));
    way("a name and a longer one", &names(1, ["Aa", "A"]));
    way("a name and no entry", &of(seat(3), vec![None, None]));
    way("a name and an empty entry", &of(seat(1), vec![None]));
    way(
        "a name of another kind",
        &of(seat(1), vec![Some(flags("A", vec![]))]),
    );
    let none = of(seat(7), vec![]);
    let name = "two unresolvable ids below a vector";
    all_ways(cases, name, &none, &of(seat(u32::MAX), vec![None]));
    let implemented = of(seat(1), vec![Some(implementation())]);
    let name = "unresolvable and an impl below a vector";
    all_ways(cases, name, &implemented, &none);
}

/// A named node is not entered: what a newtype holds is its own matter.
fn newtypes(cases: &mut Cases) {
    let entry = |ty: Type| vec![Some(newtype("Seat", ty))];
    let flat = || vec2(primitive(9));
    let deep = || vec3(primitive(9));
    let of_type = |ty: Type, seat: Type| of(ty, entry(seat));
    let name = "names a newtype of a vector";
    let (one, other) = (of_type(named(1), flat()), of_type(named(1), deep()));
    all_ways(cases, name, &one, &other);
    let listed = |schema: Schema| schema.listing(&[0, 1]);
    let name = "names a listed newtype of a vector";
    all_ways(cases, name, &listed(one.clone()), &listed(other));
    let name = "names a newtype that is no longer of a vector";
    let plain = of_type(named(1), primitive(9));
    all_ways(cases, name, &one, &plain);
    let name = "a vector of newtypes of vectors";
    let (one, other) = (
        of_type(vec3(named(1)), flat()),
        of_type(vec3(named(1)), deep()),
    );
    all_ways(cases, name, &one, &other);
    let name = "a newtype and the vector it stands for";
    let (one, other) = (of_type(named(1), deep()), of_type(deep(), deep()));
    all_ways(cases, name, &one, &other);
    let itself = schema(vec![newtype("Seat", vec3(named(0)))]);
    cases.pair("mended: a newtype that names itself", &itself, &itself);
}

/// What is only imported is not compared, and with imports a vector differs.
fn imported(cases: &mut Cases) {
    let of_import = |ty: Type| of(named(1), vec![Some(message("L", vec![field(0, "at", ty)]))]);
    let kept = of_import(vec3(primitive(9)));
    let name = "an import with a vector";
    all_ways(cases, name, &kept, &of_import(vec2(primitive(9))));
    let name = "an import that gains a vector";
    cases.both_ways(&format!("mended: {name}"), &of_import(primitive(9)), &kept);
    let behind = |code| of(vec3(named(1)), vec![Some(newtype("L", primitive(code)))]);
    let name = "an import behind a vector";
    all_ways(cases, name, &behind(1), &behind(2));
}
