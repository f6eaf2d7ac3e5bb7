//! Vectors in every body that has types, in what is not compared, and beside other
//! changes.

use super::{all_ways, of_types, vec2, vec3};
use crate::cases::Cases;
use crate::make::*;
use crate::schema::{Declaration, Field, Type};

pub fn add(cases: &mut Cases) {
    places(cases);
    dead(cases);
    not_compared(cases);
    beside_in_field(cases);
    beside(cases);
    several(cases);
}

fn seat() -> Type {
    vec3(primitive(9))
}

fn ways(cases: &mut Cases, name: &str, one: Vec<Declaration>, other: Vec<Declaration>) {
    all_ways(cases, name, &schema(one), &schema(other));
}

fn places(cases: &mut Cases) {
    let bodies: [(&str, &dyn Fn(Type) -> Declaration); 3] = [
        ("a newtype", &|ty| newtype("Seat", ty)),
        ("a message", &|ty| message("Seat", vec![field(3, "at", ty)])),
        ("a variant", &|ty| {
            let fields = vec![field(0, "n", primitive(1)), field(1, "at", ty)];
            union(
                "Seat",
                vec![variant(0, "None", vec![]), variant(7, "One", fields)],
            )
        }),
    ];
    for (name, body) in bodies {
        ways(
            cases,
            name,
            vec![body(seat())],
            vec![body(vec2(primitive(9)))],
        );
    }
    let renamed = |name: &str| union("U", vec![variant(0, name, vec![field(0, "at", seat())])]);
    ways(
        cases,
        "a variant renamed",
        vec![renamed("a")],
        vec![renamed("b")],
    );
}

/// What does not survive is not compared.
fn dead(cases: &mut Cases) {
    let two = |first: Type, second: Type| {
        let fields = vec![field(3, "a", first), field(3, "b", second)];
        vec![message("M", fields)]
    };
    let plain = || primitive(1);
    let name = "a dead field";
    ways(cases, name, two(seat(), plain()), two(plain(), plain()));
    let name = "a dead field, a vector that survives";
    ways(cases, name, two(plain(), seat()), two(seat(), seat()));
    let one = |ty: Type| variant(1, "v", vec![field(0, "f", ty)]);
    let of = |first, second| vec![union("U", vec![one(first), one(second)])];
    let name = "a dead variant";
    ways(cases, name, of(seat(), plain()), of(plain(), plain()));
    let twice = |first: Type| vec![newtype("N", first), newtype("N", plain())];
    ways(cases, "a dead newtype", twice(seat()), twice(plain()));
}

/// Nor is what is not listed, on one side only, of another kind, or beside an alias pair.
fn not_compared(cases: &mut Cases) {
    let unlisted = |ty: Type| schema(vec![newtype("N", ty), config("C")]).listing(&[1]);
    let (one, other) = (unlisted(seat()), unlisted(primitive(1)));
    all_ways(cases, "a vector not listed", &one, &other);
    let name = "a declaration with a vector, and none";
    ways(cases, name, vec![newtype("N", seat())], vec![]);
    let name = "another kind with a vector";
    let other = message("N", vec![field(0, "f", seat())]);
    ways(cases, name, vec![newtype("N", seat())], vec![other]);
    let refused = schema(vec![newtype("N", seat()), alias("A")]);
    let name = "mended: an alias pair beside a vector";
    cases.pair(name, &refused, &refused);
}

/// The field changes in another way and keeps its vector.
fn beside_in_field(cases: &mut Cases) {
    let f = || field(0, "at", seat());
    let others: [(&str, Field); 6] = [
        ("renamed", field(0, "place", seat())),
        ("deprecated", f().marked(1)),
        ("encoded anew", f().encoded(1, 1)),
        ("limited anew", f().limited(8)),
        ("of another ordinal", field(1, "at", seat())),
        (
            "all at once",
            field(0, "b", seat()).marked(3).encoded(0, 2).limited(1),
        ),
    ];
    for (name, other) in others {
        let of = |field| vec![message("M", vec![field])];
        let name = format!("mended: a field with a vector, {name}");
        cases.lists(&name, of(f()), of(other));
    }
}

/// Something else changes.
fn beside(cases: &mut Cases) {
    let with = |more: Vec<Declaration>| [vec![newtype("Seat", seat())], more].concat();
    let mut lists = |name: &str, one, other| {
        let name = format!("mended: beside a vector, {name}");
        cases.lists(&name, with(one), with(other));
    };
    lists("a declaration added", vec![], vec![config("C")]);
    let mode = |list| vec![enumeration("E", 2, items(list))];
    lists("a variant added", mode(&[]), mode(&[(0, "a")]));
    let lamps = |list| vec![flags("F", items(list))];
    lists("a bit added", lamps(&[]), lamps(&[(0, "a")]));
    let fields = |list: &[u32]| {
        let fields = list.iter().map(|n| field(*n, "f", seat()));
        vec![message("M", fields.collect())]
    };
    lists("a field with a vector added", fields(&[0]), fields(&[0, 1]));
    lists("a message deprecated", fields(&[0]), {
        vec![marked_message("M", 1, vec![field(0, "f", seat())])]
    });
    let one = schema(with(vec![]));
    let other = one.clone().in_namespace(&["other"]);
    cases.both_ways("mended: beside a vector, the namespace", &one, &other);
}

/// Several types, of which some are alike and some differ: the lines stay in order.
fn several(cases: &mut Cases) {
    let types = |codes: [u8; 4]| {
        let [a, b, c, d] = codes.map(primitive);
        vec![vec3(a), b, vec2(c), wrapped(4, wrapped(13, d))]
    };
    let of = |codes| vec![of_types(types(codes)), newtype("N", seat())];
    let one = [1, 1, 1, 1];
    for (name, other) in [
        ("the first differs", [2, 1, 1, 1]),
        ("the second differs", [1, 2, 1, 1]),
        ("the third differs", [1, 1, 2, 1]),
        ("the last differs", [1, 1, 1, 2]),
        ("all differ", [2, 2, 2, 2]),
    ] {
        cases.lists(&format!("mended: four fields, {name}"), of(one), of(other));
    }
    let same = schema(of(one));
    cases.pair("mended: four fields, kept", &same, &same);
}
