//! Unions, enums and flags as wholes.

use super::Cases;
use crate::make::*;
use crate::schema::{Field, Variant};

pub fn add(cases: &mut Cases) {
    variants(cases);
    renamed(cases);
    alike(cases);
    lists(cases);
}

fn holding(ordinal: u32, name: &str, codes: &[u8]) -> Variant {
    let of = |(n, code): (u32, &u8)| field(n, &format!("f{n}"), primitive(*code));
    variant(ordinal, name, (0..).zip(codes).map(of).collect())
}

fn variants(cases: &mut Cases) {
    let of = |list: Vec<Variant>| vec![union("U", list)];
    let base = || of(vec![holding(0, "a", &[1, 2]), holding(1, "b", &[3])]);
    let added = of(vec![
        holding(0, "a", &[1, 2]),
        holding(1, "b", &[3]),
        holding(2, "c", &[4]),
    ]);
    cases.lists("union variant added", base(), added);
    cases.lists("both union variants gone", base(), of(vec![]));
    let swapped = of(vec![holding(1, "b", &[3]), holding(0, "a", &[1, 2])]);
    cases.lists("union variants in another order", base(), swapped);
    let typed = of(vec![holding(0, "a", &[1, 4]), holding(1, "b", &[5])]);
    cases.lists("fields of both variants changed", base(), typed);
    let fewer = of(vec![holding(0, "a", &[1]), holding(1, "b", &[3, 3])]);
    cases.lists("fields of variants added and gone", base(), fewer);
    let mixed = of(vec![holding(1, "a", &[3]), holding(7, "z", &[1])]);
    cases.lists("variants and fields together", base(), mixed);
    let crossed = of(vec![holding(0, "b", &[1, 2]), holding(1, "a", &[3])]);
    cases.lists("variants with names crossed", base(), crossed);
}

/// The old variant's name stands in the report, whichever way it is renamed.
fn renamed(cases: &mut Cases) {
    let of = |name: &str, code| vec![union("U", vec![holding(5, name, &[code])])];
    cases.lists(
        "variant renamed and its field changed",
        of("old", 1),
        of("new", 2),
    );
    cases.lists("variant renamed from nothing", of("", 1), of("new", 2));
    let unnamed = |name: &str, code| vec![union("", vec![holding(5, name, &[code])])];
    cases.lists(
        "variant of an unnamed union",
        unnamed("v", 1),
        unnamed("w", 2),
    );
    cases.lists(
        "unnamed variant of an unnamed union",
        unnamed("", 1),
        unnamed("", 2),
    );
    let long = |letter: &str, code| {
        let name = letter.repeat(255);
        vec![union(
            &name.to_uppercase(),
            vec![holding(5, &name, &[code])],
        )]
    };
    cases.lists(
        "longest names of union and variant",
        long("v", 1),
        long("v", 2),
    );
}

/// Changes that are alike in every member, each of which counts.
fn alike(cases: &mut Cases) {
    let fields = |marks| -> Vec<Field> {
        let of = |n| field(n, "f", primitive(2)).marked(marks);
        (0..4).map(of).collect()
    };
    cases.fields("fields of one name deprecated", fields(0), fields(1));
    let old = || {
        let gone = field(0, "a", primitive(1));
        vec![
            gone,
            field(1, "b", primitive(1)),
            field(2, "b", primitive(1)),
        ]
    };
    let new = || {
        let changed = |n| field(n, "c", primitive(2)).marked(1).limited(1);
        vec![changed(1), changed(2), field(3, "d", primitive(1))]
    };
    let of = |list: &dyn Fn() -> Vec<Field>| {
        let variants = [0, 1, 7].map(|n| variant(n, "v", list()));
        vec![union("U", variants.to_vec())]
    };
    cases.lists("variants of one name changed alike", of(&old), of(&new));
}

fn lists(cases: &mut Cases) {
    let open = |list: &[(u32, &str)]| vec![enumeration("E", 2, items(list))];
    cases.lists(
        "open enum, one of two gone",
        open(&[(0, "a"), (1, "b")]),
        open(&[(1, "b")]),
    );
    cases.lists("open enum renamed", open(&[(0, "a")]), open(&[(0, "b")]));
    cases.lists("open enum to nothing", open(&[(0, "a")]), open(&[]));
    let closed = |list: &[(u32, &str)]| vec![enumeration("E", 1, items(list))];
    cases.lists(
        "closed enum renamed",
        closed(&[(0, "a")]),
        closed(&[(0, "b")]),
    );
    let bits = |list: &[(u32, &str)]| vec![flags("F", items(list))];
    cases.lists("bit added", bits(&[(0, "a")]), bits(&[(0, "a"), (63, "b")]));
    cases.lists("bit renamed", bits(&[(0, "a")]), bits(&[(0, "b")]));
    cases.lists("bit moved", bits(&[(0, "a")]), bits(&[(64, "a")]));
}
