//! What R-13 does not let happen, and what its premise leaves out: the report is
//! another, so that the premise and each part of the copying matter.

use super::super::Tests;
use crate::answer::judge;
use crate::make::*;
use crate::refiling::{form, repeat};
use crate::schema::{Declaration, Schema};
use crate::writer::image;

/// The report on two schemas.
fn report(old: &Schema, new: &Schema) -> Vec<u8> {
    judge(&image(old), &image(new)).answer.report
}

/// Whether the second gets another report than the first, against the first.
fn tells(one: &Schema, other: &Schema) -> bool {
    report(one, other) != report(one, one) && report(other, one) != report(one, one)
}

pub fn run(tests: &mut Tests) {
    no_copies(tests);
    repeats(tests);
    a_copy(tests);
}

/// Nothing repeats, and the form is another.
fn no_copies(tests: &mut Tests) {
    let mut control = |name: &str, one: &Schema, other: &Schema| {
        tests.holds(name, repeat(one).is_none() && repeat(other).is_none());
        tests.holds(name, form(one) != form(other));
        tests.holds(name, tells(one, other));
    };
    let lamps = |names: &[&str]| schema(vec![newtype("Lamps", bits(names))]);
    control(
        "inline bits reordered",
        &lamps(&["a", "b"]),
        &lamps(&["b", "a"]),
    );
    let holder = |id| newtype("N", wrapped(4, named(id)));
    let one = schema(vec![holder(1), config("A"), config("B")]);
    let other = schema(vec![holder(1), config("B"), config("A")]);
    control("an id that does not follow", &one, &other);
    let all = schema(vec![config("A"), config("B"), config("C")]);
    let (one, other) = (all.clone().listing(&[0, 1]), all.listing(&[0, 2]));
    control("a listed id that does not follow", &one, &other);
    let one = schema(vec![holder(2), config("A")]);
    let other = schema(vec![config("A"), holder(0)]);
    control("an unresolvable id that resolves", &one, &other);
    let of = |key, value| {
        schema(vec![newtype(
            "N",
            double(8, semantic(key), semantic(value)),
        )])
    };
    control("a map's types reordered", &of(0, 3), &of(3, 0));
    let one = schema(vec![]).in_namespace(&["a", "b"]);
    let other = schema(vec![]).in_namespace(&["b", "a"]);
    control("segments reordered", &one, &other);
}

/// Lists are reordered, so that the form is the same, but something repeats.
fn repeats(tests: &mut Tests) {
    let mut control = |name: &str, one: &Schema, other: &Schema| {
        tests.holds(name, repeat(one).is_some() && repeat(other).is_some());
        tests.equal(name, form(one), form(other));
        tests.holds(name, tells(one, other));
    };
    let f = |name: &str, code| field(3, name, primitive(code));
    let two = schema(vec![
        message("M", vec![f("f", 1)]),
        message("M", vec![f("f", 2)]),
    ]);
    let turned = two.clone().listing(&[1, 0]);
    control("two messages of one name turned round", &two, &turned);
    let of = |list: Vec<Declaration>| schema(list);
    let one = of(vec![message("M", vec![f("a", 1), f("b", 2)])]);
    let other = of(vec![message("M", vec![f("b", 2), f("a", 1)])]);
    control("an ordinal listed twice turned round", &one, &other);
    let of = |one, other| {
        let v = |code| variant(1, "v", vec![field(0, "f", primitive(code))]);
        schema(vec![union("U", vec![v(one), v(other)])])
    };
    control(
        "a union's variant listed twice turned round",
        &of(1, 2),
        &of(2, 1),
    );
    let unnamed = schema(vec![implementation(), message("", vec![f("a", 1)])]);
    let turned = unnamed.clone().listing(&[1, 0]);
    control(
        "an impl and an unnamed message turned round",
        &unnamed,
        &turned,
    );
}

/// The same ways, where they are R-13's: one form and one report.
fn a_copy(tests: &mut Tests) {
    let f = |ordinal, id| field(ordinal, "f", wrapped(5, named(id)));
    let one = schema(vec![
        message("M", vec![f(0, 1), f(1, 9), f(2, 2)]),
        enumeration("E", 0, items(&[(0, "a"), (1, "b")])),
        implementation(),
        implementation(),
    ]);
    let other = schema(vec![
        implementation(),
        enumeration("E", 0, items(&[(1, "b"), (0, "a")])),
        message("M", vec![f(2, 3), f(0, 1), f(1, 4)]),
        implementation(),
    ]);
    let other = other.with_entries(vec![None]).listing(&[2, 3, 0, 1]);
    tests.equal("a copy by hand, form", form(&one), form(&other));
    tests.holds("a copy by hand, report", !tells(&one, &other));
    let wanted = b"Compatible;Patch;0\n".to_vec();
    tests.equal("a copy by hand", report(&one, &other), wanted);
}
