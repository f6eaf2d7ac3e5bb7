//! Repeats: of one name, ordinal or bit the last listed stands.

use super::Cases;
use crate::make::*;
use crate::schema::{Declaration, Field, Item};

pub fn add(cases: &mut Cases) {
    declarations(cases);
    fields(cases);
    numbered_items(cases);
    variants(cases);
    listed_ids(cases);
}

fn holder(name: &str, code: u8) -> Declaration {
    message(name, vec![field(0, "f", primitive(code))])
}

fn declarations(cases: &mut Cases) {
    let once = |code| vec![holder("M", code)];
    let twice = |first, last| vec![holder("M", first), holder("M", last)];
    cases.lists("name twice, last as before", once(1), twice(2, 1));
    cases.lists("name twice, first as before", once(1), twice(1, 2));
    cases.lists("name twice on both sides", twice(1, 2), twice(2, 1));
    cases.lists("name twice, last alike", twice(1, 3), twice(2, 3));
    let kinds = vec![config("M"), trait_of("M"), holder("M", 1)];
    cases.lists("name of three kinds", once(1), kinds);
    let kinds = vec![holder("M", 1), config("M")];
    cases.lists("name of two kinds", once(1), kinds);
    let three = vec![
        holder("M", 1),
        config("B"),
        holder("M", 2),
        config("B"),
        holder("M", 3),
    ];
    cases.lists(
        "names repeated in turns",
        three,
        vec![config("B"), holder("M", 3)],
    );
}

fn f(ordinal: u32, name: &str, code: u8) -> Field {
    field(ordinal, name, primitive(code))
}

fn fields(cases: &mut Cases) {
    let once = || vec![f(3, "a", 1)];
    cases.fields(
        "ordinal twice, last as before",
        once(),
        vec![f(3, "x", 2), f(3, "a", 1)],
    );
    cases.fields(
        "ordinal twice, first as before",
        once(),
        vec![f(3, "a", 1), f(3, "x", 2)],
    );
    let around = vec![f(3, "x", 2), f(1, "b", 4), f(3, "a", 1)];
    cases.fields("ordinal twice around another", once(), around);
    let thrice = vec![f(3, "x", 2), f(3, "y", 3), f(3, "z", 4)];
    cases.fields("ordinal three times", once(), thrice.clone());
    cases.fields("ordinal three times, then none", thrice, vec![]);
    let marked = || vec![f(3, "a", 1).marked(1), f(3, "a", 1)];
    cases.fields("first deprecated", once(), marked());
    let marked = vec![f(3, "a", 1), f(3, "a", 1).marked(1)];
    cases.fields("last deprecated", once(), marked);
    let limited = vec![f(3, "a", 1).limited(1), f(3, "a", 1).encoded(1, 1)];
    cases.fields("first limited, last encoded", once(), limited);
    let in_variant = |list| vec![union("U", vec![variant(0, "v", list)])];
    let twice = |first, last| in_variant(vec![f(3, "x", first), f(3, "x", last)]);
    cases.lists("variant's ordinal twice", twice(1, 2), twice(2, 1));
    cases.lists(
        "variant's ordinal twice and once",
        twice(1, 2),
        in_variant(vec![f(3, "x", 2)]),
    );
}

fn numbered_items(cases: &mut Cases) {
    let kinds: [(&str, fn(Vec<Item>) -> Declaration); 2] = [
        ("variant", |list| enumeration("E", 2, list)),
        ("bit", |list| flags("F", list)),
    ];
    for (what, of) in kinds {
        let mut lists = |name: &str, one: &[(u32, &str)], other: &[(u32, &str)]| {
            let (one, other) = (vec![of(items(one))], vec![of(items(other))]);
            cases.lists(&format!("{what} {name}"), one, other);
        };
        lists("twice and gone", &[(3, "a"), (3, "b")], &[]);
        lists("twice and once", &[(3, "a"), (3, "b")], &[(3, "a")]);
        lists(
            "twice around another",
            &[(3, "a"), (1, "c"), (3, "b")],
            &[(1, "c")],
        );
        lists("three times", &[(0, "a"), (0, "b"), (0, "c")], &[(1, "d")]);
        lists(
            "twice at 0 and at the most",
            &[(0, "a"), (u32::MAX, "b"), (0, "c"), (u32::MAX, "d")],
            &[],
        );
    }
}

fn variants(cases: &mut Cases) {
    let v = |name: &str, code| variant(3, name, vec![f(0, "f", code)]);
    let of = |list| vec![union("U", list)];
    cases.lists(
        "union variant twice",
        of(vec![v("a", 1), v("b", 2)]),
        of(vec![v("a", 2), v("b", 1)]),
    );
    cases.lists(
        "union variant twice and once",
        of(vec![v("a", 1), v("b", 2)]),
        of(vec![v("c", 2)]),
    );
    cases.lists(
        "union variant twice and gone",
        of(vec![v("a", 1), v("b", 2)]),
        of(vec![]),
    );
    let around = vec![v("a", 1), variant(1, "c", vec![]), v("b", 2)];
    cases.lists(
        "union variant twice around another",
        of(around),
        of(vec![v("d", 3)]),
    );
}

fn listed_ids(cases: &mut Cases) {
    let base = || schema(vec![holder("A", 1), holder("B", 2), holder("A", 3)]);
    let lists: [&[u32]; 6] = [
        &[0, 0],
        &[0, 1, 0],
        &[2, 0],
        &[0, 2, 0, 2],
        &[1, 1, 1],
        &[2, 1, 0],
    ];
    for (place, ids) in lists.iter().enumerate() {
        let listed = base().listing(ids);
        cases.both_ways(&format!("ids repeated, {place}"), &base(), &listed);
    }
}
