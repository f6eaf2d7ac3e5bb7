//! Ids: unresolvable ones, listed and in types; names under other ids, ids with
//! other names; entries that only types name.

use super::Cases;
use crate::make::*;
use crate::schema::{Declaration, Schema, IMPL, KIND_NAMES};

pub fn add(cases: &mut Cases) {
    listed(cases);
    in_types(cases);
    by_name(cases);
    imports(cases);
}

/// N or more, an empty entry, and far off: id 2 is empty, 3 is N.
const UNRESOLVABLE: [u32; 7] = [2, 3, 4, 256, 65_536, 1 << 31, u32::MAX];

fn base() -> Schema {
    schema(vec![config("A"), config("B")]).with_entries(vec![None])
}

fn listed(cases: &mut Cases) {
    for id in UNRESOLVABLE {
        let more = base().listing(&[id, 0, 1, id]);
        cases.both_ways(&format!("unresolvable id {id} listed"), &base(), &more);
        let only = base().listing(&[id]);
        cases.both_ways(&format!("only unresolvable id {id} listed"), &base(), &only);
    }
    let all = base().listing(&UNRESOLVABLE);
    cases.pair("only unresolvable ids on both sides", &all, &all);
    cases.pair(
        "entries and no id",
        &base().listing(&[]),
        &base().listing(&[]),
    );
}

/// Listed by 0: a newtype of the named type.
fn pointing(id: u32, entries: Vec<Option<Declaration>>) -> Schema {
    schema(vec![newtype("N", named(id))]).with_entries(entries)
}

fn in_types(cases: &mut Cases) {
    let to = |id| pointing(id, vec![Some(config("A")), None]);
    for id in UNRESOLVABLE {
        cases.both_ways(&format!("id {id} in a type, and A"), &to(id), &to(1));
        cases.both_ways(&format!("id {id} in a type, and 2"), &to(id), &to(2));
    }
    for kind in 0..=IMPL {
        let word = KIND_NAMES[usize::from(kind)];
        let entry = || vec![Some(of_kind(kind, "K"))];
        let name = format!("named {word}");
        cases.pair(&name, &pointing(1, entry()), &pointing(1, entry()));
        let name = format!("named {word} and unresolvable");
        cases.both_ways(&name, &pointing(1, entry()), &pointing(1, vec![]));
        let name = format!("named {word} and itself");
        cases.both_ways(&name, &pointing(1, entry()), &pointing(0, entry()));
    }
    let inner = |id| {
        let ty = double(8, named(id), wrapped(4, named(id)));
        schema(vec![newtype("N", ty), config("A")])
    };
    cases.both_ways("ids deeper in a type", &inner(1), &inner(5));
    cases.pair("ids deeper in a type, unresolvable", &inner(5), &inner(6));
}

fn by_name(cases: &mut Cases) {
    let two = |id, first: &str, second: &str| {
        pointing(id, vec![Some(config(first)), Some(trait_of(second))])
    };
    cases.both_ways(
        "one name under two ids",
        &two(1, "A", "B"),
        &two(2, "B", "A"),
    );
    cases.both_ways(
        "one id with two names",
        &two(1, "A", "B"),
        &two(1, "B", "A"),
    );
    cases.both_ways("one name twice", &two(1, "A", "A"), &two(2, "A", "A"));
    cases.both_ways("two names", &two(1, "A", "B"), &two(2, "A", "B"));
    cases.both_ways("names by case", &two(1, "a", "B"), &two(1, "A", "B"));
    cases.both_ways(
        "a name and its extension",
        &two(1, "Ab", "B"),
        &two(1, "A", "B"),
    );
    let impls = vec![Some(implementation()), Some(config(""))];
    cases.both_ways(
        "an impl and an empty name",
        &pointing(1, impls.clone()),
        &pointing(2, impls.clone()),
    );
    cases.both_ways(
        "an impl and a name",
        &pointing(1, impls),
        &pointing(0, vec![]),
    );
}

/// What a type names but nobody lists is not compared.
fn imports(cases: &mut Cases) {
    let imported = |entry: Declaration| pointing(1, vec![Some(entry)]);
    let block = |code| message("Limit", vec![field(0, "most", primitive(code))]);
    cases.both_ways("a changed import", &imported(block(1)), &imported(block(2)));
    let flags = flags("Limit", vec![]);
    cases.both_ways(
        "an import of another kind",
        &imported(block(1)),
        &imported(flags),
    );
    let listed = imported(block(2)).listing(&[0, 1]);
    cases.both_ways("an import listed", &imported(block(1)), &listed);
    let itself = |id| schema(vec![message("A", vec![field(0, "next", named(id))])]);
    cases.both_ways("a type that names itself", &itself(0), &itself(1));
    cases.pair("a type that names itself, kept", &itself(0), &itself(0));
}
