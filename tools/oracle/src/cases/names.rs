//! Names: empty, longest, and in byte order; namespaces.

use super::Cases;
use crate::make::*;
use crate::schema::Declaration;

pub fn add(cases: &mut Cases) {
    each_place(cases);
    byte_order(cases);
    segment_counts(cases);
    segment_contents(cases);
}

type Named = fn(&str) -> Declaration;

/// A declaration with the given name in one place.
const PLACES: [(&str, Named); 15] = [
    ("message", |n| message(n, vec![])),
    ("enum", |n| enumeration(n, 0, vec![])),
    ("flags", |n| flags(n, vec![])),
    ("union", |n| union(n, vec![])),
    ("newtype", |n| newtype(n, primitive(0))),
    ("config", config),
    ("generic_alias", alias),
    ("trait", trait_of),
    ("field", |n| message("M", vec![field(0, n, primitive(0))])),
    ("enum variant", |n| enumeration("E", 0, items(&[(0, n)]))),
    ("bit", |n| flags("F", items(&[(0, n)]))),
    ("union variant", |n| union("U", vec![variant(0, n, vec![])])),
    ("inline bit", |n| newtype("N", bits(&[n, "b"]))),
    ("variant's field", |n| {
        union("U", vec![variant(0, "v", vec![field(0, n, primitive(0))])])
    }),
    ("variant around a field", |n| {
        union(
            "U",
            vec![variant(
                0,
                n,
                vec![field(0, "f", wrapped(10, primitive(0)))],
            )],
        )
    }),
];

/// The empty and the longest name, against another and against none.
fn each_place(cases: &mut Cases) {
    let longest = "Z".repeat(255);
    let nearly = "Z".repeat(254);
    for (place, of) in PLACES {
        for (what, name) in [("empty", ""), ("longest", longest.as_str())] {
            let title = format!("{what} name of a {place}");
            cases.lists(&title, vec![of(name)], vec![of("z")]);
            let title = format!("{what} name of a {place} added");
            cases.lists(&title, vec![], vec![of(name)]);
        }
        let title = format!("longest names of a {place} but for a byte");
        cases.lists(&title, vec![of(&longest)], vec![of(&nearly)]);
    }
}

/// Names in which byte order, order by case and order by length differ.
fn byte_order(cases: &mut Cases) {
    let names = [
        "b", "B", "aB", "ab", "a", "A", "_", "0", "9", "Z", "a0", "a_", "aA", "", "zz", "z",
    ];
    let configs = |list: &[&str]| list.iter().map(|name| config(name)).collect::<Vec<_>>();
    cases.lists("names in byte order", configs(&names), vec![]);
    let backward: Vec<&str> = names.iter().rev().copied().collect();
    cases.lists(
        "names listed backward",
        configs(&backward),
        configs(&names[..4]),
    );
    let traits = names.iter().map(|name| trait_of(name)).collect();
    cases.lists("kinds changed in byte order", configs(&names), traits);
    let changed = |code| -> Vec<Declaration> {
        let of = |name: &&str| newtype(name, primitive(code));
        names.iter().map(of).collect()
    };
    cases.lists("newtypes changed in byte order", changed(0), changed(1));
    let prefixes: Vec<String> = (0..8).map(|n| "ab".repeat(n)).collect();
    let prefixes: Vec<&str> = prefixes.iter().map(String::as_str).collect();
    cases.lists(
        "names that extend one another",
        configs(&prefixes),
        configs(&["abb"]),
    );
}

fn segment_counts(cases: &mut Cases) {
    let of = |n: usize| schema(vec![]).in_namespace(&vec!["s"; n]);
    for n in 0..=16 {
        cases.pair(&format!("{n} segments"), &of(n), &of(n));
        cases.both_ways(
            &format!("{n} segments and another number"),
            &of(n),
            &of((n + 1) % 17),
        );
        if n > 0 {
            let mut last = vec!["s"; n];
            last[n - 1] = "t";
            let last = schema(vec![]).in_namespace(&last);
            cases.pair(&format!("{n} segments, the last differs"), &of(n), &last);
        }
    }
}

fn segment_contents(cases: &mut Cases) {
    let longest = "s".repeat(255);
    let spaces: [(&str, &[&str], &[&str]); 10] = [
        ("order", &["a", "b"], &["b", "a"]),
        ("one is in front", &["a"], &["a", "b"]),
        ("joined and parted", &["ab"], &["a", "b"]),
        ("case", &["a"], &["A"]),
        ("a name and its extension", &["ab", "c"], &["a", "bc"]),
        ("an empty one behind", &["a"], &["a", ""]),
        ("an empty one in front", &["a"], &["", "a"]),
        ("two empty ones", &["", ""], &[""]),
        ("empty ones and none", &["", "", ""], &[]),
        ("longest", &[&longest, &longest], &[&longest]),
    ];
    for (what, one, other) in spaces {
        let of = |segments| schema(vec![config("A")]).in_namespace(segments);
        cases.both_ways(&format!("namespaces: {what}"), &of(one), &of(other));
    }
}
