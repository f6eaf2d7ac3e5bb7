//! Both mark bits on everything that has marks, in all sixteen ways from old to
//! new.

use super::Cases;
use crate::make::*;
use crate::schema::{Declaration, Field};

pub fn add(cases: &mut Cases) {
    let marked: [(&str, fn(u8) -> Declaration); 4] = [
        ("message", |marks| marked_message("M", marks, vec![])),
        ("enum", |marks| enumeration("E", marks, items(&[(0, "a")]))),
        ("field", |marks| message("M", vec![one_field(marks)])),
        ("variant's field", |marks| {
            union("U", vec![variant(0, "v", vec![one_field(marks)])])
        }),
    ];
    for (what, of) in marked {
        for (old, new) in all_pairs() {
            let name = format!("marks of a {what} from {old} to {new}");
            cases.pair(&name, &schema(vec![of(old)]), &schema(vec![of(new)]));
        }
    }
    enums_with_a_variant(cases);
    everything(cases);
}

fn one_field(marks: u8) -> Field {
    field(0, "f", primitive(2)).marked(marks)
}

fn all_pairs() -> impl Iterator<Item = (u8, u8)> {
    (0..16).map(|n| (n / 4, n % 4))
}

/// With a variant gone and one added, so that the new marks decide the bump.
fn enums_with_a_variant(cases: &mut Cases) {
    for (old, new) in all_pairs() {
        let one = enumeration("E", old, items(&[(0, "a"), (1, "b")]));
        let other = enumeration("E", new, items(&[(1, "c"), (2, "d")]));
        let name = format!("variants and marks from {old} to {new}");
        cases.pair(&name, &schema(vec![one]), &schema(vec![other]));
        let added = enumeration("E", new, items(&[(0, "a"), (2, "d")]));
        let one = enumeration("E", old, items(&[(0, "a")]));
        let name = format!("a variant added and marks from {old} to {new}");
        cases.pair(&name, &schema(vec![one]), &schema(vec![added]));
    }
}

fn everything(cases: &mut Cases) {
    let all = |marks| {
        let fields = || {
            vec![
                one_field(marks),
                field(1, "g", primitive(0)).marked(3 - marks),
            ]
        };
        vec![
            marked_message("M", marks, fields()),
            enumeration("E", marks, items(&[(0, "a")])),
            union(
                "U",
                vec![variant(0, "v", fields()), variant(1, "w", fields())],
            ),
        ]
    };
    cases.lists("marks everywhere, 0 and 3", all(0), all(3));
    cases.lists("marks everywhere, 1 and 2", all(1), all(2));
}
