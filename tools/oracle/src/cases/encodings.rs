//! Encodings and limits against one another; ordinals of every width.

use super::Cases;
use crate::make::*;
use crate::schema::{Declaration, Encoding, Field, Item};

pub fn add(cases: &mut Cases) {
    encodings(cases);
    limits(cases);
    limits_and_encodings(cases);
    ordinals(cases);
    several_changes(cases);
}

fn f() -> Field {
    field(0, "f", primitive(2))
}

fn encodings(cases: &mut Cases) {
    let all: Vec<Encoding> = (0..27)
        .map(|n| Encoding {
            deltas: n / 3,
            base: n % 3,
        })
        .collect();
    let fields = |list: &[Encoding]| -> Vec<Field> {
        let of = |(n, e): (u32, &Encoding)| field(n, "f", primitive(2)).encoded(e.deltas, e.base);
        (0..).zip(list).map(of).collect()
    };
    for encoding in &all {
        let old = schema(vec![message("M", fields(&[*encoding; 27]))]);
        let new = schema(vec![message("M", fields(&all))]);
        let name = format!(
            "{} deltas around {} against all",
            encoding.deltas, encoding.base
        );
        cases.pair(&name, &old, &new);
    }
}

fn limits(cases: &mut Cases) {
    let some = [0, 1, 8, 9, 256, 1 << 32, u64::MAX].map(Some);
    let all = || [None].into_iter().chain(some);
    for limit in all() {
        for other in all() {
            let name = format!("limit {limit:?} to {other:?}");
            let of = |limit| schema(vec![message("M", vec![f().limited(limit)])]);
            cases.pair(&name, &of(limit), &of(other));
        }
    }
}

fn limits_and_encodings(cases: &mut Cases) {
    let mut both = |name: &str, one: Field, other: Field| {
        cases.fields(&format!("limit and {name}"), vec![one], vec![other]);
    };
    both("encoding", f().encoded(1, 1), f().limited(8));
    both(
        "encoding, limit kept",
        f().encoded(1, 1).limited(8),
        f().limited(8),
    );
    both(
        "encoding, both changed",
        f().encoded(1, 1).limited(8),
        f().limited(9),
    );
    both(
        "encoding kept",
        f().encoded(8, 2).limited(8),
        f().encoded(8, 2),
    );
    both(
        "type",
        f().limited(8),
        field(0, "f", primitive(3)).limited(9),
    );
}

const ORDINALS: [u32; 16] = [
    0,
    1,
    9,
    10,
    99,
    100,
    255,
    256,
    999,
    1_000,
    65_535,
    65_536,
    99_999_999,
    999_999_999,
    1 << 31,
    u32::MAX,
];

type Numbered = fn(&[u32], &str) -> Declaration;

/// What a body numbers, with these ordinals and one name.
const PLACES: [(&str, Numbered); 5] = [
    ("fields", |list, name| message("M", fields_at(list, name))),
    ("variants", |list, name| {
        enumeration("E", 0, items_at(list, name))
    }),
    ("bits", |list, name| flags("F", items_at(list, name))),
    ("union variants", |list, name| {
        let of = |n: &u32| variant(*n, name, vec![]);
        union("U", list.iter().map(of).collect())
    }),
    ("variant's fields", |list, name| {
        union("U", vec![variant(0, "v", fields_at(list, name))])
    }),
];

fn fields_at(list: &[u32], name: &str) -> Vec<Field> {
    let of = |n: &u32| field(*n, name, primitive(2));
    list.iter().map(of).collect()
}

fn items_at(list: &[u32], name: &str) -> Vec<Item> {
    list.iter().map(|n| item(*n, name)).collect()
}

/// Listed falling, so that only sorting gives the report's order.
fn ordinals(cases: &mut Cases) {
    let falling: Vec<u32> = ORDINALS.iter().rev().copied().collect();
    let even: Vec<u32> = falling.iter().copied().step_by(2).collect();
    for (what, of) in PLACES {
        let all = |name: &str| vec![of(&falling, name)];
        cases.lists(&format!("{what} gone"), all("a"), vec![of(&[], "a")]);
        cases.lists(
            &format!("{what} gone in part"),
            all("a"),
            vec![of(&even, "a")],
        );
        cases.lists(&format!("{what} renamed"), all("a"), all("b"));
        let rising = vec![of(&ORDINALS, "a")];
        cases.lists(
            &format!("{what} listed the other way round"),
            all("a"),
            rising,
        );
        let near = vec![of(&[0, 2], "a")];
        cases.lists(
            &format!("{what} moved by one"),
            vec![of(&[0, 1], "a")],
            near,
        );
    }
    let changed = |code: u8, marks| -> Vec<Field> {
        let of = |n: &u32| {
            field(*n, "f", primitive(code))
                .marked(marks)
                .limited(u64::from(code))
        };
        falling.iter().map(of).collect()
    };
    cases.fields("ordinals of changed fields", changed(1, 0), changed(2, 1));
}

/// All that one field can report, in its order.
fn several_changes(cases: &mut Cases) {
    let old = || vec![field(4, "a", primitive(1)), field(2, "b", primitive(1))];
    let new = || {
        let changed = |n, name: &str| field(n, name, primitive(2)).encoded(1, 2).marked(1);
        vec![
            changed(4, "c"),
            changed(2, "d").limited(7),
            field(3, "e", primitive(1)),
        ]
    };
    cases.fields("a field with all its changes", old(), new());
    let marked = |marks, list| vec![marked_message("M", marks, list)];
    cases.lists(
        "a message with all its changes",
        marked(0, old()),
        marked(1, new()),
    );
    let of = |name: &str, list| vec![union("U", vec![variant(1, name, list)])];
    cases.lists(
        "a variant with all its changes",
        of("v", old()),
        of("w", new()),
    );
}
