//! All kinds of change in one pair, and pairs that swap everything at once.

use super::Cases;
use crate::make::*;
use crate::schema::Schema;

pub fn add(cases: &mut Cases) {
    let (old, new) = (before(), after());
    cases.both_ways("every kind of change at once", &old, &new);
    cases.pair("before every change, kept", &old, &old);
    cases.pair("after every change, kept", &new, &new);
    let twice = |schema: &Schema| {
        let mut twice = schema.clone();
        let again = schema.registry.iter().cloned().map(|entry| {
            entry.map(|mut declaration| {
                declaration.name.insert_str(0, "again");
                declaration
            })
        });
        twice.registry.extend(again);
        twice.declarations = (0..twice.registry.len() as u32).collect();
        twice
    };
    cases.both_ways("every kind of change twice", &twice(&old), &twice(&new));
}

pub fn before() -> Schema {
    let fields = vec![
        field(0, "gone", primitive(1)),
        field(1, "typed", primitive(1)),
        field(2, "renamed", primitive(1)),
        field(3, "old", primitive(1)),
        field(4, "coded", primitive(1)),
    ];
    schema(vec![
        message("Message", fields),
        enumeration("Enum", 2, items(&[(0, "gone"), (1, "kept")])),
        flags("Flags", items(&[(0, "gone"), (1, "kept")])),
        union("Union", vec![variant(0, "gone", vec![])]),
        newtype("Newtype", primitive(1)),
        config("Removed"),
        config("Kind"),
    ])
}

pub fn after() -> Schema {
    let fields = vec![
        field(1, "typed", primitive(2)),
        field(2, "anew", primitive(1)),
        field(3, "old", primitive(1)).marked(1),
        field(4, "coded", primitive(1)).encoded(1, 1),
        field(5, "came", primitive(1)),
    ];
    schema(vec![
        trait_of("Kind"),
        marked_message("Message", 1, fields),
        enumeration("Enum", 0, items(&[(1, "kept"), (2, "came")])),
        flags("Flags", items(&[(1, "kept"), (2, "came")])),
        union("Union", vec![variant(1, "came", vec![])]),
        newtype("Newtype", primitive(2)),
        config("Added"),
    ])
    .in_namespace(&["ride", "next"])
}
