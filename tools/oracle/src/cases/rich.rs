//! One image with every kind, tag, encoding and mark, with repeats, an empty
//! entry, an entry not listed and ids that do not resolve. Against itself it is
//! Patch, so that a changed byte shows in the bump.

use crate::make::*;
use crate::schema::{Field, Schema, Type};

fn fields() -> Vec<Field> {
    vec![
        field(0, "a", primitive(2))
            .marked(1)
            .encoded(2, 1)
            .limited(9),
        field(1, "b", wrapped(4, named(1))).marked(2).encoded(1, 2),
        field(1, "c", sub_byte(true, 5)),
        field(2, "d", double(8, semantic(0), fixed_array(primitive(1), 4))),
        field(
            9,
            "",
            double(9, wrapped(7, primitive(0)), wrapped(5, named(77))),
        ),
    ]
}

/// Stands behind a name only, for these are never equal.
fn geometric() -> Type {
    (10..=15).fold(primitive(9), |ty, tag| wrapped(tag, ty))
}

pub fn rich() -> Schema {
    let variants = vec![
        variant(
            0,
            "v",
            vec![field(0, "x", bits(&["p", "q"])), field(7, "y", named(5))],
        ),
        variant(1, "w", vec![]),
        variant(
            1,
            "z",
            vec![field(0, "k", semantic(3)).marked(3).encoded(0, 1)],
        ),
    ];
    let listed = vec![
        marked_message("Ms", 3, fields()),
        enumeration("En", 2, items(&[(0, "a"), (1, "b"), (1, "c")])),
        flags("Fl", items(&[(0, "a"), (31, "b"), (31, "c")])),
        union("Un", variants),
        newtype("Nt", wrapped(5, sub_byte(false, 8))),
        config("Cf"),
        trait_of("Tr"),
        implementation(),
        config("En"),
    ];
    let unlisted = vec![None, Some(alias("Al")), Some(newtype("Ge", geometric()))];
    schema(listed)
        .with_entries(unlisted)
        .listing(&[8, 0, 1, 2, 3, 4, 5, 6, 7, 9, 77, u32::MAX, 6])
        .in_namespace(&["ride", "v1"])
}
