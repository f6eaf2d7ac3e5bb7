//! Facts about refusals: what the reader met, on which side.

use super::{Facts, Rows};
use crate::answer::Pair;
use crate::refusal::{Refusal, BODY, NAME};
use crate::schema::KIND_NAMES;

/// Only the image that answers counts.
pub fn facts(facts: &mut Facts, pair: &Pair) {
    match (&pair.old, &pair.new) {
        (Err(refusal), _) => met(facts, refusal, "old"),
        (_, Err(refusal)) => met(facts, refusal, "new"),
        _ => {}
    }
}

fn met(facts: &mut Facts, refusal: &Refusal, side: &str) {
    let Refusal {
        number,
        what,
        value,
        kind,
        ..
    } = refusal;
    facts.add(format!("{number} {side}: {what} {value}"));
    facts.add(format!("{number} {side}: {what}"));
    if *number == NAME {
        facts.add(format!("{number} {side}: byte {value}"));
    }
    if let Some(kind) = kind {
        let kind = KIND_NAMES[usize::from(*kind)];
        facts.add(format!("{number} {side}: {kind}: {what}"));
        if *number == BODY {
            facts.add(format!("{number} {side}: {kind}: {what} {value}"));
            facts.add_if(
                *what != "left over",
                format!("{number} {side}: {kind}: short by {value}"),
            );
        }
    }
}

pub fn rows(rows: &mut Rows) {
    front(rows);
    contents(rows);
    names(rows);
    bodies(rows);
    codes(rows);
    depths(rows);
}

/// A value on each side.
fn values(rows: &mut Rows, number: u8, what: &str, values: &[u64]) {
    for value in values {
        rows.sides(|side| format!("{number} {side}: {what} {value}"));
    }
}

/// Something met on each side, with whatever value.
fn places(rows: &mut Rows, number: u8, places: &[&str]) {
    for place in places {
        rows.sides(|side| format!("{number} {side}: {place}"));
    }
}

fn front(rows: &mut Rows) {
    values(rows, 1, "image", &[32_769]);
    values(rows, 2, "head", &[1, 2, 3, 4, 5, 6, 7, 8]);
    values(rows, 2, "contents", &[1, 2, 3, 4]);
    values(rows, 2, "ids", &[1, 2, 3, 4]);
    values(rows, 2, "name length", &[1]);
    values(rows, 2, "segment", &[1, 2]);
    values(rows, 3, "format", &[0, 4, 256, 258, 259, 65_535]);
    values(rows, 4, "N", &[513, 65_535]);
    values(rows, 4, "M", &[513, 65_535]);
    values(rows, 4, "S", &[17, 18, 256, 65_535]);
}

fn contents(rows: &mut Rows) {
    values(rows, 5, "gap before entry", &[1]);
    values(rows, 5, "entry too early", &[1]);
    values(rows, 5, "entry of no length", &[1]);
    values(rows, 5, "entry past the end", &[1]);
    values(rows, 5, "left after the last body", &[1]);
    values(rows, 5, "left after the names", &[1]);
}

fn names(rows: &mut Rows) {
    let outside = ['/', ':', '@', '[', '^', '`', '{'].map(|c| c as u64);
    values(rows, 7, "byte", &outside);
    values(rows, 7, "byte", &[0, 10, 32, 45, 46, 59, 127, 128, 255]);
    rows.distinct("7 old: byte ", 193);
    rows.distinct("7 new: byte ", 193);
    places(rows, 7, &["segment"]);
    for kind in &KIND_NAMES[..8] {
        places(rows, 7, &[&format!("{kind}: declaration name")]);
    }
    let inside = [
        "message: field name",
        "enum: enum variant name",
        "flags: bit name",
        "union: union variant name",
        "union: field name",
        "newtype: inline bit name",
    ];
    places(rows, 7, &inside);
}

/// What a field can lack.
const OF_FIELDS: &[&str] = &[
    "field ordinal",
    "field name",
    "field marks",
    "encoding",
    "inner encoding",
    "limit mark",
    "limit",
    "tag",
    "primitive",
    "type id",
    "signed",
    "bits",
];

/// What each kind of body can lack beside its name, and whether it has fields.
const WANTED: [(&str, &[&str], bool); 8] = [
    ("message", &["marks", "count"], true),
    (
        "enum",
        &[
            "marks",
            "width",
            "count",
            "item ordinal",
            "enum variant name",
        ],
        false,
    ),
    (
        "flags",
        &["width", "count", "item ordinal", "bit name"],
        false,
    ),
    (
        "union",
        &[
            "count",
            "variant ordinal",
            "union variant name",
            "variant's field count",
        ],
        true,
    ),
    (
        "newtype",
        &[
            "tag",
            "semantic",
            "size",
            "inline bit count",
            "inline bit name",
        ],
        false,
    ),
    ("config", &[], false),
    ("generic_alias", &[], false),
    ("trait", &[], false),
];

fn bodies(rows: &mut Rows) {
    values(rows, 6, "kind", &[9, 255]);
    for (kind, wanted, fields) in WANTED {
        let fields = if fields { OF_FIELDS } else { &[] };
        let name = ["name length", "declaration name"];
        for what in name.iter().chain(wanted).chain(fields) {
            places(rows, 8, &[&format!("{kind}: {what}")]);
        }
        values(rows, 8, &format!("{kind}: short by"), &[1]);
    }
    for kind in KIND_NAMES {
        values(rows, 8, &format!("{kind}: left over"), &[1, 2]);
    }
}

fn codes(rows: &mut Rows) {
    for marks in ["marks", "field marks"] {
        values(rows, 9, marks, &[4, 5, 128, 255]);
    }
    let places_of_marks = [
        "message: marks",
        "enum: marks",
        "message: field marks",
        "union: field marks",
    ];
    places(rows, 9, &places_of_marks);
    values(rows, 9, "width", &[0, 3, 5, 6, 7, 9, 16, 255]);
    rows.sides(|side| format!("9 {side}: flags: width"));
    for side in ["old", "new"] {
        rows.never(format!("9 {side}: enum: width"));
    }
    values(rows, 9, "encoding", &[4, 255]);
    values(rows, 9, "inner encoding", &[4, 255]);
    values(rows, 9, "limit mark", &[2, 255]);
    values(rows, 9, "primitive", &[14, 255]);
    values(rows, 9, "signed", &[2, 255]);
    values(rows, 9, "bits", &[0, 65, 255]);
    values(rows, 9, "semantic", &[6, 255]);
    values(rows, 9, "tag", &[17, 255]);
    let elsewhere = [
        "union: encoding",
        "union: limit mark",
        "message: tag",
        "union: tag",
        "newtype: tag",
    ];
    places(rows, 9, &elsewhere);
}

fn depths(rows: &mut Rows) {
    let outer: Vec<u64> = (4..=15).collect();
    values(rows, 10, "node under tag", &outer);
    values(rows, 10, "delta", &[9]);
    let deep = [
        "message: node under tag",
        "union: node under tag",
        "newtype: node under tag",
        "message: delta",
        "union: delta",
    ];
    places(rows, 10, &deep);
}
