//! Facts about compared types: the first nodes that differ, and the nodes that
//! are equal.

use super::compared::Pairing;
use super::held::unresolvable;
use super::{Facts, Rows};
use crate::limits::NODES;
use crate::schema::*;
use crate::types::{labels_equal, name_of, types_equal};

pub fn root(pairing: &mut Pairing, old: &Type, new: &Type) {
    let (o, n) = (old.tag(), new.tag());
    pairing.facts.add(format!("tags at the root {o} and {n}"));
    let equal = types_equal(pairing.old, old, pairing.new, new);
    if equal {
        pairing
            .facts
            .add(format!("types equal, {} nodes deep", depth(old)));
    } else {
        of_shown(pairing.facts, old);
        of_shown(pairing.facts, new);
    }
    nodes(pairing, old, new, 1);
}

/// What a line of the report shows.
fn of_shown(facts: &mut Facts, ty: &Type) {
    match &ty.label {
        Label::Primitive(code) => facts.add(format!("shown primitive {code}")),
        Label::SubByte { signed, bits } => facts.add(format!("shown sub-byte {signed} {bits}")),
        Label::Semantic(code) => facts.add(format!("shown semantic {code}")),
        Label::FixedArray(size) => {
            let digits = size.to_string().len();
            facts.add(format!("shown size of {digits} digits"));
            facts.add("shown tag 6".to_string());
        }
        _ => facts.add(format!("shown tag {}", ty.tag())),
    }
    for inner in &ty.inner {
        facts.add(format!("shown within tag {}: {}", ty.tag(), inner.tag()));
        of_shown(facts, inner);
    }
}

/// Both trees together, as far as the labels are equal.
fn nodes(pairing: &mut Pairing, old: &Type, new: &Type, node: usize) {
    let (o, n) = (old.tag(), new.tag());
    let equal = labels_equal(pairing.old, &old.label, pairing.new, &new.label);
    if let (Label::Named(o), Label::Named(n)) = (&old.label, &new.label) {
        of_named(pairing, *o, *n);
    }
    if !equal {
        pairing
            .facts
            .add(format!("first difference at node {node}"));
        pairing
            .facts
            .add_if(o == n, format!("tag {o} differs from itself"));
        codes(pairing.facts, old, new);
        return;
    }
    pairing.facts.add(format!("tag {o} equal"));
    let inner = old.inner.iter().zip(&new.inner).enumerate();
    for (place, (old, new)) in inner {
        if !types_equal(pairing.old, old, pairing.new, new) {
            pairing
                .facts
                .add(format!("inner type {place} of tag {o} differs"));
        } else {
            pairing
                .facts
                .add(format!("tag {} equal within {o}", old.tag()));
        }
        nodes(pairing, old, new, node + 1);
    }
}

fn codes(facts: &mut Facts, old: &Type, new: &Type) {
    match (&old.label, &new.label) {
        (Label::Primitive(o), Label::Primitive(n)) => facts.add(format!("primitives {o} and {n}")),
        (Label::Semantic(o), Label::Semantic(n)) => facts.add(format!("semantics {o} and {n}")),
        (
            Label::SubByte {
                signed: os,
                bits: ob,
            },
            Label::SubByte {
                signed: ns,
                bits: nb,
            },
        ) => {
            facts.add_if(os != ns && ob == nb, "sub-bytes differ by sign");
            facts.add_if(os == ns && ob != nb, "sub-bytes differ by width");
        }
        (Label::Bits(o), Label::Bits(n)) => {
            let sorted = |names: &[String]| {
                let mut names = names.to_vec();
                names.sort();
                names
            };
            facts.add_if(sorted(o) == sorted(n), "bits differ by order");
            facts.add_if(o.len() != n.len(), "bits differ by number");
            facts.add_if(o.concat() == n.concat(), "bits joined are alike");
        }
        _ => {}
    }
}

fn of_named(pairing: &mut Pairing, old: u32, new: u32) {
    let word = |schema: &Schema, id: u32| match schema.get(id) {
        None => "unresolvable".to_string(),
        Some(declaration) => KIND_NAMES[usize::from(declaration.kind())].to_string(),
    };
    let (o, n) = (word(pairing.old, old), word(pairing.new, new));
    let gone = (
        unresolvable(pairing.old, old),
        unresolvable(pairing.new, new),
    );
    let facts = &mut *pairing.facts;
    if let (Some(_), Some(_)) = gone {
        let ids = if old == new { "same id" } else { "other ids" };
        facts.add(format!("named: both unresolvable, {ids}"));
        facts.add_if(old != new, "edge c: two unresolvable ids");
        return;
    }
    if gone != (None, None) {
        facts.add(format!("named: {o} and {n}"));
        facts.add_if(o == "impl" || n == "impl", "edge d: unresolvable and impl");
        return;
    }
    facts.add(format!("named: {o}"));
    let same_name = name_of(pairing.old, old) == name_of(pairing.new, new);
    let names = if same_name { "one name" } else { "two names" };
    let ids = if old == new { "one id" } else { "two ids" };
    facts.add(format!("named: {names}, {ids}"));
    facts.add_if(same_name && o != n, "named: one name, two kinds");
}

pub fn rows(rows: &mut Rows) {
    rows.distinct("tags at the root ", 17 * 17);
    rows.distinct("primitives ", 14 * 13);
    rows.distinct("semantics ", 6 * 5);
    rows.distinct("shown primitive ", 14);
    rows.distinct("shown semantic ", 6);
    rows.distinct("shown sub-byte ", 128);
    rows.distinct("shown size of ", 20);
    for tag in 0..=16 {
        one_tag(rows, tag);
    }
    for outer in (4..=15).filter(|tag| !GEOMETRIC.contains(tag)) {
        within(rows, outer);
    }
    for node in 1..=NODES {
        rows.one(format!("first difference at node {node}"));
        rows.one(format!("types equal, {node} nodes deep"));
    }
    for how in ["sign", "width"] {
        rows.one(format!("sub-bytes differ by {how}"));
    }
    rows.one("bits differ by order");
    rows.one("bits differ by number");
    rows.one("bits joined are alike");
    named(rows);
}

fn one_tag(rows: &mut Rows, tag: u8) {
    let geometric = GEOMETRIC.contains(&tag);
    match geometric {
        true => rows.never(format!("tag {tag} equal")),
        false => rows.one(format!("tag {tag} equal")),
    }
    // The other labels are no more than their tag.
    if geometric || matches!(tag, 0..=3 | 6 | 16) {
        rows.one(format!("tag {tag} differs from itself"));
    }
    if tag > 2 {
        rows.one(format!("shown tag {tag}"));
    }
    if inner_types(tag) > 0 {
        rows.distinct(format!("shown within tag {tag}: "), 17);
    }
}

/// What stands equal and what differs inside a tag that can be equal.
fn within(rows: &mut Rows, outer: u8) {
    for place in 0..inner_types(outer) {
        rows.one(format!("inner type {place} of tag {outer} differs"));
    }
    for tag in (0..=16).filter(|tag| !GEOMETRIC.contains(tag)) {
        rows.one(format!("tag {tag} equal within {outer}"));
    }
}

fn named(rows: &mut Rows) {
    for kind in KIND_NAMES {
        rows.one(format!("named: {kind}"));
        rows.one(format!("named: {kind} and unresolvable"));
        rows.one(format!("named: unresolvable and {kind}"));
    }
    for names in ["one name", "two names"] {
        for ids in ["one id", "two ids"] {
            rows.one(format!("named: {names}, {ids}"));
        }
    }
    rows.one("named: one name, two kinds");
    rows.one("named: both unresolvable, same id");
    rows.one("named: both unresolvable, other ids");
}
