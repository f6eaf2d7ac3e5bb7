//! Random schemas of which most is imported.

use crate::limits::NODES;
use crate::make::*;
use crate::random::{deepened, random_declaration, random_item, random_name};
use crate::rng::Rng;
use crate::schema::*;

/// What the entries of one schema have in common.
struct Shape {
    entries: usize,
    /// Names are taken from so many: the fewer, the more they repeat.
    names: usize,
    /// Most names lead to the next entry.
    chained: bool,
    /// It may have generic aliases, which refuse a pair if they stand in both.
    aliases: bool,
    /// It may have tags 10 to 15, each of which makes a pair Breaking.
    geometric: bool,
}

impl Shape {
    /// So many entries, the first ones, have types.
    fn leading(&self) -> usize {
        1 + self.entries / 4
    }
}

pub fn random_imports(rng: &mut Rng, most_entries: usize) -> Schema {
    let entries = 2 + rng.below(most_entries);
    let shape = Shape {
        entries,
        names: *rng.pick(&[1 + entries / 2, entries, 3 * entries, 20 * entries]),
        chained: rng.once_in(3),
        aliases: rng.once_in(3),
        geometric: rng.once_in(5),
    };
    let registry = (0..entries).map(|id| match rng.once_in(20) {
        true => None,
        false => Some(declaration(rng, &shape, id)),
    });
    let registry = registry.collect();
    Schema {
        format: FIRST_FORMAT,
        namespace: names(&["ride"]),
        registry,
        declarations: listed(rng, &shape),
    }
}

/// Few ids, most of those that lead on; sometimes half of all, and now and then one
/// that is unresolvable.
fn listed(rng: &mut Rng, shape: &Shape) -> Vec<u32> {
    let count = match rng.once_in(8) {
        true => shape.entries / 2,
        false => 1 + rng.below(3),
    };
    let mut ids: Vec<u32> = (0..count)
        .map(|_| match rng.once_in(4) {
            true => rng.below(shape.entries) as u32,
            false => rng.below(shape.leading()) as u32,
        })
        .collect();
    if rng.once_in(8) {
        ids.push(unresolvable(rng, shape));
    }
    ids
}

fn unresolvable(rng: &mut Rng, shape: &Shape) -> u32 {
    let next = shape.entries as u32;
    *rng.pick(&[next, next + 1, 0x1_0000, u32::MAX])
}

fn declaration(rng: &mut Rng, shape: &Shape, id: usize) -> Declaration {
    let name = match rng.once_in(30) {
        true => random_name(rng),
        false => format!("E{}", rng.below(shape.names)),
    };
    let leads = id < shape.leading() || shape.chained && !rng.once_in(10);
    let kinds = if leads { 14 } else { 22 };
    match rng.below(kinds) {
        0..=7 => marked_message(&name, rng.below(2) as u8, fields(rng, shape, id)),
        8..=11 => union(&name, variants(rng, shape, id)),
        12 | 13 => newtype(&name, random_type(rng, shape, id, 4)),
        14 => enumeration(&name, 2, vec![random_item(rng)]),
        15 => flags(&name, vec![random_item(rng)]),
        16 | 17 if shape.aliases => alias(&name),
        18 if rng.once_in(2) => implementation(),
        19 => of_kind(5 + 2 * rng.below(2) as u8, &name),
        _ => plain_declaration(rng, &name, shape.entries),
    }
}

/// One of the other generators, but no alias.
fn plain_declaration(rng: &mut Rng, name: &str, entries: usize) -> Declaration {
    let mut declaration = random_declaration(rng, entries);
    match declaration.kind() {
        GENERIC_ALIAS => config(name),
        IMPL => declaration,
        _ => {
            declaration.name = name.to_string();
            declaration
        }
    }
}

/// Of few ordinals, so that some fields are dead.
fn fields(rng: &mut Rng, shape: &Shape, id: usize) -> Vec<Field> {
    let count = 1 + rng.below(3);
    let field = |_| {
        let ordinal = rng.below(5) as u32;
        field(
            ordinal,
            &format!("f{ordinal}"),
            random_type(rng, shape, id, 4),
        )
    };
    (0..count).map(field).collect()
}

fn variants(rng: &mut Rng, shape: &Shape, id: usize) -> Vec<Variant> {
    let count = 1 + rng.below(3);
    let variant = |_| {
        let ordinal = rng.below(4) as u32;
        let fields = fields(rng, shape, id);
        variant(ordinal, &format!("v{ordinal}"), fields)
    };
    (0..count).map(variant).collect()
}

fn random_type(rng: &mut Rng, shape: &Shape, id: usize, depth: usize) -> Type {
    let ty = match depth == 1 || rng.once_in(2) {
        true => leaf(rng, shape, id),
        false => wrapper(rng, shape, id, depth),
    };
    match rng.once_in(60) && crate::schema::depth(&ty) < NODES {
        true if depth == 4 => deepened(ty, NODES),
        _ => ty,
    }
}

fn wrapper(rng: &mut Rng, shape: &Shape, id: usize, depth: usize) -> Type {
    let inner = random_type(rng, shape, id, depth - 1);
    match rng.below(8) {
        0 => wrapped(5, inner),
        1 => wrapped(7, inner),
        2 => fixed_array(inner, 4),
        3 if shape.geometric => wrapped(10 + rng.below(6) as u8, inner),
        4 | 5 => {
            let other = random_type(rng, shape, id, depth - 1);
            double(8 + rng.below(2) as u8, inner, other)
        }
        _ => wrapped(4, inner),
    }
}

fn leaf(rng: &mut Rng, shape: &Shape, id: usize) -> Type {
    match rng.below(3) {
        0 => primitive(rng.below(4) as u8),
        _ => named(target(rng, shape, id)),
    }
}

/// Where a name in this entry leads.
fn target(rng: &mut Rng, shape: &Shape, id: usize) -> u32 {
    match rng.below(12) {
        0 => unresolvable(rng, shape),
        1 => id as u32,
        2..=9 if shape.chained => ((id + 1) % shape.entries) as u32,
        _ => rng.below(shape.entries) as u32,
    }
}
