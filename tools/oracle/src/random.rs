//! Random schemas. Names, ordinals and ids come from small pools, so that
//! repeats, shared names and unresolvable ids are common.

use crate::limits::{DELTAS, NODES};
use crate::make::*;
use crate::rng::Rng;
use crate::schema::*;

const NAMES: [&str; 14] = [
    "A", "Aa", "Aa0", "B", "Drive", "Drive_", "a", "_", "0", "limit", "Limit", "speed", "x", "",
];
const ORDINALS: [u32; 8] = [0, 1, 2, 3, 4, 7, 300, u32::MAX];
const LIMITS: [u64; 4] = [0, 8, 9, u64::MAX];

pub fn random_name(rng: &mut Rng) -> String {
    match rng.once_in(3) {
        true => format!("n{}", rng.below(20)),
        false => rng.pick(&NAMES).to_string(),
    }
}

pub fn random_ordinal(rng: &mut Rng) -> u32 {
    *rng.pick(&ORDINALS)
}

/// An id around a registry of `entries` entries; seldom far from it.
pub fn random_id(rng: &mut Rng, entries: usize) -> u32 {
    match rng.below(12) {
        0 => entries as u32,
        1 => u32::MAX - rng.below(2) as u32,
        2 => 0x1_0000 + rng.below(3) as u32,
        _ => rng.below(entries.max(1)) as u32,
    }
}

fn list_of<T>(rng: &mut Rng, most: usize, mut make: impl FnMut(&mut Rng) -> T) -> Vec<T> {
    (0..rng.below(most + 1)).map(|_| make(rng)).collect()
}

pub fn random_schema(rng: &mut Rng, most_entries: usize) -> Schema {
    let entries = match rng.once_in(12) {
        true => 0,
        false => 1 + rng.below(most_entries),
    };
    let registry: Vec<_> = (0..entries)
        .map(|_| match rng.once_in(12) {
            true => None,
            false => Some(random_declaration(rng, entries)),
        })
        .collect();
    let mut declarations: Vec<u32> = (0..entries as u32).filter(|_| !rng.once_in(6)).collect();
    if rng.once_in(4) {
        declarations.push(random_id(rng, entries));
    }
    let segments = if rng.once_in(8) { 4 } else { 2 };
    Schema {
        format: FIRST_FORMAT,
        namespace: list_of(rng, segments, random_name),
        registry,
        declarations,
    }
}

pub fn random_declaration(rng: &mut Rng, entries: usize) -> Declaration {
    let name = random_name(rng);
    let marks = rng.below(4) as u8;
    match rng.below(16) {
        0..=4 => marked_message(
            &name,
            marks,
            list_of(rng, 5, |rng| random_field(rng, entries)),
        ),
        5..=7 => enumeration(&name, marks, list_of(rng, 5, random_item)),
        8 | 9 => flags(&name, list_of(rng, 5, random_item)),
        10..=12 => union(&name, list_of(rng, 4, |rng| random_variant(rng, entries))),
        13 => newtype(&name, random_type(rng, entries, 4)),
        _ => of_kind(5 + rng.below(4) as u8, &name),
    }
}

pub fn random_item(rng: &mut Rng) -> Item {
    item(random_ordinal(rng), &random_name(rng))
}

pub fn random_variant(rng: &mut Rng, entries: usize) -> Variant {
    let fields = list_of(rng, 3, |rng| random_field(rng, entries));
    variant(random_ordinal(rng), &random_name(rng), fields)
}

pub fn random_field(rng: &mut Rng, entries: usize) -> Field {
    let mut ty = random_type(rng, entries, 4);
    if rng.once_in(100) {
        ty = deepened(ty, NODES);
    }
    let mut field = field(random_ordinal(rng), &random_name(rng), ty);
    if rng.once_in(3) {
        field = field.marked(rng.below(4) as u8);
    }
    if rng.once_in(3) {
        field = field.encoded(random_deltas(rng), rng.below(3) as u8);
    }
    field.limited(random_limit(rng))
}

pub fn random_deltas(rng: &mut Rng) -> u8 {
    match rng.once_in(6) {
        true => rng.below(usize::from(DELTAS) + 1) as u8,
        false => rng.below(2) as u8,
    }
}

pub fn random_limit(rng: &mut Rng) -> Option<u64> {
    rng.once_in(4).then(|| *rng.pick(&LIMITS))
}

/// At most `depth` nodes on a path. Tags 10 to 15 are kept seldom, for each of
/// them makes the pair Breaking.
pub fn random_type(rng: &mut Rng, entries: usize, depth: usize) -> Type {
    if depth == 1 || rng.once_in(2) {
        return random_leaf(rng, entries);
    }
    let inner = random_type(rng, entries, depth - 1);
    match rng.below(20) {
        0..=5 => wrapped(4, inner),
        6..=9 => wrapped(5, inner),
        10..=12 => fixed_array(inner, *rng.pick(&LIMITS)),
        13 | 14 => wrapped(7, inner),
        15 => wrapped(10 + rng.below(6) as u8, inner),
        n => double(
            8 + (n % 2) as u8,
            inner,
            random_type(rng, entries, depth - 1),
        ),
    }
}

/// The type inside as many optionals as make a path of so many nodes.
pub fn deepened(ty: Type, nodes: usize) -> Type {
    (depth(&ty)..nodes).fold(ty, |ty, _| wrapped(4, ty))
}

fn random_leaf(rng: &mut Rng, entries: usize) -> Type {
    match rng.below(12) {
        0..=4 => primitive(rng.below(14) as u8),
        5 => sub_byte(rng.once_in(2), 1 + rng.below(64) as u8),
        6 | 7 => semantic(rng.below(6) as u8),
        8..=10 => named(random_id(rng, entries)),
        _ => {
            let list = list_of(rng, 3, random_name);
            bits(&list.iter().map(String::as_str).collect::<Vec<_>>())
        }
    }
}
