//! Random pairs made for imports: few entries are listed, and names lead from one
//! entry to the next, in rings, twice to one name, from fields that are dead and to
//! ids that are unresolvable.

use super::reached;
use super::shapes::random_imports;
use crate::edits::{edit_entry, edited, pick_mut, renumber, types_of};
use crate::limits::{ENTRIES, IMAGE_BYTES};
use crate::made::images;
use crate::random::random_id;
use crate::rng::Rng;
use crate::schema::*;
use crate::writer::image;

/// The images of a pair of the first format; now and then one of them is faulty.
pub fn import_pair(rng: &mut Rng) -> (Vec<u8>, Vec<u8>) {
    let releases = import_releases(rng);
    images(rng, releases)
}

/// A release and mostly the next one, else another or the same.
pub fn import_releases(rng: &mut Rng) -> [Schema; 2] {
    loop {
        let most = match rng.once_in(100) {
            true => 120,
            false => *rng.pick(&[3, 5, 8, 12, 16, 16, 30]),
        };
        let old = random_imports(rng, most);
        let new = match rng.below(16) {
            0 => random_imports(rng, most),
            1 => old.clone(),
            _ => next_release(rng, &old),
        };
        // Mostly edits add to what they find; the other way about they take away.
        let releases = match rng.once_in(2) {
            true => [old, new],
            false => [new, old],
        };
        if releases.iter().all(|r| image(r).len() <= IMAGE_BYTES) {
            return releases;
        }
    }
}

/// One to three edits: of an entry that is reached, of where names lead, or of
/// anything.
fn next_release(rng: &mut Rng, schema: &Schema) -> Schema {
    let mut next = schema.clone();
    for _ in 0..1 + rng.below(3) {
        match rng.below(8) {
            0..=4 => edit_reached(rng, &mut next),
            5 | 6 => edit_ways(rng, &mut next),
            _ => next = edited(rng, &next, 1),
        }
    }
    next
}

fn edit_reached(rng: &mut Rng, schema: &mut Schema) {
    let entries = schema.registry.len();
    let id = reached_id(rng, schema);
    if let Some(entry) = schema.registry.get_mut(id as usize) {
        edit_entry(rng, entry, entries);
    }
}

/// The id of an entry that is reached, or any id if there is none.
fn reached_id(rng: &mut Rng, schema: &Schema) -> u32 {
    let ids: Vec<u32> = reached(schema).into_iter().collect();
    match ids.is_empty() {
        true => random_id(rng, schema.registry.len()),
        false => *rng.pick(&ids),
    }
}

fn edit_ways(rng: &mut Rng, schema: &mut Schema) {
    let entries = schema.registry.len();
    let listed = schema.declarations.len();
    match rng.below(8) {
        0..=2 => {
            let place = rng.below(listed + 1);
            let id = reached_id(rng, schema);
            schema.declarations.insert(place, id);
        }
        3 if listed > 0 => {
            schema.declarations.remove(rng.below(listed));
        }
        4 => {
            let id = random_id(rng, entries);
            lead(rng, schema, id);
        }
        5 => follow_a_copy(rng, schema),
        _ if entries > 0 => renumber(rng, schema),
        _ => {}
    }
}

/// An entry comes twice, and a name leads to the second.
fn follow_a_copy(rng: &mut Rng, schema: &mut Schema) {
    let entries = schema.registry.len();
    if entries > 0 && entries < usize::from(ENTRIES) {
        let copy = schema.registry[rng.below(entries)].clone();
        schema.registry.push(copy);
        lead(rng, schema, entries as u32);
    }
}

/// Makes one named node of the schema lead to this id, if it has any.
fn lead(rng: &mut Rng, schema: &mut Schema, id: u32) {
    let mut nodes = Vec::new();
    for declaration in schema.registry.iter_mut().flatten() {
        for ty in types_of(declaration) {
            named_nodes(ty, &mut nodes);
        }
    }
    if let Some(node) = pick_mut(rng, &mut nodes) {
        **node = id;
    }
}

fn named_nodes<'a>(ty: &'a mut Type, nodes: &mut Vec<&'a mut u32>) {
    if let Label::Named(id) = &mut ty.label {
        nodes.push(id);
    }
    for inner in &mut ty.inner {
        named_nodes(inner, nodes);
    }
}
