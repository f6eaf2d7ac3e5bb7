//! Random edits from one release of a schema to the next, and damage to bytes.

use crate::limits::{DELTAS, NODES};
use crate::random::*;
use crate::rng::Rng;
use crate::schema::*;

/// The next release: 1 to `most` edits of any kind.
pub fn edited(rng: &mut Rng, schema: &Schema, most: usize) -> Schema {
    let mut next = schema.clone();
    for _ in 0..1 + rng.below(most) {
        edit(rng, &mut next);
    }
    next
}

fn edit(rng: &mut Rng, schema: &mut Schema) {
    let entries = schema.registry.len();
    match rng.below(24) {
        0 if rng.once_in(2) => edit_list(rng, &mut schema.namespace, random_name),
        1 => edit_list(rng, &mut schema.declarations, |rng| random_id(rng, entries)),
        2 | 3 if entries < 40 => {
            let declaration = random_declaration(rng, entries + 1);
            schema.registry.push(Some(declaration));
            schema.declarations.push(entries as u32);
        }
        4 if entries > 0 => renumber(rng, schema),
        5 => swap_two(rng, &mut schema.declarations),
        _ if entries > 0 => {
            let place = eventful(rng, schema);
            edit_entry(rng, &mut schema.registry[place], entries);
        }
        _ => {}
    }
}

/// A place in the registry, rather one with something to compare in it.
fn eventful(rng: &mut Rng, schema: &Schema) -> usize {
    let full = |entry: &Option<Declaration>| entry.as_ref().is_some_and(|d| d.kind() < 5);
    let mut place = 0;
    for _ in 0..4 {
        place = rng.below(schema.registry.len());
        if full(&schema.registry[place]) {
            break;
        }
    }
    place
}

/// Two entries change places and every id follows: no verdict may change.
pub fn renumber(rng: &mut Rng, schema: &mut Schema) {
    let entries = schema.registry.len();
    let (a, b) = (rng.below(entries) as u32, rng.below(entries) as u32);
    schema.registry.swap(a as usize, b as usize);
    let follow = |id: &mut u32| {
        *id = match *id {
            id if id == a => b,
            id if id == b => a,
            id => id,
        }
    };
    schema.declarations.iter_mut().for_each(follow);
    for declaration in schema.registry.iter_mut().flatten() {
        for ty in types_of(declaration) {
            follow_ids(ty, &follow);
        }
    }
}

fn follow_ids(ty: &mut Type, follow: &impl Fn(&mut u32)) {
    if let Label::Named(id) = &mut ty.label {
        follow(id);
    }
    for inner in &mut ty.inner {
        follow_ids(inner, follow);
    }
}

/// Every type that a declaration holds.
pub fn types_of(declaration: &mut Declaration) -> Vec<&mut Type> {
    match &mut declaration.body {
        Body::Message(_, fields) => fields.iter_mut().map(|f| &mut f.ty).collect(),
        Body::Union(variants) => {
            let fields = variants.iter_mut().flat_map(|v| v.fields.iter_mut());
            fields.map(|f| &mut f.ty).collect()
        }
        Body::Newtype(inner) => vec![inner],
        _ => Vec::new(),
    }
}

pub fn edit_entry(rng: &mut Rng, entry: &mut Option<Declaration>, entries: usize) {
    let Some(declaration) = entry else {
        *entry = Some(random_declaration(rng, entries));
        return;
    };
    match rng.below(16) {
        0 if rng.once_in(2) => *entry = None,
        1 if declaration.kind() != IMPL => declaration.name = random_name(rng),
        2 => {
            let name = declaration.name.clone();
            *declaration = random_declaration(rng, entries);
            if declaration.kind() != IMPL {
                declaration.name = name;
            }
        }
        _ => edit_body(rng, &mut declaration.body, entries),
    }
}

fn edit_body(rng: &mut Rng, body: &mut Body, entries: usize) {
    match body {
        Body::Message(marks, _) if rng.once_in(4) => *marks = random_marks(rng),
        Body::Message(_, fields) => edit_fields(rng, fields, entries),
        Body::Enum(marks, _, _) if rng.once_in(3) => *marks = random_marks(rng),
        Body::Enum(_, _, list) | Body::Flags(_, list) => edit_items(rng, list),
        Body::Union(variants) => edit_variants(rng, variants, entries),
        Body::Newtype(inner) => edit_type(rng, inner, entries),
        _ => {}
    }
}

fn random_marks(rng: &mut Rng) -> Marks {
    Marks::of(rng.below(4) as u8)
}

fn edit_items(rng: &mut Rng, list: &mut Vec<Item>) {
    match pick_mut(rng, list) {
        Some(item) if rng.once_in(3) => item.name = random_name(rng),
        _ => edit_list(rng, list, random_item),
    }
}

fn edit_variants(rng: &mut Rng, list: &mut Vec<Variant>, entries: usize) {
    match pick_mut(rng, list) {
        Some(variant) if rng.once_in(4) => variant.name = random_name(rng),
        Some(variant) if rng.once_in(2) => edit_fields(rng, &mut variant.fields, entries),
        _ => edit_list(rng, list, |rng| random_variant(rng, entries)),
    }
}

fn edit_fields(rng: &mut Rng, list: &mut Vec<Field>, entries: usize) {
    match pick_mut(rng, list) {
        Some(field) if !rng.once_in(4) => edit_field(rng, field, entries),
        _ => edit_list(rng, list, |rng| random_field(rng, entries)),
    }
}

fn edit_field(rng: &mut Rng, field: &mut Field, entries: usize) {
    match rng.below(12) {
        0..=3 => field.name = random_name(rng),
        4..=7 => field.marks = random_marks(rng),
        8 => field.limit = random_limit(rng),
        9 => field.encoding.deltas = random_deltas(rng),
        10 => field.encoding.base = rng.below(3) as u8,
        _ => edit_type(rng, &mut field.ty, entries),
    }
}

/// Replaces a node somewhere in the tree, or wraps it.
fn edit_type(rng: &mut Rng, ty: &mut Type, entries: usize) {
    if !ty.inner.is_empty() && !rng.once_in(3) {
        let place = rng.below(ty.inner.len());
        return edit_type(rng, &mut ty.inner[place], entries);
    }
    *ty = random_type(rng, entries, 3);
}

pub fn pick_mut<'a, T>(rng: &mut Rng, list: &'a mut [T]) -> Option<&'a mut T> {
    match list.len() {
        0 => None,
        length => Some(&mut list[rng.below(length)]),
    }
}

fn swap_two<T>(rng: &mut Rng, list: &mut [T]) {
    if !list.is_empty() {
        let (a, b) = (rng.below(list.len()), rng.below(list.len()));
        list.swap(a, b);
    }
}

/// One member more, one less, two that change places, or one twice.
fn edit_list<T: Clone>(rng: &mut Rng, list: &mut Vec<T>, make: impl Fn(&mut Rng) -> T) {
    if list.is_empty() || (list.len() < 16 && rng.once_in(3)) {
        let place = rng.below(list.len() + 1);
        list.insert(place, make(rng));
        return;
    }
    let place = rng.below(list.len());
    match rng.below(4) {
        0 => swap_two(rng, list),
        1 if list.len() < 16 => list.push(list[place].clone()),
        _ => {
            list.remove(place);
        }
    }
}

/// A node or a delta too many, where the schema has a field.
pub fn too_deep(rng: &mut Rng, schema: &mut Schema) {
    let bodies = schema.registry.iter_mut().flatten().map(|d| &mut d.body);
    let mut fields = bodies.flat_map(|body| match body {
        Body::Message(_, fields) => fields.iter_mut().collect::<Vec<_>>(),
        Body::Union(variants) => variants.iter_mut().flat_map(|v| &mut v.fields).collect(),
        _ => Vec::new(),
    });
    if let Some(field) = fields.next() {
        match rng.once_in(2) {
            true => field.encoding.deltas = DELTAS + 1,
            false => field.ty = deepened(field.ty.clone(), NODES + 1),
        }
    }
}

/// Changes, cuts, adds or repeats a few bytes.
pub fn damaged(rng: &mut Rng, image: &[u8]) -> Vec<u8> {
    let mut bytes = image.to_vec();
    for _ in 0..1 + rng.below(3) {
        let place = rng.below(bytes.len().max(1));
        match rng.below(8) {
            0 => bytes.truncate(place),
            1 => bytes.insert(place.min(bytes.len()), rng.next() as u8),
            2 if !bytes.is_empty() => {
                bytes.remove(place);
            }
            3 if !bytes.is_empty() => bytes[place] = bytes[place].wrapping_add(1),
            _ if !bytes.is_empty() => bytes[place] = rng.next() as u8,
            _ => {}
        }
    }
    bytes
}
