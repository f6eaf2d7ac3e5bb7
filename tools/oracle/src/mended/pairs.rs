//! Random releases made for R-5: vectors, quaternions and matrices stand in most types,
//! and the next release edits them, what is below them, or something else.

use super::holds_geometric;
use super::shapes::{enclose, geometric_tag, random_geometric};
use crate::edits::{edited, pick_mut, renumber, types_of};
use crate::limits::{IMAGE_BYTES, NODES};
use crate::made::images;
use crate::make::*;
use crate::random::*;
use crate::rng::Rng;
use crate::schema::*;
use crate::writer::image;

/// The images of a pair of the first format; now and then one of them is faulty.
pub fn mended_pair(rng: &mut Rng) -> (Vec<u8>, Vec<u8>) {
    let [old, new, _] = mended_releases(rng);
    images(rng, [old, new])
}

/// Three releases of the first format: each mostly the next one, else another or the same. Mostly edits add
/// to what they find; the other way about they take away.
pub fn mended_releases(rng: &mut Rng) -> [Schema; 3] {
    loop {
        let first = random_geometric(rng);
        let second = release_after(rng, &first);
        let third = release_after(rng, &second);
        let releases = match rng.once_in(2) {
            true => [first, second, third],
            false => [third, second, first],
        };
        if releases.iter().all(legal) {
            return releases;
        }
    }
}

fn legal(schema: &Schema) -> bool {
    let mut types = schema.clone();
    let types = types.registry.iter_mut().flatten().flat_map(types_of);
    image(schema).len() <= IMAGE_BYTES && types.into_iter().all(|ty| depth(ty) <= NODES)
}

fn release_after(rng: &mut Rng, schema: &Schema) -> Schema {
    let mut next = schema.clone();
    match rng.below(16) {
        0 => return random_geometric(rng),
        1 => {}
        2..=7 => (0..1 + rng.below(3)).for_each(|_| gentle_edit(rng, &mut next)),
        _ => {
            for _ in 0..1 + rng.below(2) {
                match rng.below(12) {
                    0 | 1 => gentle_edit(rng, &mut next),
                    2 => edit_field(rng, &mut next, encode_anew),
                    3 => next = edited(rng, &next, 2),
                    _ => edit_node(rng, &mut next),
                }
            }
        }
    }
    next
}

/// Leaves every type as it is: by the mended verdict Patch or Minor, mostly.
fn gentle_edit(rng: &mut Rng, schema: &mut Schema) {
    let entries = schema.registry.len();
    match rng.below(8) {
        0 | 1 if entries > 0 => renumber(rng, schema),
        2 => {
            schema.registry.push(Some(config(&random_name(rng))));
            schema.declarations.push(entries as u32);
        }
        3..=5 => edit_field(rng, schema, |rng, field| field.name = random_name(rng)),
        _ => edit_field(rng, schema, |rng, field| {
            field.marks = Marks::of(rng.below(4) as u8);
        }),
    }
}

fn encode_anew(rng: &mut Rng, field: &mut Field) {
    match rng.once_in(2) {
        true => field.encoding.base = rng.below(3) as u8,
        false => field.limit = random_limit(rng),
    }
}

fn edit_field(rng: &mut Rng, schema: &mut Schema, edit: fn(&mut Rng, &mut Field)) {
    let bodies = schema.registry.iter_mut().flatten().map(|d| &mut d.body);
    let mut fields: Vec<&mut Field> = bodies.flat_map(fields_of).collect();
    if let Some(field) = pick_mut(rng, &mut fields) {
        edit(rng, field);
    }
}

fn fields_of(body: &mut Body) -> Vec<&mut Field> {
    match body {
        Body::Message(_, fields) => fields.iter_mut().collect(),
        Body::Union(variants) => variants.iter_mut().flat_map(|v| &mut v.fields).collect(),
        _ => Vec::new(),
    }
}

/// Edits a vector, quaternion or matrix, a node that holds one, or any node.
fn edit_node(rng: &mut Rng, schema: &mut Schema) {
    let wanted: fn(&Type) -> bool = match rng.below(4) {
        0 => |_| true,
        1 => holds_geometric,
        _ => |ty| GEOMETRIC.contains(&ty.tag()),
    };
    let entries = schema.registry.len();
    let types = schema.registry.iter_mut().flatten().flat_map(types_of);
    let mut types: Vec<&mut Type> = types.collect();
    let all: usize = types.iter().map(|ty| count(ty, wanted)).sum();
    let mut place = rng.below(all.max(1));
    let mut nodes = types.iter_mut();
    let node = nodes.find_map(|ty| nth(ty, wanted, &mut place));
    node.into_iter().for_each(|node| alter(rng, node, entries));
}

fn count(ty: &Type, wanted: fn(&Type) -> bool) -> usize {
    let inner = ty.inner.iter().map(|inner| count(inner, wanted));
    usize::from(wanted(ty)) + inner.sum::<usize>()
}

/// The node at this place among the wanted ones, from the root on.
fn nth<'a>(ty: &'a mut Type, wanted: fn(&Type) -> bool, place: &mut usize) -> Option<&'a mut Type> {
    if wanted(ty) {
        if *place == 0 {
            return Some(ty);
        }
        *place -= 1;
    }
    let mut inner = ty.inner.iter_mut();
    inner.find_map(|inner| nth(inner, wanted, place))
}

/// Another tag, one node less or more, or something else below.
fn alter(rng: &mut Rng, node: &mut Type, entries: usize) {
    match rng.below(8) {
        0 | 1 if node.inner.len() == 1 => node.label = Label::Wrapper(geometric_tag(rng)),
        2 if node.inner.len() == 1 => node.label = Label::Wrapper(*rng.pick(&[4, 5, 7])),
        3 if !node.inner.is_empty() => *node = node.inner.remove(0),
        4 => enclose(rng, node),
        5 if node.inner.len() == 2 => node.inner.swap(0, 1),
        _ => {
            let leaf = some_node_below(rng, node);
            *leaf = match rng.once_in(3) {
                true => named(random_id(rng, entries)),
                false => recoded(rng, leaf),
            };
        }
    }
}

/// A leaf, or a node above it whose label has a number.
fn some_node_below<'a>(rng: &mut Rng, node: &'a mut Type) -> &'a mut Type {
    let sized = matches!(node.label, Label::FixedArray(_));
    if node.inner.is_empty() || sized && rng.once_in(2) {
        return node;
    }
    let place = rng.below(node.inner.len());
    some_node_below(rng, &mut node.inner[place])
}

/// The same tag with another code, size or name, where it has one.
fn recoded(rng: &mut Rng, node: &Type) -> Type {
    match &node.label {
        Label::SubByte { signed, .. } => sub_byte(*signed, 1 + rng.below(64) as u8),
        Label::Semantic(_) => semantic(rng.below(6) as u8),
        Label::Bits(_) => bits(&[&random_name(rng)]),
        Label::FixedArray(_) => fixed_array(node.inner[0].clone(), rng.below(9) as u64),
        _ => primitive(rng.below(14) as u8),
    }
}
