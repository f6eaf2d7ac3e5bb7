//! Copies with one fault that a wrong refiler would make: their form is another.

use super::super::Tests;
use super::filed;
use crate::edits::types_of;
use crate::record::SEED;
use crate::refiling::form;
use crate::schema::*;

/// Makes the fault if the schema has a place for it, and says so.
type Spoil = fn(&mut Schema) -> bool;

const FAULTS: [(&str, Spoil); 12] = [
    ("an id in a type does not follow", |s| lead(s, true)),
    ("an unresolvable id resolves", |s| lead(s, false)),
    ("a listed id does not follow", list_another),
    ("a listed id is left out", |s| {
        s.declarations.pop().is_some()
    }),
    ("inline bits are reordered", |s| any_node(s, &mut turn_bits)),
    ("inner types are reordered", |s| {
        any_node(s, &mut turn_inner)
    }),
    ("a field is left out", |s| {
        any_fields(s, |list| list.pop().is_some())
    }),
    ("a field has another number", |s| {
        any_fields(s, |list| {
            list.first_mut().map(|f| f.ordinal ^= 1 << 20).is_some()
        })
    }),
    ("a variant or bit is left out", |s| {
        any_items(s, |list| list.pop().is_some())
    }),
    ("two names change places", |s| any_items(s, swap_names)),
    ("an entry is left out", empty_one),
    ("the namespace is reordered", |s| {
        s.namespace.reverse();
        s.namespace.first() != s.namespace.last()
    }),
];

pub fn run(tests: &mut Tests) {
    let list = filed(SEED + 2, 1_500);
    for (name, spoil) in FAULTS {
        let mut made = 0;
        let told = list.iter().all(|(schema, copy)| {
            let mut copy = copy.clone();
            let spoiled = spoil(&mut copy);
            made += usize::from(spoiled);
            !spoiled || form(&copy) != form(schema)
        });
        tests.holds(&format!("told: {name}"), told);
        tests.holds(&format!("tried 40 times or more: {name}"), made >= 40);
    }
}

fn any_node(schema: &mut Schema, spoil: &mut impl FnMut(&mut Type) -> bool) -> bool {
    let declarations = schema.registry.iter_mut().flatten();
    let mut types = declarations.flat_map(types_of);
    types.any(|ty| in_tree(ty, spoil))
}

fn in_tree(ty: &mut Type, spoil: &mut impl FnMut(&mut Type) -> bool) -> bool {
    spoil(ty) || ty.inner.iter_mut().any(|inner| in_tree(inner, spoil))
}

/// Leads an id that resolves, or one that does not, to an entry of another name.
fn lead(schema: &mut Schema, resolves: bool) -> bool {
    let names: Vec<Option<String>> = (schema.registry.iter())
        .map(|entry| entry.as_ref().map(|d| d.name.clone()))
        .collect();
    any_node(schema, &mut |ty| {
        let Label::Named(id) = &mut ty.label else {
            return false;
        };
        let name = names.get(*id as usize).cloned().flatten();
        let other = names.iter().position(|n| n.is_some() && *n != name);
        match other {
            Some(other) if name.is_some() == resolves => *id = other as u32,
            _ => return false,
        }
        true
    })
}

/// Lists an entry in the place of one of another name.
fn list_another(schema: &mut Schema) -> bool {
    let names = |id: u32| schema.get(id).map(|d| d.name.clone());
    let ids = 0..schema.registry.len() as u32;
    let Some(last) = schema.declarations.last() else {
        return false;
    };
    let other = ids.into_iter().find(|id| names(*id) != names(*last));
    let place = schema.declarations.len() - 1;
    match other {
        Some(other) => schema.declarations[place] = other,
        None => return false,
    }
    true
}

fn turn_bits(ty: &mut Type) -> bool {
    let Label::Bits(names) = &mut ty.label else {
        return false;
    };
    names.reverse();
    names.first() != names.last()
}

fn turn_inner(ty: &mut Type) -> bool {
    ty.inner.reverse();
    ty.inner.len() == 2 && ty.inner[0].tag() != ty.inner[1].tag()
}

fn any_fields(schema: &mut Schema, mut spoil: impl FnMut(&mut Vec<Field>) -> bool) -> bool {
    let mut declarations = schema.registry.iter_mut().flatten();
    declarations.any(|declaration| match &mut declaration.body {
        Body::Message(_, fields) => spoil(fields),
        Body::Union(variants) => variants.iter_mut().any(|v| spoil(&mut v.fields)),
        _ => false,
    })
}

fn any_items(schema: &mut Schema, mut spoil: impl FnMut(&mut Vec<Item>) -> bool) -> bool {
    let mut declarations = schema.registry.iter_mut().flatten();
    declarations.any(|declaration| match &mut declaration.body {
        Body::Enum(_, _, items) | Body::Flags(_, items) => spoil(items),
        _ => false,
    })
}

fn swap_names(list: &mut Vec<Item>) -> bool {
    let [first, .., last] = &mut list[..] else {
        return false;
    };
    std::mem::swap(&mut first.name, &mut last.name);
    first.name != last.name
}

fn empty_one(schema: &mut Schema) -> bool {
    let full = schema.registry.iter_mut().find(|entry| entry.is_some());
    full.is_some_and(|entry| entry.take().is_some())
}
