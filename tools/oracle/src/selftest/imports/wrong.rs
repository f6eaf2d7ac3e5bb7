//! Wrong readings of R-2, one at a time: what stands by each of them. The pairs made
//! for imports must tell each from the right one, and often.

use crate::imports::{compared_types, named_ids, reached, standing};
use crate::limits::ENTRIES;
use crate::model::{by_name, surviving_declarations, ByName, Standing};
use crate::schema::*;
use std::collections::BTreeSet;

pub const WRONG: [(&str, Standing); 16] = [
    ("no imports at all", surviving_declarations),
    ("one step only", one_step),
    ("two steps only", two_steps),
    ("a name leads to its survivor", by_survivor),
    ("of two reached the lower id stands", lower_stands),
    (
        "the reached one stands over the listed one",
        reached_over_listed,
    ),
    ("what does not stand is not followed", standing_followed),
    ("the first compared type only", first_type),
    ("dead fields and variants are followed", dead_followed),
    (
        "declarations that lost their name are followed",
        lost_followed,
    ),
    ("every entry stands", all_entries),
    ("named nodes at the root only", roots_only),
    ("the first inner type only", first_inner),
    ("not through vectors and matrices", not_geometric),
    ("not through unions", no_unions),
    ("ids of 16 bits", short_ids),
];

type Ids = fn(&Schema, &Declaration) -> Vec<u32>;

/// What is reached from these, where names lead by `ids`, in so many steps at most.
fn walk(schema: &Schema, start: Vec<&Declaration>, ids: Ids, steps: usize) -> BTreeSet<u32> {
    let mut found = BTreeSet::new();
    let mut level: Vec<&Declaration> = start;
    for _ in 0..steps {
        let named = level
            .iter()
            .flat_map(|declaration| ids(schema, declaration));
        let fresh: Vec<u32> = named
            .filter(|id| schema.get(*id).is_some() && found.insert(*id))
            .collect();
        level = fresh.iter().filter_map(|id| schema.get(*id)).collect();
    }
    found
}

/// More steps than a registry has entries.
const ANY: usize = 1 + ENTRIES as usize;

fn surviving(schema: &Schema) -> Vec<&Declaration> {
    surviving_declarations(schema).into_values().collect()
}

/// Survivors, and else the highest of these ids.
fn stand(schema: &Schema, ids: BTreeSet<u32>) -> ByName<'_> {
    let mut standing = by_name(ids.into_iter().filter_map(|id| schema.get(id)));
    standing.extend(surviving_declarations(schema));
    standing
}

fn by_ids(schema: &Schema, ids: Ids) -> ByName<'_> {
    stand(schema, walk(schema, surviving(schema), ids, ANY))
}

fn right(_: &Schema, declaration: &Declaration) -> Vec<u32> {
    named_ids(declaration)
}

fn one_step(schema: &Schema) -> ByName<'_> {
    stand(schema, walk(schema, surviving(schema), right, 1))
}

fn two_steps(schema: &Schema) -> ByName<'_> {
    stand(schema, walk(schema, surviving(schema), right, 2))
}

fn by_survivor(schema: &Schema) -> ByName<'_> {
    by_ids(schema, |schema, declaration| {
        let leads = |id: u32| {
            let name = schema.get(id).map(|entry| entry.name.as_str());
            let mut listed = schema.declarations.iter().rev().copied();
            let same = listed.find(|other| schema.get(*other).map(|d| d.name.as_str()) == name);
            same.filter(|_| name.is_some()).unwrap_or(id)
        };
        named_ids(declaration).into_iter().map(leads).collect()
    })
}

fn lower_stands(schema: &Schema) -> ByName<'_> {
    let falling = reached(schema).into_iter().rev();
    let mut standing = by_name(falling.filter_map(|id| schema.get(id)));
    standing.extend(surviving_declarations(schema));
    standing
}

fn reached_over_listed(schema: &Schema) -> ByName<'_> {
    let mut standing = surviving_declarations(schema);
    let rising = reached(schema).into_iter();
    standing.extend(by_name(rising.filter_map(|id| schema.get(id))));
    standing
}

fn standing_followed(schema: &Schema) -> ByName<'_> {
    by_ids(schema, |schema, declaration| {
        let mut stands = standing(schema).into_values();
        let stands = stands.any(|other| std::ptr::eq(other, declaration));
        if stands {
            named_ids(declaration)
        } else {
            Vec::new()
        }
    })
}

fn first_type(schema: &Schema) -> ByName<'_> {
    by_ids(schema, |_, declaration| {
        let types = compared_types(declaration).into_iter().take(1);
        types.flat_map(|ty| entered_ids(ty, |_| 2)).collect()
    })
}

/// As if each field and variant had an ordinal of its own.
fn dead_followed(schema: &Schema) -> ByName<'_> {
    by_ids(schema, |_, declaration| {
        let mut alive = declaration.clone();
        let number = |fields: &mut Vec<Field>| {
            (0..).zip(fields).for_each(|(n, field)| field.ordinal = n);
        };
        match &mut alive.body {
            Body::Message(_, fields) => number(fields),
            Body::Union(variants) => {
                for (n, variant) in (0..).zip(variants) {
                    variant.ordinal = n;
                    number(&mut variant.fields);
                }
            }
            _ => {}
        }
        named_ids(&alive)
    })
}

fn lost_followed(schema: &Schema) -> ByName<'_> {
    let listed = schema.declarations.iter().filter_map(|id| schema.get(*id));
    stand(schema, walk(schema, listed.collect(), right, ANY))
}

fn all_entries(schema: &Schema) -> ByName<'_> {
    let ids = 0..schema.registry.len() as u32;
    stand(schema, ids.collect())
}

fn roots_only(schema: &Schema) -> ByName<'_> {
    by_ids(schema, |_, declaration| {
        let types = compared_types(declaration).into_iter();
        let root = |ty: &Type| match ty.label {
            Label::Named(id) => Some(id),
            _ => None,
        };
        types.filter_map(root).collect()
    })
}

/// The ids of the named nodes of which `enter` lets inner types be.
fn entered(ty: &Type, enter: fn(&Type) -> usize, ids: &mut Vec<u32>) {
    if let Label::Named(id) = ty.label {
        ids.push(id);
    }
    for inner in ty.inner.iter().take(enter(ty)) {
        entered(inner, enter, ids);
    }
}

fn entered_ids(ty: &Type, enter: fn(&Type) -> usize) -> Vec<u32> {
    let mut ids = Vec::new();
    entered(ty, enter, &mut ids);
    ids
}

fn ids_entered(declaration: &Declaration, enter: fn(&Type) -> usize) -> Vec<u32> {
    let types = compared_types(declaration).into_iter();
    types.flat_map(|ty| entered_ids(ty, enter)).collect()
}

fn first_inner(schema: &Schema) -> ByName<'_> {
    by_ids(schema, |_, declaration| ids_entered(declaration, |_| 1))
}

fn not_geometric(schema: &Schema) -> ByName<'_> {
    by_ids(schema, |_, declaration| {
        let enter = |ty: &Type| if GEOMETRIC.contains(&ty.tag()) { 0 } else { 2 };
        ids_entered(declaration, enter)
    })
}

fn no_unions(schema: &Schema) -> ByName<'_> {
    by_ids(schema, |_, declaration| match &declaration.body {
        Body::Union(_) => Vec::new(),
        _ => named_ids(declaration),
    })
}

fn short_ids(schema: &Schema) -> ByName<'_> {
    by_ids(schema, |_, declaration| {
        let ids = named_ids(declaration).into_iter();
        ids.map(|id| id & 0xffff).collect()
    })
}
