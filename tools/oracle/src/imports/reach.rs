//! What is reached, and what stands then.

use crate::model::{by_name, surviving_declarations, survivors, ByName};
use crate::schema::*;
use std::collections::BTreeSet;

/// The ids of the entries reached: every resolvable id in a named node of a compared
/// type of a survivor, or of an entry reached. The name of that entry, and whether it
/// stands, do not matter.
pub fn reached(schema: &Schema) -> BTreeSet<u32> {
    let mut found = BTreeSet::new();
    let mut to_follow: Vec<&Declaration> = surviving_declarations(schema).into_values().collect();
    while let Some(declaration) = to_follow.pop() {
        for id in named_ids(declaration) {
            // An entry is followed once, however often it is named.
            to_follow.extend(schema.get(id).filter(|_| found.insert(id)));
        }
    }
    found
}

/// For each name the surviving declaration; where there is none, the reached entry
/// with the highest id.
pub fn standing(schema: &Schema) -> ByName<'_> {
    let rising = reached(schema).into_iter();
    let mut standing = by_name(rising.filter_map(|id| schema.get(id)));
    standing.extend(surviving_declarations(schema));
    standing
}

/// The schema whose survivors are what stands in this one: it lists the entries
/// reached by rising id, then what this one lists. `check` can be asked about it.
pub fn longer(schema: &Schema) -> Schema {
    let mut longer = schema.clone();
    longer.declarations = reached(schema).into_iter().collect();
    longer.declarations.extend(&schema.declarations);
    longer
}

/// The ids in the named nodes of a declaration's compared types, resolvable or not.
pub fn named_ids(declaration: &Declaration) -> Vec<u32> {
    let mut ids = Vec::new();
    for ty in compared_types(declaration) {
        add_ids(ty, &mut ids);
    }
    ids
}

/// Document 01's compared types of one declaration: only of what survives in it.
pub fn compared_types(declaration: &Declaration) -> Vec<&Type> {
    let types = |fields| survivors::<Field>(fields).into_values().map(|f| &f.ty);
    match &declaration.body {
        Body::Message(_, fields) => types(fields).collect(),
        Body::Union(variants) => {
            let variants = survivors(variants).into_values();
            variants.flat_map(|v| types(&v.fields)).collect()
        }
        Body::Newtype(inner) => vec![inner],
        _ => Vec::new(),
    }
}

fn add_ids(ty: &Type, ids: &mut Vec<u32>) {
    if let Label::Named(id) = ty.label {
        ids.push(id);
    }
    for inner in &ty.inner {
        add_ids(inner, ids);
    }
}
