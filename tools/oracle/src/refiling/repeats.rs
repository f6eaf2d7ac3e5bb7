//! Whether something in a schema repeats, in the words of.

use crate::schema::*;
use std::collections::BTreeSet;

/// What repeats and where, the first that is met; `None` if nothing does.
pub fn repeat(schema: &Schema) -> Option<String> {
    in_the_list(schema).or_else(|| in_the_entries(schema))
}

/// Two places of the declaration list whose ids resolve to one name. An id listed
/// twice counts as two; impls may share their name among themselves.
fn in_the_list(schema: &Schema) -> Option<String> {
    let listed: Vec<(usize, &Declaration)> = (0..)
        .zip(&schema.declarations)
        .filter_map(|(place, id)| Some((place, schema.get(*id)?)))
        .collect();
    let impls = |one: &Declaration, other: &Declaration| [one.kind(), other.kind()] == [IMPL; 2];
    listed.iter().enumerate().find_map(|(n, (place, later))| {
        let (first, _) = listed[..n]
            .iter()
            .find(|(_, earlier)| earlier.name == later.name && !impls(earlier, later))?;
        let name = &later.name;
        Some(format!(
            "declarations {first} and {place}: both are '{name}'"
        ))
    })
}

/// Two numbers of one body or variant, whether the entry is listed or not.
fn in_the_entries(schema: &Schema) -> Option<String> {
    (0..).zip(&schema.registry).find_map(|(id, entry)| {
        let declaration = entry.as_ref()?;
        let what = in_a_body(&declaration.body)?;
        let kind = KIND_NAMES[usize::from(declaration.kind())];
        Some(format!("entry {id}, {kind} '{}': {what}", declaration.name))
    })
}

fn in_a_body(body: &Body) -> Option<String> {
    match body {
        Body::Message(_, fields) => in_a_list("field", fields),
        Body::Enum(_, _, variants) => in_a_list("variant", variants),
        Body::Flags(_, bits) => in_a_list("bit", bits),
        Body::Union(variants) => in_a_list("variant", variants).or_else(|| {
            variants.iter().find_map(|variant| {
                let what = in_a_list("field", &variant.fields)?;
                Some(format!("variant @{}: {what}", variant.ordinal))
            })
        }),
        _ => None,
    }
}

fn in_a_list<T: Numbered>(word: &str, list: &[T]) -> Option<String> {
    let mut met = BTreeSet::new();
    let again = list.iter().find(|item| !met.insert(item.ordinal()))?;
    Some(format!("{word} @{} twice", again.ordinal()))
}
