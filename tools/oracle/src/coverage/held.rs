//! Facts about one schema of an accepted pair: repeats, ids, names, ordinals,
//! long lists.

use super::{Facts, Rows};
use crate::model::surviving_declarations;
use crate::schema::*;
use std::collections::BTreeMap;

pub fn facts(facts: &mut Facts, schema: &Schema, side: &str) {
    let mut fact = |text: String| facts.add(format!("{side}: {text}"));
    for segment in &schema.namespace {
        of_name(&mut fact, "segment", segment);
    }
    listed(&mut fact, schema);
    let standing = surviving_declarations(schema);
    for (name, declaration) in &standing {
        of_name(&mut fact, KIND_NAMES[usize::from(declaration.kind())], name);
        of_body(&mut fact, schema, &declaration.body);
    }
    let names: Vec<&str> = standing.keys().copied().collect();
    let extends = |two: &[&str]| !two[0].is_empty() && two[1].starts_with(two[0]);
    if names.windows(2).any(extends) {
        fact("a name and its extension".to_string());
    }
    let lower: Vec<String> = names.iter().map(|name| name.to_lowercase()).collect();
    if (1..lower.len()).any(|n| lower[..n].contains(&lower[n])) {
        fact("names that differ by case".to_string());
    }
    let mut sorted = lower.clone();
    sorted.sort();
    if sorted != lower {
        fact("byte order other than the alphabet's".to_string());
    }
}

/// The ids as listed.
fn listed(fact: &mut impl FnMut(String), schema: &Schema) {
    let ids = &schema.declarations;
    for (place, id) in ids.iter().enumerate() {
        if let Some(what) = unresolvable(schema, *id) {
            fact(format!("listed id {what}"));
        }
        if ids[..place].contains(id) {
            fact("id listed twice".to_string());
        }
    }
    let named = ids.iter().filter_map(|id| schema.get(*id));
    let named: Vec<(&str, &Declaration)> = named.map(|d| (d.name.as_str(), d)).collect();
    repeats(fact, "declaration", &named);
    let of_kind = |kind| move |(_, d): &(&str, &Declaration)| d.kind() == kind;
    let unnamed = named.iter().filter(|(name, _)| name.is_empty());
    let unnamed: Vec<_> = unnamed.copied().collect();
    if unnamed.iter().any(of_kind(0)) && unnamed.iter().any(of_kind(IMPL)) {
        fact("unnamed message beside an impl".to_string());
    }
    if unnamed.iter().filter(|d| of_kind(IMPL)(d)).count() > 1 {
        fact("several impls".to_string());
    }
    let alias = named.iter().enumerate().any(|(place, (name, d))| {
        let hidden = named[place + 1..]
            .iter()
            .any(|later| later.0 == *name && later.1.kind() != GENERIC_ALIAS);
        d.kind() == GENERIC_ALIAS && hidden
    });
    if alias {
        fact("alias hidden by a later survivor".to_string());
    }
}

/// How an id fails to resolve.
pub fn unresolvable(schema: &Schema, id: u32) -> Option<&'static str> {
    let entries = schema.registry.len() as u32;
    match schema.get(id) {
        Some(_) => None,
        None if id < entries => Some("of an empty entry"),
        None if id == entries => Some("of N"),
        None if id == u32::MAX => Some("of 2^32-1"),
        None => Some("over N"),
    }
}

/// Keys that come more than once with a first that is not the last.
fn repeats<K: Ord + Copy, T: PartialEq>(
    fact: &mut impl FnMut(String),
    what: &str,
    list: &[(K, &T)],
) {
    let mut first = BTreeMap::new();
    let mut last = BTreeMap::new();
    for (key, item) in list {
        first.entry(*key).or_insert(*item);
        last.insert(*key, *item);
    }
    if first.iter().any(|(key, item)| *item != last[key]) {
        fact(format!("repeated {what}, first and last differ"));
    }
}

fn of_name(fact: &mut impl FnMut(String), place: &str, name: &str) {
    match name.len() {
        0 => fact(format!("empty name of {place}")),
        255 => fact(format!("name of 255 bytes of {place}")),
        _ => {}
    }
}

fn of_list<T: Numbered + PartialEq>(fact: &mut impl FnMut(String), place: &str, list: &[T]) {
    for item in list {
        of_name(fact, place, item.name());
        match item.ordinal() {
            0 => fact(format!("ordinal 0 of {place}")),
            u32::MAX => fact(format!("ordinal 2^32-1 of {place}")),
            _ => {}
        }
    }
    if list.len() > 255 {
        fact(format!("over 255 of {place}"));
    }
    if list
        .windows(2)
        .any(|two| two[0].ordinal() > two[1].ordinal())
    {
        fact(format!("ordinals not rising of {place}"));
    }
    let keyed: Vec<(u32, &T)> = list.iter().map(|item| (item.ordinal(), item)).collect();
    repeats(fact, place, &keyed);
}

fn of_body(fact: &mut impl FnMut(String), schema: &Schema, body: &Body) {
    match body {
        Body::Message(_, fields) => of_fields(fact, schema, "field", fields),
        Body::Enum(_, _, list) => of_list(fact, "enum variant", list),
        Body::Flags(_, list) => of_list(fact, "bit", list),
        Body::Union(variants) => {
            of_list(fact, "union variant", variants);
            for variant in variants {
                of_fields(fact, schema, "variant's field", &variant.fields);
            }
        }
        Body::Newtype(inner) => of_type(fact, schema, inner),
        _ => {}
    }
}

fn of_fields(fact: &mut impl FnMut(String), schema: &Schema, place: &str, fields: &[Field]) {
    of_list(fact, place, fields);
    fields
        .iter()
        .for_each(|field| of_type(fact, schema, &field.ty));
}

fn of_type(fact: &mut impl FnMut(String), schema: &Schema, ty: &Type) {
    match &ty.label {
        Label::Named(id) => match unresolvable(schema, *id) {
            Some(what) => fact(format!("id {what} in a type")),
            None if !schema.declarations.contains(id) => fact("import in a type".to_string()),
            None => {}
        },
        Label::Bits(names) => names
            .iter()
            .for_each(|name| of_name(fact, "inline bit", name)),
        _ => {}
    }
    ty.inner
        .iter()
        .for_each(|inner| of_type(fact, schema, inner));
}

const LISTS: [&str; 5] = [
    "field",
    "enum variant",
    "bit",
    "union variant",
    "variant's field",
];

pub fn rows(rows: &mut Rows) {
    let mut each = |text: String| rows.sides(|side| format!("{side}: {text}"));
    let places = KIND_NAMES[..8].iter().chain(&LISTS);
    for place in places.chain(&["segment", "inline bit"]) {
        each(format!("empty name of {place}"));
        each(format!("name of 255 bytes of {place}"));
    }
    for place in LISTS {
        each(format!("ordinal 0 of {place}"));
        each(format!("ordinal 2^32-1 of {place}"));
        each(format!("over 255 of {place}"));
        each(format!("ordinals not rising of {place}"));
        each(format!("repeated {place}, first and last differ"));
    }
    each("repeated declaration, first and last differ".to_string());
    for what in ["of an empty entry", "of N", "of 2^32-1", "over N"] {
        each(format!("listed id {what}"));
        each(format!("id {what} in a type"));
    }
    let others = [
        "id listed twice",
        "import in a type",
        "unnamed message beside an impl",
        "several impls",
        "alias hidden by a later survivor",
        "a name and its extension",
        "names that differ by case",
        "byte order other than the alphabet's",
    ];
    others.iter().for_each(|text| each(text.to_string()));
}
