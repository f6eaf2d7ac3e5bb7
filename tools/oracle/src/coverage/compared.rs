//! Facts about what was compared with what.

use super::{typed, Facts, Rows};
use crate::model::{alias_pair, kept, surviving_declarations, survivors, PLAIN};
use crate::schema::*;

pub fn facts(facts: &mut Facts, old: &Schema, new: &Schema) {
    if alias_pair(old, new, PLAIN) {
        return;
    }
    let same = old.namespace == new.namespace;
    let what = if same { "kept" } else { "changed" };
    facts.add(format!(
        "namespace of {} segments {what}",
        old.namespace.len()
    ));
    let (o, n) = (surviving_declarations(old), surviving_declarations(new));
    for (name, declaration) in &o {
        let kind = KIND_NAMES[usize::from(declaration.kind())];
        facts.add_if(!n.contains_key(name), format!("{kind} removed"));
    }
    for (name, declaration) in &n {
        let kind = KIND_NAMES[usize::from(declaration.kind())];
        facts.add_if(!o.contains_key(name), format!("{kind} added"));
    }
    aliases(facts, old, new);
    for (_, one, other) in kept(&o, &n) {
        let (from, to) = (one.kind(), other.kind());
        if from == to {
            facts.add(format!("{} kept", KIND_NAMES[usize::from(from)]));
            Pairing { facts, old, new }.of_bodies(&one.body, &other.body);
        } else {
            facts.add(format!("kind {from} to {to}"));
        }
    }
}

/// Aliases of one name in both images that make no alias pair.
fn aliases(facts: &mut Facts, old: &Schema, new: &Schema) {
    for name in registry_aliases(old) {
        if !registry_aliases(new).any(|other| other == name) {
            continue;
        }
        let (o, n) = (alias_place(old, name), alias_place(new, name));
        facts.add(format!("alias {o} in old, {n} in new"));
    }
}

fn registry_aliases(schema: &Schema) -> impl Iterator<Item = &str> {
    let entries = schema.registry.iter().flatten();
    let aliases = entries.filter(|d| d.kind() == GENERIC_ALIAS);
    aliases.map(|d| d.name.as_str())
}

/// What has become of an image's alias of this name.
fn alias_place(schema: &Schema, name: &str) -> &'static str {
    let alias = |d: &Declaration| d.name == name && d.kind() == GENERIC_ALIAS;
    let mut listed = schema.declarations.iter().filter_map(|id| schema.get(*id));
    match surviving_declarations(schema).get(name) {
        Some(standing) if alias(standing) => "standing",
        _ if listed.any(alias) => "hidden",
        _ => "not listed",
    }
}

pub struct Pairing<'a> {
    pub facts: &'a mut Facts,
    pub old: &'a Schema,
    pub new: &'a Schema,
}

impl Pairing<'_> {
    fn of_bodies(&mut self, old: &Body, new: &Body) {
        match (old, new) {
            (Body::Message(om, o), Body::Message(nm, n)) => {
                self.of_marks("message", *om, *nm);
                self.of_fields("field", o, n);
            }
            (Body::Enum(o, _, _), Body::Enum(n, _, _)) => self.of_marks("enum", *o, *n),
            (Body::Union(o), Body::Union(n)) => self.of_variants(o, n),
            (Body::Newtype(o), Body::Newtype(n)) => typed::root(self, o, n),
            _ => {}
        }
    }

    fn of_marks(&mut self, place: &str, old: Marks, new: Marks) {
        let (old, new) = (old.byte(), new.byte());
        self.facts.add(format!("{place} marks {old} to {new}"));
    }

    fn of_variants(&mut self, old: &[Variant], new: &[Variant]) {
        let (old, new) = (survivors(old), survivors(new));
        for (_, o, n) in kept(&old, &new) {
            let changed = o.fields != n.fields;
            let renamed = o.name != n.name;
            let what = if renamed { "renamed" } else { "kept" };
            self.facts
                .add_if(changed, format!("union variant {what}, fields changed"));
            self.of_fields("variant's field", &o.fields, &n.fields);
        }
    }

    fn of_fields(&mut self, place: &str, old: &[Field], new: &[Field]) {
        let (old, new) = (survivors(old), survivors(new));
        let (gone, came) = (
            old.keys().any(|n| !new.contains_key(n)),
            new.keys().any(|n| !old.contains_key(n)),
        );
        self.facts.add_if(gone, format!("{place} removed"));
        self.facts.add_if(came, format!("{place} added"));
        for (_, o, n) in kept(&old, &new) {
            self.of_marks(place, o.marks, n.marks);
            self.of_encodings(o, n);
            self.facts
                .add_if(o.name != n.name, format!("{place} renamed"));
            typed::root(self, &o.ty, &n.ty);
        }
    }

    fn of_encodings(&mut self, old: &Field, new: &Field) {
        let (o, n) = (old.encoding, new.encoding);
        let shown = |e: Encoding| format!("{}/{}", e.deltas, e.base);
        self.facts
            .add(format!("encodings {} to {}", shown(o), shown(n)));
        let limit = match (old.limit, new.limit) {
            (None, None) => return,
            (None, Some(limit)) => format!("limit {limit} gained"),
            (Some(limit), None) => format!("limit {limit} lost"),
            (o, n) if o == n => "limit kept".to_string(),
            _ => "limit changed".to_string(),
        };
        let alone = if o == n { "alone" } else { "with the encoding" };
        self.facts.add(format!("{limit}, {alone}"));
        self.facts.add(limit);
    }
}

pub fn rows(rows: &mut Rows) {
    for segments in 0..=16 {
        rows.one(format!("namespace of {segments} segments kept"));
        rows.one(format!("namespace of {segments} segments changed"));
    }
    of_declarations(rows);
    of_items(rows);
    of_encodings(rows);
}

fn of_declarations(rows: &mut Rows) {
    for (number, kind) in (0..).zip(KIND_NAMES) {
        rows.one(format!("{kind} removed"));
        rows.one(format!("{kind} added"));
        if number != GENERIC_ALIAS {
            rows.one(format!("{kind} kept"));
        }
        for to in (0..=IMPL).filter(|to| *to != number) {
            rows.one(format!("kind {number} to {to}"));
        }
    }
    rows.never("generic_alias kept");
    rows.never("alias standing in old, standing in new");
    for place in ["hidden", "not listed"] {
        rows.one(format!("alias standing in old, {place} in new"));
        rows.one(format!("alias {place} in old, standing in new"));
        rows.one(format!("alias {place} in old, {place} in new"));
    }
}

fn of_items(rows: &mut Rows) {
    for place in ["message", "enum", "field", "variant's field"] {
        for (old, new) in (0..16).map(|n| (n / 4, n % 4)) {
            rows.one(format!("{place} marks {old} to {new}"));
        }
    }
    for place in ["field", "variant's field"] {
        for what in ["removed", "added", "renamed"] {
            rows.one(format!("{place} {what}"));
        }
    }
    for what in ["kept", "renamed"] {
        rows.one(format!("union variant {what}, fields changed"));
    }
}

fn of_encodings(rows: &mut Rows) {
    rows.distinct("encodings ", 27 * 27);
    for limit in [0, 1, u64::MAX] {
        rows.one(format!("limit {limit} gained"));
        rows.one(format!("limit {limit} lost"));
    }
    for limit in ["kept", "changed"] {
        for how in ["alone", "with the encoding"] {
            rows.one(format!("limit {limit}, {how}"));
        }
    }
}
