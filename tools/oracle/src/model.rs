//! The clauses of document 01 in its order: names by byte order, ordinals
//! rising. Written from 01; `vexil` holds it against the real `check`. Which
//! declarations are compared, when their types are equal, and what becomes of formats,
//! widths and tombstones, is for the caller to say: `PLAIN` is 01's way.

use crate::changes::{Bump, Change, ChangeKind, Comparison};
use crate::mended::Numbers;
use crate::refusal::{ALIAS_PAIR, MIXED};
use crate::schema::*;
use crate::types::{encoding_display, type_display, types_equal};
use std::collections::BTreeMap;

use Bump::{Major, Minor, Patch};
use ChangeKind::*;

/// Declarations of a schema by name.
pub type ByName<'a> = BTreeMap<&'a str, &'a Declaration>;

/// What stands in a schema: the declarations that are compared.
pub type Standing = for<'a> fn(&'a Schema) -> ByName<'a>;

/// Whether two types, each behind its schema, count as equal.
pub type TypesEqual = fn(&Schema, &Type, &Schema, &Type) -> bool;

/// The widths of two declarations of one name and kind, if they are reported as changed.
pub type WidthChange = fn(&Declaration, &Declaration) -> Option<[u8; 2]>;

/// Which tombstones are reported as reused, and which as dropped.
pub type TombstoneChanges = fn(&Numbers) -> [Vec<u32>; 2];

/// Whether two accepted images are refused by 16.
pub type Mixed = fn(&Schema, &Schema) -> bool;

/// What a verdict goes by where it may differ from that of 01.
#[derive(Clone, Copy)]
pub struct Reading {
    pub standing: Standing,
    pub types_equal: TypesEqual,
    pub width_change: WidthChange,
    pub tombstone_changes: TombstoneChanges,
    pub mixed: Mixed,
}

pub const PLAIN: Reading = Reading {
    standing: surviving_declarations,
    types_equal,
    width_change: |_, _| None,
    tombstone_changes: |_| [Vec::new(), Vec::new()],
    mixed: |_, _| false,
};

pub fn check(old: &Schema, new: &Schema, reading: Reading) -> Comparison {
    let mut clauses = Clauses {
        old,
        new,
        reading,
        changes: Vec::new(),
    };
    clauses.namespace();
    clauses.declarations(&(reading.standing)(old), &(reading.standing)(new));
    Comparison::of(clauses.changes)
}

/// The number that refuses two accepted images, if there is one.
pub fn refusal(old: &Schema, new: &Schema, reading: Reading) -> Option<u8> {
    match (reading.mixed)(old, new) {
        true => Some(MIXED),
        false => alias_pair(old, new, reading).then_some(ALIAS_PAIR),
    }
}

/// Refusal 11: what stands under one name are generic aliases in both images.
pub fn alias_pair(old: &Schema, new: &Schema, reading: Reading) -> bool {
    let alias = |declaration: &Declaration| declaration.kind() == GENERIC_ALIAS;
    let (old, new) = ((reading.standing)(old), (reading.standing)(new));
    let found = kept(&old, &new).any(|(_, o, n)| alias(o) && alias(n));
    found
}

/// Of those listed under one name the last stands; unresolvable ids are skipped.
pub fn surviving_declarations(schema: &Schema) -> ByName<'_> {
    let listed = schema.declarations.iter();
    by_name(listed.filter_map(|id| schema.get(*id)))
}

/// Of those with one name the last.
pub fn by_name<'a>(declarations: impl Iterator<Item = &'a Declaration>) -> ByName<'a> {
    declarations.map(|d| (d.name.as_str(), d)).collect()
}

/// Of those with one ordinal or bit the last stands.
pub fn survivors<T: Numbered>(items: &[T]) -> BTreeMap<u32, &T> {
    items.iter().map(|item| (item.ordinal(), item)).collect()
}

/// What the first map has and the second has not, in key order.
fn only<'a, K: Ord, V>(
    one: &'a BTreeMap<K, V>,
    other: &'a BTreeMap<K, V>,
) -> impl Iterator<Item = (&'a K, &'a V)> {
    one.iter().filter(|(key, _)| !other.contains_key(key))
}

/// What both maps have, in key order.
pub fn kept<'a, K: Ord, V>(
    old: &'a BTreeMap<K, V>,
    new: &'a BTreeMap<K, V>,
) -> impl Iterator<Item = (&'a K, &'a V, &'a V)> {
    old.iter()
        .filter_map(|(key, o)| new.get(key).map(|n| (key, o, n)))
}

struct Clauses<'a> {
    old: &'a Schema,
    new: &'a Schema,
    reading: Reading,
    changes: Vec<Change>,
}

impl Clauses<'_> {
    fn report(
        &mut self,
        (kind, bump): (ChangeKind, Bump),
        declaration: &str,
        field: Option<&str>,
        detail: String,
    ) {
        self.changes.push(Change {
            kind,
            bump,
            declaration: declaration.to_string(),
            field: field.map(str::to_string),
            detail,
        });
    }

    fn namespace(&mut self) {
        let (old, new) = (&self.old.namespace, &self.new.namespace);
        if old != new {
            let (old, new) = (old.join("."), new.join("."));
            let detail = format!("namespace changed from '{old}' to '{new}'");
            self.report((NamespaceChanged, Major), "", None, detail);
        }
    }

    fn declarations(&mut self, old: &ByName, new: &ByName) {
        for (name, declaration) in only(old, new) {
            let detail = format!("{} '{name}' was removed", kind_name(declaration));
            self.report((DeclarationRemoved, Major), name, None, detail);
        }
        for (name, declaration) in only(new, old) {
            let detail = format!("{} '{name}' was added", kind_name(declaration));
            self.report((DeclarationAdded, Minor), name, None, detail);
        }
        for (name, o, n) in kept(old, new) {
            self.compare_decls(name, o, n);
        }
    }

    fn compare_decls(&mut self, name: &str, old: &Declaration, new: &Declaration) {
        if old.kind() != new.kind() {
            let (from, to) = (kind_name(old), kind_name(new));
            let detail = format!("'{name}' changed from {from} to {to}");
            self.report((DeclarationKindChanged, Major), name, None, detail);
            return;
        }
        if let Some([from, to]) = (self.reading.width_change)(old, new) {
            let detail = format!("width changed from {from} to {to}");
            self.report((WidthChanged, Major), name, None, detail);
        }
        match (&old.body, &new.body) {
            (Body::Message(om, of), Body::Message(nm, nf)) => {
                self.compare_field_sets(name, of, nf);
                self.compare_deprecated(name, None, *om, *nm);
            }
            (Body::Enum(om, _, ov), Body::Enum(nm, _, nv)) => {
                self.compare_enums(name, (*om, ov), (*nm, nv));
            }
            (Body::Flags(_, o), Body::Flags(_, n)) => self.compare_flags(name, o, n),
            (Body::Union(o), Body::Union(n)) => self.compare_unions(name, o, n),
            (Body::Newtype(o), Body::Newtype(n)) => self.compare_newtypes(name, o, n),
            // Config, trait and impl are silent; an alias pair is refused before.
            _ => {}
        }
        let used = [old.used(), new.used()];
        let struck = [&old.tombstones[..], &new.tombstones];
        self.compare_tombstones(name, &Numbers { used, struck });
    }

    /// Last in a declaration, or in a union's variant.
    fn compare_tombstones(&mut self, declaration: &str, numbers: &Numbers) {
        let [reused, dropped] = (self.reading.tombstone_changes)(numbers);
        for number in reused {
            let detail = format!("tombstone @{number} was reused");
            self.report((TombstoneReused, Major), declaration, None, detail);
        }
        for number in dropped {
            let detail = format!("tombstone @{number} was dropped");
            self.report((TombstoneDropped, Major), declaration, None, detail);
        }
    }

    /// What is gone, then what came. Whatever is gone is Major.
    fn gone_and_came<T: Numbered>(
        &mut self,
        (declaration, word): (&str, &str),
        gone: ChangeKind,
        came: (ChangeKind, Bump),
        old: &BTreeMap<u32, &T>,
        new: &BTreeMap<u32, &T>,
    ) {
        for (ordinal, item) in only(old, new) {
            let detail = format!("{word} '{}' @{ordinal} was removed", item.name());
            self.report((gone, Major), declaration, Some(item.name()), detail);
        }
        for (ordinal, item) in only(new, old) {
            let detail = format!("{word} '{}' @{ordinal} was added", item.name());
            self.report(came, declaration, Some(item.name()), detail);
        }
    }

    fn compare_field_sets(&mut self, declaration: &str, old: &[Field], new: &[Field]) {
        let (old, new) = (survivors(old), survivors(new));
        let came = (FieldAdded, Major);
        self.gone_and_came((declaration, "field"), FieldRemoved, came, &old, &new);
        for (_, o, n) in kept(&old, &new) {
            self.compare_fields(declaration, o, n);
        }
    }

    /// Two fields of one ordinal. Every change goes by the new name.
    fn compare_fields(&mut self, declaration: &str, old: &Field, new: &Field) {
        let (ordinal, name) = (new.ordinal, new.name.as_str());
        if old.name != new.name {
            let detail = format!("field @{ordinal} renamed from '{}' to '{name}'", old.name);
            self.report((FieldRenamed, Patch), declaration, Some(name), detail);
        }
        if !self.equal(&old.ty, &new.ty) {
            let (from, to) = self.shown(&old.ty, &new.ty);
            let detail = format!("field '{name}' @{ordinal} type changed from {from} to {to}");
            self.report((FieldTypeChanged, Major), declaration, Some(name), detail);
        }
        if (old.encoding, old.limit) != (new.encoding, new.limit) {
            let from = encoding_display(old.encoding);
            let to = encoding_display(new.encoding);
            let detail = format!("field '{name}' @{ordinal} encoding changed from {from} to {to}");
            self.report(
                (FieldEncodingChanged, Major),
                declaration,
                Some(name),
                detail,
            );
        }
        self.compare_deprecated(declaration, Some(name), old.marks, new.marks);
    }

    fn compare_deprecated(
        &mut self,
        declaration: &str,
        field: Option<&str>,
        old: Marks,
        new: Marks,
    ) {
        if new.deprecated && !old.deprecated {
            let target = match field {
                Some(name) => format!("field '{name}'"),
                None => "declaration".to_string(),
            };
            let detail = format!("{target} was marked @deprecated");
            self.report((FieldDeprecated, Patch), declaration, field, detail);
        }
    }

    /// The new enum says whether an added variant is Minor.
    fn compare_enums(&mut self, name: &str, old: (Marks, &[Item]), new: (Marks, &[Item])) {
        let (from, to) = (old.0.non_exhaustive, new.0.non_exhaustive);
        if from != to {
            let detail = format!("@non_exhaustive changed from {from} to {to}");
            self.report((NonExhaustiveChanged, Major), name, None, detail);
        }
        let (old, new) = (survivors(old.1), survivors(new.1));
        let came = (VariantAdded, if to { Minor } else { Major });
        self.gone_and_came((name, "variant"), VariantRemoved, came, &old, &new);
    }

    fn compare_flags(&mut self, name: &str, old: &[Item], new: &[Item]) {
        let (old, new) = (survivors(old), survivors(new));
        let came = (FlagsBitAdded, Minor);
        self.gone_and_came((name, "bit"), FlagsBitRemoved, came, &old, &new);
    }

    fn compare_unions(&mut self, name: &str, old: &[Variant], new: &[Variant]) {
        let (old, new) = (survivors(old), survivors(new));
        let came = (VariantAdded, Minor);
        self.gone_and_came((name, "variant"), VariantRemoved, came, &old, &new);
        for (_, o, n) in kept(&old, &new) {
            let declaration = format!("{name}::{}", o.name);
            self.compare_field_sets(&declaration, &o.fields, &n.fields);
            let used = [ordinals(&o.fields), ordinals(&n.fields)];
            let struck = [&o.tombstones[..], &n.tombstones];
            self.compare_tombstones(&declaration, &Numbers { used, struck });
        }
    }

    fn compare_newtypes(&mut self, name: &str, old: &Type, new: &Type) {
        if !self.equal(old, new) {
            let (from, to) = self.shown(old, new);
            let detail = format!("newtype '{name}' inner type changed from {from} to {to}");
            self.report((FieldTypeChanged, Major), name, None, detail);
        }
    }

    fn equal(&self, old: &Type, new: &Type) -> bool {
        (self.reading.types_equal)(self.old, old, self.new, new)
    }

    fn shown(&self, old: &Type, new: &Type) -> (String, String) {
        (type_display(self.old, old), type_display(self.new, new))
    }
}

fn kind_name(declaration: &Declaration) -> &'static str {
    KIND_NAMES[usize::from(declaration.kind())]
}
