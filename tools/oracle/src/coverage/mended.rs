//! Facts about the mended verdict: where types are alike or differ around
//! vectors, formats and widths, and how it differs from the others. "A vector" is one of tags 10 to 15.

use super::alike::{self, Met};
use super::another::{self, BUMPS};
use super::{tombstones, widths};
use crate::answer::{Answer, Pair, Verdict};
use crate::changes::{Bump, ChangeKind, MENDED};
use crate::imports::{compared_types, reached};
use crate::mended::{compared, holds_geometric, Compared};
use crate::model::{kept, surviving_declarations, survivors};
use crate::refusal::MIXED;
use crate::schema::*;
use std::collections::BTreeSet;

pub const WORD: &str = "mended";
const PLACES: [&str; 3] = ["a message", "a variant", "a newtype"];
const BESIDE: [&str; 4] = ["renamed", "deprecated", "encoded anew", "limited anew"];
const NOT_COMPARED: &str = "mended: vectors, but none in what is compared";
const IMPORTED: &str = "mended: the answer of 01, where an import with a vector changes";
const ALIKE: &str = "mended: a type alike";

pub fn facts(pair: &Pair) -> BTreeSet<String> {
    let mut facts = BTreeSet::new();
    let Some((old, new)) = pair.schemas() else {
        return facts;
    };
    facts.extend(widths::facts(pair));
    facts.extend(tombstones::facts(pair));
    let mended = pair.by(Verdict::Mended);
    if mended.number == MIXED {
        return facts;
    }
    facts.extend(another::facts(WORD, &pair.answer, &mended));
    if mended.number != 0 {
        return facts;
    }
    let met = met(old, new);
    for met in &met {
        facts.extend(of_types(old, new, met));
    }
    if facts.contains(ALIKE) {
        facts.insert(alike_and(mended.bump));
    }
    let compared = met
        .iter()
        .any(|m| [m.old, m.new].into_iter().any(holds_geometric));
    let held = [old, new].into_iter().any(holds_vector);
    facts.extend((held && !compared).then(|| NOT_COMPARED.to_string()));
    facts.extend((old == new).then(|| itself(mended.bump)));
    facts.extend(imported(pair, &mended, [old, new]));
    facts
}

fn holds_vector(schema: &Schema) -> bool {
    let entries = schema.registry.iter().flatten();
    let mut types = entries.flat_map(compared_types);
    types.any(holds_geometric)
}

/// Imports are not followed, also where a vector stands in one.
fn imported(pair: &Pair, mended: &Answer, schemas: [&Schema; 2]) -> Option<String> {
    let vector = |schema: &Schema| {
        let entries = reached(schema).into_iter().filter_map(|id| schema.get(id));
        let mut types = entries.flat_map(compared_types);
        types.any(holds_geometric)
    };
    let vectors = *mended == pair.answer && schemas.into_iter().any(vector);
    let holds = vectors && *mended != pair.by(Verdict::Imports);
    holds.then(|| IMPORTED.to_string())
}

/// The types that are compared, with the fields that hold them.
fn met<'a>(old: &'a Schema, new: &'a Schema) -> Vec<Met<'a>> {
    let mut list = Vec::new();
    let (old, new) = (surviving_declarations(old), surviving_declarations(new));
    for (_, o, n) in kept(&old, &new) {
        match (&o.body, &n.body) {
            (Body::Message(_, o), Body::Message(_, n)) => fields(PLACES[0], o, n, &mut list),
            (Body::Union(o), Body::Union(n)) => {
                for (_, o, n) in kept(&survivors(o), &survivors(n)) {
                    fields(PLACES[1], &o.fields, &n.fields, &mut list);
                }
            }
            (Body::Newtype(old), Body::Newtype(new)) => list.push(Met {
                place: PLACES[2],
                fields: None,
                old,
                new,
            }),
            _ => {}
        }
    }
    list
}

fn fields<'a>(place: &'static str, old: &'a [Field], new: &'a [Field], list: &mut Vec<Met<'a>>) {
    for (_, o, n) in kept(&survivors(old), &survivors(new)) {
        list.push(Met {
            place,
            fields: Some([o, n]),
            old: &o.ty,
            new: &n.ty,
        });
    }
}

fn of_types(old: &Schema, new: &Schema, met: &Met) -> Vec<String> {
    let mut facts = alike::named_vectors(old, new, met);
    match compared(old, met.old, new, met.new) {
        Compared::Equal => {}
        Compared::Alike => {
            facts.extend([ALIKE.to_string(), alike_in(met.place)]);
            facts.extend(beside(met).into_iter().map(alike_beside));
            facts.extend(alike::of_alike(old, new, met));
        }
        Compared::Different if ![met.old, met.new].into_iter().any(holds_geometric) => {}
        Compared::Different => {
            facts.push(different_in(met.place));
            facts.extend(alike::of_different(old, new, met));
        }
    }
    facts
}

/// How else the field changes.
fn beside(met: &Met) -> Vec<&'static str> {
    let Some([old, new]) = met.fields else {
        return Vec::new();
    };
    let how = [
        old.name != new.name,
        !old.marks.deprecated && new.marks.deprecated,
        old.encoding != new.encoding,
        old.limit != new.limit,
    ];
    let how = BESIDE.into_iter().zip(how);
    how.filter_map(|(word, holds)| holds.then_some(word))
        .collect()
}

fn alike_in(place: &str) -> String {
    format!("mended: alike in {place}")
}

fn different_in(place: &str) -> String {
    format!("mended: different, with a vector, in {place}")
}

fn alike_beside(how: &str) -> String {
    format!("mended: alike in a field that is {how}")
}

fn alike_and(bump: Bump) -> String {
    format!("mended: a type alike, and the answer is {bump:?}")
}

fn itself(bump: Bump) -> String {
    format!("mended: an image against itself: {bump:?}")
}

pub fn all_facts() -> Vec<String> {
    let texts = [ALIKE, NOT_COMPARED, IMPORTED];
    let mut all: Vec<String> = texts.map(str::to_string).into();
    all.extend(PLACES.map(alike_in));
    all.extend(PLACES.map(different_in));
    all.extend(BESIDE.map(alike_beside));
    all.extend(BUMPS.map(alike_and));
    all.extend([Bump::Patch, Bump::Major].map(itself));
    all.push(another::another(WORD));
    all.push(another::shorter(WORD));
    all.extend(BUMPS.map(|mended| another::bumps(WORD, Bump::Major, mended)));
    // Nothing but widths and tombstones is new, and that is Major.
    all.extend([Bump::Patch, Bump::Minor].map(|plain| another::bumps(WORD, plain, Bump::Major)));
    all.push(another::fewer_of(WORD, ChangeKind::FieldTypeChanged));
    all.extend(MENDED.map(|kind| another::more_of(WORD, kind)));
    all.extend(widths::all_facts());
    all.extend(tombstones::all_facts());
    all.extend(alike::all_facts());
    all
}

/// Only a changed type may be missing from what 01 says, and that is Major there; only
/// changed widths and tombstones may come to it.
pub fn never() -> Vec<String> {
    let mut never = widths::never();
    never.extend(tombstones::never());
    never.push(itself(Bump::Minor));
    never.extend([another::refused_by_01(WORD), another::refused_alone(WORD)]);
    for plain in [Bump::Patch, Bump::Minor] {
        let others = [Bump::Patch, Bump::Minor];
        never.extend(others.map(|mended| another::bumps(WORD, plain, mended)));
    }
    for kind in another::live_kinds() {
        never.push(another::more_of(WORD, kind));
        if kind != ChangeKind::FieldTypeChanged {
            never.push(another::fewer_of(WORD, kind));
        }
    }
    never
}
