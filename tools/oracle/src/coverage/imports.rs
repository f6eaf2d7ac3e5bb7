//! Facts about imports: where the names of each image lead, and how the verdict
//! with imports differs from that of 01.

use super::another::{self, BUMPS};
use super::ways::{all_ways, ways};
use crate::answer::{Pair, Verdict};
use crate::changes::ChangeKind;
use crate::imports::standing;
use crate::model::{surviving_declarations, ByName};
use crate::schema::{Schema, GENERIC_ALIAS};
use std::collections::BTreeSet;

const WORD: &str = "imports";
const SAME: &str = "imports: entries reached that are not listed, and the same answer";

pub fn facts(pair: &Pair) -> BTreeSet<String> {
    let mut facts = BTreeSet::new();
    let Some((old, new)) = pair.schemas() else {
        return facts;
    };
    for (side, schema) in [("old", old), ("new", new)] {
        let ways = ways(schema).into_iter();
        facts.extend(ways.map(|way| format!("imports, {side}: {way}")));
    }
    let imports = pair.by(Verdict::Imports);
    facts.extend(another::facts(WORD, &pair.answer, &imports));
    facts.extend(kept_names(old, new));
    if pair.answer == imports && imported(old, new) {
        facts.insert(SAME.to_string());
    }
    facts
}

/// Whether something stands that is not listed.
fn imported(old: &Schema, new: &Schema) -> bool {
    [old, new]
        .iter()
        .any(|s| standing(s) != surviving_declarations(s))
}

/// How the names come to stand on both sides: listed, or reached only.
fn kept_names(old: &Schema, new: &Schema) -> Vec<String> {
    let [old_listed, new_listed] = [old, new].map(surviving_declarations);
    let (old, new) = (standing(old), standing(new));
    let way = |listed: &ByName, name: &str| match listed.contains_key(name) {
        true => "listed",
        false => "reached",
    };
    let kept = crate::model::kept(&old, &new);
    kept.map(|(name, o, n)| {
        let aliases = [o, n].iter().all(|d| d.kind() == GENERIC_ALIAS);
        let (from, to) = (way(&old_listed, name), way(&new_listed, name));
        both(aliases, from, to)
    })
    .collect()
}

fn both(aliases: bool, from: &str, to: &str) -> String {
    let what = if aliases { "aliases" } else { "a name" };
    format!("imports: {what}, {from} in old and {to} in new")
}

/// All facts of a pair, those on one side for each of them.
pub fn all_facts() -> Vec<String> {
    let mut all = vec![
        SAME.to_string(),
        another::another(WORD),
        another::refused_alone(WORD),
        another::shorter(WORD),
    ];
    for side in ["old", "new"] {
        let ways = all_ways().into_iter();
        all.extend(ways.map(|way| format!("imports, {side}: {way}")));
    }
    for plain in BUMPS {
        all.extend(BUMPS.map(|imports| another::bumps(WORD, plain, imports)));
    }
    // A pair has one namespace on each side.
    let kinds = another::live_kinds().filter(|kind| *kind != ChangeKind::NamespaceChanged);
    all.extend(kinds.map(|kind| another::more_of(WORD, kind)));
    for aliases in [false, true] {
        for from in ["listed", "reached"] {
            all.extend(["listed", "reached"].map(|to| both(aliases, from, to)));
        }
    }
    all
}

/// What can never be: what survives stands, so that 01's pair of aliases is one here.
pub fn never() -> Vec<String> {
    vec![another::refused_by_01(WORD)]
}
