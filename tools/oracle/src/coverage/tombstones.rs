//! Facts about tombstones: how two bodies of one name and kind, or two variants of
//! one ordinal, use and strike off a number, beside what else, and what is not compared.

use super::another::BUMPS;
use crate::answer::{Answer, Pair, Verdict};
use crate::changes::{Bump, ChangeKind};
use crate::model::{kept, surviving_declarations, survivors};
use crate::schema::*;
use std::collections::BTreeSet;

/// The bodies that have tombstones.
const BODIES: [&str; 5] = ["a message", "an enum", "flags", "a union", "a variant"];

/// What becomes of a number that the old side strikes off.
const FATES: [&str; 6] = [
    "reused",
    "reused and struck off still",
    "used by both sides",
    "kept",
    "dropped",
    "dropped, that the old side uses",
];

/// Numbers that were reused or dropped.
const REUSED: [&str; 2] = ["dropped", "reused"];
const ENDS: [(u32, u32, &str); 4] = [
    (0, 0, "0"),
    (256, 65_535, "256 to 65,535"),
    (65_536, u32::MAX - 1, "over 65,535"),
    (u32::MAX, u32::MAX, "the largest"),
];

const HELD: [&str; 6] = [
    "a repeated one reused",
    "a repeated one dropped",
    "several reused and several dropped",
    "reused, not in rising order",
    "dropped, not in rising order",
    "struck off by the new side alone",
];

const NOT_COMPARED: [&str; 8] = [
    "of declarations whose kinds differ",
    "of a declaration removed",
    "of a declaration added, and used",
    "of a variant removed",
    "of a variant added, and used",
    "of a dead declaration",
    "of a dead variant",
    "of a declaration not listed",
];

/// What is taken for another body's.
const ANOTHERS: [&str; 3] = [
    "a union's, that a variant's field alone uses",
    "a variant's, that the union alone uses",
    "of a variant renamed",
];

const ALONE: &str = "tombstones: one change alone";
const WITH_WIDTH: &str = "tombstones: behind a width in one declaration";
const BY_01: &str = "tombstones: a change by 01 or with imports";
const NOT_LAST: &str = "tombstones: a change that is not last in its declaration or variant";
const NOT_RISING: &str = "tombstones: dropped before reused, or numbers not rising";
const NOT_MAJOR: &str = "tombstones: used and struck off, and against itself not Major";
const NOT_PATCH: &str = "tombstones: not used and struck off, and against itself not Patch";

/// Two bodies that are compared, each with the numbers used and those struck off.
struct Compared<'a> {
    word: &'static str,
    used: [Vec<u32>; 2],
    struck: [&'a [u32]; 2],
    /// A variant's name has changed.
    renamed: bool,
}

pub fn facts(pair: &Pair) -> BTreeSet<String> {
    let mut facts = BTreeSet::new();
    let Some((old, new)) = pair.schemas() else {
        return facts;
    };
    let [imports, mended] = [Verdict::Imports, Verdict::Mended].map(|verdict| pair.by(verdict));
    let by_01 = [&pair.answer, &imports].iter().any(|a| changes(a) > 0);
    facts.extend(by_01.then(|| BY_01.to_string()));
    if mended.number != 0 {
        return facts;
    }
    let compared = compared(old, new);
    facts.extend(compared.iter().flat_map(of_body));
    facts.extend(not_compared(old, new));
    facts.extend(of_another(old, new));
    facts.extend(of_report(&mended));
    if changes(&mended) > 0 {
        facts.insert(says(pair.answer.bump));
        let lines: u32 = mended.counts.iter().sum();
        facts.extend((lines == 1).then(|| ALONE.to_string()));
    }
    if old == new {
        let both = compared
            .iter()
            .any(|body| body.struck[0].iter().any(|n| body.used[0].contains(n)));
        facts.extend((both && mended.bump != Bump::Major).then(|| NOT_MAJOR.to_string()));
        facts.extend((!both && mended.bump != Bump::Patch).then(|| NOT_PATCH.to_string()));
    }
    facts
}

fn changes(answer: &Answer) -> u32 {
    let kinds = [ChangeKind::TombstoneReused, ChangeKind::TombstoneDropped];
    kinds.iter().map(|kind| answer.counts[*kind as usize]).sum()
}

fn compared<'a>(old: &'a Schema, new: &'a Schema) -> Vec<Compared<'a>> {
    let mut list = Vec::new();
    let (old, new) = (surviving_declarations(old), surviving_declarations(new));
    for (_, o, n) in kept(&old, &new) {
        if o.kind() != n.kind() || !o.strikes_off() {
            continue;
        }
        list.push(Compared {
            word: BODIES[usize::from(o.kind())],
            used: [o.used(), n.used()],
            struck: [&o.tombstones, &n.tombstones],
            renamed: false,
        });
        let [old, new] = [variants(o), variants(n)];
        list.extend(
            kept(&survivors(old), &survivors(new)).map(|(_, o, n)| Compared {
                word: BODIES[4],
                used: [ordinals(&o.fields), ordinals(&n.fields)],
                struck: [&o.tombstones, &n.tombstones],
                renamed: o.name != n.name,
            }),
        );
    }
    list
}

fn variants(declaration: &Declaration) -> &[Variant] {
    match &declaration.body {
        Body::Union(variants) => variants,
        _ => &[],
    }
}

fn of_body(body: &Compared) -> Vec<String> {
    let mut facts = Vec::new();
    let [old, new] = body.struck;
    let mut told: [Vec<u32>; 2] = [Vec::new(), Vec::new()];
    for number in old {
        let used = body.used.each_ref().map(|used| used.contains(number));
        let fate = match (used, new.contains(number)) {
            ([_, false], true) => 3,
            ([false, false], false) => 4,
            ([true, false], false) => 5,
            ([true, true], _) => 2,
            ([false, true], true) => 1,
            ([false, true], false) => 0,
        };
        facts.push(fated(body.word, FATES[fate]));
        if fate != 3 {
            let reused = usize::from(used[1]);
            told[reused].push(*number);
            let end = ENDS
                .iter()
                .find(|(from, to, _)| (from..=to).contains(&number));
            facts.extend(end.map(|(.., word)| at_end(REUSED[reused], word)));
            facts.extend(body.renamed.then(|| another(ANOTHERS[2])));
        }
    }
    let repeated = |list: &[u32]| BTreeSet::from_iter(list).len() < list.len();
    let several = |list: &[u32]| BTreeSet::from_iter(list).len() > 1;
    let [dropped, reused] = &told;
    let holds = [
        repeated(reused),
        repeated(dropped),
        several(reused) && several(dropped),
        !reused.is_sorted(),
        !dropped.is_sorted(),
        new.iter().any(|number| !old.contains(number)),
    ];
    let held = HELD.into_iter().zip(holds).filter(|(_, holds)| *holds);
    facts.extend(held.map(|(word, _)| format!("tombstones: {word}")));
    facts
}

/// Tombstones that would be told if they were compared.
fn not_compared(old: &Schema, new: &Schema) -> Vec<String> {
    let mut holds = [false; NOT_COMPARED.len()];
    let [o, n] = [old, new].map(surviving_declarations);
    for (name, o) in &o {
        let struck = !o.tombstones.is_empty();
        match n.get(name) {
            None => holds[1] |= struck,
            Some(n) if o.kind() != n.kind() => holds[0] |= struck,
            Some(n) => of_variants(&mut holds, variants(o), variants(n)),
        }
    }
    for (name, n) in &n {
        let used = n.used();
        holds[2] |= !o.contains_key(name) && n.tombstones.iter().any(|t| used.contains(t));
    }
    for (id, declaration) in (0..).zip(&old.registry) {
        let Some(declaration) = declaration else {
            continue;
        };
        let listed = old.declarations.contains(&id);
        let stands = o.get(declaration.name.as_str());
        let stands = stands.is_some_and(|one| std::ptr::eq(*one, declaration));
        let struck = !declaration.tombstones.is_empty();
        holds[5] |= listed && !stands && struck;
        holds[7] |= !listed && struck;
    }
    let held = NOT_COMPARED
        .into_iter()
        .zip(holds)
        .filter(|(_, holds)| *holds);
    held.map(|(word, _)| uncompared(word)).collect()
}

fn of_variants(holds: &mut [bool; NOT_COMPARED.len()], old: &[Variant], new: &[Variant]) {
    let [o, n] = [old, new].map(survivors);
    for (ordinal, variant) in &o {
        holds[3] |= !n.contains_key(ordinal) && !variant.tombstones.is_empty();
    }
    for (ordinal, variant) in &n {
        let used = ordinals(&variant.fields);
        let both = variant.tombstones.iter().any(|t| used.contains(t));
        holds[4] |= !o.contains_key(ordinal) && both;
    }
    for variant in old {
        let stands = std::ptr::eq(o[&variant.ordinal], variant);
        holds[6] |= !stands && !variant.tombstones.is_empty() && n.contains_key(&variant.ordinal);
    }
}

/// A number that one of a union and its variant strikes off and the other uses.
fn of_another(old: &Schema, new: &Schema) -> Vec<String> {
    let mut facts = Vec::new();
    let [o, n] = [old, new].map(surviving_declarations);
    for (_, o, n) in kept(&o, &n).filter(|(_, o, n)| o.kind() == n.kind()) {
        let own = n.used();
        let fields: Vec<u32> = variants(n)
            .iter()
            .flat_map(|v| ordinals(&v.fields))
            .collect();
        let of_fields = |number: &u32| fields.contains(number) && !own.contains(number);
        let unions = o.tombstones.iter().any(of_fields);
        facts.extend(unions.then(|| another(ANOTHERS[0])));
        for (_, o, n) in kept(&survivors(variants(o)), &survivors(variants(n))) {
            let used = ordinals(&n.fields);
            let of_union = |number: &u32| own.contains(number) && !used.contains(number);
            let variants = o.tombstones.iter().any(of_union);
            facts.extend(variants.then(|| another(ANOTHERS[1])));
        }
    }
    facts
}

/// Where the lines stand, by the report alone. Two variants may have one name.
fn of_report(answer: &Answer) -> Vec<String> {
    let report = String::from_utf8_lossy(&answer.report);
    let lines: Vec<Vec<&str>> = report.lines().map(|l| l.split(';').collect()).collect();
    let told = |line: &[&str]| line[0].starts_with("Tombstone");
    let mut facts = Vec::new();
    for pair in lines.windows(2) {
        let [one, next] = [&pair[0], &pair[1]];
        if one.len() < 5 || next.len() < 5 || one[2] != next[2] || one[2].contains(':') {
            continue;
        }
        let wide = one[0] == "WidthChanged" && told(next);
        facts.extend(wide.then(|| WITH_WIDTH.to_string()));
        let last = told(one) && !told(next);
        facts.extend(last.then(|| NOT_LAST.to_string()));
        if told(one) && told(next) {
            let key = |line: &[&str]| {
                let number = line[4].trim_start_matches("tombstone @").split(' ').next();
                (
                    line[0] == "TombstoneDropped",
                    number.and_then(|n| n.parse::<u32>().ok()),
                )
            };
            let rising = key(one) < key(next);
            facts.extend((!rising).then(|| NOT_RISING.to_string()));
        }
    }
    facts
}

fn fated(body: &str, fate: &str) -> String {
    format!("tombstones: of {body}, {fate}")
}

fn at_end(way: &str, word: &str) -> String {
    format!("tombstones: {way}, number {word}")
}

fn uncompared(word: &str) -> String {
    format!("tombstones: not compared: {word}")
}

fn another(word: &str) -> String {
    format!("tombstones: {word}")
}

fn says(plain: Bump) -> String {
    format!("tombstones: a change, and 01 says {plain:?}")
}

/// All facts of a pair.
pub fn all_facts() -> Vec<String> {
    let mut all: Vec<String> = [ALONE, WITH_WIDTH].map(str::to_string).into();
    for body in BODIES {
        all.extend(FATES.map(|fate| fated(body, fate)));
    }
    for way in REUSED {
        all.extend(ENDS.map(|(.., word)| at_end(way, word)));
    }
    all.extend(HELD.map(|word| format!("tombstones: {word}")));
    all.extend(NOT_COMPARED.map(uncompared));
    all.extend(ANOTHERS.map(another));
    all.extend(BUMPS.map(says));
    all
}

/// What can never be.
pub fn never() -> Vec<String> {
    let texts = [BY_01, NOT_LAST, NOT_RISING, NOT_MAJOR, NOT_PATCH];
    texts.map(str::to_string).into()
}
