//! How the answer by another verdict differs from that of 01. Every fact starts with the
//! word of its verdict.

use crate::answer::Answer;
use crate::changes::{of_check, Bump, ChangeKind, CHANGE_KINDS, NEVER};

pub const BUMPS: [Bump; 3] = [Bump::Patch, Bump::Minor, Bump::Major];

/// Of two accepted images that are not refused by 16: a refusal is number 11.
pub fn facts(word: &str, plain: &Answer, other: &Answer) -> Vec<String> {
    if plain == other {
        return Vec::new();
    }
    let mut facts = vec![another(word)];
    match [plain, other].map(|answer| answer.number != 0) {
        [true, _] => facts.push(refused_by_01(word)),
        [false, true] => facts.push(refused_alone(word)),
        [false, false] => {
            facts.push(bumps(word, plain.bump, other.bump));
            facts.extend(counts(word, plain, other));
            let shorter = other.report.len() < plain.report.len();
            facts.extend(shorter.then(|| self::shorter(word)));
        }
    }
    facts
}

fn counts(word: &str, plain: &Answer, other: &Answer) -> Vec<String> {
    let counts = plain.counts.iter().zip(&other.counts);
    let kinds = CHANGE_KINDS.into_iter().zip(counts);
    let facts = kinds.filter_map(|(kind, (plain, other))| match plain.cmp(other) {
        std::cmp::Ordering::Less => Some(more_of(word, kind)),
        std::cmp::Ordering::Equal => None,
        std::cmp::Ordering::Greater => Some(fewer_of(word, kind)),
    });
    facts.collect()
}

/// The kinds of document 01 that come at all.
pub fn live_kinds() -> impl Iterator<Item = ChangeKind> {
    of_check().filter(|kind| !NEVER.contains(kind))
}

pub fn another(word: &str) -> String {
    format!("{word}: another answer than that of 01")
}

pub fn refused_by_01(word: &str) -> String {
    format!("{word}: refused by 11 in 01 alone")
}

pub fn refused_alone(word: &str) -> String {
    format!("{word}: refused by 11 where 01 is not")
}

pub fn bumps(word: &str, plain: Bump, other: Bump) -> String {
    format!("{word}: another answer, {other:?} where 01 says {plain:?}")
}

pub fn more_of(word: &str, kind: ChangeKind) -> String {
    format!("{word}: more of {kind:?} than in 01")
}

pub fn fewer_of(word: &str, kind: ChangeKind) -> String {
    format!("{word}: fewer of {kind:?} than in 01")
}

pub fn shorter(word: &str) -> String {
    format!("{word}: a report shorter than that of 01")
}
