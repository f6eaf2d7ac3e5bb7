//! The coverage table: what the recorded pairs really hold and were answered.
//!
//! Every pair gives a set of facts, taken from its bytes, its schemas and its
//! answer. A row asks for one fact in at least one pair, or for a number of
//! different facts with one beginning, or for a fact that must never come.

mod accepted;
mod alike;
mod another;
mod answered;
mod compared;
mod damaged;
mod edges;
mod formats;
mod held;
mod imports;
mod mended;
mod pinned;
pub mod refiled;
mod refused;
mod tombstones;
mod typed;
mod ways;
mod widths;

use crate::answer::{Pair, Verdict, VERDICTS};
use crate::cases::Case;
use std::collections::{BTreeMap, BTreeSet};

/// The facts of one pair.
#[derive(Default)]
pub struct Facts(BTreeSet<String>);

impl Facts {
    pub fn add(&mut self, fact: impl Into<String>) {
        self.0.insert(fact.into());
    }

    pub fn add_if(&mut self, condition: bool, fact: impl Into<String>) {
        if condition {
            self.add(fact);
        }
    }
}

enum Need {
    /// At least one pair with this fact.
    Fact,
    /// So many different facts that start so.
    Distinct(usize),
    Never,
}

struct Row {
    fact: String,
    need: Need,
}

/// What the table asks for.
#[derive(Default)]
pub struct Rows(Vec<Row>);

impl Rows {
    fn push(&mut self, fact: impl Into<String>, need: Need) {
        let fact = fact.into();
        self.0.push(Row { fact, need });
    }

    pub fn one(&mut self, fact: impl Into<String>) {
        self.push(fact, Need::Fact);
    }

    pub fn never(&mut self, fact: impl Into<String>) {
        self.push(fact, Need::Never);
    }

    pub fn distinct(&mut self, start: impl Into<String>, number: usize) {
        self.push(start, Need::Distinct(number));
    }

    /// A fact on the old side and on the new side.
    pub fn sides(&mut self, fact: impl Fn(&str) -> String) {
        self.one(fact("old"));
        self.one(fact("new"));
    }
}

/// The facts about another verdict than that of 01.
pub fn facts_for(verdict: Verdict, pair: &Pair) -> BTreeSet<String> {
    match verdict {
        Verdict::Plain => BTreeSet::new(),
        Verdict::Imports => imports::facts(pair),
        Verdict::Mended => mended::facts(pair),
    }
}

/// All of them.
pub fn all_facts_for(verdict: Verdict) -> Vec<String> {
    match verdict {
        Verdict::Plain => Vec::new(),
        Verdict::Imports => imports::all_facts(),
        Verdict::Mended => mended::all_facts(),
    }
}

/// What can never be by such a verdict.
pub fn never_for(verdict: Verdict) -> Vec<String> {
    match verdict {
        Verdict::Plain => Vec::new(),
        Verdict::Imports => imports::never(),
        Verdict::Mended => mended::never(),
    }
}

#[derive(Default)]
pub struct Coverage {
    seen: BTreeMap<String, usize>,
    pairs: BTreeSet<(Vec<u8>, Vec<u8>)>,
    last: Vec<u8>,
    filed: refiled::Filed,
    rewritten: formats::Rewritten,
}

impl Coverage {
    pub fn see(&mut self, case: &Case, pair: &Pair) {
        let mut facts = Facts::default();
        answered::facts(&mut facts, pair);
        refused::facts(&mut facts, pair);
        accepted::facts(&mut facts, case, pair);
        damaged::facts(&mut facts, case);
        edges::facts(&mut facts, pair);
        pinned::facts(&mut facts, case);
        formats::of_refused(&mut facts, case, pair);
        if let (Ok(old), Ok(new)) = (&pair.old, &pair.new) {
            held::facts(&mut facts, old, "old");
            held::facts(&mut facts, new, "new");
            compared::facts(&mut facts, old, new);
        }
        self.neighbours(&mut facts, case, pair);
        self.filed.facts(&mut facts, pair);
        self.rewritten.facts(&mut facts, pair);
        for verdict in VERDICTS {
            facts.0.extend(facts_for(verdict, pair));
        }
        for fact in facts.0 {
            *self.seen.entry(fact).or_default() += 1;
        }
    }

    /// What this pair has to do with those before it.
    fn neighbours(&mut self, facts: &mut Facts, case: &Case, pair: &Pair) {
        if pair.answer.number == 0 {
            let swapped = (case.new.clone(), case.old.clone());
            facts.add_if(self.pairs.contains(&swapped), "verdicts both ways");
            facts.add_if(self.last == case.old, "verdicts along a chain");
            let bump = format!("verdict against itself: {:?}", pair.answer.bump);
            facts.add_if(case.old == case.new, bump);
            self.pairs.insert((case.old.clone(), case.new.clone()));
        }
        self.last = case.new.clone();
    }

    fn rows() -> Vec<Row> {
        let mut rows = Rows::default();
        answered::rows(&mut rows);
        refused::rows(&mut rows);
        accepted::rows(&mut rows);
        damaged::rows(&mut rows);
        edges::rows(&mut rows);
        held::rows(&mut rows);
        compared::rows(&mut rows);
        typed::rows(&mut rows);
        refiled::rows(&mut rows);
        pinned::rows(&mut rows);
        formats::rows(&mut rows);
        for verdict in VERDICTS {
            all_facts_for(verdict).into_iter().for_each(|f| rows.one(f));
            never_for(verdict).into_iter().for_each(|f| rows.never(f));
        }
        for fact in ["verdicts both ways", "verdicts along a chain"] {
            rows.one(fact);
        }
        for bump in ["Patch", "Major"] {
            rows.one(format!("verdict against itself: {bump}"));
        }
        rows.never("verdict against itself: Minor");
        rows.0
    }

    fn count(&self, row: &Row) -> usize {
        match row.need {
            Need::Distinct(_) => self
                .seen
                .keys()
                .filter(|f| f.starts_with(&row.fact))
                .count(),
            _ => self.seen.get(&row.fact).copied().unwrap_or(0),
        }
    }

    pub fn print(&self) {
        let rows = Coverage::rows();
        for row in &rows {
            let count = self.count(row);
            match row.need {
                Need::Fact => println!("{count:6}  {}", row.fact),
                Need::Distinct(n) => println!("{count:6}  {}... (of {n})", row.fact),
                Need::Never => println!("{count:6}  {} (never)", row.fact),
            }
        }
        println!("{} rows", rows.len());
    }

    /// The rows that do not have what they need.
    pub fn missing(&self) -> Vec<String> {
        let lacks = |row: &Row| match row.need {
            Need::Fact => self.count(row) == 0,
            Need::Distinct(number) => self.count(row) < number,
            Need::Never => self.count(row) > 0,
        };
        let rows = Coverage::rows().into_iter();
        rows.filter(lacks).map(|row| row.fact).collect()
    }
}
