//! The pairs made for a verdict: how many hold what, how they are answered, and that
//! they, and the recorded edges, tell wrong readings of the request.

use super::Tests;
use crate::answer::{judge, Answer, Pair, Side, Verdict};
use crate::cases;
use crate::coverage::{all_facts_for, facts_for, never_for};
use crate::made::pair_for;
use crate::model::{check, refusal, Reading};
use crate::record::SEED;
use crate::rng::Rng;
use crate::schema::Schema;
use std::collections::BTreeMap;

/// What is asked of the pairs made for a verdict.
pub struct Asked {
    pub verdict: Verdict,
    /// So many are made.
    pub pairs: usize,
    /// The names of its recorded edges start so, and there are so many or more.
    pub edges: (&'static str, usize),
    /// So many pairs or more hold a fact.
    pub often: &'static [(&'static str, usize)],
    /// So many pairs or more get each bump.
    pub bumps: [usize; 3],
    /// So many pairs or more are refused for one of their images.
    pub faulty: usize,
    /// What is wrong, by which verdict it is told, and how that reads then.
    pub wrong: Vec<(&'static str, Verdict, Reading)>,
}

/// Runs the tests and gives the pairs.
pub fn run(tests: &mut Tests, asked: &Asked) -> Vec<Pair> {
    let mut rng = Rng::new(SEED);
    let pairs: Vec<Pair> = (0..asked.pairs)
        .map(|_| pair_for(asked.verdict, &mut rng))
        .map(|(old, new)| judge(&old, &new))
        .collect();
    held(tests, asked, &pairs);
    answered(tests, asked, &pairs);
    told(tests, asked, &pairs);
    pairs
}

/// Every fact of the coverage table, and the main ones often.
fn held(tests: &mut Tests, asked: &Asked, pairs: &[Pair]) {
    let mut times: BTreeMap<String, usize> = BTreeMap::new();
    for fact in pairs.iter().flat_map(|pair| facts_for(asked.verdict, pair)) {
        *times.entry(fact).or_default() += 1;
    }
    let times = |fact: &str| times.get(fact).copied().unwrap_or(0);
    for fact in all_facts_for(asked.verdict) {
        let held = times(&fact) > 0;
        tests.holds(&format!("a random pair: {fact}"), held);
    }
    for fact in never_for(asked.verdict) {
        tests.equal(&fact, times(&fact), 0);
    }
    for (fact, least) in asked.often {
        let found = times(fact);
        let name = format!("{least} pairs or more, found {found}: {fact}");
        tests.holds(&name, found >= *least);
    }
}

/// The verdicts are not all alike.
fn answered(tests: &mut Tests, asked: &Asked, pairs: &[Pair]) {
    let mut verdicts = [0; 3];
    let mut refused = 0;
    for answer in pairs.iter().map(|pair| pair.by(asked.verdict)) {
        match answer.side {
            Side::None => verdicts[answer.bump as usize] += 1,
            _ => refused += usize::from(answer.side != Side::Both),
        }
    }
    for (found, least) in verdicts.into_iter().zip(asked.bumps) {
        let name = format!("{least} pairs of a bump or more, found {found}");
        tests.holds(&name, found >= least);
    }
    let least = asked.faulty;
    let name = format!("{least} faulty pairs or more, found {refused}");
    tests.holds(&name, refused >= least);
}

/// The answer by a reading, as the model gives it.
fn answer((old, new): (&Schema, &Schema), reading: Reading) -> Answer {
    match refusal(old, new, reading) {
        Some(number) => Answer::refused(number, Side::Both),
        None => Answer::of(&check(old, new, reading)),
    }
}

/// Random pairs tell each wrong reading often, and so does one of the recorded edges
/// at least.
fn told(tests: &mut Tests, asked: &Asked, pairs: &[Pair]) {
    let (start, least) = asked.edges;
    let edges = cases::all(SEED).into_iter();
    let edges = edges.filter(|case| case.name.starts_with(start));
    let edges: Vec<Pair> = edges.map(|case| judge(&case.old, &case.new)).collect();
    let name = format!("{least} edges or more, found {}", edges.len());
    tests.holds(&name, edges.len() >= least);
    for (name, verdict, wrong) in &asked.wrong {
        let right = verdict.reading();
        let differs = |both: &(&Schema, &Schema)| answer(*both, *wrong) != answer(*both, right);
        let told = [pairs, &edges].map(|pairs| {
            let accepted = pairs.iter().filter_map(Pair::schemas);
            accepted.filter(differs).count()
        });
        let often = told[0] >= 10 && told[1] >= 1;
        tests.holds(&format!("{told:?} pairs tell: {name}"), often);
    }
}
