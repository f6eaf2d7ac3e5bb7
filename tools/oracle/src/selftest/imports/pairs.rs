//! The pairs made for imports: how many hold what, and that they tell wrong readings.

use super::wrong::WRONG;
use crate::answer::{Pair, Verdict};
use crate::imports::{longer, reached, standing};
use crate::model::{surviving_declarations, Reading, PLAIN};
use crate::schema::Schema;
use crate::selftest::made::{self, Asked};
use crate::selftest::Tests;

pub fn run(tests: &mut Tests) {
    let wrong = WRONG.map(|(name, standing)| {
        let wrong = Reading { standing, ..PLAIN };
        (name, Verdict::Imports, wrong)
    });
    let asked = Asked {
        verdict: Verdict::Imports,
        pairs: 7_000,
        edges: ("imports: ", 200),
        often: &OFTEN,
        bumps: [1_200, 200, 1_800],
        faulty: 200,
        wrong: wrong.into(),
    };
    let pairs = made::run(tests, &asked);
    least(tests, &pairs);
}

const OFTEN: [(&str, usize); 12] = [
    ("imports: another answer than that of 01", 2_000),
    ("imports: refused by 11 where 01 is not", 100),
    ("imports: a name, listed in old and reached in new", 120),
    ("imports: a name, reached in old and listed in new", 120),
    ("imports, old: an entry reached that is not listed", 3_000),
    ("imports, old: a ring of two entries or more", 1_000),
    ("imports, old: an entry that names itself", 1_500),
    ("imports, old: two reached entries of one name", 300),
    ("imports, old: a reached entry under a survivor's name", 800),
    (
        "imports, old: a dead field leads to what is not reached",
        400,
    ),
    (
        "imports, old: an unresolvable id in what is followed",
        1_500,
    ),
    ("imports, old: reached in 5 steps or more", 150),
];

fn least(tests: &mut Tests, pairs: &[Pair]) {
    let all = |holds: fn(&Schema) -> bool| {
        let mut accepted = pairs.iter().filter_map(Pair::schemas);
        accepted.all(|(old, new)| holds(old) && holds(new))
    };
    let least = all(|schema| reached(schema) == super::reach::iterated(schema));
    tests.holds("what is reached is the least set", least);
    let same = all(|schema| standing(schema) == surviving_declarations(&longer(schema)));
    tests.holds("what stands survives in the longer list", same);
}
