//! The pairs made for R-5: how many hold what, and that they tell wrong readings.

use super::wrong::wrong;
use crate::answer::Verdict;
use crate::selftest::made::{self, Asked};
use crate::selftest::Tests;

pub fn run(tests: &mut Tests) {
    let asked = Asked {
        verdict: Verdict::Mended,
        pairs: 20_000,
        edges: ("mended: ", 200),
        often: &OFTEN,
        bumps: [1_800, 250, 1_500],
        faulty: 200,
        wrong: wrong(),
    };
    made::run(tests, &asked);
}

const OFTEN: [(&str, usize); 12] = [
    ("mended: another answer than that of 01", 2_500),
    ("mended: another answer, Patch where 01 says Major", 1_000),
    ("mended: another answer, Minor where 01 says Major", 100),
    ("mended: another answer, Major where 01 says Major", 400),
    ("mended: alike in a newtype", 500),
    ("mended: alike in a variant", 500),
    ("mended: alike, 3 vectors or more on a path", 600),
    ("mended: different below 2 vectors or more", 200),
    ("mended: different, beside a vector that is alike", 60),
    ("mended: different, equal without one vector", 150),
    ("mended: named below a vector: one name, two ids", 100),
    (
        "mended: the answer of 01, where an import with a vector changes",
        100,
    ),
];
