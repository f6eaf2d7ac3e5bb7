//! Random releases: pairs both ways, chains with every neighbour and first with
//! last, and pairs that have nothing to do with one another.

use super::Cases;
use crate::edits::{damaged, edited};
use crate::random::random_schema;
use crate::rng::Rng;
use crate::schema::Schema;
use crate::writer::image;

pub fn add(cases: &mut Cases, rng: &mut Rng) {
    for n in 0..260 {
        let most = *rng.pick(&[2, 4, 6, 10]);
        let old = random_schema(rng, most);
        let new = edited(rng, &old, 5);
        cases.both_ways(&format!("random {n}"), &old, &new);
    }
    for n in 0..60 {
        let old = random_schema(rng, 16);
        let new = edited(rng, &old, 16);
        cases.pair(&format!("random with many edits {n}"), &old, &new);
    }
    for n in 0..60 {
        let (old, new) = (random_schema(rng, 8), random_schema(rng, 8));
        cases.pair(&format!("unrelated {n}"), &old, &new);
    }
    for n in 0..60 {
        chain(cases, rng, n);
    }
    for n in 0..60 {
        let same = random_schema(rng, 6);
        cases.pair(&format!("random against itself {n}"), &same, &same);
    }
    for n in 0..80 {
        let old = random_schema(rng, 5);
        let new = edited(rng, &old, 3);
        let spoiled = damaged(rng, &image(&new));
        cases.bytes(&format!("random damaged {n}"), image(&old), spoiled);
    }
}

fn chain(cases: &mut Cases, rng: &mut Rng, n: usize) {
    let mut releases: Vec<Schema> = vec![random_schema(rng, 6)];
    for _ in 0..4 {
        let next = edited(rng, &releases[releases.len() - 1], 2);
        releases.push(next);
    }
    for (place, pair) in releases.windows(2).enumerate() {
        cases.pair(&format!("chain {n}, {place}"), &pair[0], &pair[1]);
    }
    cases.pair(
        &format!("chain {n}, first and last"),
        &releases[0],
        &releases[4],
    );
}
