//! Random pairs: those made for the mended verdict, chains of format 2, and pairs made
//! for the other verdicts with both formats mixed.

use crate::answer::Verdict;
use crate::cases::mended::chain;
use crate::cases::Cases;
use crate::formats::{first_or_second, in_formats, SECOND_FORMAT};
use crate::made::former_pair_for;
use crate::mended::releases_in;
use crate::refiling::{refiled, unrepeated_releases};
use crate::rng::Rng;

const MADE: usize = 240;
const CHAINS: usize = 24;
const MIXED: usize = 80;
const FILED: usize = 20;

pub fn add(cases: &mut Cases, seed: u64) {
    // Random numbers of their own, so that the cases before them stay as they are.
    let mut rng = Rng::new(seed.rotate_left(48));
    for n in 0..MADE {
        let (old, new) = former_pair_for(Verdict::Mended, &mut rng);
        cases.bytes(&format!("widths random {n}"), old, new);
    }
    for n in 0..CHAINS {
        let releases = releases_in(&mut rng, [SECOND_FORMAT; 3]);
        chain(cases, &format!("widths random chain {n}"), &releases);
    }
    for (word, verdict) in [("formats", Verdict::Plain), ("imports", Verdict::Imports)] {
        for n in 0..MIXED {
            let (old, new) = former_pair_for(verdict, &mut rng);
            cases.bytes(&format!("widths random {word} {n}"), old, new);
        }
    }
    for n in 0..FILED {
        filed(cases, &mut rng, n);
    }
}

/// A pair without repeats, and copies that are filed anew, in any formats.
fn filed(cases: &mut Cases, rng: &mut Rng, n: usize) {
    let [old, new] = unrepeated_releases(rng, 8);
    let copies = [refiled(rng, &old), refiled(rng, &new)];
    let [old_copy, new_copy] = copies;
    let formats = first_or_second(rng);
    let [old, old_copy] = in_formats(rng, [old, old_copy], formats);
    let formats = first_or_second(rng);
    let [new, new_copy] = in_formats(rng, [new, new_copy], formats);
    let name = format!("refiled widths {n}");
    cases.pair(&name, &old, &new);
    cases.pair(&format!("{name}, copy"), &old_copy, &new_copy);
    cases.pair(&format!("{name}, copy of old"), &old_copy, &new);
    cases.pair(&format!("{name}, copy of new"), &old, &new_copy);
}
