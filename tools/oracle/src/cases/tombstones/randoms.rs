//! Random pairs: those made for the mended verdict, chains of format 3, pairs made for the
//! other verdicts with all formats mixed, and copies that are filed anew.

use crate::answer::Verdict;
use crate::cases::mended::chain;
use crate::cases::Cases;
use crate::formats::{any_formats, in_formats, THIRD_FORMAT};
use crate::made::pair_for;
use crate::mended::releases_in;
use crate::refiling::{refiled, unrepeated_releases};
use crate::rng::Rng;

const MADE: usize = 300;
const CHAINS: usize = 30;
const MIXED: usize = 80;
const FILED: usize = 20;

pub fn add(cases: &mut Cases, seed: u64) {
    // Random numbers of their own, so that the cases before them stay as they are.
    let mut rng = Rng::new(seed.rotate_left(32));
    for n in 0..MADE {
        let (old, new) = pair_for(Verdict::Mended, &mut rng);
        cases.bytes(&format!("tombstones random {n}"), old, new);
    }
    for n in 0..CHAINS {
        let releases = releases_in(&mut rng, [THIRD_FORMAT; 3]);
        chain(cases, &format!("tombstones random chain {n}"), &releases);
    }
    for (word, verdict) in [("formats", Verdict::Plain), ("imports", Verdict::Imports)] {
        for n in 0..MIXED {
            let (old, new) = pair_for(verdict, &mut rng);
            cases.bytes(&format!("tombstones random {word} {n}"), old, new);
        }
    }
    for n in 0..FILED {
        filed(cases, &mut rng, n);
    }
}

/// A pair without repeats, and copies that are filed anew, with their tombstones or in any
/// formats.
fn filed(cases: &mut Cases, rng: &mut Rng, n: usize) {
    let releases = unrepeated_releases(rng, 8);
    let formats = match n % 2 {
        0 => [THIRD_FORMAT; 2],
        _ => any_formats(rng),
    };
    let [old, new] = in_formats(rng, releases, formats);
    let mut copies = [refiled(rng, &old), refiled(rng, &new)];
    if n % 4 == 3 {
        let formats = any_formats(rng);
        copies = in_formats(rng, copies, formats);
    }
    let [old_copy, new_copy] = copies;
    let name = format!("refiled tombstones {n}");
    cases.pair(&name, &old, &new);
    cases.pair(&format!("{name}, copy"), &old_copy, &new_copy);
    cases.pair(&format!("{name}, copy of old"), &old_copy, &new);
    cases.pair(&format!("{name}, copy of new"), &old, &new_copy);
}
