//! Random tombstones, of which many are reused or dropped: from one release to the next a
//! body of one name keeps most, half of those that it uses, and what it no longer uses is
//! mostly struck off.

use crate::random::random_ordinal;
use crate::rng::Rng;
use crate::schema::*;
use std::collections::BTreeMap;

/// A declaration by kind and name, or also a variant in it by its ordinal.
type Key = (u8, String, Option<u32>);

/// The numbers that a body of the release before uses, and those that it strikes off.
#[derive(Clone, Default)]
struct Former {
    used: Vec<u32>,
    struck: Vec<u32>,
}

/// Other tombstones in the releases of a format that has them, and none in the others.
pub fn strike_off(rng: &mut Rng, releases: &mut [Schema]) {
    let mut former: BTreeMap<Key, Former> = BTreeMap::new();
    for release in releases {
        let format = release.format;
        let mut strike = |key: Key, used: Vec<u32>| {
            let before = former.get(&key).cloned();
            let struck = match has_tombstones(format) {
                true => tombstones(rng, before, &used),
                false => Vec::new(),
            };
            let now = (used, struck.clone());
            former.insert(
                key,
                Former {
                    used: now.0,
                    struck: now.1,
                },
            );
            struck
        };
        for declaration in release.registry.iter_mut().flatten() {
            let (kind, name) = (declaration.kind(), declaration.name.clone());
            if let Body::Union(variants) = &mut declaration.body {
                for variant in variants {
                    let key = (kind, name.clone(), Some(variant.ordinal));
                    variant.tombstones = strike(key, ordinals(&variant.fields));
                }
            }
            if declaration.strikes_off() {
                declaration.tombstones = strike((kind, name, None), declaration.used());
            }
        }
    }
}

/// Now and then one of more than two bytes.
pub fn any_ordinal(rng: &mut Rng) -> u32 {
    match rng.once_in(10) {
        true => 0x1_0000 + rng.below(3) as u32,
        false => random_ordinal(rng),
    }
}

fn tombstones(rng: &mut Rng, former: Option<Former>, used: &[u32]) -> Vec<u32> {
    let mut struck = Vec::new();
    if let Some(former) = former.filter(|_| !rng.once_in(12)) {
        let gone = former.used.into_iter().filter(|n| !used.contains(n));
        for number in former.struck {
            let goes = match used.contains(&number) {
                true => rng.once_in(2),
                false => rng.once_in(6),
            };
            struck.extend((!goes).then_some(number));
        }
        struck.extend(gone.filter(|_| !rng.once_in(4)));
    }
    for _ in 0..*rng.pick(&[0, 0, 0, 0, 1, 1, 2, 4]) {
        struck.push(match rng.below(12) {
            0 if !used.is_empty() => *rng.pick(used),
            1 => rng.next() as u32 >> rng.below(32),
            _ => any_ordinal(rng),
        });
    }
    // Repeats come, and go when there are many of them.
    if struck.len() > 8 {
        struck.sort();
        struck.dedup();
    }
    if !struck.is_empty() && rng.once_in(8) {
        struck.push(*rng.pick(&struck));
    }
    if rng.once_in(3) {
        rng.shuffle(&mut struck);
    }
    struck
}
