//! Pairs on the edges of the mended verdict (R-5), and random ones made for it. "A
//! vector" is one of tags 10 to 15.

mod bodies;
mod chains;
mod named;
mod reports;
mod types;

pub use chains::chain;

use super::Cases;
use crate::make::*;
use crate::mended::{mended_pair, mended_releases};
use crate::rng::Rng;
use crate::schema::{Declaration, Schema, Type};

pub fn add(cases: &mut Cases, seed: u64) {
    types::add(cases);
    named::add(cases);
    bodies::add(cases);
    reports::add(cases);
    chains::add(cases);
    // Random numbers of their own, so that the cases before them stay as they are.
    let mut rng = Rng::new(seed.rotate_left(16));
    for n in 0..RANDOM {
        let (old, new) = mended_pair(&mut rng);
        cases.bytes(&format!("mended random {n}"), old, new);
    }
    for n in 0..CHAINS {
        let releases = mended_releases(&mut rng);
        chains::chain(cases, &format!("mended random chain {n}"), &releases);
    }
}

const RANDOM: usize = 120;
const CHAINS: usize = 15;

fn vec2(inner: Type) -> Type {
    wrapped(10, inner)
}

fn vec3(inner: Type) -> Type {
    wrapped(11, inner)
}

/// A message `M` whose fields, from ordinal 0 on, have these types.
fn of_types(types: Vec<Type>) -> Declaration {
    let fields = (0..).zip(types).map(|(n, ty)| field(n, "f", ty));
    message("M", fields.collect())
}

/// The pair both ways, and its first schema against itself.
fn all_ways(cases: &mut Cases, name: &str, one: &Schema, other: &Schema) {
    cases.both_ways(&format!("mended: {name}"), one, other);
    cases.pair(&format!("mended: {name}, kept"), one, one);
}
