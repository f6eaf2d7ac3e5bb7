//! Pairs on the edges of the verdict with imports, and random ones made for it.

mod aliases;
mod names;
mod reach;
mod reports;
mod types;

use super::Cases;
use crate::imports::import_pair;
use crate::make::*;
use crate::rng::Rng;
use crate::schema::{Declaration, Schema};

pub fn add(cases: &mut Cases, seed: u64) {
    reach::add(cases);
    types::add(cases);
    names::add(cases);
    aliases::add(cases);
    reports::add(cases);
    // Random numbers of their own, so that the cases before them stay as they are.
    let mut rng = Rng::new(seed.rotate_left(32));
    for n in 0..RANDOM {
        let (old, new) = import_pair(&mut rng);
        cases.bytes(&format!("imports random {n}"), old, new);
    }
}

const RANDOM: usize = 400;

/// Lists entry 0 only: all others are imports, or nothing leads to them.
fn importing(entries: Vec<Declaration>) -> Schema {
    schema(entries).listing(&[0])
}

/// A message that names these entries, in fields from ordinal 0 on.
fn naming(name: &str, ids: &[u32]) -> Declaration {
    let fields = (0..).zip(ids).map(|(n, id)| field(n, "f", named(*id)));
    message(name, fields.collect())
}

/// A block of limits: what is imported and changes.
fn block(name: &str, code: u8) -> Declaration {
    message(name, vec![field(0, "most", primitive(code))])
}
