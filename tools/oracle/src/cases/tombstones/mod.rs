//! Tombstones: pairs on the edges of what is reused and dropped, of images of format
//! 3 that are refused, of refusal 16, what the earlier verdicts ignore, and random ones.

mod bodies;
mod chains;
mod faults;
mod kinds;
mod mixed;
mod numbers;
mod randoms;
mod reports;
mod variants;

use super::Cases;
use crate::formats::THIRD_FORMAT;
use crate::make::*;
use crate::schema::{Declaration, Schema, Variant};

pub fn add(cases: &mut Cases, seed: u64) {
    kinds::add(cases);
    numbers::add(cases);
    variants::add(cases);
    reports::add(cases);
    chains::add(cases);
    bodies::add(cases);
    faults::add(cases);
    mixed::add(cases);
    randoms::add(cases, seed);
}

/// A schema of format 3; of enums and flags those that have no width get the least.
fn third(declarations: Vec<Declaration>) -> Schema {
    schema(declarations).in_format(THIRD_FORMAT)
}

/// The pair both ways, and each of its schemas against itself.
fn all_ways(cases: &mut Cases, name: &str, one: &Schema, other: &Schema) {
    cases.both_ways(&format!("tombstones: {name}"), one, other);
    cases.pair(&format!("tombstones: {name}, kept"), one, one);
    let kept = format!("tombstones: {name}, the other kept");
    cases.pair(&kept, other, other);
}

/// The words of the kinds that have tombstones.
const WORDS: [&str; 4] = ["a message", "an enum", "flags", "a union"];

/// A declaration of one of these kinds that uses some numbers and strikes off others.
fn using(kind: usize, name: &str, used: &[u32], struck: &[u32]) -> Declaration {
    let items = || used.iter().map(|n| item(*n, &format!("n{n}"))).collect();
    let fields = used
        .iter()
        .map(|n| field(*n, &format!("n{n}"), primitive(2)));
    let declaration = match kind {
        0 => message(name, fields.collect()),
        1 => enumeration(name, 0, items()),
        2 => flags(name, items()),
        _ => {
            let variants = used.iter().map(|n| variant(*n, &format!("n{n}"), vec![]));
            union(name, variants.collect())
        }
    };
    declaration.striking(struck)
}

/// A variant that uses some numbers and strikes off others.
fn holding(ordinal: u32, name: &str, used: &[u32], struck: &[u32]) -> Variant {
    let fields = used
        .iter()
        .map(|n| field(*n, &format!("n{n}"), primitive(2)));
    variant(ordinal, name, fields.collect()).striking(struck)
}
