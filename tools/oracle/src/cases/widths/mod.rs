//! Formats and widths: pairs on the edges of refusal 16 and of WidthChanged, what
//! the earlier verdicts ignore, the pairs of R-5 written anew in format 2, and random
//! ones.

mod bodies;
mod changed;
mod faults;
mod ignored;
mod mixed;
mod randoms;

use super::{Case, Cases};
use crate::formats::SECOND_FORMAT;
use crate::make::*;
use crate::pinned::pins;
use crate::reader::read_image;
use crate::schema::{Declaration, Schema};
use crate::writer::image;

/// The first cases, so many, are made by hand.
pub fn add(cases: &mut Cases, seed: u64, by_hand: usize) {
    written_anew(cases, by_hand);
    pinned(cases);
    changed::add(cases);
    bodies::add(cases);
    faults::add(cases);
    mixed::add(cases);
    ignored::add(cases);
    randoms::add(cases, seed);
}

/// A schema of format 2; of enums and flags those that have no width get the least.
fn second(declarations: Vec<Declaration>) -> Schema {
    schema(declarations).in_format(SECOND_FORMAT)
}

/// The pair both ways, and its first schema against itself.
fn all_ways(cases: &mut Cases, name: &str, one: &Schema, other: &Schema) {
    cases.both_ways(&format!("widths: {name}"), one, other);
    cases.pair(&format!("widths: {name}, kept"), one, one);
}

/// Most images made by hand are smaller.
const SMALL: usize = 1_000;

/// In format 2 the recorded pairs of R-5, and of those made by hand before it the small
/// ones: there the mended verdict says something of them.
fn written_anew(cases: &mut Cases, by_hand: usize) {
    let small = |case: &Case| case.old.len().max(case.new.len()) <= SMALL;
    let wanted = |(place, case): &(usize, &Case)| {
        let others = *place < by_hand || case.name.starts_with("imports: ");
        case.name.starts_with("mended") || others && small(case)
    };
    let former = cases.list.iter().enumerate().filter(wanted);
    let anew = former.map(|(_, case)| {
        let [old, new] = [&case.old, &case.new].map(|image| written(image, SECOND_FORMAT));
        (format!("{}, format 2", case.name), old, new)
    });
    let anew: Vec<_> = anew.collect();
    for (name, old, new) in anew {
        let accepted = [&old, &new].map(|image| as_far_as_second(image).is_some());
        if accepted == [true; 2] || name.starts_with("mended") {
            cases.bytes(&name, old, new);
        }
    }
}

/// What is pinned of the mended verdict is of format 2, mostly: the same in format 1.
fn pinned(cases: &mut Cases) {
    for pin in pins().iter().filter(|pin| pin.record == "PinnedMended") {
        let name = format!("{}, format 1", pin.recorded());
        let [old, new] = pin.images.each_ref().map(|image| written(image, 1));
        if !cases.has(&name) {
            cases.bytes(&name, old, new);
        }
    }
}

/// An accepted image in another format; one that is refused, or has tombstones, stays as
/// it is.
fn written(bytes: &[u8], format: u16) -> Vec<u8> {
    match as_far_as_second(bytes) {
        Some(schema) => image(&schema.in_format(format)),
        None => bytes.to_vec(),
    }
}

/// What an image of the first two formats holds.
fn as_far_as_second(bytes: &[u8]) -> Option<Schema> {
    let schema = read_image(bytes).ok()?;
    (schema.format <= SECOND_FORMAT).then_some(schema)
}
