//! The pairs whose answers are recorded, in the order of the file.

mod bodies;
pub mod both_bad;
mod contents;
mod damage;
mod edges;
mod encodings;
mod faults;
mod front;
mod ids;
mod imports;
mod kinds;
mod marks;
mod mended;
mod mixed;
mod names;
mod pinned;
mod randoms;
mod refiled;
mod repeats;
pub mod rich;
pub mod sizes;
mod tombstones;
mod typing;
mod unions;
mod widths;

use crate::make::*;
use crate::pinned::RECORDS;
use crate::rng::Rng;
use crate::schema::{Declaration, Field, Schema, Type};
use crate::writer::image;
use std::collections::BTreeSet;

pub struct Case {
    pub name: String,
    pub old: Vec<u8>,
    pub new: Vec<u8>,
}

#[derive(Default)]
pub struct Cases {
    pub list: Vec<Case>,
    names: BTreeSet<String>,
}

/// All cases, the same for a seed on every machine.
pub fn all(seed: u64) -> Vec<Case> {
    let mut cases = Cases::default();
    let mut rng = Rng::new(seed);
    edges::add(&mut cases);
    front::add(&mut cases);
    contents::add(&mut cases);
    bodies::add(&mut cases);
    faults::add(&mut cases);
    both_bad::add(&mut cases);
    kinds::add(&mut cases);
    mixed::add(&mut cases);
    marks::add(&mut cases);
    repeats::add(&mut cases);
    ids::add(&mut cases);
    names::add(&mut cases);
    typing::add(&mut cases);
    encodings::add(&mut cases);
    unions::add(&mut cases);
    sizes::add(&mut cases);
    let by_hand = cases.list.len();
    damage::add(&mut cases, &mut rng);
    randoms::add(&mut cases, &mut rng);
    refiled::add(&mut cases, seed);
    pinned::add(&mut cases, &["Pinned", "PinnedImports"]);
    imports::add(&mut cases, seed);
    mended::add(&mut cases, seed);
    // What later files pin comes after what was there before them.
    pinned::add(&mut cases, RECORDS);
    widths::add(&mut cases, seed, by_hand);
    tombstones::add(&mut cases, seed);
    cases.list
}

impl Cases {
    pub fn bytes(&mut self, name: &str, old: Vec<u8>, new: Vec<u8>) {
        let fresh = self.names.insert(name.to_string());
        assert!(fresh, "two cases are named {name}");
        let name = name.to_string();
        self.list.push(Case { name, old, new });
    }

    pub fn has(&self, name: &str) -> bool {
        self.names.contains(name)
    }

    pub fn pair(&mut self, name: &str, old: &Schema, new: &Schema) {
        self.bytes(name, image(old), image(new));
    }

    /// The pair, and the same with the sides changed.
    pub fn both_ways(&mut self, name: &str, one: &Schema, other: &Schema) {
        self.pair(name, one, other);
        self.pair(&format!("{name}, swapped"), other, one);
    }

    /// Both ways, for schemas of namespace `ride` that list what they hold.
    pub fn lists(&mut self, name: &str, one: Vec<Declaration>, other: Vec<Declaration>) {
        self.both_ways(name, &schema(one), &schema(other));
    }

    /// Both ways, for messages `M` with these fields.
    pub fn fields(&mut self, name: &str, one: Vec<Field>, other: Vec<Field>) {
        self.lists(name, vec![message("M", one)], vec![message("M", other)]);
    }

    /// Both ways, for one field `f` of these types.
    pub fn types(&mut self, name: &str, one: Type, other: Type) {
        self.fields(name, vec![field(0, "f", one)], vec![field(0, "f", other)]);
    }

    /// An image in question beside that of document 01, on each side.
    pub fn beside_ride(&mut self, name: &str, image: Vec<u8>) {
        self.bytes(&format!("{name}, old"), image.clone(), ride());
        self.bytes(&format!("{name}, new"), ride(), image);
    }
}

/// The image of document 01.
pub fn ride() -> Vec<u8> {
    let speed = field(0, "speed", primitive(2));
    image(&schema(vec![message("Drive", vec![speed])]))
}
