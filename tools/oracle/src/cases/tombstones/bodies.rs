//! What is accepted in format 3, and what ends early or has bytes left: bodies cut at every
//! length, and the image with everything also changed at every byte.

use super::{holding, third};
use crate::cases::bodies::full_bodies;
use crate::cases::rich::rich;
use crate::cases::{ride, Cases};
use crate::formats::THIRD_FORMAT;
use crate::make::*;
use crate::schema::{Body, Declaration, Schema, KIND_NAMES};
use crate::writer::{body, image, Parts};

pub fn add(cases: &mut Cases) {
    kinds(cases);
    cut(cases);
    counts(cases);
    damaged(cases);
}

/// An image of one listed body in namespace `ride`, of format 3.
pub fn with_body(body: Vec<u8>) -> Vec<u8> {
    let parts = Parts::around(&names(&["ride"]), &[0], vec![Some(body)]);
    let format = THIRD_FORMAT;
    Parts { format, ..parts }.bytes()
}

/// One of each kind, with tombstones where there may be some.
fn struck_bodies() -> Vec<Declaration> {
    let bodies = schema(full_bodies()).in_format(THIRD_FORMAT).registry;
    let strike = |mut declaration: Declaration| {
        if declaration.strikes_off() {
            declaration.tombstones = vec![9, u32::MAX, 9];
        }
        if let Body::Union(variants) = &mut declaration.body {
            variants[0].tombstones = vec![300];
        }
        declaration
    };
    bodies.into_iter().flatten().map(strike).collect()
}

/// Each kind in all formats, and with tombstones.
fn kinds(cases: &mut Cases) {
    for declaration in struck_bodies() {
        let word = KIND_NAMES[usize::from(declaration.kind())];
        let struck = third(vec![declaration]);
        for format in [1, 2] {
            let other = struck.clone().in_format(format);
            let name = format!("tombstones: {word} in format {format} and 3");
            cases.both_ways(&name, &other, &struck);
        }
        let without = struck.clone().in_format(2).in_format(THIRD_FORMAT);
        let name = format!("tombstones: {word} in format 3");
        cases.pair(&name, &struck, &struck);
        let name = format!("tombstones: {word} with some and none");
        cases.both_ways(&name, &struck, &without);
    }
    let nothing = third(vec![]).in_namespace(&[]);
    cases.pair("tombstones: nothing in format 3", &nothing, &nothing);
    let first = Schema::default();
    cases.both_ways("tombstones: nothing in format 1 and 3", &nothing, &first);
}

/// Cut at every length, and with bytes left.
fn cut(cases: &mut Cases) {
    for declaration in struck_bodies() {
        let word = KIND_NAMES[usize::from(declaration.kind())];
        let whole = body(THIRD_FORMAT, &declaration);
        for length in 1..whole.len() {
            let name = format!("tombstones: {word} cut to {length}");
            cases.beside_ride(&name, with_body(whole[..length].to_vec()));
        }
        for left in 1..=5 {
            let over = [&whole[..], &[0, 0, 0, 0, 0][..left]].concat();
            let name = format!("tombstones: {word} with {left} left");
            cases.beside_ride(&name, with_body(over));
        }
    }
}

/// A count that is too many, too few, or of one byte only.
fn counts(cases: &mut Cases) {
    for declaration in &struck_bodies()[..4] {
        let word = KIND_NAMES[usize::from(declaration.kind())];
        let whole = body(THIRD_FORMAT, declaration);
        let place = whole.len() - 4 * declaration.tombstones.len() - 2;
        for count in [0, 1, 2, 4, 0x103, 0x300, 65_535_u16] {
            let mut other = whole.clone();
            other[place..place + 2].copy_from_slice(&count.to_le_bytes());
            let name = format!("tombstones: {word}, {count} for 3");
            cases.beside_ride(&name, with_body(other));
        }
    }
    // A number more, which is the union's count and its first two bytes.
    let variants = vec![holding(0, "v", &[], &[7])];
    let whole = body(THIRD_FORMAT, &union("U", variants).striking(&[1]));
    let place = whole.len() - 4 - 2 - 4 - 2;
    for count in [0, 2, 3, 256_u16] {
        let mut other = whole.clone();
        other[place..place + 2].copy_from_slice(&count.to_le_bytes());
        let name = format!("tombstones: a variant's, {count} for 1");
        cases.beside_ride(&name, with_body(other));
    }
}

/// The image with everything, and tombstones in each body.
fn struck_rich() -> Schema {
    let mut struck = rich().in_format(THIRD_FORMAT);
    for (place, declaration) in struck.registry.iter_mut().flatten().enumerate() {
        if declaration.strikes_off() {
            declaration.tombstones = vec![place as u32 + 1, 8, 8];
        }
        if let Body::Union(variants) = &mut declaration.body {
            for variant in variants {
                variant.tombstones = vec![7];
            }
        }
    }
    struck
}

fn damaged(cases: &mut Cases) {
    let whole = image(&struck_rich());
    cases.bytes("tombstones: rich in format 3", whole.clone(), whole.clone());
    for length in 8..whole.len() {
        let name = format!("tombstones: rich cut to {length}");
        cases.bytes(&name, whole[..length].to_vec(), ride());
    }
    for place in 0..whole.len() {
        let mut changed = whole.clone();
        // Each byte another way, and never as it was.
        changed[place] = changed[place].wrapping_add(1 + (place * 11 % 255) as u8);
        let name = format!("tombstones: rich, byte {place} to {}", changed[place]);
        cases.bytes(&name, whole.clone(), changed);
    }
}
