//! What is accepted in format 2, and the image with everything: cut at every length and
//! changed at every byte.

use super::second;
use crate::cases::bodies::full_bodies;
use crate::cases::rich::rich;
use crate::cases::{ride, Cases};
use crate::formats::SECOND_FORMAT;
use crate::make::*;
use crate::schema::{Schema, KIND_NAMES};
use crate::writer::{body, image, Parts};

pub fn add(cases: &mut Cases) {
    kinds(cases);
    cut(cases);
    damaged(cases);
}

/// An image of one listed body in namespace `ride`, of format 2.
pub fn with_body(body: Vec<u8>) -> Vec<u8> {
    let parts = Parts::around(&names(&["ride"]), &[0], vec![Some(body)]);
    let format = SECOND_FORMAT;
    Parts { format, ..parts }.bytes()
}

/// In format 2 only enums and flags are otherwise.
fn kinds(cases: &mut Cases) {
    for declaration in full_bodies() {
        let word = KIND_NAMES[usize::from(declaration.kind())];
        let whole = schema(vec![declaration]);
        let wide = whole.clone().in_format(SECOND_FORMAT);
        let name = format!("widths: {word} in format 1 and 2");
        cases.both_ways(&name, &whole, &wide);
        cases.pair(&format!("widths: {word} in format 2"), &wide, &wide);
    }
    let nothing = second(vec![]).in_namespace(&[]);
    cases.pair("widths: nothing in format 2", &nothing, &nothing);
    let name = "widths: nothing in format 1 and 2";
    cases.both_ways(name, &nothing, &Schema::default());
}

/// Enums and flags cut at every length: before, in and behind what stands there.
fn cut(cases: &mut Cases) {
    let wide = schema(full_bodies()).in_format(SECOND_FORMAT);
    for declaration in wide.registry.iter().flatten() {
        if ![1, 2].contains(&declaration.kind()) {
            continue;
        }
        let word = KIND_NAMES[usize::from(declaration.kind())];
        let whole = body(SECOND_FORMAT, declaration);
        for length in 1..whole.len() {
            let name = format!("widths: {word} cut to {length}");
            cases.beside_ride(&name, with_body(whole[..length].to_vec()));
        }
        let mut over = whole.clone();
        over.push(0);
        let name = format!("widths: {word} with a byte left");
        cases.beside_ride(&name, with_body(over));
    }
}

fn damaged(cases: &mut Cases) {
    let whole = image(&rich().in_format(SECOND_FORMAT));
    cases.bytes("widths: rich in format 2", whole.clone(), whole.clone());
    for length in 8..whole.len() {
        let name = format!("widths: rich cut to {length}");
        cases.bytes(&name, whole[..length].to_vec(), ride());
    }
    for place in 0..whole.len() {
        let mut changed = whole.clone();
        // Each byte another way, and never as it was.
        changed[place] = changed[place].wrapping_add(1 + (place * 7 % 255) as u8);
        let name = format!("widths: rich, byte {place} to {}", changed[place]);
        cases.bytes(&name, whole.clone(), changed);
    }
}
