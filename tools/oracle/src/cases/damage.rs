//! The rich image cut at every length and changed at every byte.

use super::rich::rich;
use super::{ride, Cases};
use crate::edits::damaged;
use crate::rng::Rng;
use crate::writer::image;

pub fn add(cases: &mut Cases, rng: &mut Rng) {
    let whole = image(&rich());
    cases.bytes("rich against itself", whole.clone(), whole.clone());
    for length in 0..whole.len() {
        let cut = whole[..length].to_vec();
        cases.bytes(&format!("truncated old {length}"), cut.clone(), ride());
        cases.bytes(&format!("truncated new {length}"), ride(), cut);
    }
    for place in 0..whole.len() {
        let any = rng.next() as u8;
        change(cases, "old", &whole, place, any);
        change(cases, "new", &whole, place, rng.next() as u8);
        if rng.once_in(3) {
            change(cases, "new", &whole, place, whole[place].wrapping_add(1));
        }
        if rng.once_in(8) {
            change(cases, "old", &whole, place, whole[place].wrapping_sub(1));
            change(cases, "new", &whole, place, whole[place] ^ 0x20);
        }
    }
    for n in 0..60 {
        let spoiled = damaged(rng, &whole);
        cases.bytes(&format!("damaged old {n}"), spoiled, whole.clone());
        let spoiled = damaged(rng, &whole);
        cases.bytes(&format!("damaged new {n}"), whole.clone(), spoiled);
    }
}

/// A byte changed to this value, or to the next if it is this already.
fn change(cases: &mut Cases, side: &str, whole: &[u8], place: usize, value: u8) {
    let mut image = whole.to_vec();
    image[place] = match whole[place] == value {
        true => value.wrapping_add(1),
        false => value,
    };
    let name = format!("byte {place} to {}, {side}", image[place]);
    if cases.has(&name) {
        return;
    }
    match side {
        "old" => cases.bytes(&name, image, whole.to_vec()),
        _ => cases.bytes(&name, whole.to_vec(), image),
    }
}
