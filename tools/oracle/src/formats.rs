//! Random formats, widths and tombstones: the generators of releases make them in the first
//! format, without either.

use crate::rng::Rng;
use crate::schema::*;
use crate::struck::strike_off;
use std::collections::BTreeMap;

pub const SECOND_FORMAT: u16 = 2;
pub const THIRD_FORMAT: u16 = 3;

/// Wire bits that come often; any other byte may.
const WIRE_BITS: [u8; 8] = [0, 1, 7, 8, 16, 32, 254, 255];

/// All of one format that every verdict takes, or each of any.
pub fn any_formats<const N: usize>(rng: &mut Rng) -> [u16; N] {
    match rng.below(4) {
        0 => [SECOND_FORMAT; N],
        1 => [THIRD_FORMAT; N],
        _ => [(); N].map(|_| 1 + rng.below(3) as u16),
    }
}

/// The third format, or the second, but for one release or all now and then.
pub fn mostly_third<const N: usize>(rng: &mut Rng) -> [u16; N] {
    let mut formats = [THIRD_FORMAT; N];
    match rng.below(16) {
        0 => formats = [(); N].map(|_| 1 + rng.below(3) as u16),
        1 => formats[rng.below(N)] = 1 + rng.below(2) as u16,
        2..=5 => formats = mostly_second(rng),
        _ => {}
    }
    formats
}

/// The same of the first two formats.
pub fn first_or_second<const N: usize>(rng: &mut Rng) -> [u16; N] {
    let second = rng.once_in(2);
    [(); N].map(|_| match second || rng.once_in(2) {
        true => SECOND_FORMAT,
        false => FIRST_FORMAT,
    })
}

/// The second format, but for one release or all now and then.
pub fn mostly_second<const N: usize>(rng: &mut Rng) -> [u16; N] {
    let mut formats = [SECOND_FORMAT; N];
    match rng.below(16) {
        0 => formats = [FIRST_FORMAT; N],
        1 | 2 => formats[rng.below(N)] = FIRST_FORMAT,
        _ => {}
    }
    formats
}

/// The releases in these formats. From one to the next an enum or flags of one name keep
/// their width, mostly, and what numbers its items keeps its tombstones.
pub fn in_formats<const N: usize>(
    rng: &mut Rng,
    releases: [Schema; N],
    formats: [u16; N],
) -> [Schema; N] {
    let mut widths = BTreeMap::new();
    let mut formats = formats.into_iter();
    let mut releases = releases.map(|mut release| {
        release.format = formats.next().expect("there are as many");
        for declaration in release.registry.iter_mut().flatten() {
            let key = (declaration.kind(), declaration.name.clone());
            let width = match widths.get(&key) {
                Some(width) if !rng.once_in(6) => *width,
                _ => random_width(rng, &declaration.body),
            };
            if let Some(place) = declaration.width_mut() {
                *place = has_widths(release.format).then_some(width);
                widths.insert(key, width);
            }
        }
        release
    });
    strike_off(rng, &mut releases);
    releases
}

/// A width that enums or flags may have.
pub fn random_width(rng: &mut Rng, body: &Body) -> u8 {
    match body {
        Body::Flags(..) => *rng.pick(&WIRE_BYTES),
        _ if rng.once_in(4) => rng.next() as u8,
        _ => *rng.pick(&WIRE_BITS),
    }
}
