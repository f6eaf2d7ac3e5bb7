//! Wrong readings of R-10, one at a time: which numbers are told, of which bodies, in which
//! lines, and what is made of the formats.

mod bodies;
mod formats;
mod lines;
mod numbers;

use super::wrong_widths::{told, Wrong};
use crate::mended::{self, Numbers};
use crate::schema::{Body, Declaration, Variant};

pub fn all() -> Vec<Wrong> {
    let all: [&[Wrong]; 4] = [
        &numbers::WRONG,
        &bodies::WRONG,
        &lines::WRONG,
        &formats::WRONG,
    ];
    all.concat()
}

/// What is right, of other numbers than those given.
fn right(used: [Vec<u32>; 2], struck: [&[u32]; 2]) -> [Vec<u32>; 2] {
    mended::tombstone_changes(&Numbers { used, struck })
}

fn variants(declaration: &Declaration) -> &[Variant] {
    match &declaration.body {
        Body::Union(variants) => variants,
        _ => &[],
    }
}
