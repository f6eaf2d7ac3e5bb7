//! Three releases: a middle one that drops the tombstone hides no reuse.

use super::{holding, third, using, WORDS};
use crate::cases::mended::chain;
use crate::cases::Cases;
use crate::make::*;
use crate::schema::Schema;

pub fn add(cases: &mut Cases) {
    const RELEASES: [(&str, [[&[u32]; 2]; 3]); 6] = [
        (
            "dropped, then reused",
            [[&[], &[3]], [&[], &[]], [&[3], &[]]],
        ),
        (
            "kept, then reused",
            [[&[], &[3]], [&[], &[3]], [&[3], &[3]]],
        ),
        ("reused, then gone", [[&[], &[3]], [&[3], &[]], [&[], &[]]]),
        (
            "reused, and struck off again",
            [[&[], &[3]], [&[3], &[]], [&[], &[3]]],
        ),
        (
            "used, struck off, reused",
            [[&[3], &[]], [&[], &[3]], [&[3], &[]]],
        ),
        (
            "dropped, and struck off again",
            [[&[], &[3]], [&[], &[]], [&[], &[3]]],
        ),
    ];
    for (way, releases) in RELEASES {
        for (kind, word) in WORDS.into_iter().enumerate() {
            let of = |[used, struck]: [&[u32]; 2]| third(vec![using(kind, "K", used, struck)]);
            let name = format!("tombstones: chain, {word}, {way}");
            chain(cases, &name, &releases.map(of));
        }
        let of = |[used, struck]: [&[u32]; 2]| {
            third(vec![union("K", vec![holding(0, "v", used, struck)])])
        };
        let name = format!("tombstones: chain, a variant, {way}");
        chain(cases, &name, &releases.map(of));
    }
    through_others(cases);
}

/// The middle release has no such declaration, one of another kind, or no such variant.
fn through_others(cases: &mut Cases) {
    let first = third(vec![using(2, "F", &[], &[3])]);
    let last = third(vec![using(2, "F", &[3], &[])]);
    let mut through = |word: &str, middle: Schema| {
        let name = format!("tombstones: chain, {word} between");
        chain(cases, &name, &[first.clone(), middle, last.clone()]);
    };
    through("nothing", third(vec![]));
    through("an enum", third(vec![using(1, "F", &[], &[])]));
    through("a config", third(vec![config("F")]));
    let first = third(vec![union("U", vec![holding(0, "v", &[], &[3])])]);
    let last = third(vec![union("U", vec![holding(0, "v", &[3], &[])])]);
    let middle = third(vec![union("U", vec![])]);
    let name = "tombstones: chain, no variant between";
    chain(cases, name, &[first, middle, last]);
}
