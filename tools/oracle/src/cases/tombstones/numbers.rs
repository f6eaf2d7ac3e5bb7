//! Which numbers, how many, how often and in what order.

use super::{all_ways, third, using, WORDS};
use crate::cases::Cases;

pub fn add(cases: &mut Cases) {
    values(cases);
    repeats(cases);
    orders(cases);
    counts(cases);
    thousands(cases);
}

fn values(cases: &mut Cases) {
    for number in [
        0,
        1,
        127,
        128,
        255,
        256,
        65_535,
        65_536,
        1 << 31,
        u32::MAX - 1,
        u32::MAX,
    ] {
        let of = |used: &[u32], struck: &[u32]| third(vec![using(2, "F", used, struck)]);
        let name = format!("number {number}");
        all_ways(cases, &name, &of(&[], &[number]), &of(&[number], &[]));
        let name = format!("tombstones: number {number} dropped");
        cases.pair(&name, &of(&[], &[number]), &of(&[], &[]));
        // One that ends or starts with the same bytes.
        for (word, other) in [("low", number ^ 0x1_0000), ("high", number ^ 1)] {
            let name = format!("tombstones: number {number}, {word} half as another's");
            cases.both_ways(&name, &of(&[], &[number]), &of(&[other], &[]));
            let name = format!("tombstones: number {number}, and {word} half struck off");
            cases.pair(&name, &of(&[], &[number]), &of(&[], &[other]));
        }
    }
}

/// A number struck off twice or more counts once; so does one used twice.
fn repeats(cases: &mut Cases) {
    for (kind, word) in WORDS.into_iter().enumerate() {
        let of = |used: &[u32], struck: &[u32]| third(vec![using(kind, "K", used, struck)]);
        let twice = of(&[1], &[3, 3]);
        all_ways(
            cases,
            &format!("{word}, twice, reused"),
            &twice,
            &of(&[1, 3], &[]),
        );
        all_ways(
            cases,
            &format!("{word}, twice, dropped"),
            &twice,
            &of(&[1], &[]),
        );
        all_ways(
            cases,
            &format!("{word}, twice, once"),
            &twice,
            &of(&[1], &[3]),
        );
        let often = of(&[1], &[5, 3, 5, 3, 5]);
        let name = format!("{word}, often, one of each");
        all_ways(cases, &name, &often, &of(&[1, 5, 5], &[7, 7]));
        let name = format!("{word}, used and struck off, all twice");
        all_ways(cases, &name, &of(&[3, 3], &[3, 3]), &of(&[3], &[3]));
    }
}

/// As stored; told in rising order, all reused before all dropped.
fn orders(cases: &mut Cases) {
    for (kind, word) in WORDS.into_iter().enumerate() {
        let of = |used: &[u32], struck: &[u32]| third(vec![using(kind, "K", used, struck)]);
        let falling = of(&[], &[u32::MAX, 65_536, 300, 256, 70, 9, 2, 1, 0]);
        let some = of(&[2, 300, u32::MAX], &[1]);
        all_ways(cases, &format!("{word}, falling"), &falling, &some);
        let mixed = of(&[], &[300, 2, 65_536, 1, u32::MAX, 0, 256, 9, 70]);
        let others = of(&[0, 9, 65_536], &[256]);
        all_ways(cases, &format!("{word}, mixed"), &mixed, &others);
        let name = format!("tombstones: {word}, in another order");
        cases.both_ways(&name, &falling, &mixed);
    }
}

/// None, and as many as one byte counts.
fn counts(cases: &mut Cases) {
    for (kind, word) in WORDS.into_iter().enumerate() {
        let of = |used: &[u32], struck: &[u32]| third(vec![using(kind, "K", used, struck)]);
        all_ways(
            cases,
            &format!("{word}, none"),
            &of(&[], &[]),
            &of(&[1], &[]),
        );
        for count in [255, 256, 257] {
            let many: Vec<u32> = (0..count).collect();
            let name = format!("tombstones: {word}, {count}");
            cases.both_ways(&name, &of(&[], &many), &of(&[5], &many[7..]));
        }
    }
}

/// Thousands, of one body or of many: as many as an image holds where they cost little.
fn thousands(cases: &mut Cases) {
    let of = |used: &[u32], struck: &[u32]| third(vec![using(2, "F", used, struck)]);
    let many: Vec<u32> = (0..2_000).map(|n| n * 3 % 2_000).collect();
    let fewer: Vec<u32> = many.iter().copied().filter(|n| n % 16 > 0).collect();
    all_ways(cases, "thousands", &of(&[], &many), &of(&[16, 48], &fewer));
    let same = vec![7; 8_000];
    all_ways(cases, "thousands of one", &of(&[], &same), &of(&[7], &[]));
    let other: Vec<u32> = many.iter().rev().copied().collect();
    cases.pair(
        "tombstones: thousands turned round",
        &of(&[], &many),
        &of(&[], &other),
    );
    let some: Vec<u32> = many.iter().copied().filter(|n| *n >= 300).collect();
    cases.pair(
        "tombstones: thousands, many dropped",
        &of(&[], &many),
        &of(&[9], &some),
    );
    let lamps = |used: &dyn Fn(u32) -> Vec<u32>, struck: &dyn Fn(u32) -> Vec<u32>| {
        let lamps = (0..400).map(|n| using(2, &format!("F{n}"), &used(n), &struck(n)));
        third(lamps.collect())
    };
    let old = lamps(&|_| vec![], &|n| vec![n + 1, n]);
    let new = lamps(&|n| vec![n], &|_| vec![]);
    cases.both_ways("tombstones: many declarations", &old, &new);
}
