//! What becomes of one number in each kind of body, and what is not compared.

use super::{all_ways, holding, third, using, WORDS};
use crate::cases::Cases;
use crate::make::*;
use crate::schema::{Declaration, Schema};

pub fn add(cases: &mut Cases) {
    fates(cases);
    renamed(cases);
    kinds_differ(cases);
    one_sided(cases);
    dead(cases);
    not_listed(cases);
    beside(cases);
}

/// Used or not and struck off or not, on each side, in each kind of body and in a variant.
fn fates(cases: &mut Cases) {
    const WAYS: [(&str, &[u32], &[u32]); 4] = [
        ("unknown", &[1], &[]),
        ("used", &[1, 3], &[]),
        ("struck off", &[1], &[3]),
        ("used and struck off", &[1, 3], &[3]),
    ];
    for (from, old_used, old_struck) in WAYS {
        for (to, new_used, new_struck) in WAYS {
            let mut pair = |word: &str, of: &dyn Fn(&[u32], &[u32]) -> Declaration| {
                let old = third(vec![of(old_used, old_struck)]);
                let new = third(vec![of(new_used, new_struck)]);
                let name = format!("tombstones: {word}, {from} to {to}");
                cases.pair(&name, &old, &new);
            };
            for (kind, word) in WORDS.into_iter().enumerate() {
                pair(word, &|used, struck| using(kind, "K", used, struck));
            }
            pair("a variant", &|used, struck| {
                union("K", vec![holding(0, "v", used, struck)])
            });
        }
    }
}

/// Another name for the number, and another type: reused all the same.
fn renamed(cases: &mut Cases) {
    let lamp =
        |name: &str, struck: &[u32]| third(vec![flags("F", items(&[(3, name)])).striking(struck)]);
    let gone = third(vec![flags("F", vec![]).striking(&[3])]);
    all_ways(cases, "reused by its name", &gone, &lamp("red", &[]));
    all_ways(cases, "reused by another", &gone, &lamp("green", &[3]));
    let name = "used and struck off, renamed";
    all_ways(cases, name, &lamp("red", &[3]), &lamp("green", &[3]));
    let of = |fields, struck: &[u32]| third(vec![message("M", fields).striking(struck)]);
    let speed = |code| vec![field(3, "speed", primitive(code))];
    let name = "used and struck off, of another type";
    all_ways(cases, name, &of(speed(1), &[3]), &of(speed(2), &[3]));
    all_ways(
        cases,
        "a type reused",
        &of(vec![], &[3]),
        &of(speed(2), &[]),
    );
}

/// Of declarations whose kinds differ none is told.
fn kinds_differ(cases: &mut Cases) {
    for (kind, word) in WORDS.into_iter().enumerate() {
        for (other, other_word) in WORDS.into_iter().enumerate().skip(kind + 1) {
            let old = third(vec![using(kind, "K", &[1], &[2, 3])]);
            let new = third(vec![using(other, "K", &[1, 3], &[])]);
            let name = format!("tombstones: {word} and {other_word}");
            cases.both_ways(&name, &old, &new);
        }
        for other in 4..8 {
            let old = third(vec![using(kind, "K", &[], &[3])]);
            let name = format!("tombstones: {word} and kind {other}");
            cases.both_ways(&name, &old, &third(vec![of_kind(other, "K")]));
        }
    }
}

fn one_sided(cases: &mut Cases) {
    let nothing = third(vec![]);
    for (kind, word) in WORDS.into_iter().enumerate() {
        let one = third(vec![using(kind, "K", &[3], &[3, 4])]);
        all_ways(cases, &format!("{word} that comes"), &nothing, &one);
        let other = third(vec![using(kind, "L", &[3], &[])]);
        let name = format!("tombstones: {word} of another name");
        cases.both_ways(&name, &one, &other);
    }
}

/// Of declarations of one name the last listed counts.
fn dead(cases: &mut Cases) {
    for (kind, word) in WORDS.into_iter().enumerate() {
        let two = |first: &[u32], last: &[u32]| {
            third(vec![
                using(kind, "K", &[9], first),
                using(kind, "K", &[1], last),
            ])
        };
        let name = format!("{word}, of a dead one");
        all_ways(cases, &name, &two(&[3], &[4]), &two(&[1], &[4]));
        let name = format!("{word}, of the last of two");
        all_ways(cases, &name, &two(&[3], &[1, 4]), &two(&[3], &[3]));
        let turned = two(&[3], &[4]).listing(&[1, 0]);
        let name = format!("{word}, turned round");
        all_ways(cases, &name, &two(&[3], &[4]), &turned);
    }
}

fn not_listed(cases: &mut Cases) {
    let of = |struck: &[u32], listed: &[u32]| -> Schema {
        let entries = vec![newtype("N", named(1)), using(2, "F", &[3], struck)];
        third(entries).listing(listed)
    };
    let (old, new) = (of(&[3, 4], &[0]), of(&[], &[0]));
    all_ways(cases, "reached only", &old, &new);
    let listed = of(&[], &[0, 1]);
    all_ways(cases, "listed by the new side", &old, &listed);
    let listed = of(&[3, 4], &[0, 1, 1]);
    all_ways(cases, "listed twice", &listed, &of(&[3], &[1, 0]));
    let alone = |struck: &[u32]| third(vec![using(0, "M", &[], struck)]).listing(&[]);
    all_ways(cases, "not listed", &alone(&[3]), &alone(&[]));
}

/// Beside other changes of the declaration, of which it stands behind all.
fn beside(cases: &mut Cases) {
    let of = |marks, name: &str, code, struck: &[u32]| {
        let fields = vec![
            field(0, name, primitive(code)),
            field(u32::from(marks), "g", primitive(1)).marked(marks),
        ];
        third(vec![marked_message("M", marks, fields).striking(struck)])
    };
    let (old, new) = (of(0, "a", 2, &[1, 7, 2]), of(1, "b", 3, &[2]));
    all_ways(cases, "a message with all", &old, &new);
    let of = |width, marks, list: &[(u32, &str)], struck: &[u32]| {
        let modes = enumeration("E", marks, items(list)).of_width(width);
        third(vec![modes.striking(struck)])
    };
    let (old, new) = (of(8, 0, &[(0, "a")], &[1, 5]), of(16, 2, &[(1, "b")], &[]));
    all_ways(cases, "an enum with all", &old, &new);
    let of = |width, list: &[(u32, &str)], struck: &[u32]| {
        third(vec![flags("F", items(list))
            .of_width(width)
            .striking(struck)])
    };
    let (old, new) = (of(1, &[(0, "a")], &[8, 31]), of(2, &[(8, "b")], &[0]));
    all_ways(cases, "flags with all", &old, &new);
}
