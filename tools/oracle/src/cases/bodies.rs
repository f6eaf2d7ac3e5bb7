//! Refusal 8 and what is near it: a body of each kind cut at every length and
//! with bytes left.

use super::Cases;
use crate::make::*;
use crate::schema::{Declaration, Field, FIRST_FORMAT, KIND_NAMES};
use crate::writer::{body, Parts};

/// An image of one listed body in namespace `ride`.
pub fn with_body(body: Vec<u8>) -> Vec<u8> {
    Parts::around(&names(&["ride"]), &[0], vec![Some(body)]).bytes()
}

/// A body of each kind that holds every form its kind can have.
pub fn full_bodies() -> Vec<Declaration> {
    vec![
        message("Ms", full_fields()),
        enumeration("En", 2, items(&[(0, "a"), (1, "")])),
        flags("Fl", items(&[(0, "a"), (31, "b")])),
        union(
            "Un",
            vec![variant(0, "v", full_fields()), variant(1, "", vec![])],
        ),
        newtype(
            "Nt",
            double(8, semantic(0), fixed_array(bits(&["a", ""]), 4)),
        ),
        config("Cf"),
        alias("Al"),
        trait_of("Tr"),
        implementation(),
    ]
}

fn full_fields() -> Vec<Field> {
    vec![
        field(0, "a", primitive(2))
            .marked(3)
            .encoded(2, 1)
            .limited(9),
        field(1, "", wrapped(4, named(0))),
        field(2, "b", sub_byte(true, 5)),
    ]
}

pub fn add(cases: &mut Cases) {
    for declaration in full_bodies() {
        let word = KIND_NAMES[usize::from(declaration.kind())];
        let whole = body(FIRST_FORMAT, &declaration);
        cases.beside_ride(&format!("whole {word}"), with_body(whole.clone()));
        for length in 1..whole.len() {
            let cut = with_body(whole[..length].to_vec());
            cases.beside_ride(&format!("{word} cut to {length}"), cut);
        }
        for (count, byte) in [(1, 0), (1, 255), (2, 8), (9, 0)] {
            let mut over = whole.clone();
            over.extend(vec![byte; count]);
            let name = format!("{word} with {count} left, {byte}");
            cases.beside_ride(&name, with_body(over));
        }
    }
    counts(cases);
    two_bodies(cases);
}

/// A count that is one too many or one too few for what follows.
fn counts(cases: &mut Cases) {
    for declaration in &full_bodies()[..4] {
        let word = KIND_NAMES[usize::from(declaration.kind())];
        let whole = body(FIRST_FORMAT, declaration);
        let at = if declaration.kind() < 2 { 5 } else { 4 };
        for (name, change) in [("too many", 1), ("too few", 255)] {
            let mut spoiled = whole.clone();
            spoiled[at] = spoiled[at].wrapping_add(change);
            cases.beside_ride(&format!("{word}: count one {name}"), with_body(spoiled));
        }
        let mut spoiled = whole.clone();
        spoiled[at + 1] = 255;
        cases.beside_ride(&format!("{word}: count far too many"), with_body(spoiled));
    }
}

/// The first body at fault answers, whatever the second holds.
fn two_bodies(cases: &mut Cases) {
    let faulty: [(&str, &[u8]); 5] = [
        ("6", &[9]),
        ("7", &[5, 1, b'-']),
        ("8", &[5, 1]),
        ("9", &[4, 0, 17]),
        ("10", &[&[4, 0][..], &[4; 32]].concat()),
    ];
    for (first, one) in &faulty {
        for (second, two) in &faulty {
            let bodies = vec![Some(one.to_vec()), None, Some(two.to_vec())];
            let image = Parts::around(&names(&["ride"]), &[0, 1, 2], bodies).bytes();
            cases.beside_ride(&format!("bodies at fault by {first} and {second}"), image);
        }
        let bodies = vec![Some(vec![8]), Some(one.to_vec())];
        let image = Parts::around(&[], &[], bodies).bytes();
        cases.beside_ride(
            &format!("second body at fault by {first}, not listed"),
            image,
        );
    }
}
