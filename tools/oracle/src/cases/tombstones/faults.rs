//! Bodies of format 3 at fault, which fault answers first, and heads of other formats.

use super::bodies::with_body;
use super::third;
use crate::cases::{ride, Cases};
use crate::formats::{SECOND_FORMAT, THIRD_FORMAT};
use crate::make::*;
use crate::writer::{image, Parts};

pub fn add(cases: &mut Cases) {
    ends(cases);
    order(cases);
    order_in_variants(cases);
    other_formats(cases);
    two_bodies(cases);
    formats(cases);
    heads(cases);
}

/// The largest counts, of what is not there.
fn ends(cases: &mut Cases) {
    let mut body = |name: &str, bytes: &[u8]| {
        cases.beside_ride(&format!("tombstones: {name}"), with_body(bytes.to_vec()));
    };
    body("8 of a message's count", &[0, 1, b'M', 0, 0, 0]);
    body("8 of half a message's count", &[0, 1, b'M', 0, 0, 0, 0]);
    body("a message's count", &[0, 1, b'M', 0, 0, 0, 0, 0]);
    body("8 of a message's number", &[0, 1, b'M', 0, 0, 0, 1, 0]);
    let most = [0, 1, b'M', 0, 0, 0, 255, 255, 1, 0, 0, 0];
    body("8 of 65,535 of a message", &most);
    body(
        "8 of a variant's count",
        &[3, 1, b'U', 1, 0, 5, 0, 0, 0, 0, 0, 0],
    );
    let half = [3, 1, b'U', 1, 0, 5, 0, 0, 0, 0, 0, 0, 0];
    body("8 of half a variant's count", &half);
    let own = [3, 1, b'U', 1, 0, 5, 0, 0, 0, 0, 0, 0, 0, 0];
    body("8 of the count behind a variant", &own);
    body("8 of an enum's count", &[1, 1, b'E', 0, 8, 0, 0]);
    body("8 of flags' count", &[2, 1, b'F', 8, 0, 0]);
    for kind in [4_u8, 5, 6, 7, 8] {
        let mut bytes = vec![kind];
        bytes.extend(if kind < 8 { &[1, b'K'][..] } else { &[] });
        bytes.extend(if kind == 4 { &[0, 2][..] } else { &[] });
        body(&format!("kind {kind}"), &bytes);
        bytes.extend([0, 0]);
        body(&format!("8 of a count of kind {kind}"), &bytes);
    }
}

/// Two faults in one body, of which the left one answers.
fn order(cases: &mut Cases) {
    let mut body = |name: &str, bytes: &[u8]| {
        cases.beside_ride(&format!("tombstones: {name}"), with_body(bytes.to_vec()));
    };
    let item = |name: u8| [3, 0, 0, 0, 1, name];
    body(
        "7 of a bit before 8 of the tombstones",
        &[&[2, 1, b'F', 8, 1, 0][..], &item(b'-'), &[1, 0]].concat(),
    );
    body(
        "9 of a width before 8 of the tombstones",
        &[&[2, 1, b'F', 3, 1, 0][..], &item(b'a'), &[1, 0]].concat(),
    );
    body(
        "8 of the tombstones behind a bit",
        &[&[2, 1, b'F', 8, 1, 0][..], &item(b'a'), &[1, 0]].concat(),
    );
    let field = |tag: u8| [&item(b'f')[..], &[0, 0, 0, 0, tag]].concat();
    body(
        "9 of a type before 8 of the tombstones",
        &[&[0, 1, b'M', 0, 1, 0][..], &field(14), &[9, 0]].concat(),
    );
    body(
        "8 of the tombstones behind a field",
        &[&[0, 1, b'M', 0, 1, 0][..], &field(13), &[9, 0]].concat(),
    );
}

fn order_in_variants(cases: &mut Cases) {
    let mut body = |name: &str, bytes: &[u8]| {
        cases.beside_ride(&format!("tombstones: {name}"), with_body(bytes.to_vec()));
    };
    let variants = |first: &[u8], last: &[u8]| {
        let of = |rest: &[u8]| [&[3, 0, 0, 0, 1, b'v', 0, 0][..], rest].concat();
        [&[3, 1, b'U', 2, 0][..], &of(first), &of(last)].concat()
    };
    // The second variant's name is read where the first one's numbers end.
    body(
        "a variant's numbers, one too few",
        &variants(&[0, 0, 1, 0, 0, 0], &[0, 0]),
    );
    body(
        "a variant's numbers, one too many",
        &variants(&[2, 0, 1, 0, 0, 0], &[0, 0]),
    );
    body(
        "two variants, no count of the union",
        &variants(&[0, 0], &[0, 0]),
    );
    let whole = [&variants(&[1, 0, 9, 0, 0, 0], &[0, 0])[..], &[0, 0]].concat();
    body("two variants", &whole);
}

/// The bytes of format 2 in format 3, and those of 3 in the others.
fn other_formats(cases: &mut Cases) {
    let bodies = [0, 1, 2, 3, 4, 8].map(|kind| of_kind(kind, "K"));
    for declaration in bodies {
        let kind = declaration.kind();
        for from in 1..=3_u16 {
            let whole = schema(vec![declaration.clone()]).in_format(from);
            for to in (1..=3_u16).filter(|to| *to != from) {
                let mut image = image(&whole);
                image[..2].copy_from_slice(&to.to_le_bytes());
                let name = format!("tombstones: kind {kind} of format {from}, said to be {to}");
                cases.beside_ride(&name, image);
            }
        }
    }
}

/// The first body at fault answers.
fn two_bodies(cases: &mut Cases) {
    let faulty: [(&str, &[u8]); 4] = [
        ("8 of a count", &[2, 1, b'F', 1, 0, 0, 0]),
        ("8 of a number", &[0, 1, b'M', 0, 0, 0, 1, 0, 9]),
        ("9 of a width", &[2, 1, b'F', 3, 0, 0, 0, 0]),
        ("7", &[5, 1, b'-']),
    ];
    for (first, one) in &faulty {
        for (other, two) in &faulty {
            let bodies = vec![Some(one.to_vec()), None, Some(two.to_vec())];
            let parts = Parts::around(&names(&["ride"]), &[0, 1, 2], bodies);
            let format = THIRD_FORMAT;
            let image = Parts { format, ..parts }.bytes();
            let name = format!("tombstones: bodies at fault by {first} and {other}");
            cases.beside_ride(&name, image);
        }
        let bodies = vec![Some(vec![8]), Some(one.to_vec())];
        let parts = Parts::around(&[], &[], bodies);
        let format = THIRD_FORMAT;
        let image = Parts { format, ..parts }.bytes();
        let name = format!("tombstones: second body at fault by {first}, not listed");
        cases.beside_ride(&name, image);
    }
}

/// Other formats beside each of the three.
fn formats(cases: &mut Cases) {
    let known = [1, 2, 3].map(|format| {
        let speed = field(0, "speed", primitive(2));
        image(&schema(vec![message("Drive", vec![speed])]).in_format(format))
    });
    for format in [
        0_u16, 4, 5, 128, 255, 256, 257, 258, 259, 512, 768, 771, 65_535,
    ] {
        let mut other = known[2].clone();
        other[..2].copy_from_slice(&format.to_le_bytes());
        let name = format!("tombstones: format {format}");
        for (beside, image) in (1..).zip(&known) {
            let name = format!("{name}, beside format {beside}");
            cases.bytes(&name, image.clone(), other.clone());
            cases.bytes(&format!("{name}, old"), other.clone(), image.clone());
        }
    }
}

/// The order of 3 with 2 and 4, and of format 3 what is refused in front of the bodies.
fn heads(cases: &mut Cases) {
    let head = |format: u16, counts: [u16; 3]| {
        let parts = Parts::around(&[], &[], vec![]);
        let head = Parts {
            format,
            counts,
            ..parts
        };
        head.bytes()
    };
    cases.beside_ride("tombstones: 3 before 4", head(4, [513, 513, 17]));
    cases.beside_ride("tombstones: 3 before the rest of 2", head(4, [1, 1, 1]));
    cases.beside_ride("tombstones: 4 in format 3", head(3, [513, 0, 0]));
    cases.beside_ride("tombstones: the rest of 2 in format 3", head(3, [1, 0, 0]));
    cases.beside_ride("tombstones: 2 before 3", vec![4; 7]);
    cases.beside_ride(
        "tombstones: 5 in format 3",
        [&head(3, [0; 3])[..], &[0]].concat(),
    );
    cases.bytes(
        "tombstones: 3 on both sides",
        head(4, [0; 3]),
        head(0, [0; 3]),
    );
    let second = image(&third(vec![]).in_format(SECOND_FORMAT));
    cases.bytes("tombstones: nothing beside ride", ride(), head(3, [0; 3]));
    cases.bytes(
        "tombstones: nothing beside format 2",
        second,
        head(3, [0; 3]),
    );
}
