//! Widths that are refused, and what is refused before and after them.

use super::bodies::with_body;
use crate::cases::{ride, Cases};
use crate::formats::SECOND_FORMAT;
use crate::make::*;
use crate::writer::{image, Parts};

pub fn add(cases: &mut Cases) {
    values(cases);
    order(cases);
    bodies_of_the_other_format(cases);
    two_bodies(cases);
    formats(cases);
}

fn values(cases: &mut Cases) {
    for width in [
        0, 1, 2, 3, 4, 5, 6, 7, 8, 9, 10, 12, 16, 17, 32, 64, 65, 127, 128, 129, 136, 254, 255,
    ] {
        let flags = vec![2, 1, b'F', width, 0, 0];
        cases.beside_ride(&format!("widths: flags of {width}"), with_body(flags));
        let enumeration = vec![1, 1, b'E', 0, width, 0, 0];
        let name = format!("widths: an enum of {width}, whole");
        cases.beside_ride(&name, with_body(enumeration));
    }
}

/// Two faults in one body, of which the left one answers.
fn order(cases: &mut Cases) {
    let mut body = |name: &str, bytes: &[u8]| {
        cases.beside_ride(&format!("widths: {name}"), with_body(bytes.to_vec()));
    };
    body("8 of an enum's", &[1, 1, b'E', 0]);
    body("8 of flags'", &[2, 1, b'F']);
    body("8 of an enum's count", &[1, 1, b'E', 0, 255]);
    body("8 of half an enum's count", &[1, 1, b'E', 0, 255, 0]);
    body("8 of flags' count", &[2, 1, b'F', 8]);
    body("8 of half of flags' count", &[2, 1, b'F', 8, 0]);
    body("9 before 8 of the count", &[2, 1, b'F', 3]);
    body("9 before 8 of half the count", &[2, 1, b'F', 0, 0]);
    body("9 before 8 of the bits", &[2, 1, b'F', 255, 1, 0]);
    body("9 before 8, bytes left", &[2, 1, b'F', 5, 0, 0, 0]);
    let bit = [0, 0, 0, 0, 1, b'-'];
    body(
        "9 before 7 of a bit",
        &[&[2, 1, b'F', 3, 1, 0][..], &bit].concat(),
    );
    body(
        "7 of a bit behind a width",
        &[&[2, 1, b'F', 8, 1, 0][..], &bit].concat(),
    );
    body("7 before 9", &[2, 1, b'-', 3, 0, 0]);
    body("8 of the name before 9", &[2, 4, b'F', 3, 0, 0]);
    body("9 of the marks before 8 of the width", &[1, 1, b'E', 4]);
    body("9 of the marks", &[1, 1, b'E', 4, 8, 0, 0]);
    body(
        "7 of a variant behind a width",
        &[&[1, 1, b'E', 3, 8, 1, 0][..], &bit].concat(),
    );
}

fn bodies_of_the_other_format(cases: &mut Cases) {
    let mut body = |name: &str, bytes: &[u8]| {
        cases.beside_ride(&format!("widths: {name}"), with_body(bytes.to_vec()));
    };
    // The bytes of format 1: a width of 1, and half a count or half a name.
    body(
        "flags of format 1",
        &[2, 1, b'F', 1, 0, 0, 0, 0, 0, 1, b'a'],
    );
    body(
        "an enum of format 1",
        &[1, 1, b'E', 0, 1, 0, 0, 0, 0, 0, 1, b'a'],
    );
    body("flags without bits of format 1", &[2, 1, b'F', 0, 0]);
    body(
        "an enum without variants of format 1",
        &[1, 1, b'E', 0, 0, 0],
    );
    // Those of format 2 in format 1.
    let mut first = |name: &str, body: &[u8]| {
        let body = vec![Some(body.to_vec())];
        let image = Parts::around(&names(&["ride"]), &[0], body).bytes();
        cases.beside_ride(&format!("widths: {name}, in format 1"), image);
    };
    first(
        "flags of format 2",
        &[2, 1, b'F', 1, 1, 0, 0, 0, 0, 0, 1, b'a'],
    );
    first(
        "an enum of format 2",
        &[1, 1, b'E', 0, 8, 1, 0, 0, 0, 0, 0, 1, b'a'],
    );
    first("flags of none", &[2, 1, b'F', 0, 0, 0]);
    first("an enum of none", &[1, 1, b'E', 0, 0, 0, 0]);
    // Three bytes for a count of 3 and so many bits, that are a width of 3.
    let bits: Vec<u8> = (0..3).flat_map(|bit| [bit, 0, 0, 0, 0]).collect();
    let three = [&[2, 1, b'F', 3, 0][..], &bits].concat();
    first("three bits, or a width of 3", &three);
    cases.beside_ride("widths: three bits, or a width of 3", with_body(three));
}

/// The first body at fault answers.
fn two_bodies(cases: &mut Cases) {
    let faulty: [(&str, &[u8]); 4] = [
        ("9 of a width", &[2, 1, b'F', 3, 0, 0]),
        ("8 of a width", &[1, 1, b'E', 0]),
        ("6", &[9]),
        ("7", &[5, 1, b'-']),
    ];
    for (first, one) in &faulty {
        for (other, two) in &faulty {
            let bodies = vec![Some(one.to_vec()), None, Some(two.to_vec())];
            let parts = Parts::around(&names(&["ride"]), &[0, 1, 2], bodies);
            let format = SECOND_FORMAT;
            let image = Parts { format, ..parts }.bytes();
            let name = format!("widths: bodies at fault by {first} and {other}");
            cases.beside_ride(&name, image);
        }
        let bodies = vec![Some(vec![8]), Some(one.to_vec())];
        let parts = Parts::around(&[], &[], bodies);
        let format = SECOND_FORMAT;
        let image = Parts { format, ..parts }.bytes();
        let name = format!("widths: second body at fault by {first}, not listed");
        cases.beside_ride(&name, image);
    }
}

/// Format 3 and others beside each of the two that are known; the order with 2 and 4.
fn formats(cases: &mut Cases) {
    let second = image(&second_ride());
    for format in [
        0_u16, 3, 4, 5, 128, 255, 256, 257, 258, 512, 513, 514, 65_535,
    ] {
        let mut other = second.clone();
        other[..2].copy_from_slice(&format.to_le_bytes());
        let name = format!("widths: format {format}");
        cases.beside_ride(&name, other.clone());
        cases.bytes(&format!("{name}, beside format 2"), second.clone(), other);
    }
    let head = |format: u16, counts: [u16; 3]| {
        let parts = Parts::around(&[], &[], vec![]);
        let head = Parts {
            format,
            counts,
            ..parts
        };
        head.bytes()
    };
    cases.beside_ride("widths: 3 before 4", head(3, [513, 513, 17]));
    cases.beside_ride("widths: 3 before the rest of 2", head(3, [1, 1, 1]));
    cases.beside_ride("widths: 4 in format 2", head(2, [513, 0, 0]));
    cases.beside_ride("widths: the rest of 2 in format 2", head(2, [1, 0, 0]));
    cases.beside_ride("widths: 2 before 3", vec![3; 7]);
    cases.bytes("widths: 3 beside format 2", head(3, [0; 3]), second);
    cases.bytes("widths: 3 on both sides", head(3, [0; 3]), head(3, [0; 3]));
    cases.bytes("widths: ride", ride(), ride());
}

/// The example of document 01 in format 2.
fn second_ride() -> crate::schema::Schema {
    let speed = field(0, "speed", primitive(2));
    super::second(vec![message("Drive", vec![speed])])
}
