//! Format 2: its widths are read and written as they are stored, of flags only the
//! four, and nothing else of a body differs from format 1.

use super::Tests;
use crate::limits::FORMATS;
use crate::make::*;
use crate::random::random_schema;
use crate::reader::read_image;
use crate::refusal::Read;
use crate::rng::Rng;
use crate::schema::{has_widths, Body, Schema, Width, FIRST_FORMAT, WIRE_BYTES};
use crate::writer::{body, image, Parts};

pub fn run(tests: &mut Tests) {
    every_kind(tests);
    random(tests);
    written(tests);
    any_wire_bits(tests);
    four_wire_bytes(tests);
    without(tests);
    order(tests);
    first_format(tests);
    in_words(tests);
}

/// The same in format 2, with any widths.
pub fn widened(rng: &mut Rng, schema: Schema) -> Schema {
    let mut schema = schema.in_format(2);
    for declaration in schema.registry.iter_mut().flatten() {
        let flags = matches!(declaration.body, Body::Flags(..));
        if let Some(width) = declaration.width_mut() {
            *width = Some(match flags {
                true => *rng.pick(&WIRE_BYTES),
                false => rng.next() as u8,
            });
        }
    }
    schema
}

fn every_kind(tests: &mut Tests) {
    let widths = [
        enumeration("E", 2, items(&[(0, "a"), (7, "b")])).of_width(16),
        flags("F", items(&[(8, "i")])).of_width(2),
    ];
    let others = (0..9).map(|kind| of_kind(kind, "Name"));
    let whole = schema(widths.into_iter().chain(others).collect());
    for format in FORMATS {
        let schema = whole.clone().in_format(format);
        let bytes = image(&schema);
        let first = bytes[..2].to_vec();
        tests.equal("the format", first, format.to_le_bytes().to_vec());
        tests.equal("every kind in a format", read_image(&bytes), Ok(schema));
    }
}

fn random(tests: &mut Tests) {
    let mut rng = Rng::new(2);
    let kept = (0..500).all(|_| {
        let schema = random_schema(&mut rng, 12);
        let schema = widened(&mut rng, schema);
        read_image(&image(&schema)) == Ok(schema)
    });
    tests.holds("what is written in format 2 is read again", kept);
}

/// The bodies by hand: the width stands before the count.
fn written(tests: &mut Tests) {
    let enumeration = enumeration("E", 2, items(&[(7, "v")]));
    let flags = flags("F", items(&[(7, "b")]));
    let wanted = vec![1, 1, b'E', 2, 1, 0, 7, 0, 0, 0, 1, b'v'];
    tests.equal("an enum", body(FIRST_FORMAT, &enumeration), wanted);
    let wanted = vec![1, 1, b'E', 2, 16, 1, 0, 7, 0, 0, 0, 1, b'v'];
    tests.equal("its width", body(2, &enumeration.of_width(16)), wanted);
    let wanted = vec![2, 1, b'F', 1, 0, 7, 0, 0, 0, 1, b'b'];
    tests.equal("flags", body(FIRST_FORMAT, &flags), wanted);
    let wanted = vec![2, 1, b'F', 4, 1, 0, 7, 0, 0, 0, 1, b'b'];
    tests.equal("their width", body(2, &flags.of_width(4)), wanted);
}

/// An image with nothing in front but its contents: an empty entry and this body,
/// which starts at byte 16.
fn with_body(format: u16, body: &[u8]) -> Read<Schema> {
    let parts = Parts::around(&[], &[], vec![None, Some(body.to_vec())]);
    read_image(&Parts { format, ..parts }.bytes())
}

fn number(format: u16, body: &[u8]) -> u8 {
    with_body(format, body).map_or_else(|refusal| refusal.number, |_| 0)
}

/// The width that is read, or the number.
fn width(body: &[u8]) -> Result<Width, u8> {
    let schema = with_body(2, body).map_err(|refusal| refusal.number)?;
    let declaration = schema.registry.into_iter().flatten().next();
    Ok(declaration.and_then(|mut declaration| *declaration.width_mut()?))
}

fn any_wire_bits(tests: &mut Tests) {
    for bits in 0..=255 {
        let found = width(&[1, 1, b'E', 0, bits, 0, 0]);
        tests.equal("wire bits", found, Ok(Some(bits)));
    }
}

/// Judged on reading the byte: before the count, of which nothing is there.
fn four_wire_bytes(tests: &mut Tests) {
    for bytes in 0..=255 {
        let wanted = match bytes {
            1 | 2 | 4 | 8 => (Ok(Some(bytes)), 8),
            _ => (Err(9), 9),
        };
        let found = width(&[2, 1, b'F', bytes, 0, 0]);
        let cut = number(2, &[2, 1, b'F', bytes]);
        tests.equal("wire bytes", (found, cut), wanted);
    }
}

/// A body that ends before its width, or before its count.
fn without(tests: &mut Tests) {
    let mut body = |name: &str, bytes: &[u8], wanted: u8| {
        tests.equal(name, number(2, bytes), wanted);
    };
    body("an enum without a width", &[1, 0, 3], 8);
    body("an enum without a count", &[1, 0, 3, 255], 8);
    body("an enum with half a count", &[1, 0, 3, 255, 0], 8);
    body("an enum", &[1, 0, 3, 255, 0, 0], 0);
    body("an enum with a byte left", &[1, 0, 3, 255, 0, 0, 0], 8);
    body("flags without a width", &[2, 0], 8);
    body("flags without a count", &[2, 0, 8], 8);
    body("flags with half a count", &[2, 0, 8, 0], 8);
    body("flags", &[2, 0, 8, 0, 0], 0);
    body("flags with a byte left", &[2, 0, 8, 0, 0, 0], 8);
}

fn order(tests: &mut Tests) {
    let mut body = |name: &str, bytes: &[u8], wanted: u8| {
        tests.equal(name, number(2, bytes), wanted);
    };
    body("9 of the marks before 8 of the width", &[1, 0, 4], 9);
    body("7 of the name before 9 of the width", &[2, 1, b'-', 3], 7);
    let item = [7, 0, 0, 0, 1, b'-'];
    let flags = |width: u8| [&[2, 0, width, 1, 0][..], &item].concat();
    body("9 of the width before 7 of a bit", &flags(3), 9);
    body("7 of a bit behind a width", &flags(2), 7);
    for kind in [0, 3, 4, 5, 6, 7, 8] {
        let declaration = of_kind(kind, "K");
        let same = crate::writer::body(FIRST_FORMAT, &declaration);
        let other = crate::writer::body(2, &declaration);
        tests.equal("no width", &other, &same);
        tests.equal("no width", number(2, &same), 0);
    }
}

/// What would be no width is a part of the count there.
fn first_format(tests: &mut Tests) {
    tests.holds("no widths", !has_widths(FIRST_FORMAT));
    let three: Vec<u8> = (0..3).flat_map(|bit| [bit, 0, 0, 0, 0]).collect();
    let flags = [&[2, 1, b'F', 3, 0][..], &three].concat();
    let found = [1, 2].map(|format| number(format, &flags));
    tests.equal("three bits, or a width of 3", found, [0, 9]);
    let found = [1, 2].map(|format| number(format, &[2, 1, b'F', 0, 0]));
    tests.equal("no bits, or a width of 0", found, [0, 9]);
    let found = [1, 2].map(|format| number(format, &[2, 1, b'F', 1, 0, 0]));
    tests.equal("one bit, or a width of 1", found, [8, 0]);
    let found = [1, 2].map(|format| number(format, &[1, 1, b'E', 0, 0, 0]));
    tests.equal("no variants, or no count", found, [0, 8]);
}

fn in_words(tests: &mut Tests) {
    let mut told = |body: &[u8], wanted: &str| {
        let found = with_body(2, body).map_err(|refusal| refusal.to_string());
        tests.equal("in words", found.map(|_| ()), Err(wanted.to_string()));
    };
    told(
        &[2, 5, b'L', b'a', b'm', b'p', b's', 3, 0, 0],
        "refused 9: code: entry 1, flags 'Lamps', at byte 23: width 3",
    );
    told(
        &[2, 0, 255],
        "refused 9: code: entry 1, flags '', at byte 18: width 255",
    );
    told(
        &[2, 1, b'F'],
        "refused 8: body: entry 1, flags 'F', at byte 19: width, 1 byte missing",
    );
    told(
        &[1, 1, b'E', 0],
        "refused 8: body: entry 1, enum 'E', at byte 20: width, 1 byte missing",
    );
    told(
        &[1, 1, b'E', 0, 16, 1],
        "refused 8: body: entry 1, enum 'E', at byte 21: count, 1 byte missing",
    );
}
