//! Head, contents, ids and namespace: refusals 1 to 4, the 2 behind the head,
//! and the 7 of segments, each with the nearest image that is accepted.

use super::{ride, Cases};
use crate::limits::IMAGE_BYTES;
use crate::make::*;
use crate::schema::Schema;
use crate::writer::{name, Parts};

pub fn add(cases: &mut Cases) {
    lengths(cases);
    formats(cases);
    crowds(cases);
    short_fronts(cases);
    segments(cases);
    order(cases);
}

fn head(format: u16, counts: [u16; 3]) -> Vec<u8> {
    let mut parts = Parts::of(&Schema::default());
    (parts.format, parts.counts) = (format, counts);
    parts.bytes()
}

fn lengths(cases: &mut Cases) {
    for length in 0..8 {
        let image = ride()[..length].to_vec();
        cases.beside_ride(&format!("{length} bytes"), image);
    }
    cases.beside_ride("8 bytes", head(1, [0; 3]));
    cases.bytes("32,769 bytes of format 0", vec![0; IMAGE_BYTES + 1], ride());
    cases.bytes("32,768 bytes of format 0", ride(), vec![0; IMAGE_BYTES]);
}

fn formats(cases: &mut Cases) {
    for format in [0, 2, 3, 255, 256, 257, 65_535] {
        let mut image = ride();
        image[..2].copy_from_slice(&u16::to_le_bytes(format));
        cases.beside_ride(&format!("format {format}"), image);
    }
}

/// Whole but for the crowd, so that only the count is at fault.
fn crowds(cases: &mut Cases) {
    let segments = |n| vec!["s".to_string(); n];
    let parts = |n, m, s| Parts::around(&segments(s), &vec![0; m], vec![None; n]).bytes();
    cases.beside_ride("N, M and S at their most", parts(512, 512, 16));
    cases.beside_ride("512 ids", parts(0, 512, 0));
    cases.beside_ride("16 segments", parts(0, 0, 16));
    cases.beside_ride("whole with N 513", parts(513, 0, 0));
    cases.beside_ride("whole with M 513", parts(0, 513, 0));
    cases.beside_ride("whole with S 17", parts(0, 0, 17));
    for (place, what) in ["N", "M", "S"].iter().enumerate() {
        for count in [256, 512, 513, 769, 32_768, 65_535] {
            let mut counts = [0; 3];
            counts[place] = count;
            cases.beside_ride(&format!("{what} of {count} alone"), head(1, counts));
        }
    }
    for count in [15, 16, 17, 18] {
        cases.beside_ride(&format!("S of {count} alone"), head(1, [0, 0, count]));
    }
}

fn short_fronts(cases: &mut Cases) {
    let whole = Parts::around(&names(&["ab", "cd"]), &[0, 1], vec![None, None]).bytes();
    cases.beside_ride("a front and no body", whole.clone());
    for length in 8..whole.len() {
        cases.beside_ride(
            &format!("a front of {length} bytes"),
            whole[..length].to_vec(),
        );
    }
    let ends = [
        (2, 0, 0, "contents"),
        (0, 2, 0, "ids"),
        (0, 0, 2, "segments"),
    ];
    for (n, m, s, what) in ends {
        let segments = vec!["ab".to_string(); s];
        let whole = Parts::around(&segments, &vec![7; m], vec![None; n]).bytes();
        let short = whole[..whole.len() - 1].to_vec();
        cases.beside_ride(&format!("{what} end the image"), whole);
        cases.beside_ride(&format!("{what} one byte short"), short);
    }
}

fn with_names(count: u16, names: &[u8]) -> Vec<u8> {
    let mut image = head(1, [0, 0, count]);
    image.extend(names);
    image
}

fn segments(cases: &mut Cases) {
    let bad = |text: &[u8]| {
        let mut bytes = vec![text.len() as u8];
        bytes.extend(text);
        bytes
    };
    for text in [&b"."[..], b"a.b", b"ab ", b"-ab", b"\0", b"\xff", b"a\x80b"] {
        let shown = text.escape_ascii();
        cases.beside_ride(&format!("segment {shown}"), with_names(1, &bad(text)));
        let second = [name("ok"), bad(text)].concat();
        let image = with_names(2, &second);
        cases.beside_ride(&format!("second segment {shown}"), image);
    }
    let longest = name(&"s".repeat(255));
    let short = longest[..255].to_vec();
    cases.beside_ride("a segment of 255 bytes", with_names(1, &longest));
    cases.beside_ride("a segment of 255 bytes, one short", with_names(1, &short));
}

/// Two faults, of which the first in 01's order answers.
fn order(cases: &mut Cases) {
    cases.beside_ride("2 before 3", ride()[1..8].to_vec());
    cases.beside_ride("3 before 4", head(0, [513, 513, 17]));
    cases.beside_ride("3 before the rest of 2", head(3, [1, 1, 1]));
    cases.beside_ride("the rest of 2, in format 2", head(2, [1, 1, 1]));
    cases.beside_ride("4 before the rest of 2", head(1, [1, 1, 17]));
    cases.beside_ride("2 before 7 in one segment", with_names(1, b"\x03a."));
    cases.beside_ride("7 before 2 of the next segment", with_names(2, b"\x01."));
    cases.beside_ride(
        "7 before 2 in the next segment",
        with_names(2, b"\x01.\x05a"),
    );
    cases.beside_ride("2 of contents before 7", with_contents(b""));
    cases.beside_ride("7 before 5", with_names(1, b"\x01.left"));
    let mut parts = Parts::of(&schema(vec![config("A")]));
    parts.names = b"\x04ri-e".to_vec();
    parts.contents[0].0 += 1;
    cases.beside_ride("7 before 5 of an entry", parts.bytes());
}

fn with_contents(rest: &[u8]) -> Vec<u8> {
    let mut image = head(1, [1, 0, 1]);
    image.extend(b"\x01./");
    image.extend(rest);
    image
}
