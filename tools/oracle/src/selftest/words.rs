//! A refusal in words: its number and word, the place as far as it is known, and
//! what was found there.

use super::reading::RIDE;
use super::Tests;
use crate::reader::read_image;
use crate::writer::Parts;

pub fn run(tests: &mut Tests) {
    head(tests);
    front(tests);
    contents(tests);
    names(tests);
    short(tests);
    left_over(tests);
    codes(tests);
    deep(tests);
    cut_ride(tests);
}

fn told(tests: &mut Tests, image: &[u8], wanted: &str) {
    let found = read_image(image).map_err(|refusal| refusal.to_string());
    tests.equal("in words", found.map(|_| ()), Err(wanted.to_string()));
}

/// An image with nothing in front but its contents: an empty entry and this body,
/// which starts at byte 16.
fn body(tests: &mut Tests, bytes: &[u8], wanted: &str) {
    let image = Parts::around(&[], &[], vec![None, Some(bytes.to_vec())]).bytes();
    told(tests, &image, wanted);
}

/// A field without a name and with this end, in message `M` and in a variant of union
/// `U`. The end starts at byte 27 and at byte 33; `at` is counted from there.
fn field(tests: &mut Tests, end: &[u8], number: &str, at: usize, found: &str) {
    let starts = [
        (&[0, 1, b'M', 0][..], "message 'M'", 27 + at),
        (&[3, 1, b'U', 1, 0, 7, 0, 0, 0, 0], "union 'U'", 33 + at),
    ];
    for (start, place, at) in starts {
        let bytes = [start, &[1, 0, 1, 0, 0, 0, 0], end].concat();
        let wanted = format!("refused {number}: entry 1, {place}, at byte {at}: {found}");
        body(tests, &bytes, &wanted);
    }
}

/// A newtype `N` of this type, which starts at byte 19; `at` is counted from there.
fn newtype(tests: &mut Tests, ty: &[u8], number: &str, at: usize, found: &str) {
    let at = 19 + at;
    let wanted = format!("refused {number}: entry 1, newtype 'N', at byte {at}: {found}");
    body(tests, &[&[4, 1, b'N'], ty].concat(), &wanted);
}

fn head(tests: &mut Tests) {
    let mut told = |image: &[u8], wanted: &str| told(tests, image, wanted);
    told(&[0; 32_769], "refused 1: long: over 32768 bytes");
    told(&[0; 40_000], "refused 1: long: over 32768 bytes");
    let missing = |n: &str| format!("refused 2: short head: at byte 0: head, {n} missing");
    told(&[], &missing("8 bytes"));
    told(&[9; 7], &missing("1 byte"));
    let format = |n: u16| format!("refused 3: format: at byte 0: format {n}");
    told(&[4, 0, 0, 0, 0, 0, 0, 0], &format(4));
    told(&[0, 1, 1, 2, 0, 0, 0, 0], &format(256));
    let crowded = "refused 4: crowded: at byte";
    told(&[1, 0, 1, 2, 1, 2, 17, 0], &format!("{crowded} 2: N 513"));
    told(&[1, 0, 0, 0, 1, 2, 17, 0], &format!("{crowded} 4: M 513"));
    told(&[1, 0, 0, 0, 0, 0, 17, 0], &format!("{crowded} 6: S 17"));
}

/// Contents, ids and segments that run past the end, and names of segments.
fn front(tests: &mut Tests) {
    let mut front = |counts: [u8; 3], rest: &[u8], wanted: &str| {
        let [n, m, s] = counts;
        let image = [&[1, 0, n, 0, m, 0, s, 0], rest].concat();
        told(tests, &image, wanted);
    };
    let short = |at: usize, what: &str| format!("refused 2: short head: at byte {at}: {what}");
    let missing = "contents, 5 bytes missing";
    front([2, 0, 0], &[0; 3], &short(8, missing));
    front([1, 2, 0], &[0; 5], &short(12, "ids, 7 bytes missing"));
    front([0, 1, 0], &[], &short(8, "ids, 4 bytes missing"));
    let missing = "name length, 1 byte missing";
    front([0, 0, 1], &[], &short(8, missing));
    front([0, 0, 2], &[1, b'a'], &short(10, missing));
    front([0, 0, 1], &[3, b'.'], &short(9, "segment, 2 bytes missing"));
    let name =
        |at: usize, byte: u8| format!("refused 7: name: at byte {at}: segment, byte value {byte}");
    front([0, 0, 1], b"\x01.", &name(9, 46));
    front([0, 0, 2], b"\x01a\x04bc -", &name(13, 32));
    let mut ride = RIDE;
    ride[17] = b' ';
    told(tests, &ride, &name(17, 32));
}

fn contents(tests: &mut Tests) {
    let mut contents = |entries: [[u8; 4]; 2], wanted: &str| {
        let image = [&[1, 0, 2, 0, 0, 0, 0, 0], &entries.concat()[..], &[8, 8]].concat();
        told(tests, &image, &format!("refused 5: contents: {wanted}"));
    };
    let (empty, first, second) = ([0; 4], [16, 0, 1, 0], [17, 0, 1, 0]);
    contents([empty, empty], "at byte 16: left after the names, 2 bytes");
    let left = "at byte 17: left after the last body, 1 byte";
    contents([first, empty], left);
    contents([empty, first], left);
    let gap = |id: usize, at: usize| format!("entry {id}, at byte {at}: gap before entry, 1 byte");
    contents([second, first], &gap(0, 8));
    contents([empty, second], &gap(1, 12));
    let early = "entry 1, at byte 12: entry too early, 1 byte";
    contents([first, first], early);
    let early = "entry 0, at byte 8: entry too early, 16 bytes";
    contents([[0, 0, 1, 0], second], early);
    let past = "entry 1, at byte 12: entry past the end, 255 bytes";
    contents([first, [17, 0, 0, 1]], past);
    let none = "entry 0, at byte 8: entry of no length, its offset is 300";
    contents([[44, 1, 0, 0], first], none);
    let none = "entry 1, at byte 12: entry of no length, its offset is 17";
    contents([first, [17, 0, 0, 0]], none);
    let mut ride = RIDE.to_vec();
    ride.extend([0; 3]);
    let left = "refused 5: contents: at byte 46: left after the last body, 3 bytes";
    told(tests, &ride, left);
}

/// Bytes of names that are not allowed, and kinds.
fn names(tests: &mut Tests) {
    let kind = |n: u8| format!("refused 6: kind: entry 1, at byte 16: kind {n}");
    body(tests, &[9], &kind(9));
    body(tests, &[255, 1, b'/'], &kind(255));
    let mut name = |bytes: &[u8], place: &str, at: usize, found: &str| {
        let wanted = format!("refused 7: name: entry 1, {place}, at byte {at}: {found}");
        body(tests, bytes, &wanted);
    };
    let found = "declaration name, byte value 47";
    name(&[5, 1, b'/'], "config", 18, found);
    name(&[6, 3, b'A', b'b', b'/'], "generic_alias", 20, found);
    let found = "enum variant name, byte value 0";
    name(&[1, 0, 3, 1, 0, 9, 9, 9, 9, 1, 0], "enum ''", 26, found);
    let found = "bit name, byte value 255";
    let flags = [2, 1, b'F', 1, 0, 0, 0, 0, 0, 2, b'_', 255];
    name(&flags, "flags 'F'", 27, found);
    let found = "union variant name, byte value 45";
    let union = [3, 2, b'U', b'v', 1, 0, 7, 0, 0, 0, 2, b'-', b'-'];
    name(&union, "union 'Uv'", 27, found);
    let field = [3, 0, 1, 0, 7, 0, 0, 0, 0, 1, 0, 1, 0, 0, 0, 1, b':'];
    name(&field, "union ''", 32, "field name, byte value 58");
    let bits = [4, 1, b'N', 4, 16, 3, 0, 1, b'a', 2, b'b', 128];
    name(&bits, "newtype 'N'", 27, "inline bit name, byte value 128");
}

/// Bodies that end early.
fn short(tests: &mut Tests) {
    let mut short = |bytes: &[u8], place: &str, at: usize, found: &str| {
        let wanted = format!("refused 8: body: entry 1, {place}, at byte {at}: {found} missing");
        body(tests, bytes, &wanted);
    };
    short(&[5], "config", 17, "name length, 1 byte");
    short(&[7, 9, b'/'], "trait", 18, "declaration name, 8 bytes");
    short(&[0, 0], "message ''", 18, "marks, 1 byte");
    short(&[0, 1, b'M', 3], "message 'M'", 20, "count, 2 bytes");
    short(&[2, 0, 1], "flags ''", 18, "count, 1 byte");
    let flags = [2, 1, b'F', 1, 0, 7, 0, 0];
    short(&flags, "flags 'F'", 21, "item ordinal, 1 byte");
    let union = [3, 1, b'U', 1, 0, 7, 0, 0, 0, 2, b'-'];
    short(&union, "union 'U'", 26, "union variant name, 1 byte");
    let union = [3, 1, b'U', 1, 0, 7, 0, 0, 0, 0, 1];
    short(&union, "union 'U'", 26, "variant's field count, 1 byte");
    let number = "8: body";
    field(tests, &[], number, 0, "field marks, 1 byte missing");
    field(tests, &[0], number, 1, "encoding, 1 byte missing");
    field(tests, &[0, 3], number, 2, "inner encoding, 1 byte missing");
    field(tests, &[0, 1], number, 2, "limit mark, 1 byte missing");
    let limit = [0, 0, 1, 9, 9, 9];
    field(tests, &limit, number, 3, "limit, 5 bytes missing");
    field(tests, &[0, 0, 0], number, 3, "tag, 1 byte missing");
    let id = [0, 0, 0, 8, 0, 2, 3, 1];
    field(tests, &id, number, 7, "type id, 3 bytes missing");
    let value = [0, 0, 0, 8, 4, 2, 0];
    field(tests, &value, number, 7, "tag, 1 byte missing");
    newtype(tests, &[6, 1, 0], number, 1, "size, 6 bytes missing");
    let bits = "inline bit name, 3 bytes missing";
    newtype(tests, &[5, 16, 2, 0, 4, b'a'], number, 5, bits);
}

fn left_over(tests: &mut Tests) {
    let mut left = |bytes: &[u8], place: &str, at: usize, found: &str| {
        let wanted = format!("refused 8: body: entry 1, {place}, at byte {at}: left over, {found}");
        body(tests, bytes, &wanted);
    };
    left(&[8, 0], "impl", 17, "1 byte");
    left(&[8, 1, b'I', 9], "impl", 17, "3 bytes");
    left(&[5, 1, b'C', 9], "config 'C'", 19, "1 byte");
    left(&[0, 1, b'M', 0, 0, 0, 9, 9], "message 'M'", 22, "2 bytes");
    let field = [0, 0, 0, 4, 0, 13, 0];
    self::field(tests, &field, "8: body", 6, "left over, 1 byte");
    newtype(tests, &[0, 1, 0, 1], "8: body", 2, "left over, 2 bytes");
}

fn codes(tests: &mut Tests) {
    let mut marks = |bytes: &[u8], place: &str, at: usize| {
        let wanted = format!("refused 9: code: entry 1, {place}, at byte {at}: marks 4");
        body(tests, bytes, &wanted);
    };
    marks(&[0, 0, 4], "message ''", 18);
    marks(&[1, 2, b'E', b'e', 4], "enum 'Ee'", 20);
    let number = "9: code";
    field(tests, &[4], number, 0, "field marks 4");
    field(tests, &[0, 7], number, 1, "encoding 7");
    field(tests, &[0, 3, 3, 255], number, 3, "inner encoding 255");
    field(tests, &[0, 0, 2], number, 2, "limit mark 2");
    let limited = [0, 0, 1, 0, 0, 0, 0, 0, 0, 0, 0, 17];
    field(tests, &limited, number, 11, "tag 17");
    field(tests, &[0, 0, 0, 0, 14], number, 4, "primitive 14");
    let inner = [0, 0, 0, 8, 5, 2, 6];
    field(tests, &inner, number, 6, "semantic 6");
    let second = [0, 0, 0, 9, 4, 2, 5, 1, 1, 71];
    field(tests, &second, number, 9, "bits 71");
    newtype(tests, &[1, 2], number, 1, "signed 2");
    newtype(tests, &[4, 11, 7, 1, 0, 0], number, 5, "bits 0");
    newtype(tests, &[16, 1, 0, 200], "8: body", 3, "left over, 1 byte");
    let array = [6, 0, 0, 0, 0, 0, 0, 0, 0, 200];
    newtype(tests, &array, number, 9, "tag 200");
}

/// A ninth delta stands at its byte, a 33rd node where it would start.
fn deep(tests: &mut Tests) {
    let number = "10: deep";
    field(tests, &[&[0][..], &[3; 9]].concat(), number, 9, "delta 9");
    newtype(tests, &[4; 32], number, 32, "node under tag 4");
    let after = [&[5; 31][..], &[8, 17]].concat();
    newtype(tests, &after, number, 32, "node under tag 8");
    let second = [&[9, 0, 0][..], &[7; 31], &[1, 2]].concat();
    newtype(tests, &second, number, 34, "node under tag 7");
    let field = [&[0, 0, 0][..], &[15; 32], &[0, 0]].concat();
    self::field(tests, &field, number, 35, "node under tag 15");
}

/// The last byte but one of 01's image is the tag.
fn cut_ride(tests: &mut Tests) {
    let mut ride = RIDE[..44].to_vec();
    ride[10] = 23;
    let wanted = "refused 8: body: entry 0, message 'Drive', at byte 44: tag, 1 byte missing";
    told(tests, &ride, wanted);
}
