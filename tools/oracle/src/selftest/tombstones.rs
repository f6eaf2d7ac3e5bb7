//! Format 3: its tombstones are read and written as they are stored, behind all else of a
//! body, and nothing else differs from format 2. In a text they have lines of their own.

use super::Tests;
use crate::make::*;
use crate::random::random_schema;
use crate::reader::read_image;
use crate::refusal::Read;
use crate::rng::Rng;
use crate::schema::{has_tombstones, has_widths, Body, Declaration, Schema, KIND_NAMES};
use crate::selftest::widths::widened;
use crate::text::{make, show};
use crate::writer::{body, image, Parts};

pub fn run(tests: &mut Tests) {
    written(tests);
    written_in_variants(tests);
    random(tests);
    cut(tests);
    formats(tests);
    in_words(tests);
    texts(tests);
    text_faults(tests);
}

/// The same in format 3, with any widths and tombstones.
pub fn struck(rng: &mut Rng, schema: Schema) -> Schema {
    let mut schema = widened(rng, schema);
    schema.format = 3;
    for declaration in schema.registry.iter_mut().flatten() {
        if declaration.strikes_off() {
            declaration.tombstones = numbers(rng);
        }
        if let Body::Union(variants) = &mut declaration.body {
            for variant in variants {
                variant.tombstones = numbers(rng);
            }
        }
    }
    schema
}

fn numbers(rng: &mut Rng) -> Vec<u32> {
    let count = rng.below(4);
    (0..count)
        .map(|_| rng.next() as u32 >> rng.below(32))
        .collect()
}

/// The bodies by hand: a count and the numbers as they stand, not sorted, also twice.
fn written(tests: &mut Tests) {
    let mut written = |declaration, wanted| body_of(tests, declaration, wanted);
    let two = [7, 0, 0, 0, 3, 2, 1, 0];
    let pair = [&[2, 0][..], &two].concat();
    let field_bytes = [5, 0, 0, 0, 1, b'f', 0, 0, 0, 0, 2];
    let one = vec![field(5, "f", primitive(2))];
    let struck = [7, 0x1_0203];
    written(
        message("M", one.clone()).striking(&struck),
        [&[0, 1, b'M', 0, 1, 0][..], &field_bytes, &pair].concat(),
    );
    written(message("M", vec![]), vec![0, 1, b'M', 0, 0, 0, 0, 0]);
    written(
        enumeration("E", 2, items(&[(9, "v")]))
            .of_width(16)
            .striking(&[u32::MAX]),
        vec![
            1, 1, b'E', 2, 16, 1, 0, 9, 0, 0, 0, 1, b'v', 1, 0, 255, 255, 255, 255,
        ],
    );
    written(
        flags("F", vec![]).of_width(4).striking(&[3, 3]),
        vec![2, 1, b'F', 4, 0, 0, 2, 0, 3, 0, 0, 0, 3, 0, 0, 0],
    );
    for kind in 4..9 {
        let declaration = of_kind(kind, "K");
        tests.equal(
            "no tombstones",
            body(3, &declaration),
            body(2, &declaration),
        );
    }
}

fn written_in_variants(tests: &mut Tests) {
    let one = vec![field(5, "f", primitive(2))];
    let field_bytes = [5, 0, 0, 0, 1, b'f', 0, 0, 0, 0, 2];
    let struck = [7, 0x1_0203];
    let (none, pair) = ([0, 0], [2, 0, 7, 0, 0, 0, 3, 2, 1, 0]);
    let variants = vec![
        variant(1, "v", one).striking(&struck),
        variant(1, "v", vec![]),
    ];
    let start = [1, 0, 0, 0, 1, b'v'];
    let first = [&start[..], &[1, 0], &field_bytes, &pair].concat();
    let last = [&start[..], &none, &none].concat();
    body_of(
        tests,
        union("U", variants).striking(&[8]),
        [&[3, 1, b'U', 2, 0][..], &first, &last, &[1, 0, 8, 0, 0, 0]].concat(),
    );
}

/// A body of format 3 that is written so, and read again.
fn body_of(tests: &mut Tests, declaration: Declaration, wanted: Vec<u8>) {
    let bytes = body(3, &declaration);
    tests.equal("written", &bytes, &wanted);
    let schema = schema(vec![declaration]).in_format(3);
    tests.equal("read again", read_image(&image(&schema)), Ok(schema));
}

fn random(tests: &mut Tests) {
    let mut rng = Rng::new(3);
    let kept = (0..800).all(|_| {
        let schema = random_schema(&mut rng, 12);
        let schema = struck(&mut rng, schema);
        let bytes = image(&schema);
        read_image(&bytes).as_ref() == Ok(&schema) && make(&show(&schema)) == Ok(bytes)
    });
    tests.holds("what is written in format 3, or shown, is read again", kept);
}

/// An image with nothing in front but its contents: an empty entry and this body,
/// which starts at byte 16.
fn with_body(format: u16, body: &[u8]) -> Read<Schema> {
    let parts = Parts::around(&[], &[], vec![None, Some(body.to_vec())]);
    read_image(&Parts { format, ..parts }.bytes())
}

fn number(format: u16, body: &[u8]) -> u8 {
    with_body(format, body).map_or_else(|refusal| refusal.number, |_| 0)
}

/// Of every kind: cut at any length 8, and so with a byte left.
fn cut(tests: &mut Tests) {
    let struck = [1, 2, 0xffff_ffff];
    let one = || vec![field(0, "f", primitive(2))];
    for declaration in [
        message("M", one()),
        enumeration("E", 0, items(&[(0, "v")])).of_width(8),
        flags("F", items(&[(0, "b")])).of_width(1),
        union("U", vec![variant(0, "v", one()).striking(&struck)]),
    ] {
        let word = KIND_NAMES[usize::from(declaration.kind())];
        let whole = body(3, &declaration.striking(&struck));
        let cut: Vec<u8> = (1..whole.len()).map(|n| number(3, &whole[..n])).collect();
        tests.equal(word, cut, vec![8; whole.len() - 1]);
        let over = [&whole[..], &[0]].concat();
        tests.equal(word, [number(3, &whole), number(3, &over)], [0, 8]);
        // More of them than there are bytes, and fewer.
        for (count, wanted) in [(2, 8), (4, 8), (3, 0), (0x103, 8), (65_535, 8)] {
            let mut other = whole.clone();
            let place = whole.len() - 4 * struck.len() - 2;
            other[place..place + 2].copy_from_slice(&u16::to_le_bytes(count));
            tests.equal(word, number(3, &other), wanted);
        }
    }
}

/// What the formats hold, and one body by each.
fn formats(tests: &mut Tests) {
    let holds = [1, 2, 3].map(|format| (has_widths(format), has_tombstones(format)));
    let wanted = [(false, false), (true, false), (true, true)];
    tests.equal("what formats hold", holds, wanted);
    let mut body = |name: &str, bytes: &[u8], wanted: [u8; 3]| {
        let found = [1, 2, 3].map(|format| number(format, bytes));
        tests.equal(name, found, wanted);
    };
    body("a message", &[0, 0, 0, 0, 0], [0, 0, 8]);
    body("with a count", &[0, 0, 0, 0, 0, 0, 0], [8, 8, 0]);
    body("a union", &[3, 0, 0, 0], [0, 0, 8]);
    body("a union with a count", &[3, 0, 0, 0, 0, 0], [8, 8, 0]);
    body("an enum with a count", &[1, 0, 0, 8, 0, 0, 0, 0], [8, 8, 0]);
    body("flags of 3", &[2, 0, 3, 0, 0, 0, 0], [8, 9, 9]);
    body("flags of 8", &[2, 0, 8, 0, 0, 0, 0], [8, 8, 0]);
    body("an impl", &[8], [0; 3]);
    body("an impl with a count", &[8, 0, 0], [8; 3]);
    for format in [0, 4, 5, 128, 255, 256, 257, 258, 259, 65_535] {
        tests.equal("no format", number(format, &[8]), 3);
    }
}

fn in_words(tests: &mut Tests) {
    let mut told = |body: &[u8], wanted: &str| {
        let found = with_body(3, body).map_err(|refusal| refusal.to_string());
        tests.equal("in words", found.map(|_| ()), Err(wanted.to_string()));
    };
    told(
        &[0, 1, b'M', 0, 0, 0, 9],
        "refused 8: body: entry 1, message 'M', at byte 22: tombstone count, 1 byte missing",
    );
    told(
        &[2, 1, b'F', 1, 0, 0, 2, 0, 3, 0, 0, 0, 4],
        "refused 8: body: entry 1, flags 'F', at byte 28: tombstone, 3 bytes missing",
    );
    told(
        &[3, 0, 1, 0, 0, 0, 0, 0, 0, 0, 0],
        "refused 8: body: entry 1, union '', at byte 27: tombstone count, 2 bytes missing",
    );
    told(
        &[3, 0, 0, 0, 0, 0, 0],
        "refused 8: body: entry 1, union '', at byte 22: left over, 1 byte",
    );
}

/// A line of the entry above it, or of a union's variant above it.
fn texts(tests: &mut Tests) {
    let text = "format 3\nnamespace ride\ndeclares U#0 E#1 struck#2\n\n\
                #0 union U\n  struck 9 4294967295\n  @0 a\n  @1 b\n    struck 3 3 1\n    \
                @2 struck: u16\n\n\
                #1 enum E width 8\n  struck 0\n  @0 a\n\n\
                #2 message struck\n  struck 7\n";
    let made = make(text);
    let shown = made
        .as_ref()
        .map(|image| read_image(image).map(|s| show(&s)));
    tests.equal("a text with tombstones", shown, Ok(Ok(text.to_string())));
    let fields = vec![field(2, "struck", primitive(2))];
    let variants = vec![
        variant(0, "a", vec![]),
        variant(1, "b", fields).striking(&[3, 3, 1]),
    ];
    let wanted = schema(vec![
        union("U", variants).striking(&[9, u32::MAX]),
        enumeration("E", 0, items(&[(0, "a")]))
            .of_width(8)
            .striking(&[0]),
        message("struck", vec![]).striking(&[7]),
    ]);
    tests.equal(
        "made of a text",
        made.clone(),
        Ok(image(&wanted.in_format(3))),
    );
    // Indents do not count, and a line may stand below the items, or be parted.
    let other = text
        .replace("  ", "")
        .replace("struck 9 ", "struck 9\nstruck   ");
    let other = other.replace("struck 0\n@0 a\n", "@0 a\nstruck 0\n");
    tests.equal("written otherwise", make(&other), made);
}

fn text_faults(tests: &mut Tests) {
    let mut fault = |format: u16, lines: &str, at: usize, wanted: &str| {
        let text = format!("format {format}\nnamespace\ndeclares\n{lines}\n");
        let wanted = format!("line {at}: {wanted}");
        tests.equal("a fault", make(&text), Err(wanted));
    };
    let none = |format| format!("a `struck`, and format {format} has none");
    fault(1, "#0 message M\nstruck 1", 5, &none(1));
    fault(2, "#0 message M\nstruck 1", 5, &none(2));
    fault(3, "struck 1", 4, "a `struck`, and no declaration above it");
    fault(
        3,
        "#0 empty\nstruck 1",
        5,
        "a `struck`, and no declaration above it",
    );
    fault(3, "#0 config C\nstruck 1", 5, "config has no tombstones");
    fault(
        3,
        "#0 newtype N: u8\nstruck 1",
        5,
        "newtype has no tombstones",
    );
    fault(3, "#0 impl\nstruck 1", 5, "impl has no tombstones");
    let range = "not a number of its range:";
    fault(3, "#0 message M\nstruck", 5, &format!("{range} "));
    fault(3, "#0 message M\nstruck 1 -2", 5, &format!("{range} -2"));
    let large = "struck 4294967296";
    fault(
        3,
        &format!("#0 union U\n{large}"),
        5,
        &format!("{range} 4294967296"),
    );
    fault(4, "", 1, "format 4, known are 1 to 3");
}
