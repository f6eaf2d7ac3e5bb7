//! The reader: the example of document 01, each refusal and the order among
//! them, and what the writer writes.

use super::Tests;
use crate::answer::{judge, Side, SELECTORS};
use crate::limits::REPORT_BYTES;
use crate::make::*;
use crate::random::random_schema;
use crate::reader::read_image;
use crate::rng::Rng;
use crate::schema::Schema;
use crate::writer::{self, image, Parts};

/// The image of document 01: `ride`, message `Drive`, `speed` u16 at 0.
pub const RIDE: [u8; 46] = [
    0x01, 0x00, 0x01, 0x00, 0x01, 0x00, 0x01, 0x00, 0x15, 0x00, 0x19, 0x00, 0x00, 0x00, 0x00, 0x00,
    0x04, 0x72, 0x69, 0x64, 0x65, 0x00, 0x05, 0x44, 0x72, 0x69, 0x76, 0x65, 0x00, 0x01, 0x00, 0x00,
    0x00, 0x00, 0x00, 0x05, 0x73, 0x70, 0x65, 0x65, 0x64, 0x00, 0x00, 0x00, 0x00, 0x02,
];

fn ride() -> Schema {
    schema(vec![message(
        "Drive",
        vec![field(0, "speed", primitive(2))],
    )])
}

fn number(image: &[u8]) -> u8 {
    read_image(image).map_or_else(|refusal| refusal.number, |_| 0)
}

pub fn run(tests: &mut Tests) {
    tests.equal("01's image is read", read_image(&RIDE), Ok(ride()));
    tests.equal("01's image is written", image(&ride()), RIDE.to_vec());
    the_example(tests);
    round_trip(tests);
    front(tests);
    contents(tests);
    bodies(tests);
    fields(tests);
    types(tests);
    answers(tests);
}

fn the_example(tests: &mut Tests) {
    let fields = vec![
        field(0, "speed", primitive(2)),
        field(1, "limit", primitive(2)),
    ];
    let new = image(&schema(vec![message("Drive", fields)]));
    let answer = judge(&RIDE, &new).answer;
    let wanted = "FieldAdded;Major;Drive;+limit;field 'limit' @1 was added\nBreaking;Major;1\n";
    let printed = String::from_utf8(answer.clone().printed());
    tests.equal("01's example", printed, Ok(wanted.to_string()));
    let selected: Vec<u64> = (0..SELECTORS + 2).map(|n| answer.select(n)).collect();
    let mut numbers = vec![0, 0, 2, 1, wanted.len() as u64, 1];
    numbers.resize(SELECTORS as usize + 2, 0);
    tests.equal("01's example by selector", selected, numbers);
    let room = wanted.len();
    let exact = answer.clone().within(room);
    tests.equal("a buffer of the exact length", exact.number, 0);
    let less = answer.within(room - 1);
    tests.equal("one byte less", (less.number, less.side), (12, Side::Both));
}

fn round_trip(tests: &mut Tests) {
    let mut rng = Rng::new(1);
    let kept = (0..500).all(|_| {
        let schema = random_schema(&mut rng, 12);
        read_image(&image(&schema)) == Ok(schema)
    });
    tests.holds("what is written is read again", kept);
}

fn front(tests: &mut Tests) {
    let head = |format: u16, counts: [u16; 3]| {
        let mut bytes = format.to_le_bytes().to_vec();
        bytes.extend(counts.iter().flat_map(|count| count.to_le_bytes()));
        bytes
    };
    tests.equal("1", number(&[0; 32_769]), 1);
    tests.equal("32,768 bytes are not long", number(&[0; 32_768]), 3);
    tests.equal("2 of no byte", number(&[]), 2);
    tests.equal("2 before 3", number(&[9; 7]), 2);
    tests.equal("3 of 0", number(&head(0, [513, 0, 0])), 3);
    tests.equal("format 2", number(&head(2, [0; 3])), 0);
    tests.equal("format 3", number(&head(3, [0; 3])), 0);
    for format in [4, 5, 256, 257, 512, 65_535] {
        tests.equal("3 of a later one", number(&head(format, [0; 3])), 3);
    }
    tests.equal("3 before 4", number(&head(4, [513, 0, 0])), 3);
    tests.equal("4 of format 2", number(&head(2, [513, 0, 0])), 4);
    tests.equal("N", number(&head(1, [513, 0, 0])), 4);
    tests.equal("M", number(&head(1, [0, 513, 0])), 4);
    tests.equal("S", number(&head(1, [0, 0, 17])), 4);
    tests.equal(
        "at their most, but short",
        number(&head(1, [512, 512, 16])),
        2,
    );
    tests.equal("nothing held", number(&head(1, [0; 3])), 0);
    let named = |names: &[u8], segments: u16| {
        let mut bytes = head(1, [0, 0, segments]);
        bytes.extend(names);
        number(&bytes)
    };
    tests.equal("an empty segment", named(&[0], 1), 0);
    tests.equal("a segment without its length", named(&[], 1), 2);
    tests.equal("2 before 7 in a segment", named(&[2, b'.'], 1), 2);
    tests.equal("7 before the next segment's 2", named(&[1, b'.'], 2), 7);
    tests.equal("7 before 5", named(&[1, b'.', 0], 1), 7);
    tests.equal("bytes after the names", named(&[0, 0], 1), 5);
}

fn contents(tests: &mut Tests) {
    let parts = Parts::of(&schema(vec![config("A"), config("B")]));
    let (first, second) = (parts.contents[0], parts.contents[1]);
    let mut with = |name: &str, contents: [(u16, u16); 2]| {
        let mut spoiled = parts.clone();
        spoiled.contents = contents.to_vec();
        tests.equal(name, number(&spoiled.bytes()), 5);
    };
    with("a gap", [(first.0 + 1, 2), second]);
    with("an overlap", [first, (second.0 - 1, 4)]);
    with("out of order", [second, first]);
    with("no length", [first, (second.0, 0)]);
    with("no offset", [first, (0, 3)]);
    with("past the end", [first, (second.0, 4)]);
    with("a byte left", [first, (second.0, 2)]);
    with("a body left", [first, (0, 0)]);
    with("far past the end", [first, (second.0, 65_535)]);
}

/// The number of an image with this one body.
fn of_body(body: &[u8]) -> u8 {
    number(&Parts::around(&[], &[0], vec![Some(body.to_vec())]).bytes())
}

fn bodies(tests: &mut Tests) {
    let mut body = |name: &str, bytes: &[u8], wanted: u8| tests.equal(name, of_body(bytes), wanted);
    body("kind 9", &[9], 6);
    body("an impl", &[8], 0);
    body("an impl with a byte left", &[8, 0], 8);
    body("a config without a name", &[5], 8);
    body("a name cut, with a bad byte", &[5, 2, b'/'], 8);
    body("a bad byte", &[5, 2, b'a', b'/'], 7);
    body("marks 4 at the end", &[0, 0, 4], 9);
    body("marks 3, no count", &[0, 0, 3], 8);
    body("no field", &[0, 0, 3, 0, 0], 0);
    body("a field missing", &[0, 0, 3, 1, 0], 8);
    body("an enum", &[1, 0, 0, 1, 0, 7, 0, 0, 0, 0], 0);
    body("flags cut in the bit", &[2, 0, 1, 0, 7, 0, 0], 8);
    body(
        "a union's variant without its count",
        &[3, 0, 1, 0, 7, 0, 0, 0, 0],
        8,
    );
}

fn fields(tests: &mut Tests) {
    let mut field = |name: &str, end: &[u8], wanted: u8| {
        let start = [0, 0, 0, 1, 0, 1, 0, 0, 0, 0];
        tests.equal(name, of_body(&[&start, end].concat()), wanted);
    };
    field("a field", &[0, 0, 0, 0, 0], 0);
    field("encoding 4", &[0, 4], 9);
    field("8 deltas", &[0, 3, 3, 3, 3, 3, 3, 3, 3, 0, 0, 0, 0], 0);
    field("8 deltas, then nothing", &[0, 3, 3, 3, 3, 3, 3, 3, 3], 8);
    field("9 deltas", &[0, 3, 3, 3, 3, 3, 3, 3, 3, 3], 10);
    field("a limit mark of 2", &[0, 0, 2], 9);
    field("a limit cut", &[0, 0, 1, 0, 0, 0, 0, 0, 0, 0], 8);
    field("a limit", &[0, 0, 1, 0, 0, 0, 0, 0, 0, 0, 9, 0, 0], 0);
}

fn types(tests: &mut Tests) {
    let mut ty = |name: &str, bytes: &[u8], wanted: u8| {
        let mut body = vec![4, 0];
        body.extend(bytes);
        tests.equal(name, of_body(&body), wanted);
    };
    ty("no tag", &[], 8);
    ty("tag 17", &[17], 9);
    ty("primitive 13", &[0, 13], 0);
    ty("primitive 14", &[0, 14], 9);
    ty("sign 2 without bits", &[1, 2], 9);
    ty("sign without bits", &[1, 1], 8);
    ty("0 bits", &[1, 0, 0], 9);
    ty("64 bits", &[1, 0, 64], 0);
    ty("65 bits", &[1, 0, 65], 9);
    ty("semantic 5", &[2, 5], 0);
    ty("semantic 6", &[2, 6], 9);
    ty("an id cut", &[3, 1, 1, 1], 8);
    ty("a size cut", &[6, 0, 0, 0, 0, 0, 0, 0], 8);
    ty("a fixed array", &[6, 0, 0, 0, 0, 0, 0, 0, 0, 0, 1], 0);
    ty("a map without its value", &[8, 0, 1], 8);
    ty("a result", &[9, 0, 1, 0, 1], 0);
    ty("two types", &[0, 1, 0, 1], 8);
    ty("bits with a bad name", &[16, 2, 0, 1, b'-'], 7);
    ty("bits with a name missing", &[16, 2, 0], 8);
    let deep = |nodes: usize, end: &[u8]| [&vec![4; nodes][..], end].concat();
    ty("32 nodes", &deep(31, &[0, 1]), 0);
    ty("33 nodes", &deep(32, &[0, 1]), 10);
    ty("33rd node missing", &deep(32, &[]), 10);
    ty("33rd node with a bad tag", &deep(32, &[17]), 10);
    ty("32nd node missing", &deep(31, &[]), 8);
    for tag in 0..=16 {
        ty("each tag", &writer::ty(&of_tag(tag)), 0);
    }
}

fn answers(tests: &mut Tests) {
    let pair = judge(&[0; 8], &[]);
    let both = [pair.old, pair.new].map(|read| read.map_or_else(|refusal| refusal.number, |_| 0));
    tests.equal("both images are read", both, [3, 2]);
    let bad = pair.answer;
    let numbers: Vec<u64> = (0..SELECTORS).map(|n| bad.select(n)).collect();
    let mut wanted = vec![3, 1, 2, 1];
    wanted.resize(SELECTORS as usize, 0);
    tests.equal("two bad images: the old one answers", numbers, wanted);
    let printed = String::from_utf8(judge(&RIDE, &[]).answer.printed());
    tests.equal("refused, new", printed, Ok("refused 2 new\n".to_string()));
    let aliases = image(&schema(vec![alias("A")]));
    let printed = String::from_utf8(judge(&aliases, &aliases).answer.printed());
    tests.equal(
        "an alias pair",
        printed,
        Ok("refused 11 both\n".to_string()),
    );
    let mut long = judge(&RIDE, &RIDE).answer;
    long.report = vec![b'x'; REPORT_BYTES];
    tests.equal(
        "65,536 bytes fit",
        long.clone().printed().len(),
        REPORT_BYTES,
    );
    long.report.push(b'x');
    let printed = String::from_utf8(long.printed());
    tests.equal(
        "65,537 do not",
        printed,
        Ok("refused 12 both\n".to_string()),
    );
}
