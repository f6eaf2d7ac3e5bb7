//! docs/FORMAT.md: its tables have the codes, words, refusals, counts and limits
//! of the oracle, every change of the model is told as its table says, and the
//! example is the image of document 01.

use super::{read_file, Tests};
use crate::cases::ride;
use crate::changes::ChangeKind::{TombstoneDropped, TombstoneReused, WidthChanged};
use crate::changes::{Change, CHANGE_KINDS};
use crate::edits::edited;
use crate::formats::{in_formats, THIRD_FORMAT};
use crate::limits::*;
use crate::make::*;
use crate::mended::{tombstone_changes, width_change};
use crate::model::{check, Reading, PLAIN};
use crate::random::random_schema;
use crate::refusal::WORDS;
use crate::rng::Rng;
use crate::schema::{inner_types, Declaration, Type, KIND_NAMES};
use crate::types::{type_display, ENCODINGS, PRIMITIVES, SEMANTICS};
use crate::writer::image;

/// The cells of a line of a table.
type Row = Vec<String>;

pub fn run(tests: &mut Tests) {
    let page = String::from_utf8_lossy(&read_file("docs/FORMAT.md")).into_owned();
    words(tests, &page);
    types(tests, &page);
    limits(tests, &page);
    changes(tests, &page);
    example(tests, &page);
}

/// The table below a heading, without its first line.
fn rows(page: &str, heading: &str) -> Vec<Row> {
    let below = page.lines().skip_while(|line| *line != heading).skip(1);
    let section = below.take_while(|line| !line.starts_with('#'));
    let lines = section.filter_map(|line| line.strip_prefix("| ")?.strip_suffix(" |"));
    let rows = lines.map(|line| line.split(" | ").map(str::to_string).collect());
    rows.skip(1).collect()
}

fn cell(row: &Row, column: usize) -> &str {
    row.get(column).map_or("", String::as_str)
}

/// Every table of numbers and words has all of them, in their order.
fn words(tests: &mut Tests, page: &str) {
    let kinds = CHANGE_KINDS.map(|kind| format!("{kind:?}"));
    let table = |heading: &str| {
        let rows = rows(page, heading);
        let found = rows.iter().map(|row| (cell(row, 0), cell(row, 1)));
        found.map(|(n, word)| format!("{n} {word}")).collect()
    };
    let refusals = WORDS.map(|(n, word)| format!("{n} {word}")).to_vec();
    tests.equal("## Refusals", table("## Refusals"), refusals);
    let mut table = |heading: &str, first: usize, words: Vec<&str>| {
        let found: Vec<String> = table(heading);
        let wanted = (first..).zip(words).map(|(n, word)| format!("{n} {word}"));
        tests.equal(heading, found, wanted.collect());
    };
    table("### Kinds", 0, KIND_NAMES.to_vec());
    table("### Encodings", 0, [&ENCODINGS[..], &["delta"]].concat());
    table("### Primitive codes", 0, PRIMITIVES.to_vec());
    table("### Semantic codes", 0, SEMANTICS.to_vec());
    table(
        "### The counts",
        5,
        kinds.iter().map(String::as_str).collect(),
    );
}

/// Every tag has as many inner types as the reader asks for, and is shown as the
/// model shows it.
fn types(tests: &mut Tests, page: &str) {
    let letters = ["T", "K", "V", "E"].map(config);
    let letters = schema(letters.to_vec());
    let rows = rows(page, "### Types");
    tests.equal("### Types", rows.len(), 17);
    for (tag, row) in (0..).zip(&rows) {
        let wanted = [tag.to_string(), inner_types(tag).to_string()];
        tests.equal(
            "a tag",
            [cell(row, 0), cell(row, 3)].map(str::to_string),
            wanted,
        );
        for ty in shown_types(tag) {
            let shown = format!("`{}`", type_display(&letters, &ty));
            tests.holds(&shown, cell(row, 4).contains(&shown));
        }
    }
    let codes = |row: usize| rows.get(row).map_or("", |row| cell(row, 2)).to_string();
    let wanted = |words: &[&str]| format!("u8 code, 0 to {}", words.len() - 1);
    tests.equal("primitives", codes(0), wanted(&PRIMITIVES));
    tests.equal("semantics", codes(2), wanted(&SEMANTICS));
}

/// What the row of a tag shows, over entries T, K, V and E.
fn shown_types(tag: u8) -> Vec<Type> {
    match tag {
        0 | 2 | 3 => vec![],
        1 => vec![sub_byte(false, 3), sub_byte(true, 3)],
        6 => vec![fixed_array(named(0), 4)],
        8 => vec![double(tag, named(1), named(2))],
        9 => vec![double(tag, named(0), named(3))],
        16 => vec![bits(&["a", "b"])],
        _ => vec![wrapped(tag, named(0))],
    }
}

fn limits(tests: &mut Tests, page: &str) {
    let rows = rows(page, "### How much fits");
    let found = rows.iter().map(|row| cell(row, 1).replace(',', ""));
    let found: Vec<usize> = found.map(|number| number.parse().unwrap_or(0)).collect();
    let fields = fitting(|count| message("", vec![field(0, "", primitive(0)); count]));
    let variants = fitting(|count| union("", vec![variant(0, "", vec![]); count]));
    let items = fitting(|count| enumeration("", 0, vec![item(0, ""); count]));
    let flag_bits = fitting(|count| flags("", vec![item(0, ""); count]));
    let [entries, ids, segments] = [ENTRIES, IDS, SEGMENTS].map(usize::from);
    let front = [IMAGE_BYTES, entries, ids, segments];
    let within = [usize::from(DELTAS), NODES, 64, 255, 255];
    let wanted = [&front[..], &within, &[fields, variants, items]].concat();
    tests.equal("### How much fits", found, wanted);
    tests.equal("as many bits as enum variants", flag_bits, items);
}

/// The most items with which an image of one body is not too long.
fn fitting(body: impl Fn(usize) -> Declaration) -> usize {
    let bytes = |count| image(&schema(vec![body(count)]).in_namespace(&[]).listing(&[])).len();
    let each = bytes(1) - bytes(0);
    (IMAGE_BYTES - bytes(0)) / each
}

/// Every change of random pairs has a row with its words, and every row a change; the
/// last three rows those of the mended verdict alone.
fn changes(tests: &mut Tests, page: &str) {
    let rows = rows(page, "### The clauses");
    let mut rng = Rng::new(20261203);
    let mut met = vec![false; rows.len()];
    let mut untold = Vec::new();
    let mut told_by_01 = true;
    for _ in 0..1_000 {
        let old = random_schema(&mut rng, 6);
        let new = edited(&mut rng, &old, 5);
        let [old, new] = in_formats(&mut rng, [old, new], [THIRD_FORMAT; 2]);
        let wide = check(&old, &new, WIDE).changes;
        let mended = [WidthChanged, TombstoneReused, TombstoneDropped];
        let others = wide.iter().filter(|change| !mended.contains(&change.kind));
        told_by_01 &= others.eq(&check(&old, &new, PLAIN).changes);
        for change in wide {
            let told: Vec<bool> = rows.iter().map(|row| tells(row, &change)).collect();
            if !told.contains(&true) {
                untold.push(change);
            }
            met.iter_mut()
                .zip(told)
                .for_each(|(met, told)| *met |= told);
        }
    }
    tests.equal("every change is told", untold, vec![]);
    tests.equal("every row is met", met, vec![true; 23]);
    tests.holds("01 tells all but widths and tombstones", told_by_01);
}

/// 01's clauses and what the mended verdict says of widths and tombstones.
const WIDE: Reading = Reading {
    width_change,
    tombstone_changes,
    ..PLAIN
};

fn tells(row: &Row, change: &Change) -> bool {
    let field = if change.field.is_some() { "`+`" } else { "`-`" };
    let words = [
        format!("{:?}", change.kind),
        format!("{:?}", change.bump),
        field.to_string(),
    ];
    let detail = cell(row, 5).trim_matches('`');
    [1, 2, 4].map(|column| cell(row, column)) == words.each_ref().map(String::as_str)
        && fits(detail, &change.detail)
}

/// Whether a text is a detail of the table with something in place of the words
/// in capital letters.
fn fits(detail: &str, text: &str) -> bool {
    let pieces = detail.split(|letter: char| letter.is_ascii_uppercase());
    let mut pieces: Vec<&str> = pieces.collect();
    let (Some(last), false) = (pieces.pop(), pieces.is_empty()) else {
        return detail == text;
    };
    let Some(mut rest) = text.strip_prefix(pieces[0]) else {
        return false;
    };
    for piece in &pieces[1..] {
        let Some(at) = rest.find(piece) else {
            return false;
        };
        rest = &rest[at + piece.len()..];
    }
    rest.ends_with(last)
}

/// The example's bytes are in their places.
fn example(tests: &mut Tests, page: &str) {
    let mut bytes = Vec::new();
    for row in rows(page, "## An image, byte by byte") {
        tests.equal("where bytes stand", cell(&row, 0), &bytes.len().to_string());
        let pairs = cell(&row, 1).trim_matches('`').split(' ');
        bytes.extend(pairs.filter_map(|pair| u8::from_str_radix(pair, 16).ok()));
    }
    tests.equal("the example's bytes", bytes, ride());
}
