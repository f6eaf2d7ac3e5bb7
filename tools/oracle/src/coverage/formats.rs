//! Facts about formats that a pair's bytes tell, or pairs before it: that a refusal
//! of an image comes before 16, and that the same in another format, or with other
//! widths, has the same answers by the earlier verdicts.

use super::widths::{FORMATS, LONG_BY_01, LONG_MENDED, NINTH_BIT};
use super::{Facts, Rows};
use crate::answer::{Answer, Pair, Verdict};
use crate::cases::Case;
use crate::limits::HEAD_BYTES;
use crate::schema::Schema;
use crate::writer::image;
use std::collections::BTreeMap;

/// Of a refused image beside an accepted one: the number, and the formats that both
/// heads say.
pub fn of_refused(facts: &mut Facts, case: &Case, pair: &Pair) {
    let format = |image: &[u8]| match image {
        [low, high, ..] if image.len() >= HEAD_BYTES => u16::from_le_bytes([*low, *high]),
        _ => 0,
    };
    let (side, number, faulty, other) = match (&pair.old, &pair.new) {
        (Err(refusal), Ok(new)) => ("old", refusal.number, &case.old, new),
        (Ok(old), Err(refusal)) => ("new", refusal.number, &case.new, old),
        _ => return,
    };
    let mended = pair.by(Verdict::Mended);
    if mended.number == number {
        let beside = other.format;
        facts.add(answers_alone(number, side, format(faulty), beside));
    } else {
        facts.add(ANOTHER_NUMBER);
    }
}

const ANOTHER_NUMBER: &str = "widths: an image is refused, and the mended verdict gives another";

fn answers_alone(number: u8, side: &str, format: u16, beside: u16) -> String {
    format!("widths: {number} of the {side} image, format {format}, beside format {beside}")
}

pub fn rows(rows: &mut Rows) {
    rows.one(NINTH_BIT);
    for number in (2..=10).filter(|number| *number != 3) {
        for format in FORMATS {
            for beside in FORMATS {
                rows.sides(|side| answers_alone(number, side, format, beside));
            }
        }
    }
    // One that is too long is large, and not of each format beside each.
    for (format, beside) in [(1, 1), (1, 2), (3, 3)] {
        rows.sides(|side| answers_alone(1, side, format, beside));
    }
    for beside in FORMATS {
        rows.sides(|side| answers_alone(3, side, 4, beside));
    }
    rows.never(ANOTHER_NUMBER);
    rows.one(LONG_BY_01);
    rows.one(LONG_MENDED);
    rows.one(REWRITTEN);
    rows.never(ANSWERED_ANEW);
    for text in REWRITTEN_AS {
        rows.one(text);
    }
}

const REWRITTEN: &str = "widths: written anew, the same answers of 01 and with imports";
const ANSWERED_ANEW: &str = "widths: written anew, another answer of 01 or with imports";
const REWRITTEN_AS: [&str; 4] = [
    "widths: written anew, the old image in another format",
    "widths: written anew, the new image in another format",
    "widths: written anew, both images in another format",
    "widths: written anew, in one format with other widths",
];

/// Of pairs that hold the same but for format and widths the first, and its answers.
#[derive(Default)]
pub struct Rewritten(BTreeMap<[Vec<u8>; 2], ([Schema; 2], [Answer; 2])>);

impl Rewritten {
    pub fn facts(&mut self, facts: &mut Facts, pair: &Pair) {
        let Some((old, new)) = pair.schemas() else {
            return;
        };
        let schemas = [old.clone(), new.clone()];
        let key = schemas.clone().map(|s| image(&s.in_format(FORMATS[0])));
        let answers = [Verdict::Plain, Verdict::Imports].map(|verdict| pair.by(verdict));
        let first = || (schemas.clone(), answers.clone());
        let (first, wanted) = self.0.entry(key).or_insert_with(first);
        if *first == schemas {
            return;
        }
        let same = *wanted == answers;
        facts.add(if same { REWRITTEN } else { ANSWERED_ANEW });
        let other = [0, 1].map(|side| first[side].format != schemas[side].format);
        let place = match other {
            [true, false] => 0,
            [false, true] => 1,
            [true, true] => 2,
            [false, false] => 3,
        };
        facts.add(REWRITTEN_AS[place]);
    }
}
