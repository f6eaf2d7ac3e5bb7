//! A refusal: its number, and what the reader met, for messages and for the
//! coverage table.

use crate::limits::IMAGE_BYTES;
use crate::schema::{IMPL, KIND_NAMES};
use std::fmt;

#[derive(Clone, PartialEq, Debug)]
pub struct Refusal {
    pub number: u8,
    /// What was being read or judged.
    pub what: &'static str,
    /// The value found, or how many bytes are missing or left over.
    pub value: u64,
    /// The id of the entry it stands in.
    pub entry: Option<usize>,
    /// The kind of the body it stands in.
    pub kind: Option<u8>,
    /// The name of the declaration it stands in; empty for an impl.
    pub name: Option<String>,
    /// The first byte of what was being read or judged, from the image's first.
    pub at: Option<usize>,
}

impl Refusal {
    pub fn new(number: u8, what: &'static str, value: u64) -> Refusal {
        Refusal {
            number,
            what,
            value,
            entry: None,
            kind: None,
            name: None,
            at: None,
        }
    }

    pub fn at(self, byte: usize) -> Refusal {
        Refusal {
            at: Some(byte),
            ..self
        }
    }

    pub fn of_entry(self, id: usize) -> Refusal {
        Refusal {
            entry: Some(id),
            ..self
        }
    }

    pub fn of_kind(self, kind: u8) -> Refusal {
        Refusal {
            kind: Some(kind),
            ..self
        }
    }

    pub fn of_name(self, name: String) -> Refusal {
        Refusal {
            name: Some(name),
            ..self
        }
    }

    /// The entry, its declaration and the byte, as far as they are known.
    fn place(&self) -> String {
        let parts = [
            self.entry.map(|id| format!("entry {id}")),
            self.kind.map(|kind| self.declaration(kind)),
            self.at.map(|byte| format!("at byte {byte}")),
        ];
        let parts = parts.into_iter().flatten();
        parts.collect::<Vec<_>>().join(", ")
    }

    /// The kind's word, and the name once it is read; an impl has none.
    fn declaration(&self, kind: u8) -> String {
        let word = KIND_NAMES[usize::from(kind)];
        match &self.name {
            Some(name) if kind != IMPL => format!("{word} '{name}'"),
            _ => word.to_string(),
        }
    }

    fn found(&self) -> String {
        let (what, value) = (self.what, self.value);
        let bytes = match value {
            1 => "1 byte".to_string(),
            _ => format!("{value} bytes"),
        };
        match (self.number, what) {
            // A longer file is not read to its end.
            (LONG, _) => format!("over {IMAGE_BYTES} bytes"),
            (CONTENTS, "entry of no length") => {
                format!("{what}, its offset is {value}")
            }
            (CONTENTS, _) | (BODY, "left over") => format!("{what}, {bytes}"),
            (SHORT_HEAD | BODY, _) => format!("{what}, {bytes} missing"),
            (NAME, _) => format!("{what}, byte value {value}"),
            _ => format!("{what} {value}"),
        }
    }
}

/// Its number, its word, and what was met where.
impl fmt::Display for Refusal {
    fn fmt(&self, f: &mut fmt::Formatter<'_>) -> fmt::Result {
        write!(f, "refused {}: {}: ", self.number, word(self.number))?;
        match self.place().as_str() {
            "" => write!(f, "{}", self.found()),
            place => write!(f, "{place}: {}", self.found()),
        }
    }
}

pub type Read<T> = Result<T, Refusal>;

pub const LONG: u8 = 1;
pub const SHORT_HEAD: u8 = 2;
pub const FORMAT: u8 = 3;
pub const CROWDED: u8 = 4;
pub const CONTENTS: u8 = 5;
pub const KIND: u8 = 6;
pub const NAME: u8 = 7;
pub const BODY: u8 = 8;
pub const CODE: u8 = 9;
pub const DEEP: u8 = 10;
pub const ALIAS_PAIR: u8 = 11;
pub const FULL: u8 = 12;
/// Of document 02, R-6: after 10 and before 11.
pub const MIXED: u8 = 16;

/// The numbers that are given, each with its word in document 01 or 02.
pub const WORDS: [(u8, &str); 13] = [
    (LONG, "long"),
    (SHORT_HEAD, "short head"),
    (FORMAT, "format"),
    (CROWDED, "crowded"),
    (CONTENTS, "contents"),
    (KIND, "kind"),
    (NAME, "name"),
    (BODY, "body"),
    (CODE, "code"),
    (DEEP, "deep"),
    (ALIAS_PAIR, "alias pair"),
    (FULL, "full"),
    (MIXED, "mixed"),
];

fn word(number: u8) -> &'static str {
    let found = WORDS.iter().find(|(n, _)| *n == number);
    found.map_or("", |(_, word)| word)
}
