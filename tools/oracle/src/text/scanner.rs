//! Taking a line apart from left to right. Spaces before a part do not count.

use super::{Parsed, EMPTY_NAME, SUB};
use crate::cursor::allowed;
use crate::limits::{DELTAS, NODES};
use crate::schema::{Encoding, Label, Type};
use crate::types::{ENCODINGS, PRIMITIVES, SEMANTICS, UNKNOWN, WRAPPERS};
use std::str::FromStr;

/// A reference as it is written. What it names is known only at the text's end.
pub struct Reference {
    pub shown_name: String,
    pub id: u32,
}

pub struct Scanner<'a> {
    rest: &'a str,
    pub references: Vec<Reference>,
}

impl<'a> Scanner<'a> {
    pub fn new(line: &'a str) -> Scanner<'a> {
        Scanner {
            rest: line.trim(),
            references: Vec::new(),
        }
    }

    pub fn is_at_end(&self) -> bool {
        self.rest.is_empty()
    }

    pub fn end(&self) -> Parsed<()> {
        match self.rest {
            "" => Ok(()),
            rest => Err(format!("not understood: {rest}")),
        }
    }

    fn skip(&mut self, bytes: usize) {
        self.rest = self.rest[bytes..].trim_start();
    }

    /// Takes the mark if it comes next.
    pub fn eat(&mut self, mark: &str) -> bool {
        let found = self.rest.starts_with(mark);
        if found {
            self.skip(mark.len());
        }
        found
    }

    pub fn expect(&mut self, mark: &str) -> Parsed<()> {
        match self.eat(mark) {
            true => Ok(()),
            false => Err(format!("`{mark}` is missing before: {}", self.rest)),
        }
    }

    /// The bytes of a name that come next, none perhaps.
    fn peek(&self) -> &'a str {
        let bytes = self.rest.bytes();
        &self.rest[..bytes.take_while(|byte| allowed(*byte)).count()]
    }

    pub fn word(&mut self) -> &'a str {
        let word = self.peek();
        self.skip(word.len());
        word
    }

    /// Takes the word if it comes next as a whole.
    pub fn eat_word(&mut self, word: &str) -> bool {
        self.peek() == word && self.eat(word)
    }

    pub fn number<T: FromStr>(&mut self) -> Parsed<T> {
        let rest = self.rest;
        let number = self.word().parse();
        number.map_err(|_| format!("not a number of its range: {rest}"))
    }

    pub fn name(&mut self) -> Parsed<String> {
        if self.eat(EMPTY_NAME) {
            return Ok(String::new());
        }
        match self.word() {
            "" => Err(format!("a name is missing before: {}", self.rest)),
            name if name.len() > 255 => Err(format!("a name of {} bytes, at most 255", name.len())),
            name => Ok(name.to_string()),
        }
    }

    /// The id of a reference to an entry.
    pub fn reference(&mut self) -> Parsed<u32> {
        let shown_name = self.shown_name();
        self.expect("#")?;
        self.id_of(shown_name)
    }

    fn shown_name(&mut self) -> &'a str {
        match [EMPTY_NAME, UNKNOWN].iter().find(|mark| self.eat(mark)) {
            Some(mark) => mark,
            None => self.word(),
        }
    }

    fn id_of(&mut self, shown_name: &str) -> Parsed<u32> {
        let id = self.number()?;
        self.references.push(Reference {
            shown_name: shown_name.to_string(),
            id,
        });
        Ok(id)
    }

    /// The encoding if one comes next, else the default.
    pub fn encoding(&mut self) -> Parsed<Encoding> {
        let mut deltas = 0;
        while self.eat_word("delta") {
            if deltas == DELTAS {
                return Err(format!("over {DELTAS} deltas"));
            }
            self.expect("(")?;
            deltas += 1;
        }
        let base = match place(&ENCODINGS, self.peek()) {
            Some(base) => {
                self.word();
                base
            }
            None if deltas > 0 => return Err(format!("no encoding: {}", self.rest)),
            None => 0,
        };
        for _ in 0..deltas {
            self.expect(")")?;
        }
        Ok(Encoding { deltas, base })
    }

    pub fn ty(&mut self) -> Parsed<Type> {
        self.node(1)
    }

    /// `node` is this node's place on its path from the root, from 1 on.
    fn node(&mut self, node: usize) -> Parsed<Type> {
        if node > NODES {
            return Err(format!("over {NODES} nodes on a path"));
        }
        let rest = self.rest;
        let word = self.shown_name();
        if self.eat("#") {
            let id = self.id_of(word)?;
            return Ok(leaf(Label::Named(id)));
        }
        if word == "bits" {
            return Ok(leaf(Label::Bits(self.bit_names()?)));
        }
        match place(&WRAPPERS, word) {
            Some(wrapper) => self.wrapped(wrapper + 4, node),
            None => plain(word).map(leaf).ok_or(format!("no type: {rest}")),
        }
    }

    fn bit_names(&mut self) -> Parsed<Vec<String>> {
        self.expect("{")?;
        let mut names = Vec::new();
        while !self.eat("}") {
            if !names.is_empty() {
                self.expect(",")?;
            }
            names.push(self.name()?);
        }
        match names.len() {
            count if count > 255 => Err(format!("{count} bit names, at most 255")),
            _ => Ok(names),
        }
    }

    /// The inner types in their brackets; an array with a number is a fixed one.
    fn wrapped(&mut self, tag: u8, node: usize) -> Parsed<Type> {
        self.expect("<")?;
        let mut label = Label::Wrapper(tag);
        let mut inner = vec![self.node(node + 1)?];
        match tag {
            5 if self.eat(",") => label = Label::FixedArray(self.number()?),
            8 | 9 => {
                self.expect(",")?;
                inner.push(self.node(node + 1)?);
            }
            _ => {}
        }
        self.expect(">")?;
        Ok(Type { label, inner })
    }
}

fn leaf(label: Label) -> Type {
    let inner = Vec::new();
    Type { label, inner }
}

fn place(words: &[&str], word: &str) -> Option<u8> {
    let place = words.iter().position(|w| *w == word)?;
    Some(place as u8)
}

/// A type that is one word. Of `u8` and the like the primitive is meant.
fn plain(word: &str) -> Option<Label> {
    place(&PRIMITIVES, word)
        .map(Label::Primitive)
        .or(place(&SEMANTICS, word).map(Label::Semantic))
        .or_else(|| sub_byte(word.strip_prefix(SUB).unwrap_or(word)))
}

fn sub_byte(word: &str) -> Option<Label> {
    let (signed, bits) = match word.strip_prefix('i') {
        Some(bits) => (true, bits),
        None => (false, word.strip_prefix('u')?),
    };
    let bits = bits.parse().ok().filter(|bits| (1..=64).contains(bits))?;
    Some(Label::SubByte { signed, bits })
}
