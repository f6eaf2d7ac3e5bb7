//! Reading numbers and names from left to right out of a part of an image.

use crate::refusal::{Read, Refusal, NAME};
use std::ops::Range;

pub struct Cursor<'a> {
    /// From the image's first byte to the part's end, so that a place in them is one
    /// in the image.
    bytes: &'a [u8],
    at: usize,
    /// The refusal for a part that ends early: 2 in front of the bodies, 8 in one.
    early: u8,
}

impl<'a> Cursor<'a> {
    pub fn new(bytes: &'a [u8], early: u8) -> Cursor<'a> {
        Cursor::of_part(bytes, 0..bytes.len(), early)
    }

    pub fn of_part(image: &'a [u8], part: Range<usize>, early: u8) -> Cursor<'a> {
        Cursor {
            bytes: &image[..part.end],
            at: part.start,
            early,
        }
    }

    /// The next byte, from the image's first.
    pub fn at(&self) -> usize {
        self.at
    }

    pub fn left(&self) -> usize {
        self.bytes.len() - self.at
    }

    pub fn take(&mut self, count: usize, what: &'static str) -> Read<&'a [u8]> {
        if self.left() < count {
            let missing = count - self.left();
            return Err(Refusal::new(self.early, what, missing as u64).at(self.at));
        }
        let taken = &self.bytes[self.at..self.at + count];
        self.at += count;
        Ok(taken)
    }

    /// A little-endian number of `width` bytes.
    fn number(&mut self, width: usize, what: &'static str) -> Read<u64> {
        let bytes = self.take(width, what)?;
        Ok(bytes.iter().rev().fold(0, |n, b| n << 8 | u64::from(*b)))
    }

    pub fn u8(&mut self, what: &'static str) -> Read<u8> {
        Ok(self.number(1, what)? as u8)
    }

    pub fn u16(&mut self, what: &'static str) -> Read<u16> {
        Ok(self.number(2, what)? as u16)
    }

    pub fn u32(&mut self, what: &'static str) -> Read<u32> {
        Ok(self.number(4, what)? as u32)
    }

    pub fn u64(&mut self, what: &'static str) -> Read<u64> {
        self.number(8, what)
    }

    /// A name. Its length is held against what is left before its bytes are judged.
    pub fn name(&mut self, what: &'static str) -> Read<String> {
        let length = self.u8("name length")?;
        let start = self.at;
        let bytes = self.take(usize::from(length), what)?;
        match (start..).zip(bytes).find(|(_, b)| !allowed(**b)) {
            Some((at, byte)) => Err(Refusal::new(NAME, what, u64::from(*byte)).at(at)),
            None => Ok(bytes.iter().map(|b| char::from(*b)).collect()),
        }
    }
}

pub fn allowed(byte: u8) -> bool {
    byte.is_ascii_alphanumeric() || byte == b'_'
}
