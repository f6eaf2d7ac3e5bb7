//! The numbers of document 01, and the formats that document 02 adds.

use std::ops::RangeInclusive;

pub const IMAGE_BYTES: usize = 32_768;
pub const REPORT_BYTES: usize = 65_536;
pub const HEAD_BYTES: usize = 8;
pub const ENTRY_BYTES: usize = 4;
pub const FORMATS: RangeInclusive<u16> = 1..=3;
pub const ENTRIES: u16 = 512;
pub const IDS: u16 = 512;
pub const SEGMENTS: u16 = 16;
pub const NODES: usize = 32;
pub const DELTAS: u8 = 8;
