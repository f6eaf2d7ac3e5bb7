//! Change request R-10, from the words of document 02: the mended verdict reports a number
//! struck off in the old that the new side uses, or neither uses nor strikes off, and takes
//! no image of the third format beside one that is not.

use super::widths;
use crate::schema::{has_tombstones, Schema};
use std::collections::BTreeSet;

/// The numbers of two declarations of one name and kind, or of two variants of one ordinal:
/// what they use, and what they strike off.
pub struct Numbers<'a> {
    pub used: [Vec<u32>; 2],
    pub struck: [&'a [u32]; 2],
}

/// What was reused, and then what was dropped, each rising.
pub fn tombstone_changes(numbers: &Numbers) -> [Vec<u32>; 2] {
    let [old, new] = numbers.struck.map(BTreeSet::from_iter);
    let used = &numbers.used[1];
    let (reused, others): (Vec<u32>, Vec<u32>) = old.into_iter().partition(|n| used.contains(n));
    let dropped = others.into_iter().filter(|number| !new.contains(number));
    [reused, dropped.collect()]
}

/// 16: either image or both have no widths, or one alone has tombstones.
pub fn mixed(old: &Schema, new: &Schema) -> bool {
    widths::mixed(old, new) || has_tombstones(old.format) != has_tombstones(new.format)
}
