//! Change request R-6, from the words of document 02: the mended verdict reports a width
//! that differs, and takes no image that holds none.

use crate::schema::{Body, Declaration, Schema, FIRST_FORMAT};

/// The widths of two enums or two flags, where they differ.
pub fn width_change(old: &Declaration, new: &Declaration) -> Option<[u8; 2]> {
    let widths = match (&old.body, &new.body) {
        (Body::Enum(_, old, _), Body::Enum(_, new, _)) => [*old, *new],
        (Body::Flags(old, _), Body::Flags(new, _)) => [*old, *new],
        _ => return None,
    };
    let [old, new] = [widths[0]?, widths[1]?];
    (old != new).then_some([old, new])
}

/// Of 16: either image or both are of the format without widths.
pub fn mixed(old: &Schema, new: &Schema) -> bool {
    [old, new]
        .iter()
        .any(|schema| schema.format == FIRST_FORMAT)
}
