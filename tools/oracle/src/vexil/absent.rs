//! In the place of the real `check` where the oracle is built without it.

use crate::changes::Comparison;
use crate::schema::Schema;

pub const CHECK_IS_RUN: bool = false;

pub fn difference(
    _old: &Schema,
    _new: &Schema,
    _restated: &dyn Fn(&str) -> String,
    _model: &Comparison,
) -> Option<String> {
    None
}

/// Nothing is run, so nothing panics; a test that asked would fail.
pub fn panics(_old: &Schema, _new: &Schema) -> bool {
    false
}
