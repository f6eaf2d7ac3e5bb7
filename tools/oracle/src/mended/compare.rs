//! The three answers of the type comparison.

use crate::schema::{Schema, Type, GEOMETRIC};
use crate::types::labels_alike;

#[derive(Clone, Copy, PartialEq, Eq, Debug)]
pub enum Compared {
    Equal,
    /// But for containing vectors, quaternions or matrices: the trees are equal once
    /// tags 10 to 15 are compared like the other tags, and one of these occurs.
    Alike,
    Different,
}

pub fn compared(old: &Schema, old_type: &Type, new: &Schema, new_type: &Type) -> Compared {
    match trees_equal(old, old_type, new, new_type) {
        false => Compared::Different,
        true if holds_geometric(old_type) => Compared::Alike,
        true => Compared::Equal,
    }
}

/// As the mended verdict reads it.
pub fn types_equal(old: &Schema, old_type: &Type, new: &Schema, new_type: &Type) -> bool {
    compared(old, old_type, new, new_type) != Compared::Different
}

/// Tags 10 to 15 are compared like the other tags.
fn trees_equal(old: &Schema, old_type: &Type, new: &Schema, new_type: &Type) -> bool {
    let mut inner = old_type.inner.iter().zip(&new_type.inner);
    labels_alike(old, &old_type.label, new, &new_type.label)
        && inner.all(|(o, n)| trees_equal(old, o, new, n))
}

/// Whether one of tags 10 to 15 occurs. A named node is not entered.
pub fn holds_geometric(ty: &Type) -> bool {
    GEOMETRIC.contains(&ty.tag()) || ty.inner.iter().any(holds_geometric)
}
