//! Change request R-2, from the words of document 02: a second verdict, which also
//! compares the entries that are reached through named nodes.

mod pairs;
mod reach;
mod shapes;

pub use pairs::{import_pair, import_releases};
pub use reach::{compared_types, longer, named_ids, reached, standing};
pub use shapes::random_imports;
