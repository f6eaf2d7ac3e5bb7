//! Change requests, from the words of document 02: the type comparison
//! says equal, alike or different, and a mended verdict reads alike as equal; it reports
//! widths that differ and tombstones that are reused or dropped, and refuses images that
//! have no widths, or of which one alone has tombstones.

mod compare;
mod disguise;
mod pairs;
mod shapes;
mod struck;
mod tombstones;
mod wide;
mod widths;

pub use compare::{compared, holds_geometric, types_equal, Compared};
pub use disguise::{disguised, undisguised};
pub use pairs::{mended_pair, mended_releases};
pub use tombstones::{mixed, tombstone_changes, Numbers};
pub use wide::releases_in;
pub use widths::width_change;
