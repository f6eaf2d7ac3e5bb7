//! From a schema to the file of its image: a caller of exporter.rs, to be copied
//! beside it (`pub mod caller;` in lib.rs) and changed at will.
//!
//! ```ignore
//! caller::write_image(&schema, exporter::Format::Three, Path::new("new.img"))
//! ```
//!
//! The mended verdict needs format 3 on both sides, as this call asks for it, or format 2
//! on both: it compares the widths of enums and flags, which format 1 (`Format::One`) does
//! not hold, and the tombstones, which format 2 (`Format::Two`) does not hold either. The
//! schema must have been through `typeck::check`, where the widths come from. The other
//! verdicts read every format.

use super::exporter::{export, Format};
use crate::ir::CompiledSchema;
use std::path::Path;

/// Writes the image of a schema in a format to a file, and answers whether it did. What
/// the image hides, and why there is none, is told on standard error. Of a refused
/// schema nothing is written: what stood at the path still stands there.
pub fn write_image(schema: &CompiledSchema, format: Format, path: &Path) -> bool {
    let place = path.display();
    let exported = match export(schema, format) {
        Ok(exported) => exported,
        Err(refused) => {
            eprintln!("{place}: {refused}");
            return false;
        }
    };
    for warning in &exported.warnings {
        eprintln!("{place}: warning: {warning}");
    }
    match std::fs::write(path, &exported.image) {
        Ok(()) => true,
        Err(error) => {
            eprintln!("{place}: {error}");
            false
        }
    }
}
