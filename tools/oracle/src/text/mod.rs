//! The text of an image, for people: `show` writes it, `make` reads it back.
//! README.md gives its form.

mod parse;
mod scanner;
mod show;

use crate::limits::IMAGE_BYTES;
use crate::schema::Schema;
use crate::types::{name_of, UNKNOWN};
use crate::writer::image;
#[cfg(vexil)]
pub use parse::parse;
pub use show::show;

/// Stands for the empty name.
const EMPTY_NAME: &str = "''";
/// Parts a sub-byte that is as wide as a primitive from that primitive.
const SUB: &str = "sub_";

/// What is wrong in a line.
type Parsed<T> = Result<T, String>;

/// The image that a text stands for, or the line at fault.
pub fn make(text: &str) -> Result<Vec<u8>, String> {
    let image = image(&parse::parse(text)?);
    match image.len() {
        length if length > IMAGE_BYTES => Err(at(
            text.lines().count(),
            format!("the image has {length} bytes by here, at most {IMAGE_BYTES}"),
        )),
        _ => Ok(image),
    }
}

fn at(line: usize, fault: String) -> String {
    format!("line {line}: {fault}")
}

/// The name that a reference to an entry shows.
fn shown_name(schema: &Schema, id: u32) -> &str {
    match name_of(schema, id) {
        None => UNKNOWN,
        Some("") => EMPTY_NAME,
        Some(name) => name,
    }
}
