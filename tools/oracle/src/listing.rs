//! The contents listing of an image: a line for each entry that isn't empty, in
//! id order, with id, kind and name.

use crate::schema::{Schema, KIND_NAMES};

pub fn listing(schema: &Schema) -> String {
    let lines = schema
        .registry
        .iter()
        .enumerate()
        .filter_map(|(id, entry)| {
            let declaration = entry.as_ref()?;
            let kind = KIND_NAMES[usize::from(declaration.kind())];
            Some(format!("{id};{kind};{}\n", declaration.name))
        });
    lines.collect()
}
