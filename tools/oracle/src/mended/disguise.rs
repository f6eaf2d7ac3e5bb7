//! Schemas of which `check` says what the mended verdict says. To `check` a vector is
//! never equal; here each stands as a map, which is equal where its two types are, and
//! whose first type no image can hold: a name in an image has no `!`.

use crate::edits::types_of;
use crate::make::{bits, double};
use crate::schema::{Schema, Type, GEOMETRIC};
use crate::types::WRAPPERS;

/// `vec3<T>` becomes `map<bits { vec3! }, T>`, at any depth, and so do the others.
pub fn disguised(schema: &Schema) -> Schema {
    let mut disguised = schema.clone();
    for declaration in disguised.registry.iter_mut().flatten() {
        types_of(declaration).into_iter().for_each(disguise);
    }
    disguised
}

fn disguise(ty: &mut Type) {
    ty.inner.iter_mut().for_each(disguise);
    let tag = ty.tag();
    if GEOMETRIC.contains(&tag) {
        let inner = ty.inner.remove(0);
        *ty = double(8, bits(&[&format!("{}!", word(tag))]), inner);
    }
}

/// A text that shows disguised types shows them as they were.
pub fn undisguised(text: &str) -> String {
    GEOMETRIC.fold(text.to_string(), |text, tag| {
        let word = word(tag);
        text.replace(&format!("map<bits {{ {word}! }}, "), &format!("{word}<"))
    })
}

fn word(tag: u8) -> &'static str {
    WRAPPERS[usize::from(tag - 4)]
}
