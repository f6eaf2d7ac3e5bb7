//! Types and encodings: when two types are equal, and how both are shown.

use crate::schema::{Encoding, Label, Schema, Type, GEOMETRIC};

pub const PRIMITIVES: [&str; 14] = [
    "bool", "u8", "u16", "u32", "u64", "i8", "i16", "i32", "i64", "f32", "f64", "fixed32",
    "fixed64", "void",
];
pub const SEMANTICS: [&str; 6] = ["string", "bytes", "rgb", "uuid", "timestamp", "hash"];
pub const ENCODINGS: [&str; 3] = ["default", "varint", "zigzag"];

/// The words of the tags with inner types, from tag 4 on.
pub const WRAPPERS: [&str; 12] = [
    "optional", "array", "array", "set", "map", "result", "vec2", "vec3", "vec4", "quat", "mat3",
    "mat4",
];

/// Stands for the name behind an unresolvable id.
pub const UNKNOWN: &str = "<unknown>";

/// The name an id stands for in its registry.
pub fn name_of(schema: &Schema, id: u32) -> Option<&str> {
    schema.get(id).map(|declaration| declaration.name.as_str())
}

pub fn types_equal(old: &Schema, old_type: &Type, new: &Schema, new_type: &Type) -> bool {
    labels_equal(old, &old_type.label, new, &new_type.label)
        && old_type
            .inner
            .iter()
            .zip(&new_type.inner)
            .all(|(o, n)| types_equal(old, o, new, n))
}

/// Tags 10 to 15 are never equal, even to themselves.
pub fn labels_equal(old: &Schema, old_label: &Label, new: &Schema, new_label: &Label) -> bool {
    let geometric = matches!(old_label, Label::Wrapper(tag) if GEOMETRIC.contains(tag));
    !geometric && labels_alike(old, old_label, new, new_label)
}

/// The same with tags 10 to 15 compared like the other tags. Such labels have one tag,
/// and so as many inner types.
pub fn labels_alike(old: &Schema, old_label: &Label, new: &Schema, new_label: &Label) -> bool {
    match (old_label, new_label) {
        (Label::Named(o), Label::Named(n)) => name_of(old, *o) == name_of(new, *n),
        (o, n) => o == n,
    }
}

pub fn type_display(schema: &Schema, ty: &Type) -> String {
    display(schema, ty, &|_| None)
}

/// A type, with some labels shown in the caller's own way.
pub fn display(schema: &Schema, ty: &Type, own: &dyn Fn(&Label) -> Option<String>) -> String {
    let inner = |size| wrapped(ty, size, &|ty| display(schema, ty, own));
    own(&ty.label).unwrap_or_else(|| match &ty.label {
        Label::Primitive(code) => PRIMITIVES[usize::from(*code)].to_string(),
        Label::SubByte { signed, bits } => sub_byte_display(*signed, *bits),
        Label::Semantic(code) => SEMANTICS[usize::from(*code)].to_string(),
        Label::Named(id) => name_of(schema, *id).unwrap_or(UNKNOWN).to_string(),
        Label::Bits(names) => bits_display(names),
        Label::FixedArray(size) => inner(Some(*size)),
        Label::Wrapper(_) => inner(None),
    })
}

pub fn sub_byte_display(signed: bool, bits: u8) -> String {
    format!("{}{bits}", if signed { 'i' } else { 'u' })
}

pub fn bits_display(names: &[String]) -> String {
    format!("bits {{ {} }}", names.join(", "))
}

fn wrapped(ty: &Type, size: Option<u64>, show: &dyn Fn(&Type) -> String) -> String {
    let mut parts: Vec<String> = ty.inner.iter().map(show).collect();
    parts.extend(size.map(|size| size.to_string()));
    let word = WRAPPERS[usize::from(ty.tag() - 4)];
    format!("{word}<{}>", parts.join(", "))
}

pub fn encoding_display(encoding: Encoding) -> String {
    let deltas = usize::from(encoding.deltas);
    let base = ENCODINGS[usize::from(encoding.base)];
    format!("{}{base}{}", "delta(".repeat(deltas), ")".repeat(deltas))
}
