//! Facts about accepted images: the values nearest to a refusal.

use super::{Facts, Rows};
use crate::answer::Pair;
use crate::cases::Case;
use crate::limits::{DELTAS, FORMATS, HEAD_BYTES, IMAGE_BYTES, NODES};
use crate::schema::*;

pub fn facts(facts: &mut Facts, case: &Case, pair: &Pair) {
    if let Ok(schema) = &pair.old {
        of_image(facts, &case.old, schema, "old");
    }
    if let Ok(schema) = &pair.new {
        of_image(facts, &case.new, schema, "new");
    }
}

fn of_image(facts: &mut Facts, image: &[u8], schema: &Schema, side: &str) {
    let mut fact = |text: String| facts.add(format!("accepted {side}: {text}"));
    let (n, m, s) = (
        schema.registry.len(),
        schema.declarations.len(),
        schema.namespace.len(),
    );
    fact(format!("format {}", schema.format));
    fact(format!("{} bytes", image.len()));
    fact(format!("N {n}"));
    fact(format!("M {m}"));
    fact(format!("S {s}"));
    if schema.declarations.iter().any(|id| far(image, schema, *id)) {
        fact("listed body behind 32,000 bytes".to_string());
    }
    if schema.registry.iter().all(Option::is_none) {
        let last = match (n, m, s) {
            (0, 0, 0) => "head",
            (_, 0, 0) => "contents",
            (_, _, 0) => "ids",
            _ => "names",
        };
        fact(format!("{last} end the image"));
    }
    let entries = schema.registry.iter();
    let empties: Vec<bool> = entries.map(Option::is_none).collect();
    if empties.windows(2).any(|two| two == [true, false]) {
        fact("empty entry before a body".to_string());
    }
    if empties.windows(2).any(|two| two == [false, true]) {
        fact("empty entry after a body".to_string());
    }
    for declaration in schema.registry.iter().flatten() {
        of_declaration(&mut fact, declaration);
    }
}

/// Whether the id's body stands near the end of the largest image.
fn far(image: &[u8], schema: &Schema, id: u32) -> bool {
    let at = HEAD_BYTES + 4 * id as usize;
    schema.get(id).is_some() && u16::from_le_bytes([image[at], image[at + 1]]) > 32_000
}

fn of_declaration(fact: &mut impl FnMut(String), declaration: &Declaration) {
    fact(format!("kind {}", declaration.kind()));
    for byte in declaration.name.chars() {
        fact(format!("name with {byte}"));
    }
    match &declaration.body {
        Body::Message(marks, fields) => {
            fact(format!("message marks {}", marks.byte()));
            fields
                .iter()
                .for_each(|field| of_field(fact, field, "field"));
        }
        Body::Enum(marks, width, _) => {
            fact(format!("enum marks {}", marks.byte()));
            fact(format!("enum width {width:?}"));
        }
        Body::Flags(width, _) => fact(format!("flags width {width:?}")),
        Body::Union(variants) => {
            let fields = variants.iter().flat_map(|variant| &variant.fields);
            fields.for_each(|field| of_field(fact, field, "variant's field"));
        }
        Body::Newtype(inner) => of_type(fact, inner, 1),
        _ => {}
    }
}

fn of_field(fact: &mut impl FnMut(String), field: &Field, place: &str) {
    fact(format!("{place} marks {}", field.marks.byte()));
    fact(format!("{place} with {} deltas", field.encoding.deltas));
    fact(format!("base encoding {}", field.encoding.base));
    if let Some(limit) = field.limit {
        fact(format!("limit {limit}"));
    }
    of_type(fact, &field.ty, 1);
}

fn of_type(fact: &mut impl FnMut(String), ty: &Type, node: usize) {
    fact(format!("tag {}", ty.tag()));
    match &ty.label {
        Label::Primitive(code) => fact(format!("primitive {code}")),
        Label::SubByte { signed, bits } => {
            fact(format!("signed {signed}"));
            fact(format!("bits {bits}"));
        }
        Label::Semantic(code) => fact(format!("semantic {code}")),
        Label::FixedArray(size) => fact(format!("size {size}")),
        Label::Bits(names) => fact(format!("{} inline bits", names.len())),
        Label::Named(_) | Label::Wrapper(_) => {}
    }
    for (place, inner) in ty.inner.iter().enumerate() {
        if node + 1 == NODES {
            fact(format!(
                "32nd node in inner type {place} of tag {}",
                ty.tag()
            ));
        }
        of_type(fact, inner, node + 1);
    }
}

pub fn rows(rows: &mut Rows) {
    let mut each = |text: String| rows.sides(|side| format!("accepted {side}: {text}"));
    each(format!("{IMAGE_BYTES} bytes"));
    let sizes = ["8 bytes", "listed body behind 32,000 bytes"];
    for text in sizes.into_iter().chain(["N 512", "M 512", "N 0", "M 0"]) {
        each(text.to_string());
    }
    for segments in 0..=16 {
        each(format!("S {segments}"));
    }
    for last in ["head", "contents", "ids", "names"] {
        each(format!("{last} end the image"));
    }
    for place in ["before", "after"] {
        each(format!("empty entry {place} a body"));
    }
    for kind in 0..=IMPL {
        each(format!("kind {kind}"));
    }
    for byte in ['0', '9', 'A', 'Z', '_', 'a', 'z'] {
        each(format!("name with {byte}"));
    }
    for place in ["message", "enum", "field", "variant's field"] {
        for marks in 0..=3 {
            each(format!("{place} marks {marks}"));
        }
    }
    for base in 0..=2 {
        each(format!("base encoding {base}"));
    }
    for place in ["field", "variant's field"] {
        each(format!("{place} with {DELTAS} deltas"));
    }
    for limit in [0, 1, u64::MAX] {
        each(format!("limit {limit}"));
        each(format!("size {limit}"));
    }
    of_formats(&mut each);
    of_types(&mut each);
}

fn of_formats(each: &mut impl FnMut(String)) {
    for format in FORMATS {
        each(format!("format {format}"));
    }
    for width in [None, Some(0), Some(1), Some(8), Some(16), Some(255)] {
        each(format!("enum width {width:?}"));
    }
    for width in [None].into_iter().chain(WIRE_BYTES.map(Some)) {
        each(format!("flags width {width:?}"));
    }
}

fn of_types(each: &mut impl FnMut(String)) {
    for tag in 0..=16 {
        each(format!("tag {tag}"));
    }
    for code in 0..14 {
        each(format!("primitive {code}"));
    }
    for code in 0..6 {
        each(format!("semantic {code}"));
    }
    for signed in [false, true] {
        each(format!("signed {signed}"));
    }
    for bits in [1, 2, 63, 64] {
        each(format!("bits {bits}"));
    }
    for count in [0, 1, 2, 255] {
        each(format!("{count} inline bits"));
    }
    for tag in 4..=15 {
        for place in 0..inner_types(tag) {
            each(format!("32nd node in inner type {place} of tag {tag}"));
        }
    }
}
