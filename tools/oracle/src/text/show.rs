//! From a schema to its text.

use super::{shown_name, EMPTY_NAME, SUB};
use crate::schema::*;
use crate::types::{bits_display, display, encoding_display, sub_byte_display, PRIMITIVES};

pub fn show(schema: &Schema) -> String {
    let segments = schema.namespace.iter().map(|segment| name(segment));
    let listed = schema.declarations.iter().map(|id| reference(schema, *id));
    let mut lines = Vec::new();
    if schema.format != FIRST_FORMAT {
        lines.push(format!("format {}", schema.format));
    }
    lines.push(listing("namespace", segments.collect()));
    lines.push(listing("declares", listed.collect()));
    for (id, entry) in schema.registry.iter().enumerate() {
        lines.push(String::new());
        match entry {
            None => lines.push(format!("#{id} empty")),
            Some(declaration) => {
                let heading = heading(schema, declaration);
                lines.push(format!("#{id} {heading}"));
                lines.extend(struck("  ", &declaration.tombstones));
                lines.extend(items(schema, &declaration.body));
            }
        }
    }
    lines.join("\n") + "\n"
}

fn listing(word: &str, list: Vec<String>) -> String {
    std::iter::once(word.to_string())
        .chain(list)
        .collect::<Vec<_>>()
        .join(" ")
}

fn name(name: &str) -> String {
    match name {
        "" => EMPTY_NAME.to_string(),
        name => name.to_string(),
    }
}

fn reference(schema: &Schema, id: u32) -> String {
    format!("{}#{id}", shown_name(schema, id))
}

fn heading(schema: &Schema, declaration: &Declaration) -> String {
    let kind = KIND_NAMES[usize::from(declaration.kind())];
    let named = format!("{kind} {}", name(&declaration.name));
    match &declaration.body {
        Body::Message(marks, _) => named + &marked(*marks),
        Body::Enum(marks, width, _) => named + &marked(*marks) + &wide(*width),
        Body::Flags(width, _) => named + &wide(*width),
        Body::Newtype(inner) => format!("{named}: {}", ty(schema, inner)),
        Body::Impl => kind.to_string(),
        _ => named,
    }
}

fn marked(marks: Marks) -> String {
    let deprecated = if marks.deprecated { " deprecated" } else { "" };
    let open = if marks.non_exhaustive {
        " non_exhaustive"
    } else {
        ""
    };
    format!("{deprecated}{open}")
}

fn wide(width: Width) -> String {
    match width {
        Some(width) => format!(" width {width}"),
        None => String::new(),
    }
}

fn items(schema: &Schema, body: &Body) -> Vec<String> {
    match body {
        Body::Message(_, fields) => fields.iter().map(|f| field("  ", schema, f)).collect(),
        Body::Enum(_, _, items) | Body::Flags(_, items) => items.iter().map(start).collect(),
        Body::Union(variants) => variants.iter().flat_map(|v| variant(schema, v)).collect(),
        _ => Vec::new(),
    }
}

/// The number and the name that every item's line starts with.
fn start<T: Numbered>(item: &T) -> String {
    format!("  @{} {}", item.ordinal(), name(item.name()))
}

fn variant(schema: &Schema, variant: &Variant) -> Vec<String> {
    let fields = variant.fields.iter().map(|f| field("    ", schema, f));
    let first = std::iter::once(start(variant)).chain(struck("    ", &variant.tombstones));
    first.chain(fields).collect()
}

/// A line of the numbers that are struck off, if there are any.
fn struck(indent: &str, tombstones: &[u32]) -> Option<String> {
    let numbers: Vec<String> = tombstones.iter().map(u32::to_string).collect();
    (!numbers.is_empty()).then(|| format!("{indent}struck {}", numbers.join(" ")))
}

fn field(indent: &str, schema: &Schema, field: &Field) -> String {
    let mut line = format!("{indent}{}: {}", start(field).trim(), ty(schema, &field.ty));
    if field.encoding != Encoding::default() {
        line += &format!(" {}", encoding_display(field.encoding));
    }
    if let Some(limit) = field.limit {
        line += &format!(" limit {limit}");
    }
    line + &marked(field.marks)
}

/// As document 01 shows it, except where that is ambiguous: a named type has its
/// id, a sub-byte as wide as a primitive says so, an empty bit name is seen.
fn ty(schema: &Schema, ty: &Type) -> String {
    display(schema, ty, &|label| match label {
        Label::Named(id) => Some(reference(schema, *id)),
        Label::SubByte { signed, bits } => Some(sub_byte(*signed, *bits)),
        Label::Bits(names) => {
            let names: Vec<String> = names.iter().map(|text| name(text)).collect();
            Some(bits_display(&names))
        }
        _ => None,
    })
}

fn sub_byte(signed: bool, bits: u8) -> String {
    let shown = sub_byte_display(signed, bits);
    match PRIMITIVES.contains(&shown.as_str()) {
        true => format!("{SUB}{shown}"),
        false => shown,
    }
}
