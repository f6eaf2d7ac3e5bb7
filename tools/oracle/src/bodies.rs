//! Reading one body: kind, name and what follows, first fault met.

use crate::cursor::Cursor;
use crate::limits::{DELTAS, NODES};
use crate::refusal::{Read, Refusal, BODY, CODE, DEEP, KIND};
use crate::schema::*;
use std::ops::Range;

/// The body that stands in this part of an image of this format.
pub fn read_body(format: u16, image: &[u8], part: Range<usize>) -> Read<Declaration> {
    let start = part.start;
    let mut body = Cursor::of_part(image, part, BODY);
    let kind = body.u8("kind")?;
    if kind > IMPL {
        return Err(Refusal::new(KIND, "kind", u64::from(kind)).at(start));
    }
    read_declaration(format, &mut body, kind).map_err(|refusal| refusal.of_kind(kind))
}

fn read_declaration(format: u16, body: &mut Cursor, kind: u8) -> Read<Declaration> {
    let name = match kind {
        IMPL => String::new(),
        _ => body.name("declaration name")?,
    };
    match read_rest(format, body, kind) {
        Ok((body, tombstones)) => Ok(Declaration {
            name,
            body,
            tombstones,
        }),
        Err(refusal) => Err(refusal.of_name(name)),
    }
}

/// What follows the name, up to the body's end.
fn read_rest(format: u16, body: &mut Cursor, kind: u8) -> Read<(Body, Vec<u32>)> {
    let read = match kind {
        0 => Body::Message(read_marks(body, "marks")?, read_fields(body)?),
        1 => Body::Enum(
            read_marks(body, "marks")?,
            read_width(format, body, |_| true)?,
            read_items(body, "enum variant name")?,
        ),
        2 => Body::Flags(
            read_width(format, body, |bytes| WIRE_BYTES.contains(&bytes))?,
            read_items(body, "bit name")?,
        ),
        3 => Body::Union(read_list(body, "count", |body| read_variant(format, body))?),
        4 => Body::Newtype(read_type(body, 1)?),
        5 => Body::Config,
        GENERIC_ALIAS => Body::GenericAlias,
        7 => Body::Trait,
        _ => Body::Impl,
    };
    let tombstones = match kind < NUMBERING {
        true => read_tombstones(format, body)?,
        false => Vec::new(),
    };
    match body.left() {
        0 => Ok((read, tombstones)),
        left => Err(Refusal::new(BODY, "left over", left as u64).at(body.at())),
    }
}

fn read_list<T>(
    body: &mut Cursor,
    what: &'static str,
    mut read: impl FnMut(&mut Cursor) -> Read<T>,
) -> Read<Vec<T>> {
    let count = body.u16(what)?;
    (0..count).map(|_| read(body)).collect()
}

fn read_items(body: &mut Cursor, name: &'static str) -> Read<Vec<Item>> {
    read_list(body, "count", |body| {
        Ok(Item {
            ordinal: body.u32("item ordinal")?,
            name: body.name(name)?,
        })
    })
}

/// The tombstones, where the format has them.
fn read_tombstones(format: u16, body: &mut Cursor) -> Read<Vec<u32>> {
    match has_tombstones(format) {
        true => read_list(body, "tombstone count", |body| body.u32("tombstone")),
        false => Ok(Vec::new()),
    }
}

fn read_variant(format: u16, body: &mut Cursor) -> Read<Variant> {
    Ok(Variant {
        ordinal: body.u32("variant ordinal")?,
        name: body.name("union variant name")?,
        fields: read_list(body, "variant's field count", read_field)?,
        tombstones: read_tombstones(format, body)?,
    })
}

fn read_fields(body: &mut Cursor) -> Read<Vec<Field>> {
    read_list(body, "count", read_field)
}

fn read_field(body: &mut Cursor) -> Read<Field> {
    Ok(Field {
        ordinal: body.u32("field ordinal")?,
        name: body.name("field name")?,
        marks: read_marks(body, "field marks")?,
        encoding: read_encoding(body)?,
        limit: match read_code(body, "limit mark", 0..=1)? {
            0 => None,
            _ => Some(body.u64("limit")?),
        },
        ty: read_type(body, 1)?,
    })
}

/// The width, where the format has one.
fn read_width(format: u16, body: &mut Cursor, allowed: impl Fn(u8) -> bool) -> Read<Width> {
    match has_widths(format) {
        true => read_coded(body, "width", allowed).map(Some),
        false => Ok(None),
    }
}

fn read_code(
    body: &mut Cursor,
    what: &'static str,
    values: std::ops::RangeInclusive<u8>,
) -> Read<u8> {
    read_coded(body, what, |code| values.contains(&code))
}

/// A coded byte, refused outside its values.
fn read_coded(body: &mut Cursor, what: &'static str, allowed: impl Fn(u8) -> bool) -> Read<u8> {
    let at = body.at();
    match body.u8(what)? {
        code if allowed(code) => Ok(code),
        code => Err(Refusal::new(CODE, what, u64::from(code)).at(at)),
    }
}

fn read_marks(body: &mut Cursor, what: &'static str) -> Read<Marks> {
    Ok(Marks::of(read_code(body, what, 0..=3)?))
}

fn read_encoding(body: &mut Cursor) -> Read<Encoding> {
    let mut deltas = 0;
    loop {
        let what = if deltas == 0 {
            "encoding"
        } else {
            "inner encoding"
        };
        let at = body.at();
        match read_code(body, what, 0..=3)? {
            3 if deltas == DELTAS => return Err(Refusal::new(DEEP, "delta", 9).at(at)),
            3 => deltas += 1,
            base => return Ok(Encoding { deltas, base }),
        }
    }
}

/// `node` is this node's place on its path from the root, from 1 on.
fn read_type(body: &mut Cursor, node: usize) -> Read<Type> {
    let tag = read_code(body, "tag", 0..=16)?;
    let label = match tag {
        0 => Label::Primitive(read_code(body, "primitive", 0..=13)?),
        1 => Label::SubByte {
            signed: read_code(body, "signed", 0..=1)? == 1,
            bits: read_code(body, "bits", 1..=64)?,
        },
        2 => Label::Semantic(read_code(body, "semantic", 0..=5)?),
        3 => Label::Named(body.u32("type id")?),
        6 => Label::FixedArray(body.u64("size")?),
        16 => {
            let count = body.u8("inline bit count")?;
            let names = (0..count).map(|_| body.name("inline bit name"));
            Label::Bits(names.collect::<Read<_>>()?)
        }
        _ => Label::Wrapper(tag),
    };
    let inner = (0..inner_types(tag))
        .map(|_| read_inner(body, tag, node + 1))
        .collect::<Read<_>>()?;
    Ok(Type { label, inner })
}

/// A node too many is refused before its tag is read.
fn read_inner(body: &mut Cursor, outer: u8, node: usize) -> Read<Type> {
    if node > NODES {
        return Err(Refusal::new(DEEP, "node under tag", u64::from(outer)).at(body.at()));
    }
    read_type(body, node)
}
