//! From a schema to the bytes of its image, in parts that a caller can spoil
//! before they are put together.

use crate::schema::*;

/// An image in its parts. `of` makes them fit; whoever changes one afterwards
/// gets a faulty image, which `bytes` does not mend.
#[derive(Clone)]
pub struct Parts {
    pub format: u16,
    /// N, M and S.
    pub counts: [u16; 3],
    pub contents: Vec<(u16, u16)>,
    pub ids: Vec<u32>,
    pub names: Vec<u8>,
    pub bodies: Vec<Vec<u8>>,
}

impl Parts {
    pub fn of(schema: &Schema) -> Parts {
        let bodies = schema.registry.iter();
        let bodies = bodies.map(|entry| Some(body(schema.format, entry.as_ref()?)));
        Parts {
            format: schema.format,
            ..Parts::around(&schema.namespace, &schema.declarations, bodies.collect())
        }
    }

    /// The parts around bodies given as bytes, of the first format; `None` is an empty
    /// entry.
    pub fn around(namespace: &[String], ids: &[u32], bodies: Vec<Option<Vec<u8>>>) -> Parts {
        let mut parts = Parts {
            format: FIRST_FORMAT,
            counts: [
                bodies.len() as u16,
                ids.len() as u16,
                namespace.len() as u16,
            ],
            contents: Vec::new(),
            ids: ids.to_vec(),
            names: namespace.iter().flat_map(|segment| name(segment)).collect(),
            bodies: bodies.iter().flatten().cloned().collect(),
        };
        let mut at = 8 + 4 * bodies.len() + 4 * ids.len() + parts.names.len();
        for body in &bodies {
            parts.contents.push(match body {
                None => (0, 0),
                Some(body) => (at as u16, body.len() as u16),
            });
            at += body.as_ref().map_or(0, Vec::len);
        }
        parts
    }

    pub fn bytes(&self) -> Vec<u8> {
        let mut image = self.format.to_le_bytes().to_vec();
        image.extend(self.counts.iter().flat_map(|count| count.to_le_bytes()));
        for (offset, length) in &self.contents {
            image.extend(offset.to_le_bytes());
            image.extend(length.to_le_bytes());
        }
        image.extend(self.ids.iter().flat_map(|id| id.to_le_bytes()));
        image.extend(&self.names);
        image.extend(self.bodies.concat());
        image
    }
}

pub fn image(schema: &Schema) -> Vec<u8> {
    Parts::of(schema).bytes()
}

pub fn name(text: &str) -> Vec<u8> {
    let mut bytes = vec![u8::try_from(text.len()).expect("a name has at most 255 bytes")];
    bytes.extend(text.as_bytes());
    bytes
}

fn count<T>(items: &[T]) -> [u8; 2] {
    (items.len() as u16).to_le_bytes()
}

pub fn body(format: u16, declaration: &Declaration) -> Vec<u8> {
    let mut bytes = vec![declaration.kind()];
    if declaration.kind() != IMPL {
        bytes.extend(name(&declaration.name));
    }
    match &declaration.body {
        Body::Message(marks, list) => {
            bytes.push(marks.byte());
            bytes.extend(fields(list));
        }
        Body::Enum(marks, bits, list) => {
            bytes.push(marks.byte());
            bytes.extend(width(format, *bits));
            bytes.extend(items(list));
        }
        Body::Flags(wire_bytes, list) => {
            bytes.extend(width(format, *wire_bytes));
            bytes.extend(items(list));
        }
        Body::Union(list) => {
            bytes.extend(count(list));
            bytes.extend(list.iter().flat_map(|one| variant(format, one)));
        }
        Body::Newtype(inner) => bytes.extend(ty(inner)),
        Body::Config | Body::GenericAlias | Body::Trait | Body::Impl => {}
    }
    let list = &declaration.tombstones;
    match declaration.strikes_off() {
        true => bytes.extend(tombstones(format, list)),
        false => assert!(list.is_empty(), "tombstones of another kind"),
    }
    bytes
}

/// Tombstones stand exactly where the format has them.
fn tombstones(format: u16, list: &[u32]) -> Vec<u8> {
    if !has_tombstones(format) {
        assert!(list.is_empty(), "tombstones in format {format}");
        return Vec::new();
    }
    let mut bytes = count(list).to_vec();
    bytes.extend(list.iter().flat_map(|number| number.to_le_bytes()));
    bytes
}

/// A width stands exactly where the format has one.
fn width(format: u16, width: Width) -> Width {
    assert_eq!(
        width.is_some(),
        has_widths(format),
        "a width in format {format}"
    );
    width
}

/// The ordinal and the name that every numbered item starts with.
fn start<T: Numbered>(item: &T) -> Vec<u8> {
    let mut bytes = item.ordinal().to_le_bytes().to_vec();
    bytes.extend(name(item.name()));
    bytes
}

fn items(list: &[Item]) -> Vec<u8> {
    let mut bytes = count(list).to_vec();
    bytes.extend(list.iter().flat_map(start));
    bytes
}

fn variant(format: u16, variant: &Variant) -> Vec<u8> {
    let mut bytes = start(variant);
    bytes.extend(fields(&variant.fields));
    bytes.extend(tombstones(format, &variant.tombstones));
    bytes
}

pub fn fields(list: &[Field]) -> Vec<u8> {
    let mut bytes = count(list).to_vec();
    bytes.extend(list.iter().flat_map(field));
    bytes
}

pub fn field(field: &Field) -> Vec<u8> {
    let mut bytes = start(field);
    bytes.push(field.marks.byte());
    bytes.extend(vec![3; usize::from(field.encoding.deltas)]);
    bytes.push(field.encoding.base);
    bytes.push(u8::from(field.limit.is_some()));
    bytes.extend(field.limit.iter().flat_map(|limit| limit.to_le_bytes()));
    bytes.extend(ty(&field.ty));
    bytes
}

pub fn ty(ty: &Type) -> Vec<u8> {
    let mut bytes = vec![ty.tag()];
    match &ty.label {
        Label::Primitive(code) | Label::Semantic(code) => bytes.push(*code),
        Label::SubByte { signed, bits } => bytes.extend([u8::from(*signed), *bits]),
        Label::Named(id) => bytes.extend(id.to_le_bytes()),
        Label::FixedArray(size) => bytes.extend(size.to_le_bytes()),
        Label::Bits(names) => {
            bytes.push(names.len() as u8);
            bytes.extend(names.iter().flat_map(|text| name(text)));
        }
        Label::Wrapper(_) => {}
    }
    bytes.extend(ty_list(&ty.inner));
    bytes
}

fn ty_list(list: &[Type]) -> Vec<u8> {
    list.iter().flat_map(ty).collect()
}
