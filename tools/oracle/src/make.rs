//! Short ways to write schemas down, for the cases and the tests.

use crate::schema::*;

pub fn names(list: &[&str]) -> Vec<String> {
    list.iter().map(|name| name.to_string()).collect()
}

/// A schema of namespace `ride` and of the first format that lists all of its
/// declarations in order.
pub fn schema(declarations: Vec<Declaration>) -> Schema {
    Schema {
        format: FIRST_FORMAT,
        namespace: names(&["ride"]),
        declarations: (0..declarations.len() as u32).collect(),
        registry: declarations.into_iter().map(Some).collect(),
    }
}

/// The widths of declarations that nobody gave one.
const WIRE_BITS_UNASKED: u8 = 8;
const WIRE_BYTES_UNASKED: u8 = 1;

impl Schema {
    /// The same in another format. Of enums and flags without a width, where the format
    /// has one, an enum has 8 wire bits and flags have 1 wire byte. Tombstones go where the
    /// format has none.
    pub fn in_format(mut self, format: u16) -> Schema {
        self.format = format;
        for declaration in self.registry.iter_mut().flatten() {
            let unasked = match declaration.body {
                Body::Enum(..) => WIRE_BITS_UNASKED,
                _ => WIRE_BYTES_UNASKED,
            };
            if let Some(width) = declaration.width_mut() {
                *width = has_widths(format).then_some(width.unwrap_or(unasked));
            }
            if !has_tombstones(format) {
                declaration.strike_nothing();
            }
        }
        self
    }

    pub fn in_namespace(mut self, segments: &[&str]) -> Schema {
        self.namespace = names(segments);
        self
    }

    /// Lists these ids only.
    pub fn listing(mut self, ids: &[u32]) -> Schema {
        self.declarations = ids.to_vec();
        self
    }

    /// Adds entries that are not listed: imports, or empty ones.
    pub fn with_entries(mut self, entries: Vec<Option<Declaration>>) -> Schema {
        self.registry.extend(entries);
        self
    }
}

fn declaration(name: &str, body: Body) -> Declaration {
    Declaration {
        name: name.to_string(),
        body,
        tombstones: Vec::new(),
    }
}

impl Declaration {
    /// An enum or flags with this width, for a schema of a format that has widths.
    pub fn of_width(mut self, width: u8) -> Declaration {
        let place = self.width_mut().expect("enums and flags have a width");
        *place = Some(width);
        self
    }

    /// With these tombstones, for a schema of a format that has them.
    pub fn striking(mut self, tombstones: &[u32]) -> Declaration {
        self.tombstones = tombstones.to_vec();
        self
    }

    /// Without tombstones, its own and those of variants.
    fn strike_nothing(&mut self) {
        self.tombstones.clear();
        if let Body::Union(variants) = &mut self.body {
            variants.iter_mut().for_each(|v| v.tombstones.clear());
        }
    }
}

impl Variant {
    /// The same of a variant.
    pub fn striking(mut self, tombstones: &[u32]) -> Variant {
        self.tombstones = tombstones.to_vec();
        self
    }
}

pub fn message(name: &str, fields: Vec<Field>) -> Declaration {
    marked_message(name, 0, fields)
}

pub fn marked_message(name: &str, marks: u8, fields: Vec<Field>) -> Declaration {
    declaration(name, Body::Message(Marks::of(marks), fields))
}

pub fn enumeration(name: &str, marks: u8, variants: Vec<Item>) -> Declaration {
    declaration(name, Body::Enum(Marks::of(marks), None, variants))
}

pub fn flags(name: &str, bits: Vec<Item>) -> Declaration {
    declaration(name, Body::Flags(None, bits))
}

pub fn union(name: &str, variants: Vec<Variant>) -> Declaration {
    declaration(name, Body::Union(variants))
}

pub fn newtype(name: &str, inner: Type) -> Declaration {
    declaration(name, Body::Newtype(inner))
}

pub fn config(name: &str) -> Declaration {
    declaration(name, Body::Config)
}

pub fn alias(name: &str) -> Declaration {
    declaration(name, Body::GenericAlias)
}

pub fn trait_of(name: &str) -> Declaration {
    declaration(name, Body::Trait)
}

pub fn implementation() -> Declaration {
    declaration("", Body::Impl)
}

/// A declaration of the given kind with little in it.
pub fn of_kind(kind: u8, name: &str) -> Declaration {
    match kind {
        0 => message(name, vec![field(0, "f", primitive(2))]),
        1 => enumeration(name, 0, vec![item(0, "v")]),
        2 => flags(name, vec![item(0, "b")]),
        3 => union(name, vec![variant(0, "v", vec![])]),
        4 => newtype(name, primitive(2)),
        5 => config(name),
        6 => alias(name),
        7 => trait_of(name),
        _ => implementation(),
    }
}

pub fn item(ordinal: u32, name: &str) -> Item {
    Item {
        ordinal,
        name: name.to_string(),
    }
}

pub fn items(list: &[(u32, &str)]) -> Vec<Item> {
    list.iter().map(|(n, name)| item(*n, name)).collect()
}

pub fn variant(ordinal: u32, name: &str, fields: Vec<Field>) -> Variant {
    Variant {
        ordinal,
        name: name.to_string(),
        fields,
        tombstones: Vec::new(),
    }
}

pub fn field(ordinal: u32, name: &str, ty: Type) -> Field {
    Field {
        ordinal,
        name: name.to_string(),
        marks: Marks::default(),
        encoding: Encoding::default(),
        limit: None,
        ty,
    }
}

impl Field {
    pub fn marked(mut self, marks: u8) -> Field {
        self.marks = Marks::of(marks);
        self
    }

    pub fn encoded(mut self, deltas: u8, base: u8) -> Field {
        self.encoding = Encoding { deltas, base };
        self
    }

    pub fn limited(mut self, limit: impl Into<Option<u64>>) -> Field {
        self.limit = limit.into();
        self
    }
}

fn leaf(label: Label) -> Type {
    let inner = Vec::new();
    Type { label, inner }
}

pub fn primitive(code: u8) -> Type {
    leaf(Label::Primitive(code))
}

pub fn sub_byte(signed: bool, bits: u8) -> Type {
    leaf(Label::SubByte { signed, bits })
}

pub fn semantic(code: u8) -> Type {
    leaf(Label::Semantic(code))
}

pub fn named(id: u32) -> Type {
    leaf(Label::Named(id))
}

pub fn bits(list: &[&str]) -> Type {
    leaf(Label::Bits(names(list)))
}

pub fn fixed_array(inner: Type, size: u64) -> Type {
    Type {
        label: Label::FixedArray(size),
        inner: vec![inner],
    }
}

/// Tags 4, 5, 7 and 10 to 15.
pub fn wrapped(tag: u8, inner: Type) -> Type {
    Type {
        label: Label::Wrapper(tag),
        inner: vec![inner],
    }
}

/// Tags 8 and 9.
pub fn double(tag: u8, first: Type, second: Type) -> Type {
    Type {
        label: Label::Wrapper(tag),
        inner: vec![first, second],
    }
}

/// A type of the given tag with `u16` in its leaves.
pub fn of_tag(tag: u8) -> Type {
    match tag {
        0 => primitive(2),
        1 => sub_byte(false, 3),
        2 => semantic(0),
        3 => named(0),
        6 => fixed_array(primitive(2), 4),
        8 | 9 => double(tag, primitive(2), primitive(2)),
        16 => bits(&["a", "b"]),
        _ => wrapped(tag, primitive(2)),
    }
}
