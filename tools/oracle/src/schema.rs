//! What an image holds, in the terms of document 01 and, of formats, widths and
//! tombstones, of document 02. The reader makes it, the model compares it, the writer turns it back
//! into bytes.

#[derive(Clone, PartialEq, Debug)]
pub struct Schema {
    /// That of the image, by which its bodies are read and written.
    pub format: u16,
    pub namespace: Vec<String>,
    /// `None` is an empty entry.
    pub registry: Vec<Option<Declaration>>,
    /// The ids as listed; any value.
    pub declarations: Vec<u32>,
}

/// The format of document 01.
pub const FIRST_FORMAT: u16 = 1;

/// Whether enums and flags have a width in images of this format.
pub fn has_widths(format: u16) -> bool {
    format >= 2
}

/// Whether messages, enums, flags, unions and their variants have tombstones in images of
/// this format.
pub fn has_tombstones(format: u16) -> bool {
    format >= 3
}

/// An image that holds nothing, of the first format.
impl Default for Schema {
    fn default() -> Schema {
        Schema {
            format: FIRST_FORMAT,
            namespace: Vec::new(),
            registry: Vec::new(),
            declarations: Vec::new(),
        }
    }
}

impl Schema {
    /// The entry of an id; `None` where the id is unresolvable.
    pub fn get(&self, id: u32) -> Option<&Declaration> {
        self.registry.get(id as usize)?.as_ref()
    }
}

#[derive(Clone, PartialEq, Debug)]
pub struct Declaration {
    /// Empty for an impl.
    pub name: String,
    pub body: Body,
    /// The numbers that are struck off, as stored: of messages, enums, flags and unions, in
    /// a format that has them.
    pub tombstones: Vec<u32>,
}

#[derive(Clone, PartialEq, Debug)]
pub enum Body {
    Message(Marks, Vec<Field>),
    Enum(Marks, Width, Vec<Item>),
    Flags(Width, Vec<Item>),
    Union(Vec<Variant>),
    Newtype(Type),
    Config,
    GenericAlias,
    Trait,
    Impl,
}

/// The byte as it is stored: an enum's wire bits, or the wire bytes of flags. There is
/// one exactly if the format has widths.
pub type Width = Option<u8>;

/// What the wire bytes of flags may be; wire bits may be any byte.
pub const WIRE_BYTES: [u8; 4] = [1, 2, 4, 8];

pub const KIND_NAMES: [&str; 9] = [
    "message",
    "enum",
    "flags",
    "union",
    "newtype",
    "config",
    "generic_alias",
    "trait",
    "impl",
];

/// The kinds from 0 on that number what they hold: message, enum, flags, union.
pub const NUMBERING: u8 = 4;
pub const GENERIC_ALIAS: u8 = 6;
pub const IMPL: u8 = 8;

impl Declaration {
    /// The kind's number in a body.
    pub fn kind(&self) -> u8 {
        match self.body {
            Body::Message(..) => 0,
            Body::Enum(..) => 1,
            Body::Flags(..) => 2,
            Body::Union(_) => 3,
            Body::Newtype(_) => 4,
            Body::Config => 5,
            Body::GenericAlias => GENERIC_ALIAS,
            Body::Trait => 7,
            Body::Impl => IMPL,
        }
    }

    /// Whether it has tombstones, in a format that has them.
    pub fn strikes_off(&self) -> bool {
        self.kind() < NUMBERING
    }

    /// The numbers that it uses: of fields, variants or bits; a variant's fields are none
    /// of the union's.
    pub fn used(&self) -> Vec<u32> {
        match &self.body {
            Body::Message(_, fields) => ordinals(fields),
            Body::Enum(_, _, items) | Body::Flags(_, items) => ordinals(items),
            Body::Union(variants) => ordinals(variants),
            _ => Vec::new(),
        }
    }

    /// Where the width stands, of enums and flags.
    pub fn width_mut(&mut self) -> Option<&mut Width> {
        match &mut self.body {
            Body::Enum(_, width, _) | Body::Flags(width, _) => Some(width),
            _ => None,
        }
    }
}

#[derive(Clone, Copy, PartialEq, Debug, Default)]
pub struct Marks {
    pub deprecated: bool,
    pub non_exhaustive: bool,
}

impl Marks {
    pub fn of(byte: u8) -> Marks {
        Marks {
            deprecated: byte & 1 != 0,
            non_exhaustive: byte & 2 != 0,
        }
    }

    pub fn byte(self) -> u8 {
        u8::from(self.deprecated) + 2 * u8::from(self.non_exhaustive)
    }
}

/// An enum's variant or a flags' bit.
#[derive(Clone, PartialEq, Debug)]
pub struct Item {
    pub ordinal: u32,
    pub name: String,
}

/// A union's variant.
#[derive(Clone, PartialEq, Debug)]
pub struct Variant {
    pub ordinal: u32,
    pub name: String,
    pub fields: Vec<Field>,
    /// As those of a declaration; of the variant's fields.
    pub tombstones: Vec<u32>,
}

#[derive(Clone, PartialEq, Debug)]
pub struct Field {
    pub ordinal: u32,
    pub name: String,
    pub marks: Marks,
    pub encoding: Encoding,
    pub limit: Option<u64>,
    pub ty: Type,
}

/// What a body numbers: of one ordinal or bit the last listed stands.
pub trait Numbered {
    fn ordinal(&self) -> u32;
    fn name(&self) -> &str;
}

macro_rules! numbered {
    ($($item:ty)*) => {
        $(impl Numbered for $item {
            fn ordinal(&self) -> u32 {
                self.ordinal
            }

            fn name(&self) -> &str {
                &self.name
            }
        })*
    };
}

numbered!(Item Variant Field);

pub fn ordinals<T: Numbered>(items: &[T]) -> Vec<u32> {
    items.iter().map(Numbered::ordinal).collect()
}

#[derive(Clone, Copy, PartialEq, Debug, Default)]
pub struct Encoding {
    /// How many deltas stand around the base.
    pub deltas: u8,
    /// 0 default, 1 varint, 2 zigzag.
    pub base: u8,
}

/// A node of a type: its label and as many inner types as its tag has.
#[derive(Clone, PartialEq, Debug)]
pub struct Type {
    pub label: Label,
    pub inner: Vec<Type>,
}

#[derive(Clone, PartialEq, Debug)]
pub enum Label {
    Primitive(u8),
    SubByte {
        signed: bool,
        bits: u8,
    },
    Semantic(u8),
    Named(u32),
    FixedArray(u64),
    Bits(Vec<String>),
    /// A tag that stands for itself: 4, 5, 7 to 15.
    Wrapper(u8),
}

/// Tags 10 to 15: vectors, quaternion, matrices.
pub const GEOMETRIC: std::ops::RangeInclusive<u8> = 10..=15;

impl Type {
    pub fn tag(&self) -> u8 {
        match self.label {
            Label::Primitive(_) => 0,
            Label::SubByte { .. } => 1,
            Label::Semantic(_) => 2,
            Label::Named(_) => 3,
            Label::FixedArray(_) => 6,
            Label::Bits(_) => 16,
            Label::Wrapper(tag) => tag,
        }
    }
}

/// The nodes on the longest path from the root.
pub fn depth(ty: &Type) -> usize {
    1 + ty.inner.iter().map(depth).max().unwrap_or(0)
}

/// How many inner types a tag ends with.
pub fn inner_types(tag: u8) -> usize {
    match tag {
        4..=7 | 10..=15 => 1,
        8 | 9 => 2,
        _ => 0,
    }
}
