//! From a `CompiledSchema` to an image of format 1, 2 or 3, the file that the comparer
//! reads, or the reason why there is no such image.
//!
//! One file over `std` alone, made to be a module of the crate vexil-lang:
//! copy it beside compat.rs, write `pub mod exporter;` in lib.rs and call
//!
//! ```ignore
//! let exported = exporter::export(&schema, exporter::Format::Three)?;
//! for warning in &exported.warnings {
//!     eprintln!("{warning}");
//! }
//! std::fs::write("new.img", exported.image)?;
//! ```
//!
//! caller.rs, beside this file, is a whole function that does so, to be copied too.
//!
//! The mended verdict needs format 2 on both sides, or format 3 on both; all others read
//! every format, and answer to a schema in each of them the same. `Format::One` has no
//! widths, and `Format::Three` alone has tombstones.
//!
//! As a part of that crate it does not compile once the IR has a kind, a type
//! or an encoding more, so none is dropped in silence.
//!
//! Written are the namespace, every registry entry in the order of its `TypeId`
//! (a stub becomes an empty entry, with a warning), the listed ids as they are, resolvable or
//! not, and of each definition what `compat::check` reads: names, ordinals and
//! bits, types, encodings with limits, and the marks deprecated and
//! non-exhaustive of messages, enums and fields. In formats 2 and 3 also the widths as
//! they stand in the schema: `wire_bits` of enums, `wire_bytes` of flags. They are 0 until
//! `typeck::check` fills them in, which it does for what a schema declares itself: an
//! import comes with those of its own check, or with 0. A 0 of an enum is written; of
//! flags it is refused. In format 3 also the ordinals of the tombstones of messages,
//! enums, flags, unions and union variants, all of them in the order of the schema.
//!
//! Lost are all other annotations, also deprecation's reason and the marks of
//! other definitions, of variants and of bits; a tombstone's reason, since and original
//! type, in formats 1 and 2 the tombstones; constants, constraints, wire sizes, in
//! format 1 the widths, an enum's backing type, spans, origins, aliases that the registry
//! resolves; of configs, generic aliases and traits all but the name; of impls
//! everything.
//!
//! A warning names an entry that was left a stub, such as an import that was not
//! resolved. The image hides what it stands for: a field that goes from one stub to
//! another compares as equal. So does an id outside the registry, which is written
//! as it is and without a warning.
//!
//! Refusals have the numbers of the format's table. The first in the order of
//! an image's bytes is given:
//!
//! | number | given for |
//! |---|---|
//! | 4 | over 512 entries or listed ids, over 16 segments, over 255 names of inline bits |
//! | 7 | a name over 255 bytes or with a byte other than a letter, a digit or `_` |
//! | 9 | a sub-byte type of 0 or over 64 bits; in formats 2 and 3 wire bytes of flags other than 1, 2, 4 or 8 |
//! | 10 | a 33rd node on a path of a type, a ninth delta |
//! | 1 | over 32,768 bytes at a body's end; over 65,535 items or tombstones in a list |
//!
//! A reader never meets two of these, for the count has no room: 256 names of
//! inline bits (4, as for other counts) and 65,536 items or tombstones (1, for each
//! has 4 bytes or more). Of the other numbers 2, 3, 5, 6 and 8 tell of bytes that are
//! not written here, 11, 12 and 16 of two images.

use crate::ast::{PrimitiveType, SemanticType, SubByteType};
use crate::ir::{
    CompiledSchema, Encoding, EnumVariantDef, FieldDef, FlagsBitDef, ResolvedAnnotations,
    ResolvedType, TombstoneDef, TypeDef, TypeId, TypeRegistry, UnionVariantDef,
};
use std::fmt;

const IMAGE_BYTES: usize = 32_768;
const HEAD_BYTES: usize = 8;
const ENTRY_BYTES: usize = 4;
const ENTRIES: usize = 512;
const IDS: usize = 512;
const SEGMENTS: usize = 16;
const NODES: usize = 32;
const DELTAS: usize = 8;
const WIRE_BYTES: [u8; 4] = [1, 2, 4, 8];

const LONG: u8 = 1;
const CROWDED: u8 = 4;
const NAME: u8 = 7;
const CODE: u8 = 9;
const DEEP: u8 = 10;

/// The format of an image, by its number. A later one holds what those before it hold.
#[derive(Clone, Copy, PartialEq, Eq, PartialOrd, Ord, Debug)]
pub enum Format {
    One = 1,
    /// With the widths of enums and flags.
    Two = 2,
    /// With the tombstones of messages, enums, flags, unions and union variants.
    Three = 3,
}

impl Format {
    const ALL: [Format; 3] = [Format::One, Format::Two, Format::Three];

    /// The format of a number, if there is one.
    pub fn of(number: u16) -> Option<Format> {
        let mut all = Format::ALL.into_iter();
        all.find(|format| format.number() == number)
    }

    pub fn number(self) -> u16 {
        self as u16
    }

    fn has_widths(self) -> bool {
        self >= Format::Two
    }

    fn has_tombstones(self) -> bool {
        self >= Format::Three
    }
}

/// The image of a schema, and what it hides.
#[derive(Clone, PartialEq, Eq, Debug, Default)]
pub struct Exported {
    pub image: Vec<u8>,
    /// In the order of ids.
    pub warnings: Vec<Warning>,
}

/// A stub of the registry, which is written as an empty entry.
#[derive(Clone, PartialEq, Eq, Debug)]
pub struct Warning {
    /// The entry's id.
    pub id: u32,
    /// The name that the registry has for it, if it has one.
    pub name: Option<String>,
}

impl fmt::Display for Warning {
    fn fmt(&self, f: &mut fmt::Formatter<'_>) -> fmt::Result {
        write!(f, "entry {}", self.id)?;
        if let Some(name) = &self.name {
            write!(f, ", {name:?},")?;
        }
        write!(
            f,
            " is a stub and is written as an empty one: what it stands for is not compared"
        )
    }
}

/// Why a schema can't be an image.
#[derive(Clone, PartialEq, Eq, Debug)]
pub struct Refused {
    /// The number in the table of refusals.
    pub number: u8,
    /// Where, from the outside in. Entries go by their id; segments and names of
    /// inline bits are counted from 0.
    pub place: String,
    /// What stands there.
    pub found: String,
}

impl Refused {
    fn new(number: u8, found: String) -> Refused {
        Refused {
            number,
            place: String::new(),
            found,
        }
    }

    /// The same, with the place around it put in front.
    fn within(self, outer: impl fmt::Display) -> Refused {
        let place = match self.place.as_str() {
            "" => outer.to_string(),
            inner => format!("{outer}, {inner}"),
        };
        Refused { place, ..self }
    }
}

impl fmt::Display for Refused {
    fn fmt(&self, f: &mut fmt::Formatter<'_>) -> fmt::Result {
        write!(f, "refused {}: {}: {}", self.number, self.place, self.found)
    }
}

impl std::error::Error for Refused {}

type Written = Result<(), Refused>;

/// The image of a schema in a format, with its warnings.
pub fn export(schema: &CompiledSchema, format: Format) -> Result<Exported, Refused> {
    let mut image = format.number().to_le_bytes().to_vec();
    put_count(&mut image, schema.registry.len(), ENTRIES, "registry")?;
    put_count(&mut image, schema.declarations.len(), IDS, "declarations")?;
    put_count(&mut image, schema.namespace.len(), SEGMENTS, "namespace")?;
    // Entries are filled in with their bodies; an empty one stays as it is.
    image.resize(HEAD_BYTES + ENTRY_BYTES * schema.registry.len(), 0);
    for id in &schema.declarations {
        image.extend(id.index().to_le_bytes());
    }
    for (place, segment) in schema.namespace.iter().enumerate() {
        put_name(&mut image, segment)
            .map_err(|refused| refused.within(format!("namespace, segment {place}")))?;
    }
    for (id, def) in schema.registry.iter() {
        put_entry(&mut image, format, id, def)?;
    }
    let warnings = warnings(&schema.registry);
    Ok(Exported { image, warnings })
}

/// One for each stub; the registry's `iter` leaves them out.
fn warnings(registry: &TypeRegistry) -> Vec<Warning> {
    let ids = (0..registry.len() as u32).map(TypeId);
    let stubs = ids.filter(|id| registry.is_stub(*id));
    let warning = |id: TypeId| Warning {
        id: id.index(),
        name: registered_name(registry, id),
    };
    stubs.map(warning).collect()
}

/// Of several names the first by bytes, for the registry has them in no order.
fn registered_name(registry: &TypeRegistry, id: TypeId) -> Option<String> {
    let names = registry.iter_names();
    let names = names.filter(|name| registry.lookup(name) == Some(id));
    names.min().map(str::to_string)
}

fn put_count(image: &mut Vec<u8>, count: usize, most: usize, place: &str) -> Written {
    if count > most {
        return Err(Refused::new(CROWDED, format!("{count}, at most {most}")).within(place));
    }
    image.extend((count as u16).to_le_bytes());
    Ok(())
}

/// Appends the body and notes it in the contents. The length is judged here,
/// for offset and length fit their u16 as long as the image is not too long.
fn put_entry(image: &mut Vec<u8>, format: Format, id: TypeId, def: &TypeDef) -> Written {
    let heading = Heading::of(def);
    let offset = image.len();
    put_body(image, format, &heading, def)
        .and_then(|()| judge_length(image))
        .map_err(|refused| {
            refused
                .within(heading)
                .within(format!("entry {}", id.index()))
        })?;
    let length = image.len() - offset;
    let entry = HEAD_BYTES + ENTRY_BYTES * id.index() as usize;
    image[entry..entry + 2].copy_from_slice(&(offset as u16).to_le_bytes());
    image[entry + 2..entry + 4].copy_from_slice(&(length as u16).to_le_bytes());
    Ok(())
}

fn judge_length(image: &[u8]) -> Written {
    match image.len() {
        length if length > IMAGE_BYTES => {
            let found = format!("{length} bytes up to here, at most {IMAGE_BYTES}");
            Err(Refused::new(LONG, found))
        }
        _ => Ok(()),
    }
}

/// What every body starts with. An impl has no name.
struct Heading<'a> {
    kind: u8,
    word: &'static str,
    name: Option<&'a str>,
}

impl Heading<'_> {
    fn of(def: &TypeDef) -> Heading<'_> {
        let (kind, word, name) = match def {
            TypeDef::Message(d) => (0, "message", Some(&d.name)),
            TypeDef::Enum(d) => (1, "enum", Some(&d.name)),
            TypeDef::Flags(d) => (2, "flags", Some(&d.name)),
            TypeDef::Union(d) => (3, "union", Some(&d.name)),
            TypeDef::Newtype(d) => (4, "newtype", Some(&d.name)),
            TypeDef::Config(d) => (5, "config", Some(&d.name)),
            TypeDef::GenericAlias(d) => (6, "generic_alias", Some(&d.name)),
            TypeDef::Trait(d) => (7, "trait", Some(&d.name)),
            TypeDef::Impl(_) => (8, "impl", None),
        };
        let name = name.map(|name| name.as_str());
        Heading { kind, word, name }
    }
}

impl fmt::Display for Heading<'_> {
    fn fmt(&self, f: &mut fmt::Formatter<'_>) -> fmt::Result {
        match self.name {
            Some(name) => write!(f, "{} {name:?}", self.word),
            None => write!(f, "{}", self.word),
        }
    }
}

fn put_body(image: &mut Vec<u8>, format: Format, heading: &Heading, def: &TypeDef) -> Written {
    image.push(heading.kind);
    if let Some(name) = heading.name {
        put_name(image, name)?;
    }
    match def {
        TypeDef::Message(d) => {
            put_marks(image, &d.annotations);
            put_items(image, format, &d.fields, &d.tombstones)
        }
        TypeDef::Enum(d) => {
            put_marks(image, &d.annotations);
            if format.has_widths() {
                image.push(d.wire_bits);
            }
            put_items(image, format, &d.variants, &d.tombstones)
        }
        TypeDef::Flags(d) => {
            if format.has_widths() {
                put_wire_bytes(image, d.wire_bytes).map_err(|refused| refused.within("width"))?;
            }
            put_items(image, format, &d.bits, &d.tombstones)
        }
        TypeDef::Union(d) => put_items(image, format, &d.variants, &d.tombstones),
        TypeDef::Newtype(d) => put_root(image, &d.inner_type),
        TypeDef::Config(_) | TypeDef::GenericAlias(_) | TypeDef::Trait(_) | TypeDef::Impl(_) => {
            Ok(())
        }
    }
}

fn put_name(image: &mut Vec<u8>, name: &str) -> Written {
    let Ok(length) = u8::try_from(name.len()) else {
        let found = format!("a name of {} bytes, at most 255", name.len());
        return Err(Refused::new(NAME, found));
    };
    let allowed = |byte: &u8| byte.is_ascii_alphanumeric() || *byte == b'_';
    if let Some(byte) = name.as_bytes().iter().find(|byte| !allowed(byte)) {
        let found = format!("byte {byte} in a name, which has letters, digits and `_` only");
        return Err(Refused::new(NAME, found));
    }
    image.push(length);
    image.extend(name.as_bytes());
    Ok(())
}

fn put_marks(image: &mut Vec<u8>, annotations: &ResolvedAnnotations) {
    let deprecated = u8::from(annotations.deprecated.is_some());
    image.push(deprecated + 2 * u8::from(annotations.non_exhaustive));
}

fn put_wire_bytes(image: &mut Vec<u8>, bytes: u8) -> Written {
    if !WIRE_BYTES.contains(&bytes) {
        let found = format!("flags of {bytes} wire bytes, which are 1, 2, 4 or 8");
        return Err(Refused::new(CODE, found));
    }
    image.push(bytes);
    Ok(())
}

/// What a body lists: a number, a name and more.
trait Item {
    const WORD: &'static str;
    fn number(&self) -> u32;
    fn name(&self) -> &str;
    fn put_rest(&self, image: &mut Vec<u8>, format: Format) -> Written;
}

impl Item for FieldDef {
    const WORD: &'static str = "field";

    fn number(&self) -> u32 {
        self.ordinal
    }

    fn name(&self) -> &str {
        &self.name
    }

    fn put_rest(&self, image: &mut Vec<u8>, _format: Format) -> Written {
        put_marks(image, &self.annotations);
        put_encoding(image, &self.encoding.encoding, 0)
            .map_err(|refused| refused.within("encoding"))?;
        image.push(u8::from(self.encoding.limit.is_some()));
        if let Some(limit) = self.encoding.limit {
            image.extend(limit.to_le_bytes());
        }
        put_root(image, &self.resolved_type)
    }
}

impl Item for EnumVariantDef {
    const WORD: &'static str = "variant";

    fn number(&self) -> u32 {
        self.ordinal
    }

    fn name(&self) -> &str {
        &self.name
    }

    fn put_rest(&self, _image: &mut Vec<u8>, _format: Format) -> Written {
        Ok(())
    }
}

impl Item for FlagsBitDef {
    const WORD: &'static str = "bit";

    fn number(&self) -> u32 {
        self.bit
    }

    fn name(&self) -> &str {
        &self.name
    }

    fn put_rest(&self, _image: &mut Vec<u8>, _format: Format) -> Written {
        Ok(())
    }
}

impl Item for UnionVariantDef {
    const WORD: &'static str = "variant";

    fn number(&self) -> u32 {
        self.ordinal
    }

    fn name(&self) -> &str {
        &self.name
    }

    fn put_rest(&self, image: &mut Vec<u8>, format: Format) -> Written {
        put_items(image, format, &self.fields, &self.tombstones)
    }
}

/// The items of a body or of a variant, and what is struck off of their numbers.
fn put_items<T: Item>(
    image: &mut Vec<u8>,
    format: Format,
    items: &[T],
    tombstones: &[TombstoneDef],
) -> Written {
    put_length(image, items.len(), T::WORD)?;
    items
        .iter()
        .try_for_each(|item| put_item(image, format, item))?;
    if format.has_tombstones() {
        put_length(image, tombstones.len(), "tombstone")?;
        image.extend(tombstones.iter().flat_map(|t| t.ordinal.to_le_bytes()));
    }
    Ok(())
}

/// How many items or tombstones there are.
fn put_length(image: &mut Vec<u8>, length: usize, word: &str) -> Written {
    let Ok(count) = u16::try_from(length) else {
        let found = format!("{length} items, at most 65535");
        return Err(Refused::new(LONG, found).within(format!("{word} list")));
    };
    image.extend(count.to_le_bytes());
    Ok(())
}

fn put_item<T: Item>(image: &mut Vec<u8>, format: Format, item: &T) -> Written {
    let (number, name) = (item.number(), item.name());
    image.extend(number.to_le_bytes());
    put_name(image, name)
        .and_then(|()| item.put_rest(image, format))
        .map_err(|refused| refused.within(format!("{} {name:?} @{number}", T::WORD)))
}

/// `deltas` of them stand around this encoding.
fn put_encoding(image: &mut Vec<u8>, encoding: &Encoding, deltas: usize) -> Written {
    let code = match encoding {
        Encoding::Default => 0,
        Encoding::Varint => 1,
        Encoding::ZigZag => 2,
        Encoding::Delta(_) if deltas == DELTAS => {
            let found = format!("delta {}, at most {DELTAS}", deltas + 1);
            return Err(Refused::new(DEEP, found));
        }
        Encoding::Delta(inner) => {
            image.push(3);
            return put_encoding(image, inner, deltas + 1);
        }
    };
    image.push(code);
    Ok(())
}

fn put_root(image: &mut Vec<u8>, ty: &ResolvedType) -> Written {
    put_type(image, ty, 1).map_err(|refused| refused.within("type"))
}

/// `node` is this node's place on its path from the root, from 1 on.
fn put_type(image: &mut Vec<u8>, ty: &ResolvedType, node: usize) -> Written {
    if node > NODES {
        let found = format!("node {node} on its path, at most {NODES}");
        return Err(Refused::new(DEEP, found));
    }
    let mut one = |tag, word, inner| put_node(image, &[tag], &[(word, inner)], node);
    match ty {
        ResolvedType::Primitive(primitive) => put_leaf(image, &[0, primitive_code(*primitive)]),
        ResolvedType::SubByte(sub_byte) => put_sub_byte(image, *sub_byte),
        ResolvedType::Semantic(semantic) => put_leaf(image, &[2, semantic_code(*semantic)]),
        ResolvedType::Named(id) => put_leaf(image, &tagged(3, id.index().to_le_bytes())),
        ResolvedType::Optional(inner) => one(4, "optional", inner),
        ResolvedType::Array(inner) => one(5, "array", inner),
        ResolvedType::FixedArray(inner, size) => {
            let label = tagged(6, size.to_le_bytes());
            put_node(image, &label, &[("array", inner)], node)
        }
        ResolvedType::Set(inner) => one(7, "set", inner),
        ResolvedType::Map(key, value) => {
            put_node(image, &[8], &[("map key", key), ("map value", value)], node)
        }
        ResolvedType::Result(ok, err) => {
            put_node(image, &[9], &[("result ok", ok), ("result err", err)], node)
        }
        ResolvedType::Vec2(inner) => one(10, "vec2", inner),
        ResolvedType::Vec3(inner) => one(11, "vec3", inner),
        ResolvedType::Vec4(inner) => one(12, "vec4", inner),
        ResolvedType::Quat(inner) => one(13, "quat", inner),
        ResolvedType::Mat3(inner) => one(14, "mat3", inner),
        ResolvedType::Mat4(inner) => one(15, "mat4", inner),
        ResolvedType::BitsInline(names) => {
            put_bits(image, names).map_err(|refused| refused.within("bits"))
        }
    }
}

fn tagged<const N: usize>(tag: u8, number: [u8; N]) -> Vec<u8> {
    [&[tag][..], &number[..]].concat()
}

/// A node's own bytes, then its inner types, each with the word for its place.
fn put_node(
    image: &mut Vec<u8>,
    label: &[u8],
    inner: &[(&str, &ResolvedType)],
    node: usize,
) -> Written {
    image.extend(label);
    inner.iter().try_for_each(|(word, ty)| {
        put_type(image, ty, node + 1).map_err(|refused| refused.within(word))
    })
}

fn put_leaf(image: &mut Vec<u8>, label: &[u8]) -> Written {
    image.extend(label);
    Ok(())
}

fn put_sub_byte(image: &mut Vec<u8>, sub_byte: SubByteType) -> Written {
    if !(1..=64).contains(&sub_byte.bits) {
        let found = format!("a sub-byte of {} bits, 1 to 64", sub_byte.bits);
        return Err(Refused::new(CODE, found));
    }
    put_leaf(image, &[1, u8::from(sub_byte.signed), sub_byte.bits])
}

fn put_bits(image: &mut Vec<u8>, names: &[impl AsRef<str>]) -> Written {
    let Ok(count) = u8::try_from(names.len()) else {
        let found = format!("{} names, at most 255", names.len());
        return Err(Refused::new(CROWDED, found));
    };
    image.extend([16, count]);
    names.iter().enumerate().try_for_each(|(place, name)| {
        put_name(image, name.as_ref()).map_err(|refused| refused.within(format!("name {place}")))
    })
}

fn primitive_code(primitive: PrimitiveType) -> u8 {
    match primitive {
        PrimitiveType::Bool => 0,
        PrimitiveType::U8 => 1,
        PrimitiveType::U16 => 2,
        PrimitiveType::U32 => 3,
        PrimitiveType::U64 => 4,
        PrimitiveType::I8 => 5,
        PrimitiveType::I16 => 6,
        PrimitiveType::I32 => 7,
        PrimitiveType::I64 => 8,
        PrimitiveType::F32 => 9,
        PrimitiveType::F64 => 10,
        PrimitiveType::Fixed32 => 11,
        PrimitiveType::Fixed64 => 12,
        PrimitiveType::Void => 13,
    }
}

fn semantic_code(semantic: SemanticType) -> u8 {
    match semantic {
        SemanticType::String => 0,
        SemanticType::Bytes => 1,
        SemanticType::Rgb => 2,
        SemanticType::Uuid => 3,
        SemanticType::Timestamp => 4,
        SemanticType::Hash => 5,
    }
}
