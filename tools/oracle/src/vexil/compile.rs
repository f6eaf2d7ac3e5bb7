//! From our schema to the Rust's `CompiledSchema`. What an image does not list
//! stays at its default.

use super::ast::{PrimitiveType, SemanticType, SubByteType, TypeExpr};
use super::ir::*;
use super::span::Span;
use crate::schema::{self, Body, Declaration, Label, Marks, Schema, Width};
use smol_str::SmolStr;
use std::collections::HashMap;

pub fn compile(schema: &Schema) -> CompiledSchema {
    let mut registry = TypeRegistry::new();
    for entry in &schema.registry {
        match entry {
            Some(declaration) => {
                let name = SmolStr::new(&declaration.name);
                registry.register(name, type_def(declaration));
            }
            None => {
                registry.register_unbound_stub();
            }
        }
    }
    CompiledSchema {
        namespace: schema.namespace.iter().map(SmolStr::new).collect(),
        annotations: ResolvedAnnotations::default(),
        registry,
        declarations: schema.declarations.iter().copied().map(TypeId).collect(),
        constants: HashMap::new(),
    }
}

fn span() -> Span {
    Span::empty(0)
}

fn annotations(marks: Marks) -> ResolvedAnnotations {
    ResolvedAnnotations {
        deprecated: marks.deprecated.then(|| DeprecatedInfo {
            reason: SmolStr::default(),
            since: None,
        }),
        non_exhaustive: marks.non_exhaustive,
        ..ResolvedAnnotations::default()
    }
}

fn type_def(declaration: &Declaration) -> TypeDef {
    let name = SmolStr::new(&declaration.name);
    match &declaration.body {
        Body::Message(marks, fields) => TypeDef::Message(MessageDef {
            name,
            span: span(),
            fields: fields.iter().map(field_def).collect(),
            tombstones: tombstone_defs(&declaration.tombstones),
            annotations: annotations(*marks),
            wire_size: None,
        }),
        Body::Enum(marks, width, variants) => {
            let tombstones = tombstone_defs(&declaration.tombstones);
            TypeDef::Enum(EnumDef {
                tombstones,
                ..enum_def(name, *marks, *width, variants)
            })
        }
        Body::Flags(width, bits) => TypeDef::Flags(FlagsDef {
            tombstones: tombstone_defs(&declaration.tombstones),
            ..flags_def(name, *width, bits)
        }),
        Body::Union(variants) => TypeDef::Union(UnionDef {
            name,
            span: span(),
            variants: variants.iter().map(union_variant_def).collect(),
            tombstones: tombstone_defs(&declaration.tombstones),
            annotations: ResolvedAnnotations::default(),
            wire_size: None,
        }),
        Body::Newtype(inner) => TypeDef::Newtype(NewtypeDef {
            name,
            span: span(),
            inner_type: resolved_type(inner),
            terminal_type: ResolvedType::Primitive(PrimitiveType::Void),
            annotations: ResolvedAnnotations::default(),
        }),
        Body::Config | Body::GenericAlias | Body::Trait | Body::Impl => nameless(name, declaration),
    }
}

/// The declarations of which an image holds the name at most.
fn nameless(name: SmolStr, declaration: &Declaration) -> TypeDef {
    let annotations = ResolvedAnnotations::default();
    match &declaration.body {
        Body::Config => TypeDef::Config(ConfigDef {
            name,
            span: span(),
            fields: Vec::new(),
            annotations,
        }),
        Body::GenericAlias => TypeDef::GenericAlias(GenericAliasDef {
            name,
            span: span(),
            type_params: Vec::new(),
            target_type: TypeExpr::Primitive(PrimitiveType::Void),
            annotations,
        }),
        Body::Trait => TypeDef::Trait(TraitDef {
            name,
            type_params: Vec::new(),
            fields: Vec::new(),
            functions: Vec::new(),
            annotations,
            span: span(),
        }),
        _ => TypeDef::Impl(ImplDef {
            trait_name: SmolStr::default(),
            target_type: ResolvedType::Primitive(PrimitiveType::Void),
            type_args: Vec::new(),
            functions: Vec::new(),
            annotations,
            span: span(),
        }),
    }
}

fn enum_def(name: SmolStr, marks: Marks, width: Width, variants: &[schema::Item]) -> EnumDef {
    let variant = |item: &schema::Item| EnumVariantDef {
        name: SmolStr::new(&item.name),
        span: span(),
        ordinal: item.ordinal,
        annotations: ResolvedAnnotations::default(),
    };
    EnumDef {
        name,
        span: span(),
        backing: None,
        variants: variants.iter().map(variant).collect(),
        tombstones: Vec::new(),
        annotations: annotations(marks),
        wire_bits: width.unwrap_or(0),
    }
}

fn flags_def(name: SmolStr, width: Width, bits: &[schema::Item]) -> FlagsDef {
    let bit = |item: &schema::Item| FlagsBitDef {
        name: SmolStr::new(&item.name),
        span: span(),
        bit: item.ordinal,
        annotations: ResolvedAnnotations::default(),
    };
    FlagsDef {
        name,
        span: span(),
        bits: bits.iter().map(bit).collect(),
        tombstones: Vec::new(),
        annotations: ResolvedAnnotations::default(),
        wire_bytes: width.unwrap_or(0),
    }
}

fn tombstone_defs(numbers: &[u32]) -> Vec<TombstoneDef> {
    let tombstone = |ordinal: &u32| TombstoneDef {
        span: span(),
        ordinal: *ordinal,
        reason: SmolStr::default(),
        since: None,
        original_type: None,
    };
    numbers.iter().map(tombstone).collect()
}

fn union_variant_def(variant: &schema::Variant) -> UnionVariantDef {
    UnionVariantDef {
        name: SmolStr::new(&variant.name),
        span: span(),
        ordinal: variant.ordinal,
        fields: variant.fields.iter().map(field_def).collect(),
        tombstones: tombstone_defs(&variant.tombstones),
        annotations: ResolvedAnnotations::default(),
    }
}

fn field_def(field: &schema::Field) -> FieldDef {
    let base = match field.encoding.base {
        0 => Encoding::Default,
        1 => Encoding::Varint,
        _ => Encoding::ZigZag,
    };
    let deltas = 0..field.encoding.deltas;
    FieldDef {
        name: SmolStr::new(&field.name),
        span: span(),
        ordinal: field.ordinal,
        resolved_type: resolved_type(&field.ty),
        encoding: FieldEncoding {
            encoding: deltas.fold(base, |inner, _| Encoding::Delta(Box::new(inner))),
            limit: field.limit,
        },
        annotations: annotations(field.marks),
        constraint: None,
    }
}

const PRIMITIVES: [PrimitiveType; 14] = [
    PrimitiveType::Bool,
    PrimitiveType::U8,
    PrimitiveType::U16,
    PrimitiveType::U32,
    PrimitiveType::U64,
    PrimitiveType::I8,
    PrimitiveType::I16,
    PrimitiveType::I32,
    PrimitiveType::I64,
    PrimitiveType::F32,
    PrimitiveType::F64,
    PrimitiveType::Fixed32,
    PrimitiveType::Fixed64,
    PrimitiveType::Void,
];

const SEMANTICS: [SemanticType; 6] = [
    SemanticType::String,
    SemanticType::Bytes,
    SemanticType::Rgb,
    SemanticType::Uuid,
    SemanticType::Timestamp,
    SemanticType::Hash,
];

fn resolved_type(ty: &schema::Type) -> ResolvedType {
    match &ty.label {
        Label::Primitive(code) => ResolvedType::Primitive(PRIMITIVES[usize::from(*code)]),
        Label::SubByte { signed, bits } => ResolvedType::SubByte(SubByteType {
            signed: *signed,
            bits: *bits,
        }),
        Label::Semantic(code) => ResolvedType::Semantic(SEMANTICS[usize::from(*code)]),
        Label::Named(id) => ResolvedType::Named(TypeId(*id)),
        Label::FixedArray(size) => ResolvedType::FixedArray(inner(ty, 0), *size),
        Label::Bits(names) => ResolvedType::BitsInline(names.iter().map(SmolStr::new).collect()),
        Label::Wrapper(tag) => wrapper(*tag, ty),
    }
}

fn inner(ty: &schema::Type, place: usize) -> Box<ResolvedType> {
    Box::new(resolved_type(&ty.inner[place]))
}

fn wrapper(tag: u8, ty: &schema::Type) -> ResolvedType {
    match tag {
        4 => ResolvedType::Optional(inner(ty, 0)),
        5 => ResolvedType::Array(inner(ty, 0)),
        7 => ResolvedType::Set(inner(ty, 0)),
        8 => ResolvedType::Map(inner(ty, 0), inner(ty, 1)),
        9 => ResolvedType::Result(inner(ty, 0), inner(ty, 1)),
        10 => ResolvedType::Vec2(inner(ty, 0)),
        11 => ResolvedType::Vec3(inner(ty, 0)),
        12 => ResolvedType::Vec4(inner(ty, 0)),
        13 => ResolvedType::Quat(inner(ty, 0)),
        14 => ResolvedType::Mat3(inner(ty, 0)),
        15 => ResolvedType::Mat4(inner(ty, 0)),
        _ => unreachable!("the reader gives no other wrapper"),
    }
}
