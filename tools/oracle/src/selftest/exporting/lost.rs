//! What an image does not hold is not written, and `check` does not read it.

use super::super::tombstones::struck;
use super::super::widths::widened;
use super::super::Tests;
use crate::ast::{DefaultValue, EnumBacking, PrimitiveType};
use crate::cases::rich::rich;
use crate::edits::edited;
use crate::ir::*;
use crate::model::{alias_pair, PLAIN};
use crate::random::random_schema;
use crate::record::SEED;
use crate::rng::Rng;
use crate::schema::{has_tombstones, has_widths, Schema};
use crate::span::Span;
use crate::vexil::exporter::{export, Format};
use crate::vexil::{compile, real_answer};
use crate::writer::image;
use smol_str::SmolStr;

pub fn run(tests: &mut Tests) {
    let mut rng = Rng::new(SEED);
    let mut pairs = vec![(rich(), rich())];
    pairs.extend((0..500).map(|_| {
        let old = random_schema(&mut rng, 8);
        let new = edited(&mut rng, &old, 6);
        (old, new)
    }));
    // A third of them in format 2, with widths, and a third in format 3, with tombstones.
    let first = pairs.clone();
    for enrich in [widened, struck] {
        pairs.extend(first.iter().map(|(old, new)| {
            let pair = [old, new].map(|schema| enrich(&mut rng, schema.clone()));
            <(Schema, Schema)>::from(pair)
        }));
    }
    let written = pairs.iter().all(|(schema, _)| {
        let bytes = image(schema);
        let exported = Format::of(schema.format).map(|format| export(&laden(schema), format));
        exported.is_some_and(|exported| exported.is_ok_and(|e| e.image == bytes))
    });
    tests.holds("what an image does not hold is not written", written);
    let read = pairs
        .iter()
        .filter(|(old, new)| !alias_pair(old, new, PLAIN))
        .all(|(old, new)| {
            real_answer(&laden(old), &laden(new)) == real_answer(&compile(old), &compile(new))
        });
    tests.holds("nor does check read it", read);
}

fn text() -> SmolStr {
    SmolStr::new("not in an image")
}

/// The compiled schema, with something in the members that its image does not hold; of
/// configs, aliases, traits and impls in some of them.
fn laden(schema: &Schema) -> CompiledSchema {
    let mut compiled = compile(schema);
    add_marks(&mut compiled.annotations);
    let constant = ConstValue {
        ty: some_type(),
        value: 7,
        span: span(),
    };
    compiled.constants.insert(text(), constant);
    for id in (0..schema.registry.len() as u32).map(TypeId) {
        compiled.registry.set_origin(id, text(), text());
        if let Some(def) = compiled.registry.get_mut(id) {
            load(def);
            load_tombstones(def);
            if !has_widths(schema.format) {
                load_width(def);
            }
            if !has_tombstones(schema.format) {
                add_tombstones(def);
            }
        }
    }
    let registry = &mut compiled.registry;
    registry.register_primitive_alias(text(), PrimitiveType::U8);
    compiled
}

fn some_type() -> ResolvedType {
    ResolvedType::Primitive(PrimitiveType::U64)
}

fn span() -> Span {
    Span::new(7, 7)
}

/// Those of a declaration and of its variants.
fn tombstones(def: &mut TypeDef) -> Vec<&mut Vec<TombstoneDef>> {
    match def {
        TypeDef::Message(d) => vec![&mut d.tombstones],
        TypeDef::Enum(d) => vec![&mut d.tombstones],
        TypeDef::Flags(d) => vec![&mut d.tombstones],
        TypeDef::Union(d) => {
            let variants = d.variants.iter_mut().map(|v| &mut v.tombstones);
            variants.chain([&mut d.tombstones]).collect()
        }
        _ => vec![],
    }
}

/// All but their numbers.
fn load_tombstones(def: &mut TypeDef) {
    for tombstone in tombstones(def).into_iter().flatten() {
        *tombstone = tombstone_of(tombstone.ordinal);
    }
}

fn add_tombstones(def: &mut TypeDef) {
    for list in tombstones(def) {
        list.push(tombstone_of(0));
    }
}

fn tombstone_of(ordinal: u32) -> TombstoneDef {
    TombstoneDef {
        span: span(),
        ordinal,
        reason: text(),
        since: Some(text()),
        original_type: Some(some_type()),
    }
}

/// Where an image holds the two marks.
fn annotate(annotations: &mut ResolvedAnnotations) {
    if let Some(deprecated) = &mut annotations.deprecated {
        deprecated.reason = text();
        deprecated.since = Some(text());
    }
    annotations.since = Some(text());
    annotations.doc.push(text());
    annotations.revision = Some(7);
    annotations.version = Some(text());
    annotations.custom.push(CustomAnnotation {
        name: text(),
        args: Vec::new(),
    });
}

/// Where it holds none.
fn add_marks(annotations: &mut ResolvedAnnotations) {
    annotations.non_exhaustive = true;
    annotations.deprecated = Some(DeprecatedInfo {
        reason: text(),
        since: None,
    });
    annotate(annotations);
}

fn load(def: &mut TypeDef) {
    match def {
        TypeDef::Message(d) => load_message(d),
        TypeDef::Enum(d) => load_enum(d),
        TypeDef::Flags(d) => load_flags(d),
        TypeDef::Union(d) => load_union(d),
        TypeDef::Newtype(d) => load_newtype(d),
        TypeDef::Config(d) => load_config(d),
        TypeDef::GenericAlias(d) => load_alias(d),
        TypeDef::Trait(d) => load_trait(d),
        TypeDef::Impl(d) => load_impl(d),
    }
}

/// No width that flags could have in an image.
fn load_width(def: &mut TypeDef) {
    match def {
        TypeDef::Enum(d) => d.wire_bits = 16,
        TypeDef::Flags(d) => d.wire_bytes = 3,
        _ => {}
    }
}

fn load_message(message: &mut MessageDef) {
    annotate(&mut message.annotations);
    message.span = span();
    message.wire_size = Some(WireSize::Fixed(7));
    message.fields.iter_mut().for_each(load_field);
}

fn load_enum(enumeration: &mut EnumDef) {
    annotate(&mut enumeration.annotations);
    enumeration.span = span();
    enumeration.backing = Some(EnumBacking::U16);
    for variant in &mut enumeration.variants {
        add_marks(&mut variant.annotations);
        variant.span = span();
    }
}

fn load_flags(flags: &mut FlagsDef) {
    add_marks(&mut flags.annotations);
    flags.span = span();
    for bit in &mut flags.bits {
        add_marks(&mut bit.annotations);
        bit.span = span();
    }
}

fn load_union(union: &mut UnionDef) {
    add_marks(&mut union.annotations);
    union.span = span();
    union.wire_size = Some(WireSize::Fixed(7));
    union.variants.iter_mut().for_each(load_variant);
}

fn load_newtype(newtype: &mut NewtypeDef) {
    add_marks(&mut newtype.annotations);
    newtype.span = span();
    newtype.terminal_type = some_type();
}

fn load_config(config: &mut ConfigDef) {
    add_marks(&mut config.annotations);
    config.fields.push(ConfigFieldDef {
        name: text(),
        span: span(),
        resolved_type: some_type(),
        default_value: DefaultValue::None,
        annotations: ResolvedAnnotations::default(),
    });
}

fn load_alias(alias: &mut GenericAliasDef) {
    add_marks(&mut alias.annotations);
    alias.type_params.push(text());
}

fn load_trait(def: &mut TraitDef) {
    add_marks(&mut def.annotations);
    def.functions.push(TraitFnDef {
        name: text(),
        params: Vec::new(),
        return_type: Some(some_type()),
    });
}

fn load_impl(def: &mut ImplDef) {
    add_marks(&mut def.annotations);
    def.trait_name = text();
    def.target_type = some_type();
}

fn load_variant(variant: &mut UnionVariantDef) {
    add_marks(&mut variant.annotations);
    variant.span = span();
    variant.fields.iter_mut().for_each(load_field);
}

fn load_field(field: &mut FieldDef) {
    annotate(&mut field.annotations);
    field.span = span();
    field.constraint = Some(FieldConstraint::Cmp {
        op: CmpOp::Lt,
        operand: ConstraintOperand::Int(7),
    });
}
