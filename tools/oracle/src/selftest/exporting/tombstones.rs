//! Tombstones: in format 3 their numbers stand behind the items of their body or variant,
//! as the schema has them; in the other formats they are not looked at.

use super::super::Tests;
use crate::ast::PrimitiveType;
use crate::ir::*;
use crate::make::*;
use crate::schema::{Declaration, Schema};
use crate::vexil::compile;
use crate::vexil::exporter::{export, Format, Refused};
use crate::writer::image;
use smol_str::SmolStr;

pub fn run(tests: &mut Tests) {
    places(tests);
    union_places(tests);
    no_places(tests);
    fitting(tests);
    long_lists(tests);
    order(tests);
    words(tests);
}

/// Repeated, used in the body too, and not in their order: all are written.
const NUMBERS: [u32; 5] = [7, 0, u32::MAX, 3, 7];
const STRUCK: [u8; 22] = [
    5, 0, 7, 0, 0, 0, 0, 0, 0, 0, 255, 255, 255, 255, 3, 0, 0, 0, 7, 0, 0, 0,
];
/// None struck off.
const NONE: [u8; 2] = [0, 0];

fn tombstones(numbers: impl IntoIterator<Item = u32>) -> Vec<TombstoneDef> {
    let tombstone = |ordinal| TombstoneDef {
        span: crate::span::Span::empty(0),
        ordinal,
        reason: SmolStr::new("not in an image"),
        since: Some(SmolStr::new("nor this")),
        original_type: Some(ResolvedType::Primitive(PrimitiveType::U64)),
    };
    numbers.into_iter().map(tombstone).collect()
}

/// A declaration's own tombstones, where its kind has them.
fn own(def: &mut TypeDef) -> Option<&mut Vec<TombstoneDef>> {
    match def {
        TypeDef::Message(d) => Some(&mut d.tombstones),
        TypeDef::Enum(d) => Some(&mut d.tombstones),
        TypeDef::Flags(d) => Some(&mut d.tombstones),
        TypeDef::Union(d) => Some(&mut d.tombstones),
        _ => None,
    }
}

/// The schema of one declaration, with something done to it.
fn with(declaration: Declaration, change: impl Fn(&mut TypeDef)) -> CompiledSchema {
    let mut compiled = compile(&schema(vec![declaration]).in_format(2));
    compiled.registry.get_mut(TypeId(0)).map(change);
    compiled
}

fn struck(declaration: Declaration, numbers: &[u32]) -> CompiledSchema {
    with(declaration, |def| {
        if let Some(own) = own(def) {
            *own = tombstones(numbers.iter().copied());
        }
    })
}

/// A union, with tombstones of its variant of this place.
fn struck_variant(declaration: Declaration, place: usize, numbers: &[u32]) -> CompiledSchema {
    with(declaration, |def| {
        if let TypeDef::Union(union) = def {
            union.variants[place].tombstones = tombstones(numbers.iter().copied());
        }
    })
}

/// The whole image, and the body of entry 0 in it.
fn exported(schema: &CompiledSchema, format: Format) -> Result<(Vec<u8>, Vec<u8>), Refused> {
    let image = export(schema, format)?.image;
    let number = |at: usize| usize::from(u16::from_le_bytes([image[at], image[at + 1]]));
    let body = image[number(8)..number(8) + number(10)].to_vec();
    Ok((image, body))
}

fn body(schema: &CompiledSchema, format: Format) -> Vec<u8> {
    exported(schema, format).map_or(Vec::new(), |(_, body)| body)
}

/// A message, an enum and flags end with theirs; the entry is as long as its body, which
/// ends the image.
fn places(tests: &mut Tests) {
    for kind in 0..=2 {
        let declaration = of_kind(kind, "D");
        let schema = struck(declaration.clone(), &NUMBERS);
        let (image, found) = exported(&schema, Format::Three).unwrap_or_default();
        let before = body(&schema, Format::Two);
        tests.equal("format 3", &image[..2.min(image.len())], &[3, 0]);
        tests.equal("struck off", found.clone(), [&before[..], &STRUCK].concat());
        tests.holds("to the image's end", image.ends_with(&found));
        let none = body(&struck(declaration, &[]), Format::Three);
        tests.equal("none struck off", none, [&before[..], &NONE].concat());
    }
}

/// A union ends with its own, each variant with its own behind its fields.
fn union_places(tests: &mut Tests) {
    let fields = vec![field(1, "x", primitive(0))];
    let union = union("U", vec![variant(0, "a", fields), variant(1, "b", vec![])]);
    let first = [
        0, 0, 0, 0, 1, b'a', 1, 0, 1, 0, 0, 0, 1, b'x', 0, 0, 0, 0, 0,
    ];
    let second = [1, 0, 0, 0, 1, b'b', 0, 0];
    let of = |struck: [&[u8]; 3]| {
        let head = [3, 1, b'U', 2, 0];
        let [one, two, own] = struck;
        [&head[..], &first, one, &second, two, own].concat()
    };
    let bodies = [
        (
            struck_variant(union.clone(), 0, &NUMBERS),
            of([&STRUCK, &NONE, &NONE]),
        ),
        (
            struck_variant(union.clone(), 1, &NUMBERS),
            of([&NONE, &STRUCK, &NONE]),
        ),
        (struck(union, &NUMBERS), of([&NONE, &NONE, &STRUCK])),
    ];
    for (schema, wanted) in bodies {
        tests.equal("a union", body(&schema, Format::Three), wanted);
    }
}

/// The other kinds have none; in formats 1 and 2 nobody has.
fn no_places(tests: &mut Tests) {
    for kind in 4..=8 {
        let schema = struck(of_kind(kind, "D"), &NUMBERS);
        let bodies = [Format::Two, Format::Three].map(|format| body(&schema, format));
        tests.holds(
            "a kind without",
            !bodies[0].is_empty() && bodies[0] == bodies[1],
        );
    }
    for (format, kind) in [1, 2]
        .into_iter()
        .flat_map(|f| (0..=3).map(move |k| (f, k)))
    {
        let without: Schema = schema(vec![of_kind(kind, "D")]).in_format(2);
        let schema = struck(of_kind(kind, "D"), &NUMBERS);
        let found = Format::of(format).map(|format| exported(&schema, format));
        let found = found.and_then(Result::ok).map(|(image, _)| image);
        tests.equal("left out", found, Some(image(&without.in_format(format))));
    }
}

/// As many as docs/FORMAT.md says of format 3, with empty names and nothing else; one more
/// is too long.
fn fitting(tests: &mut Tests) {
    let fields = |count| message("", vec![field(0, "", primitive(0)); count]);
    let variants = |count| union("", vec![variant(0, "", vec![]); count]);
    let counted: [(usize, &dyn Fn(usize) -> Declaration); 5] = [
        (3_274, &fields),
        (3_638, &variants),
        (6_549, &|count| enumeration("", 0, vec![item(0, ""); count])),
        (6_549, &|count| flags("", vec![item(0, ""); count])),
        (8_187, &|count| flags("", vec![]).striking(&vec![0; count])),
    ];
    for (most, of) in counted {
        let exported = [most, most + 1].map(|count| {
            let schema = schema(vec![of(count)]).in_namespace(&[]).listing(&[]);
            export(&compile(&schema.in_format(3)), Format::Three)
        });
        let numbers =
            exported.map(|exported| exported.map_or_else(|refused| refused.number, |_| 0));
        tests.equal("what fits in format 3", (most, numbers), (most, [0, 1]));
    }
}

fn refused(tests: &mut Tests, schema: &CompiledSchema, number: u8, place: &str) {
    let found = export(schema, Format::Three).map_err(|refused| (refused.number, refused.place));
    let found = found.map(|exported| exported.image.len());
    tests.equal("refused", found, Err((number, place.to_string())));
}

/// One more than the count has room for; as many as it has room for are too long by then.
/// In format 2 they are not counted.
fn long_lists(tests: &mut Tests) {
    let numbers: Vec<u32> = (0..=u32::from(u16::MAX)).collect();
    let most = &numbers[..usize::from(u16::MAX)];
    let words = ["message", "enum", "flags", "union"];
    for (kind, word) in (0..).zip(words) {
        let schema = struck(of_kind(kind, "D"), &numbers);
        let place = format!("entry 0, {word} \"D\"");
        refused(tests, &schema, 1, &format!("{place}, tombstone list"));
        tests.holds("format 2 has none", exported(&schema, Format::Two).is_ok());
        refused(tests, &struck(of_kind(kind, "D"), most), 1, &place);
    }
    let schema = struck_variant(of_kind(3, "U"), 0, &numbers);
    let place = r#"entry 0, union "U", variant "v" @0, tombstone list"#;
    refused(tests, &schema, 1, place);
}

/// A variant's tombstones stand before the next variant, a declaration's behind its items.
fn order(tests: &mut Tests) {
    let numbers: Vec<u32> = (0..=u32::from(u16::MAX)).collect();
    let variants = || vec![variant(0, "v", vec![]), variant(1, "?", vec![])];
    let schema = struck_variant(union("U", variants()), 0, &numbers);
    let place = r#"entry 0, union "U", variant "v" @0, tombstone list"#;
    refused(tests, &schema, 1, place);
    let schema = struck(union("U", variants()), &numbers);
    refused(tests, &schema, 7, r#"entry 0, union "U", variant "?" @1"#);
}

fn words(tests: &mut Tests) {
    let schema = struck(of_kind(2, "Lamps"), &[3; 65_536]);
    let shown = export(&schema, Format::Three).map_err(|refused| refused.to_string());
    let wanted = "refused 1: entry 0, flags \"Lamps\", tombstone list: 65536 items, at most 65535";
    let shown = shown.map(|exported| exported.image.len());
    tests.equal("refused in words", shown, Err(wanted.to_string()));
}
