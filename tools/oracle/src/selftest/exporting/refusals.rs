//! Each refusal that the exporter gives, with its number and its place.

use super::super::Tests;
use crate::cases::sizes::filled;
use crate::limits::{ENTRIES, IMAGE_BYTES, NODES};
use crate::make::*;
use crate::random::deepened;
use crate::reader::read_image;
use crate::schema::{Declaration, Field, Item, Schema, Type, KIND_NAMES};
use crate::vexil::compile;
use crate::vexil::exporter::{export, Format, Refused};
use crate::writer::image;

pub fn run(tests: &mut Tests) {
    fitting(tests);
    long(tests);
    long_lists(tests);
    crowded(tests);
    names(tests);
    codes(tests);
    widths(tests);
    deep(tests);
    order(tests);
    text(tests);
}

fn exported(schema: &Schema) -> Result<Vec<u8>, Refused> {
    let format = Format::of(schema.format).expect("every format is exported");
    export(&compile(schema), format).map(|exported| exported.image)
}

/// Refused where the format has no room for the schema, so that there are no
/// bytes to be read.
fn unwritable(tests: &mut Tests, schema: &Schema, number: u8, place: &str) {
    let found = exported(schema).map_err(|refused| (refused.number, refused.place));
    let found = found.map(|image| image.len());
    tests.equal("refused", found, Err((number, place.to_string())));
}

/// Refused as the reader refuses the bytes that the writer makes.
fn refused(tests: &mut Tests, schema: Schema, number: u8, place: &str) {
    unwritable(tests, &schema, number, place);
    let read = read_image(&image(&schema)).map_err(|refusal| refusal.number);
    tests.equal(place, read.map(|_| ()), Err(number));
}

fn fields(count: u32) -> Vec<Field> {
    (0..count).map(|n| field(n, "f", primitive(0))).collect()
}

fn many(count: u32) -> Vec<Item> {
    (0..count).map(|n| item(n, "i")).collect()
}

fn bit_names(count: usize) -> Type {
    bits(&vec!["b"; count])
}

/// One field in message `M`.
fn of_field(field: Field) -> Schema {
    schema(vec![message("M", vec![field])])
}

/// The type as that of field `f` of message `M`.
fn of_type(ty: Type) -> Schema {
    of_field(field(0, "f", ty))
}

const TYPE: &str = r#"entry 0, message "M", field "f" @0, type"#;

/// At its limits a schema is an image still.
fn fitting(tests: &mut Tests) {
    let configs = |count: u16| (0..count).map(|_| config("C")).collect();
    let long = filled(schema(vec![]), IMAGE_BYTES);
    let name = config(&"n".repeat(255));
    let fitting = [
        ("32,768 bytes", long),
        ("512 entries and ids", schema(configs(ENTRIES))),
        ("16 segments", schema(vec![]).in_namespace(&["s"; 16])),
        ("a name of 255 bytes", schema(vec![name])),
        ("255 inline bits", of_type(bit_names(255))),
        ("sub-byte of 1 bit", of_type(sub_byte(true, 1))),
        ("sub-byte of 64 bits", of_type(sub_byte(false, 64))),
        ("32 nodes", of_type(deepened(primitive(0), NODES))),
        (
            "8 deltas",
            of_field(field(0, "f", primitive(0)).encoded(8, 2)),
        ),
    ];
    for (name, schema) in fitting {
        tests.equal(name, exported(&schema), Ok(image(&schema)));
    }
}

fn long(tests: &mut Tests) {
    let two = vec![
        enumeration("E", 0, many(5_000)),
        enumeration("F", 0, many(1_000)),
    ];
    refused(tests, schema(two), 1, r#"entry 1, enum "F""#);
    let over = filled(schema(vec![enumeration("E", 0, many(3))]), IMAGE_BYTES + 1);
    let last = over.registry.len() - 1;
    let name = over.registry[last].as_ref().map(|last| last.name.clone());
    let place = format!("entry {last}, config {:?}", name.unwrap_or_default());
    refused(tests, over, 1, &place);
}

fn long_lists(tests: &mut Tests) {
    let count = u32::from(u16::MAX) + 1;
    let variants = (0..count).map(|n| variant(n, "v", vec![])).collect();
    let lists = [
        (message("M", fields(count)), r#"message "M", field list"#),
        (
            enumeration("E", 0, many(count)),
            r#"enum "E", variant list"#,
        ),
        (flags("F", many(count)), r#"flags "F", bit list"#),
        (union("U", variants), r#"union "U", variant list"#),
        (
            union("U", vec![variant(3, "v", fields(count))]),
            r#"union "U", variant "v" @3, field list"#,
        ),
    ];
    for (declaration, place) in lists {
        let place = format!("entry 0, {place}");
        unwritable(tests, &schema(vec![declaration]), 1, &place);
    }
}

fn crowded(tests: &mut Tests) {
    let unlisted = vec![None; 513];
    refused(tests, schema(vec![]).with_entries(unlisted), 4, "registry");
    let listing = schema(vec![]).listing(&[0; 513]);
    refused(tests, listing, 4, "declarations");
    let segments = schema(vec![]).in_namespace(&["s"; 17]);
    refused(tests, segments, 4, "namespace");
    unwritable(
        tests,
        &of_type(wrapped(7, bit_names(256))),
        4,
        &format!("{TYPE}, set, bits"),
    );
}

/// Where names stand, with the name in question there.
fn named_places(name: &str) -> Vec<(Schema, String)> {
    let mut schemas = vec![(
        schema(vec![]).in_namespace(&["a", name]),
        "namespace, segment 1".to_string(),
    )];
    let declarations = named_kinds(name).chain(named_items(name));
    schemas.extend(declarations.map(|(declaration, place)| {
        // Behind an empty entry, so that ids and not bodies are counted.
        let empty = schema(vec![]).with_entries(vec![None, Some(declaration)]);
        (empty, format!("entry 1, {place}"))
    }));
    schemas
}

/// A declaration of each kind that has a name.
fn named_kinds(name: &str) -> impl Iterator<Item = (Declaration, String)> + '_ {
    let kinds = (0..).zip(&KIND_NAMES[..8]);
    kinds.map(move |(kind, word)| (of_kind(kind, name), format!("{word} {name:?}")))
}

/// The places inside declarations.
fn named_items(name: &str) -> [(Declaration, String); 6] {
    let one_field = || vec![field(7, name, primitive(0))];
    let inner = |place: &str| format!("{place} {name:?} @7");
    [
        (message("M", one_field()), inner(r#"message "M", field"#)),
        (
            enumeration("E", 0, vec![item(7, name)]),
            inner(r#"enum "E", variant"#),
        ),
        (flags("F", vec![item(7, name)]), inner(r#"flags "F", bit"#)),
        (
            union("U", vec![variant(7, name, vec![])]),
            inner(r#"union "U", variant"#),
        ),
        (
            union("U", vec![variant(0, "v", one_field())]),
            inner(r#"union "U", variant "v" @0, field"#),
        ),
        (
            newtype("N", wrapped(4, bits(&["a", name]))),
            r#"newtype "N", type, optional, bits, name 1"#.to_string(),
        ),
    ]
}

fn names(tests: &mut Tests) {
    for (schema, place) in named_places("a-b") {
        refused(tests, schema, 7, &place);
    }
    for (schema, place) in named_places("\u{e9}") {
        refused(tests, schema, 7, &place);
    }
    for (schema, place) in named_places(&"n".repeat(256)) {
        unwritable(tests, &schema, 7, &place);
    }
}

fn codes(tests: &mut Tests) {
    refused(tests, of_type(sub_byte(false, 0)), 9, TYPE);
    refused(tests, of_type(sub_byte(true, 65)), 9, TYPE);
    let (good, bad) = (|| primitive(0), || sub_byte(false, 255));
    let doubles = [
        (8, bad(), good(), "map key"),
        (8, good(), bad(), "map value"),
        (9, bad(), good(), "result ok"),
        (9, good(), bad(), "result err"),
    ];
    for (tag, first, second, place) in doubles {
        let ty = double(tag, first, second);
        refused(tests, of_type(ty), 9, &format!("{TYPE}, {place}"));
    }
    let newtype = newtype("N", fixed_array(bad(), 4));
    let place = r#"entry 0, newtype "N", type, array"#;
    refused(tests, schema(vec![newtype]), 9, place);
}

/// In format 2 any wire bits of an enum, and four wire bytes of flags; in format 1 they
/// are not looked at.
fn widths(tests: &mut Tests) {
    let of = |width: u8| {
        let flags = flags("F", many(2)).of_width(width);
        let wide = enumeration("E", 0, many(1)).of_width(width);
        let mut schema = schema(vec![wide]).with_entries(vec![None, Some(flags)]);
        schema.format = 2;
        schema
    };
    let place = r#"entry 2, flags "F", width"#;
    for width in 0..=255 {
        match width {
            1 | 2 | 4 | 8 => tests.equal("a width", exported(&of(width)), Ok(image(&of(width)))),
            _ => refused(tests, of(width), 9, place),
        }
        let narrow = image(&of(width).in_format(1));
        let found = export(&compile(&of(width)), Format::One);
        tests.equal("no width", found.map(|exported| exported.image), Ok(narrow));
    }
    let order = |name: &str, width: u8, bit: &str| {
        let flags = flags(name, vec![item(0, bit)]);
        schema(vec![flags.of_width(width)]).in_format(2)
    };
    refused(tests, order("?", 3, "b"), 7, r#"entry 0, flags "?""#);
    refused(tests, order("F", 3, "?"), 9, r#"entry 0, flags "F", width"#);
    refused(
        tests,
        order("F", 4, "?"),
        7,
        r#"entry 0, flags "F", bit "?" @0"#,
    );
}

fn deep(tests: &mut Tests) {
    let wrappers = [
        (4, "optional"),
        (5, "array"),
        (7, "set"),
        (10, "vec2"),
        (11, "vec3"),
        (12, "vec4"),
        (13, "quat"),
        (14, "mat3"),
        (15, "mat4"),
    ];
    for (tag, word) in wrappers {
        let ty = deepened(wrapped(tag, primitive(0)), NODES + 1);
        let optionals = ", optional".repeat(NODES - 1);
        refused(
            tests,
            of_type(ty),
            10,
            &format!("{TYPE}{optionals}, {word}"),
        );
    }
    let field = field(0, "f", primitive(0)).encoded(9, 0);
    let place = r#"entry 0, message "M", field "f" @0, encoding"#;
    refused(tests, of_field(field), 10, place);
}

/// Of several faults the first in the order of an image's bytes is given.
fn order(tests: &mut Tests) {
    let bad = || config("?");
    let crowded = schema(vec![bad()]).in_namespace(&["?"; 17]);
    refused(tests, crowded, 4, "namespace");
    let segment = schema(vec![bad()]).in_namespace(&["?"]);
    refused(tests, segment, 7, "namespace, segment 0");
    let second = schema(vec![newtype("N", sub_byte(true, 0)), bad()]);
    refused(tests, second, 9, r#"entry 0, newtype "N", type"#);
    let long = schema(vec![enumeration("E", 0, many(6_000)), bad()]);
    refused(tests, long, 1, r#"entry 0, enum "E""#);
}

fn text(tests: &mut Tests) {
    let shown = exported(&of_type(wrapped(4, sub_byte(false, 65)))).map_err(|r| r.to_string());
    let wanted = format!("refused 9: {TYPE}, optional: a sub-byte of 65 bits, 1 to 64");
    tests.equal("a refusal in words", shown, Err(wanted));
    let lamps = schema(vec![flags("Lamps", vec![]).of_width(3)]).in_format(2);
    let shown = exported(&lamps).map_err(|refused| refused.to_string());
    let wanted = "refused 9: entry 0, flags \"Lamps\", width: \
                  flags of 3 wire bytes, which are 1, 2, 4 or 8";
    tests.equal("a width refused in words", shown, Err(wanted.to_string()));
}
