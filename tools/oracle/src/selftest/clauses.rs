//! The model: the edges of document 01 and its order, with the texts written out.

use super::Tests;
use crate::changes::Comparison;
use crate::make::*;
use crate::model::{self, alias_pair, PLAIN};
use crate::schema::{Declaration, Field, Schema, Type};
use crate::types::types_equal;

/// The clauses over what survives.
fn check(old: &Schema, new: &Schema) -> Comparison {
    model::check(old, new, PLAIN)
}

fn report(old: Vec<Declaration>, new: Vec<Declaration>) -> String {
    check(&schema(old), &schema(new)).report()
}

/// The report on two messages `M`, each with this one field.
fn of_fields(old: Field, new: Field) -> String {
    report(vec![message("M", vec![old])], vec![message("M", vec![new])])
}

fn of_types(old: Type, new: Type) -> String {
    of_fields(field(0, "f", old), field(0, "f", new))
}

fn type_changed(from: &str, to: &str) -> String {
    let line = "FieldTypeChanged;Major;M;+f;field 'f' @0 type changed from";
    format!("{line} {from} to {to}\nBreaking;Major;1\n")
}

const SILENT: &str = "Compatible;Patch;0\n";

pub fn run(tests: &mut Tests) {
    type_edges(tests);
    named_edges(tests);
    field_edges(tests);
    enum_edges(tests);
    union_edges(tests);
    namespaces(tests);
    order(tests);
    aliases(tests);
}

fn type_edges(tests: &mut Tests) {
    let u8s = of_types(primitive(1), sub_byte(false, 8));
    tests.equal("edge a", u8s, type_changed("u8", "u8"));
    let seat = || wrapped(4, wrapped(11, primitive(9)));
    let wanted = type_changed("optional<vec3<f32>>", "optional<vec3<f32>>");
    tests.equal("edge b", of_types(seat(), seat()), wanted);
    let arrays = of_types(wrapped(5, primitive(1)), fixed_array(primitive(1), 4));
    tests.equal("edge f", arrays, type_changed("array<u8>", "array<u8, 4>"));
    let wanted = type_changed("bits {  }", "bits { a, b }");
    tests.equal("bits", of_types(bits(&[]), bits(&["a", "b"])), wanted);
    let pair = |tag| double(tag, sub_byte(false, 3), sub_byte(true, 5));
    let wanted = type_changed("map<u3, i5>", "result<u3, i5>");
    tests.equal("map and result", of_types(pair(8), pair(9)), wanted);
    let words = [
        "bool", "u8", "u16", "u32", "u64", "i8", "i16", "i32", "i64", "f32", "f64", "fixed32",
        "fixed64", "void",
    ];
    for (code, word) in words.iter().enumerate() {
        let found = of_types(primitive(code as u8), semantic(0));
        tests.equal("a primitive", found, type_changed(word, "string"));
    }
    let words = ["string", "bytes", "rgb", "uuid", "timestamp", "hash"];
    for (code, word) in words.iter().enumerate() {
        let found = of_types(primitive(0), semantic(code as u8));
        tests.equal("a semantic", found, type_changed("bool", word));
    }
    let words = ["vec2", "vec3", "vec4", "quat", "mat3", "mat4"];
    for (tag, word) in (10..).zip(words) {
        let ty = || wrapped(tag, wrapped(7, primitive(0)));
        let shown = format!("{word}<set<bool>>");
        let found = of_types(ty(), ty());
        tests.equal("never equal", found, type_changed(&shown, &shown));
    }
}

fn named_edges(tests: &mut Tests) {
    let one = schema(vec![config("A"), implementation()]);
    let other = schema(vec![implementation(), config("A"), config("B")]);
    let mut named = |name: &str, old: u32, new: u32, wanted: bool| {
        let found = types_equal(&one, &named(old), &other, &named(new));
        tests.equal(name, found, wanted);
    };
    named("edge c", 7, u32::MAX, true);
    named("edge d", 7, 0, false);
    named("edge d, the other way", 1, 9, false);
    named("one name under two ids", 0, 1, true);
    named("one id with two names", 0, 0, false);
    named("two impls", 1, 0, true);
    let imported = |ty| schema(vec![]).with_entries(vec![Some(newtype("L", ty)), None]);
    let silent = check(&imported(primitive(1)), &imported(primitive(2))).changes;
    tests.equal("an import is not compared", silent, vec![]);
    let wanted = type_changed("<unknown>", "M");
    tests.equal(
        "shown",
        of_types(crate::make::named(9), crate::make::named(0)),
        wanted,
    );
}

fn field_edges(tests: &mut Tests) {
    let f = || field(0, "f", primitive(2));
    let encoding = |from: &str, to: &str| {
        let line = "FieldEncodingChanged;Major;M;+f;field 'f' @0 encoding changed from";
        format!("{line} {from} to {to}\nBreaking;Major;1\n")
    };
    let limits = of_fields(f().limited(8), f().limited(9));
    tests.equal("edge e", limits, encoding("default", "default"));
    let gained = of_fields(f(), f().limited(0));
    tests.equal("a limit gained", gained, encoding("default", "default"));
    let deltas = of_fields(f().encoded(2, 1), f().encoded(0, 2).limited(1));
    tests.equal("deltas", deltas, encoding("delta(delta(varint))", "zigzag"));
    tests.equal(
        "edge j",
        of_fields(f().marked(1), f().marked(2)),
        SILENT.to_string(),
    );
    let wanted = "FieldDeprecated;Patch;M;+f;field 'f' was marked @deprecated\n";
    let gained = of_fields(f(), f().marked(1));
    tests.equal(
        "deprecated",
        gained,
        format!("{wanted}Compatible;Patch;1\n"),
    );
    let twice = |name| {
        message(
            "M",
            vec![field(3, "x", primitive(1)), field(3, name, primitive(2))],
        )
    };
    let found = report(vec![twice("a")], vec![twice("b")]);
    let wanted = "FieldRenamed;Patch;M;+b;field @3 renamed from 'a' to 'b'\nCompatible;Patch;1\n";
    tests.equal("edge l", found, wanted.to_string());
    let marked = report(
        vec![message("M", vec![])],
        vec![marked_message("M", 3, vec![])],
    );
    let wanted = "FieldDeprecated;Patch;M;-;declaration was marked @deprecated\n";
    tests.equal("a message", marked, format!("{wanted}Compatible;Patch;1\n"));
}

fn enum_edges(tests: &mut Tests) {
    let found = |old_marks: u8, new_marks: u8| {
        let (old, new) = (items(&[(0, "a")]), items(&[(0, "x"), (1, "b")]));
        let old = enumeration("E", old_marks, old);
        report(vec![old], vec![enumeration("E", new_marks, new)])
    };
    let added = |bump: &str| format!("VariantAdded;{bump};E;+b;variant 'b' @1 was added\n");
    let opened = |from: bool| {
        let line = "NonExhaustiveChanged;Major;E;-;@non_exhaustive changed from";
        format!("{line} {from} to {}\n", !from)
    };
    tests.equal(
        "edge g",
        found(2, 3),
        added("Minor") + "Compatible;Minor;1\n",
    );
    tests.equal("edge h", found(0, 1), added("Major") + "Breaking;Major;1\n");
    let wanted = opened(false) + &added("Minor") + "Breaking;Major;2\n";
    tests.equal("edge i", found(0, 2), wanted);
    let wanted = opened(true) + &added("Major") + "Breaking;Major;2\n";
    tests.equal("open to closed", found(2, 0), wanted);
    let old = flags("F", items(&[(4, "a"), (0, "b")]));
    let new = flags("F", items(&[(0, "c"), (9, "d")]));
    let wanted = "FlagsBitRemoved;Major;F;+a;bit 'a' @4 was removed\n\
                  FlagsBitAdded;Minor;F;+d;bit 'd' @9 was added\n\
                  Breaking;Major;2\n";
    tests.equal("flags", report(vec![old], vec![new]), wanted.to_string());
}

fn union_edges(tests: &mut Tests) {
    let f = || vec![field(0, "f", primitive(2))];
    let of = |name: &str, fields: Vec<Field>| vec![union("U", vec![variant(1, name, fields)])];
    let found = report(of("a", f()), of("b", f()));
    tests.equal("edge k", found, SILENT.to_string());
    let found = report(of("a", f()), of("b", vec![]));
    let wanted = "FieldRemoved;Major;U::a;+f;field 'f' @0 was removed\nBreaking;Major;1\n";
    tests.equal("under the old variant's name", found, wanted.to_string());
    let new = union("U", vec![variant(2, "b", f())]);
    let wanted = "VariantRemoved;Major;U;+a;variant 'a' @1 was removed\n\
                  VariantAdded;Minor;U;+b;variant 'b' @2 was added\n\
                  Breaking;Major;2\n";
    tests.equal(
        "variants",
        report(of("a", f()), vec![new]),
        wanted.to_string(),
    );
}

fn namespaces(tests: &mut Tests) {
    let found = |old: &[&str], new: &[&str]| {
        let of = |segments| schema(vec![]).in_namespace(segments);
        check(&of(old), &of(new)).report()
    };
    let wanted = |from: &str, to: &str| {
        let line = "NamespaceChanged;Major;;-;namespace changed from";
        format!("{line} '{from}' to '{to}'\nBreaking;Major;1\n")
    };
    tests.equal("none and an empty one", found(&[], &[""]), wanted("", ""));
    tests.equal(
        "two and one",
        found(&["a", "b"], &["a"]),
        wanted("a.b", "a"),
    );
    tests.equal("none", found(&[], &[]), SILENT.to_string());
}

fn order(tests: &mut Tests) {
    let kinds = |list: &[&str]| list.iter().map(|name| config(name)).collect::<Vec<_>>();
    let old = kinds(&["a", "Bb", "k", "B"]);
    let new = vec![trait_of("k"), config("_"), implementation(), config("Z")];
    let wanted = "DeclarationRemoved;Major;B;-;config 'B' was removed\n\
                  DeclarationRemoved;Major;Bb;-;config 'Bb' was removed\n\
                  DeclarationRemoved;Major;a;-;config 'a' was removed\n\
                  DeclarationAdded;Minor;;-;impl '' was added\n\
                  DeclarationAdded;Minor;Z;-;config 'Z' was added\n\
                  DeclarationAdded;Minor;_;-;config '_' was added\n\
                  DeclarationKindChanged;Major;k;-;'k' changed from config to trait\n\
                  Breaking;Major;7\n";
    tests.equal("declarations", report(old, new), wanted.to_string());
}

fn aliases(tests: &mut Tests) {
    let one = schema(vec![alias("A")]);
    let hidden = schema(vec![alias("A"), config("A")]);
    let shown = schema(vec![config("A"), alias("A")]);
    let unlisted = schema(vec![alias("A")]).listing(&[]);
    let pairs = |old: &Schema, new: &Schema| alias_pair(old, new, PLAIN);
    tests.holds("an alias pair", pairs(&one, &shown));
    tests.holds("hidden by a later survivor", !pairs(&one, &hidden));
    tests.holds("hidden on the old side", !pairs(&hidden, &one));
    tests.holds("listed on one side", !pairs(&one, &unlisted));
    tests.holds("of two names", !pairs(&one, &schema(vec![alias("B")])));
    let Comparison { changes, .. } = check(&unlisted, &unlisted);
    tests.holds("an alias not listed is silent", changes.is_empty());
}
