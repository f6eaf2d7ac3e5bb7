//! The mended answers beside those of 01 and with imports, all in format 2.

use crate::answer::{judge, Verdict, VERDICTS};
use crate::formats::SECOND_FORMAT;
use crate::limits::NODES;
use crate::make::*;
use crate::schema::{Declaration, Schema, Type};
use crate::selftest::Tests;
use crate::writer::image;

use Verdict::{Imports, Mended, Plain};

const SILENT: &str = "Compatible;Patch;0\n";

pub fn run(tests: &mut Tests) {
    kept(tests);
    changed(tests);
    bodies(tests);
    beside(tests);
    imported(tests);
    refused(tests);
}

/// Of schemas without enums and flags.
fn report(verdict: Verdict, old: &Schema, new: &Schema) -> String {
    let [old, new] = [old, new].map(|schema| image(&schema.clone().in_format(SECOND_FORMAT)));
    let answer = judge(&old, &new).by(verdict);
    String::from_utf8_lossy(&answer.printed()).into_owned()
}

/// A message `M` with this one field.
fn of(ty: Type) -> Schema {
    schema(vec![message("M", vec![field(0, "f", ty)])])
}

fn seat() -> Type {
    wrapped(11, primitive(9))
}

fn type_changed(from: &str, to: &str) -> String {
    let line = "FieldTypeChanged;Major;M;+f;field 'f' @0 type changed from";
    format!("{line} {from} to {to}\nBreaking;Major;1\n")
}

/// The former verdicts read alike as different, the mended one as equal.
fn kept(tests: &mut Tests) {
    let words = ["vec2", "vec3", "vec4", "quat", "mat3", "mat4"];
    let mut both = |ty: Type, shown: &str| {
        let same = of(ty);
        tests.equal(shown, report(Mended, &same, &same).as_str(), SILENT);
        for former in [Plain, Imports] {
            let wanted = type_changed(shown, shown);
            tests.equal(shown, report(former, &same, &same), wanted);
        }
    };
    for (tag, word) in (10..).zip(words) {
        let ty = || wrapped(tag, primitive(9));
        both(ty(), &format!("{word}<f32>"));
        both(wrapped(4, ty()), &format!("optional<{word}<f32>>"));
        let second = double(8, semantic(0), ty());
        both(second, &format!("map<string, {word}<f32>>"));
        both(wrapped(11, ty()), &format!("vec3<{word}<f32>>"));
    }
}

/// Shown as they are, also by the way of `check`.
fn changed(tests: &mut Tests) {
    let mut all = |one: Type, other: Type, from: &str, to: &str| {
        for verdict in VERDICTS {
            let found = report(verdict, &of(one.clone()), &of(other.clone()));
            tests.equal(from, found, type_changed(from, to));
        }
    };
    all(wrapped(10, primitive(9)), seat(), "vec2<f32>", "vec3<f32>");
    all(primitive(9), seat(), "f32", "vec3<f32>");
    let wide = wrapped(11, primitive(10));
    all(seat(), wide, "vec3<f32>", "vec3<f64>");
    let map = |code| double(8, seat(), wrapped(4, primitive(code)));
    let shown = |word: &str| format!("map<vec3<f32>, optional<{word}>>");
    all(map(1), map(2), &shown("u8"), &shown("u16"));
    let bits = double(8, bits(&["vec3"]), primitive(9));
    all(seat(), bits, "vec3<f32>", "map<bits { vec3 }, f32>");
}

fn bodies(tests: &mut Tests) {
    let seat = || wrapped(4, seat());
    let mut body = |old: Declaration, new: Declaration, line: &str| {
        let (old, new) = (schema(vec![old]), schema(vec![new]));
        tests.equal(line, report(Mended, &old, &old).as_str(), SILENT);
        let found = report(Mended, &old, &new);
        tests.equal(line, found, format!("{line}\nBreaking;Major;1\n"));
    };
    let line = "FieldTypeChanged;Major;Seat;-;newtype 'Seat' inner type changed from \
                optional<vec3<f32>> to f32";
    body(newtype("Seat", seat()), newtype("Seat", primitive(9)), line);
    let of = |ty| union("U", vec![variant(4, "v", vec![field(7, "at", ty)])]);
    let line = "FieldTypeChanged;Major;U::v;+at;field 'at' @7 type changed from \
                optional<vec3<f32>> to f32";
    body(of(seat()), of(primitive(9)), line);
}

fn beside(tests: &mut Tests) {
    let of = |field| schema(vec![message("M", vec![field])]);
    let old = of(field(0, "a", seat()));
    let new = of(field(0, "b", seat()).marked(1));
    let wanted = "FieldRenamed;Patch;M;+b;field @0 renamed from 'a' to 'b'\n\
                  FieldDeprecated;Patch;M;+b;field 'b' was marked @deprecated\n\
                  Compatible;Patch;2\n";
    tests.equal("renamed", report(Mended, &old, &new).as_str(), wanted);
    let new = of(field(0, "a", seat()).limited(8));
    let line = "FieldEncodingChanged;Major;M;+a;field 'a' @0 encoding changed from";
    let wanted = format!("{line} default to default\nBreaking;Major;1\n");
    tests.equal("limited", report(Mended, &old, &new), wanted);
    let new = old.clone().with_entries(vec![Some(config("C"))]);
    let wanted = "DeclarationAdded;Minor;C;-;config 'C' was added\nCompatible;Minor;1\n";
    let found = report(Mended, &old, &new.listing(&[0, 1]));
    tests.equal("added", found.as_str(), wanted);
}

/// Imports are not followed; the verdict that follows them reads alike as different.
fn imported(tests: &mut Tests) {
    let of = |ty| schema(vec![newtype("N", named(1)), newtype("L", ty)]).listing(&[0]);
    let (old, new) = (of(seat()), of(wrapped(10, primitive(9))));
    for verdict in [Plain, Mended] {
        tests.equal("not followed", report(verdict, &old, &new).as_str(), SILENT);
    }
    let line = "FieldTypeChanged;Major;L;-;newtype 'L' inner type changed from";
    for (new, shown) in [(&old, "vec3<f32>"), (&new, "vec2<f32>")] {
        let wanted = format!("{line} vec3<f32> to {shown}\nBreaking;Major;1\n");
        tests.equal("with imports", report(Imports, &old, new), wanted);
    }
}

fn refused(tests: &mut Tests) {
    let aliases = schema(vec![alias("A"), newtype("N", seat())]);
    let found = report(Mended, &aliases, &aliases);
    tests.equal("an alias pair", found.as_str(), "refused 11 both\n");
    let reached = schema(vec![newtype("N", named(1)), alias("A")]).listing(&[0]);
    let found = report(Mended, &reached, &reached);
    tests.equal("an alias reached", found.as_str(), SILENT);
    let deep = |nodes| (1..nodes).fold(primitive(9), |ty, _| wrapped(15, ty));
    let (fits, deeper) = (of(deep(NODES)), of(deep(NODES + 1)));
    let found = report(Mended, &fits, &deeper);
    tests.equal("a 33rd node", found.as_str(), "refused 10 new\n");
    tests.equal("32 nodes", report(Mended, &fits, &fits).as_str(), SILENT);
}
