//! Refusals 6, 7, 9 and 10 in bodies, each at its boundary, and the order among
//! the faults of one body.

use super::bodies::with_body;
use super::Cases;
use crate::make::*;
use crate::schema::{Declaration, Field, Type, FIRST_FORMAT};
use crate::writer::{body, field as field_bytes, fields as fields_bytes, ty as type_bytes};

pub fn add(cases: &mut Cases) {
    kinds(cases);
    name_bytes(cases);
    name_places(cases);
    field_codes(cases);
    type_codes(cases);
    deep_types(cases);
    deep_encodings(cases);
    order(cases);
}

fn kinds(cases: &mut Cases) {
    for kind in [9, 10, 16, 127, 128, 255] {
        cases.beside_ride(&format!("kind {kind} alone"), with_body(vec![kind]));
        let body = vec![kind, 1, b'A', 0, 0, 0];
        cases.beside_ride(&format!("kind {kind}"), with_body(body));
    }
}

/// Every byte as a name of its own.
fn name_bytes(cases: &mut Cases) {
    for byte in 0..=255 {
        let image = with_body(vec![5, 1, byte]);
        cases.beside_ride(&format!("byte {byte} as a name"), image);
    }
}

/// A byte that is not allowed, in every place of a name and at both of its ends.
fn name_places(cases: &mut Cases) {
    let f = |name: &str| vec![field(0, name, primitive(0))];
    let places: Vec<(&str, Declaration)> = vec![
        ("message", message("Qqq", vec![])),
        ("enum", enumeration("Qqq", 0, vec![])),
        ("flags", flags("Qqq", vec![])),
        ("union", union("Qqq", vec![])),
        ("newtype", newtype("Qqq", primitive(0))),
        ("config", config("Qqq")),
        ("generic_alias", alias("Qqq")),
        ("trait", trait_of("Qqq")),
        ("field", message("M", f("Qqq"))),
        ("enum variant", enumeration("E", 0, items(&[(0, "Qqq")]))),
        ("bit", flags("F", items(&[(0, "Qqq")]))),
        ("union variant", union("U", vec![variant(0, "Qqq", vec![])])),
        (
            "variant's field",
            union("U", vec![variant(0, "v", f("Qqq"))]),
        ),
        ("inline bit", newtype("N", bits(&["a", "Qqq"]))),
    ];
    for (place, declaration) in places {
        let whole = body(FIRST_FORMAT, &declaration);
        let at = whole.windows(3).position(|bytes| bytes == b"Qqq");
        let at = at.expect("the name stands in the body");
        for (end, offset) in [("first", 0), ("last", 2)] {
            let mut spoiled = whole.clone();
            spoiled[at + offset] = b'-';
            cases.beside_ride(
                &format!("{end} byte of a {place}'s name"),
                with_body(spoiled),
            );
        }
    }
}

/// The parts of a message with one field, and of a union with one such field.
fn in_message(field: &[u8]) -> Vec<u8> {
    [&[0, 1, b'M', 0, 1, 0][..], field].concat()
}

fn in_variant(field: &[u8]) -> Vec<u8> {
    let start = [3, 1, b'U', 1, 0, 0, 0, 0, 0, 1, b'v', 1, 0];
    [&start[..], field].concat()
}

fn in_newtype(ty: &[u8]) -> Vec<u8> {
    [&[4, 1, b'N'][..], ty].concat()
}

/// A field `f` with these bytes from its marks on.
fn with_end(end: &[u8]) -> Vec<u8> {
    [&[0, 0, 0, 0, 1, b'f'][..], end].concat()
}

/// A code in its place, for every value tried.
fn each(cases: &mut Cases, what: &str, values: &[u8], make: impl Fn(u8) -> Vec<u8>) {
    for value in values {
        let image = with_body(make(*value));
        cases.beside_ride(&format!("{what} {value}"), image);
    }
}

/// The codes of a field, in a message and in a variant.
fn field_codes(cases: &mut Cases) {
    let marks = [0, 1, 2, 3, 4, 5, 128, 255];
    let holders: [(&str, fn(&[u8]) -> Vec<u8>); 2] =
        [("field", in_message), ("variant's field", in_variant)];
    for (place, of) in holders {
        let mut code = |what: &str, values: &[u8], end: &dyn Fn(u8) -> Vec<u8>| {
            let name = format!("{place}: {what}");
            each(cases, &name, values, |v| of(&with_end(&end(v))));
        };
        code("marks", &marks, &|v| vec![v, 0, 0, 0, 1]);
        code("encoding", &[0, 1, 2, 4, 5, 255], &|v| vec![0, v, 0, 0, 1]);
        let inner = [0, 1, 2, 3, 4, 255];
        code("inner encoding", &inner, &|v| vec![0, 3, v, 0, 0, 1]);
        code("limit mark", &[2, 3, 255], &|v| vec![0, 0, v, 0, 1]);
        code("tag", &[17], &|v| vec![0, 0, 0, v]);
    }
    each(cases, "message marks", &marks, |v| {
        vec![0, 1, b'M', v, 0, 0]
    });
    each(cases, "enum marks", &marks, |v| vec![1, 1, b'E', v, 0, 0]);
}

fn type_codes(cases: &mut Cases) {
    let mut code = |what: &str, values: &[u8], ty: &dyn Fn(u8) -> Vec<u8>| {
        each(cases, what, values, |v| in_newtype(&ty(v)));
    };
    code("primitive", &[0, 12, 13, 14, 15, 255], &|v| vec![0, v]);
    code("inner primitive", &[13, 14], &|v| vec![8, 0, 1, 0, v]);
    code("signed", &[0, 1, 2, 255], &|v| vec![1, v, 5]);
    code("bits", &[0, 1, 63, 64, 65, 128, 255], &|v| vec![1, 0, v]);
    code("signed bits", &[0, 1, 64, 65], &|v| vec![1, 1, v]);
    code("semantic", &[0, 4, 5, 6, 255], &|v| vec![2, v]);
    code("tag", &[17, 18, 32, 128, 255], &|v| vec![v, 0, 0]);
    code("inner tag", &[17, 255], &|v| vec![4, v, 0]);
}

/// A path of `nodes` nodes through inner types of one tag, and which of them.
fn path(tag: u8, place: usize, nodes: usize) -> Type {
    let mut ty = primitive(1);
    for _ in 1..nodes {
        ty = match tag {
            6 => fixed_array(ty, 1),
            8 | 9 if place == 0 => double(tag, ty, primitive(0)),
            8 | 9 => double(tag, primitive(0), ty),
            _ => wrapped(tag, ty),
        };
    }
    ty
}

fn deep_types(cases: &mut Cases) {
    for tag in 4..=15 {
        let places = if tag == 8 || tag == 9 { 2 } else { 1 };
        for place in 0..places {
            for nodes in [32, 33] {
                let ty = path(tag, place, nodes);
                let name = format!("{nodes} nodes of tag {tag}, inner {place}");
                cases.beside_ride(&name, with_body(in_newtype(&type_bytes(&ty))));
            }
        }
    }
    for nodes in [31, 32, 33, 34] {
        let deep = || field(0, "f", path(4, 0, nodes));
        let image = with_body(in_message(&field_bytes(&deep())));
        cases.beside_ride(&format!("{nodes} nodes in a field"), image);
        let image = with_body(in_variant(&field_bytes(&deep())));
        cases.beside_ride(&format!("{nodes} nodes in a variant's field"), image);
    }
    let wide = double(8, path(4, 0, 31), path(5, 0, 31));
    cases.beside_ride(
        "63 nodes, 32 on a path",
        with_body(in_newtype(&type_bytes(&wide))),
    );
    let missing = |nodes: usize, end: &[u8]| in_newtype(&[&vec![4; nodes][..], end].concat());
    cases.beside_ride("32nd node missing", with_body(missing(31, &[])));
    cases.beside_ride("33rd node missing", with_body(missing(32, &[])));
    cases.beside_ride("33rd node of tag 17", with_body(missing(32, &[17])));
    cases.beside_ride("32nd node of tag 17", with_body(missing(31, &[17])));
}

fn deep_encodings(cases: &mut Cases) {
    for base in 0..3 {
        for deltas in [7, 8, 9] {
            let f: Field = field(0, "f", primitive(1)).encoded(deltas, base);
            let name = format!("{deltas} deltas around {base}");
            let bytes = field_bytes(&f);
            cases.beside_ride(&name, with_body(in_message(&bytes)));
            cases.beside_ride(
                &format!("{name}, in a variant"),
                with_body(in_variant(&bytes)),
            );
        }
    }
    let mut after = |name: &str, end: &[u8]| {
        let deltas = [&[0][..], &[3; 8], end].concat();
        cases.beside_ride(name, with_body(in_message(&with_end(&deltas))));
    };
    after("8 deltas, then nothing", &[]);
    after("8 deltas, then 4", &[4]);
    after("9 deltas, then nothing", &[3]);
    after("8 deltas, then no limit mark", &[0]);
}

/// Two faults in one body, of which the left one answers.
fn order(cases: &mut Cases) {
    let mut body = |name: &str, bytes: &[u8]| cases.beside_ride(name, with_body(bytes.to_vec()));
    body("8 before 7 in one name", &[5, 3, b'-', b'a']);
    body("7 before 8 of what follows", &[0, 1, b'-']);
    body("7 before 9 of the marks", &[0, 1, b'-', 4]);
    body("9 of the marks before 8", &[0, 1, b'M', 4]);
    body("9 of the sign before 8 of the bits", &in_newtype(&[1, 2]));
    body(
        "9 of the sign before 9 of the bits",
        &in_newtype(&[1, 2, 0]),
    );
    body("8 of the bits", &in_newtype(&[1, 1]));
    body("9 before 8, bytes left", &in_newtype(&[0, 14, 0]));
    body(
        "9 in the key before 9 in the value",
        &in_newtype(&[8, 0, 14, 17]),
    );
    body("8 in the key's place", &in_newtype(&[8]));
    body("8 in the value's place", &in_newtype(&[8, 0, 1]));
    body("6 before all else", &[9, 255, b'-']);
    let fields = |list: &[Field]| [&[0, 1, b'M', 0][..], &fields_bytes(list)].concat();
    let mut two = fields(&[field(0, "a", primitive(1)), field(1, "b", primitive(1))]);
    let end = two.len();
    two[end - 1] = 14;
    body("9 in the second field", &two);
    two[end - 6] = b'-';
    body("7 before 9 in the second field", &two);
    two[10] = 200;
    body("8 in the first field before 7 in the second", &two);
}
