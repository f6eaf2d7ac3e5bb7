//! The example of document 01, its edges (a) to (l), and its list of what is
//! run and checked against the oracle. Bits, nodes, deltas and entries at their
//! most and one over also stand among the faults.

use super::{ride, Cases};
use crate::make::*;
use crate::schema::{Field, Schema};
use crate::writer::Parts;

pub fn add(cases: &mut Cases) {
    example(cases);
    types(cases);
    fields(cases);
    enums(cases);
    run_and_checked(cases);
}

fn example(cases: &mut Cases) {
    let speed = || field(0, "speed", primitive(2));
    let limit = field(1, "limit", primitive(2));
    let old = schema(vec![message("Drive", vec![speed()])]);
    let new = schema(vec![message("Drive", vec![speed(), limit])]);
    cases.both_ways("example", &old, &new);
    cases.bytes("example against itself", ride(), ride());
}

fn types(cases: &mut Cases) {
    cases.types("edge a", primitive(1), sub_byte(false, 8));
    let seat = || wrapped(4, wrapped(11, primitive(9)));
    let seats = || schema(vec![message("Seat", vec![field(0, "at", seat())])]);
    cases.pair("edge b", &seats(), &seats());
    let unresolvable = |id| schema(vec![message("M", vec![field(0, "f", named(id))])]);
    cases.both_ways("edge c", &unresolvable(7), &unresolvable(1));
    let impls = unresolvable(1).with_entries(vec![Some(implementation())]);
    cases.both_ways("edge d", &unresolvable(1), &impls);
    let array = wrapped(5, primitive(1));
    cases.types("edge f", array, fixed_array(primitive(1), 4));
}

fn fields(cases: &mut Cases) {
    let f = || field(0, "f", primitive(2));
    let mut one = |name: &str, old: Field, new: Field| cases.fields(name, vec![old], vec![new]);
    one("edge e", f().limited(8), f().limited(9));
    one("edge j", f().marked(1), f());
    let twice = |last: &str| {
        let first = field(3, "first", primitive(1));
        vec![first, field(3, last, primitive(2))]
    };
    cases.fields("edge l", twice("second"), twice("renamed"));
    let plain = vec![field(3, "second", primitive(2))];
    cases.fields("edge l, once", twice("second"), plain);
    let of = |name: &str| union("U", vec![variant(1, name, vec![f()])]);
    cases.lists("edge k", vec![of("a")], vec![of("b")]);
}

fn enums(cases: &mut Cases) {
    let old = |marks| vec![enumeration("E", marks, items(&[(0, "a")]))];
    let new = |marks| vec![enumeration("E", marks, items(&[(0, "a"), (1, "b")]))];
    cases.lists("edge g", old(2), new(2));
    cases.lists("edge h", old(0), new(0));
    cases.lists("edge i", old(0), new(2));
    cases.lists("open to closed with a variant added", old(2), new(0));
}

fn run_and_checked(cases: &mut Cases) {
    let empty = Schema::default();
    cases.pair("nothing declared", &empty, &empty);
    let one_segment = Schema::default().in_namespace(&[""]);
    cases.both_ways("no segment and an empty one", &empty, &one_segment);
    let entries = |n: usize| Parts::around(&[], &[], vec![None; n]).bytes();
    cases.beside_ride("512 entries", entries(512));
    cases.beside_ride("513 entries", entries(513));
    let bits = |n: u8| Parts::around(&[], &[0], vec![Some(vec![4, 1, b'B', 1, 0, n])]).bytes();
    cases.beside_ride("64 bits", bits(64));
    cases.beside_ride("65 bits", bits(65));
    let nodes = |n: usize| {
        let body = [&[4, 1, b'D'][..], &vec![4; n - 1], &[0, 1]].concat();
        Parts::around(&[], &[0], vec![Some(body)]).bytes()
    };
    cases.beside_ride("32 nodes", nodes(32));
    cases.beside_ride("33 nodes", nodes(33));
    let deltas = |n: usize| {
        let start = [0, 1, b'D', 0, 1, 0, 0, 0, 0, 0, 0, 0];
        let body = [&start[..], &vec![3; n], &[0, 0, 0, 1]].concat();
        Parts::around(&[], &[0], vec![Some(body)]).bytes()
    };
    cases.beside_ride("8 deltas", deltas(8));
    cases.beside_ride("9 deltas", deltas(9));
}
