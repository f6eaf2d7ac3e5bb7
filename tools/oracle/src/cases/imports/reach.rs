//! What is reached: in rings and long chains, through what survives only, from ids
//! that resolve.

use super::{block, importing, naming};
use crate::cases::Cases;
use crate::make::*;
use crate::schema::{Declaration, Schema};

pub fn add(cases: &mut Cases) {
    rings(cases);
    chains(cases);
    dead(cases);
    unresolvable(cases);
}

fn rings(cases: &mut Cases) {
    let itself = |code| {
        let fields = vec![field(0, "next", named(1)), field(1, "n", primitive(code))];
        importing(vec![naming("A", &[1]), message("B", fields)])
    };
    cases.both_ways("imports: B names itself", &itself(1), &itself(2));
    let listed = |code| itself(code).listing(&[1]);
    cases.both_ways("imports: a survivor names itself", &listed(1), &listed(2));
    let two = |code| {
        let b = message("B", vec![field(0, "c", named(2))]);
        let fields = vec![field(0, "b", named(1)), field(1, "n", primitive(code))];
        importing(vec![naming("A", &[1]), b, message("C", fields)])
    };
    cases.both_ways("imports: two name each other", &two(1), &two(2));
    let from_ring = |code| two(code).listing(&[1]);
    let name = "imports: two name each other, one is listed";
    cases.both_ways(name, &from_ring(1), &from_ring(2));
    let back = |code| {
        importing(vec![
            naming("A", &[1, 0]),
            naming("B", &[0, 2]),
            block("C", code),
        ])
    };
    cases.both_ways("imports: back to the survivor", &back(1), &back(2));
    let twice = |code| {
        let both = vec![naming("B", &[3]), naming("C", &[3])];
        importing(
            [
                vec![naming("A", &[1, 2, 3, 3])],
                both,
                vec![block("L", code)],
            ]
            .concat(),
        )
    };
    cases.both_ways("imports: many paths to one entry", &twice(1), &twice(2));
}

/// Each names the next, falling or rising, and the last one changes.
fn chain(length: u32, rising: bool, last: Declaration) -> Schema {
    let place = |n: u32| if rising { n } else { length - n };
    let mut entries = vec![config("none"); length as usize + 1];
    for n in 0..length {
        let next = place(n + 1);
        entries[place(n) as usize] = newtype(&format!("C{n}"), named(next));
    }
    entries[place(length) as usize] = last;
    schema(entries).listing(&[place(0)])
}

fn chains(cases: &mut Cases) {
    for length in [1, 2, 3, 8, 500] {
        for (word, rising) in [("rising", true), ("falling", false)] {
            let of = |code| chain(length, rising, block("L", code));
            let name = format!("imports: {length} steps, ids {word}");
            cases.pair(&name, &of(1), &of(2));
        }
    }
    let of = |name: &str| chain(500, true, config(name));
    cases.both_ways("imports: 500 steps to another name", &of("L"), &of("M"));
    let cut = |id| {
        let mut cut = chain(500, true, config("L"));
        cut.registry[250] = Some(newtype("C250", named(id)));
        cut
    };
    cases.both_ways("imports: a chain of 500 and its half", &cut(251), &cut(501));
}

/// What only dead fields, dead variants and dead declarations name is not reached.
fn dead(cases: &mut Cases) {
    let fields = || vec![field(1, "a", named(1)), field(1, "b", primitive(0))];
    let of = |lead: Declaration, code| importing(vec![lead, block("L", code)]);
    let field_only = |code| of(message("A", fields()), code);
    cases.both_ways("imports: a dead field", &field_only(1), &field_only(2));
    let alive = |code| {
        let fields = vec![field(1, "a", primitive(0)), field(1, "b", named(1))];
        of(message("A", fields), code)
    };
    cases.both_ways("imports: the field that survives", &alive(1), &alive(2));
    cases.both_ways("imports: a field dies", &alive(1), &field_only(1));
    let in_variant = |code| of(union("A", vec![variant(0, "v", fields())]), code);
    let name = "imports: a variant's dead field";
    cases.both_ways(name, &in_variant(1), &in_variant(2));
    let one = |id| variant(3, "v", vec![field(0, "f", named(id))]);
    let dead = |code| of(union("A", vec![one(1), one(0)]), code);
    cases.both_ways("imports: a dead variant", &dead(1), &dead(2));
    let alive = |code| of(union("A", vec![one(0), one(1)]), code);
    cases.both_ways("imports: the variant that survives", &alive(1), &alive(2));
    cases.both_ways("imports: a variant dies", &alive(1), &dead(1));
    let last = |code| {
        let fields = |id| vec![field(0, "f", primitive(0)), field(1, "g", named(id))];
        let variants = vec![variant(0, "v", fields(0)), variant(1, "w", fields(1))];
        of(union("A", variants), code)
    };
    let name = "imports: the last field of the last variant";
    cases.both_ways(name, &last(1), &last(2));
    let lost = |code| {
        let entries = vec![naming("A", &[2]), config("A"), block("L", code)];
        schema(entries).listing(&[0, 1])
    };
    cases.both_ways("imports: a declaration lost its name", &lost(1), &lost(2));
    let reached = |code| {
        let entries = vec![naming("A", &[2]), naming("A", &[0]), block("L", code)];
        schema(entries).listing(&[0, 1])
    };
    let name = "imports: a declaration lost its name and is reached";
    cases.both_ways(name, &reached(1), &reached(2));
}

/// Ids of N or more and of empty entries lead nowhere, in types and in the list.
fn unresolvable(cases: &mut Cases) {
    let of = |id, code| {
        let entries = vec![naming("A", &[id]), block("L", code)];
        importing(entries).with_entries(vec![None])
    };
    for id in [2, 3, 4, 65_537, 1 << 31, u32::MAX] {
        let name = format!("imports: id {id} leads nowhere");
        cases.both_ways(&name, &of(id, 1), &of(1, 2));
        cases.pair(&format!("{name}, kept"), &of(id, 1), &of(id, 2));
        let listed = of(1, 1).listing(&[id, 0, id]);
        cases.pair(&format!("{name}, listed"), &listed, &of(1, 2));
    }
    let nothing = of(1, 1).listing(&[2, 9]);
    cases.both_ways("imports: nothing survives", &nothing, &of(1, 1));
}
