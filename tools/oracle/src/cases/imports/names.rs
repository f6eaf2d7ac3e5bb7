//! What stands: of one name the survivor, else the reached entry with the highest id;
//! names that stand on one side, or on each in another way.

use super::{block, importing, naming};
use crate::cases::Cases;
use crate::make::*;
use crate::schema::{Declaration, Schema};

pub fn add(cases: &mut Cases) {
    two_reached(cases);
    under_survivors(cases);
    moved(cases);
    one_side(cases);
    empty_names(cases);
}

fn two_reached(cases: &mut Cases) {
    let two = |ids: &[u32], codes: [u8; 2]| {
        let blocks = codes.map(|code| block("L", code));
        importing([vec![naming("A", ids)], blocks.to_vec()].concat())
    };
    let one = two(&[1, 2], [1, 1]);
    cases.both_ways(
        "imports: the higher id changes",
        &one,
        &two(&[1, 2], [1, 2]),
    );
    cases.both_ways("imports: the lower id changes", &one, &two(&[1, 2], [2, 1]));
    cases.both_ways(
        "imports: named in another order",
        &one,
        &two(&[2, 1], [2, 1]),
    );
    let name = "imports: the higher id is not reached";
    cases.both_ways(name, &two(&[1, 1], [1, 2]), &two(&[1, 2], [1, 2]));
    let behind = |codes: [u8; 2]| {
        let lower = naming("L", &[3]);
        let entries = vec![naming("A", &[1, 2]), lower, block("L", codes[0])];
        importing([entries, vec![block("K", codes[1])]].concat())
    };
    let name = "imports: through the lower id";
    cases.both_ways(name, &behind([1, 1]), &behind([1, 2]));
    let later = |code| {
        // The higher id is met first, the lower one at the end of a chain.
        let entries = vec![naming("A", &[3, 2]), block("L", 3), naming("B", &[1])];
        importing([entries, vec![block("L", code)]].concat())
    };
    cases.both_ways("imports: the lower id is met later", &later(1), &later(2));
}

/// The listed one stands, and the reached one is still followed.
fn under_survivors(cases: &mut Cases) {
    let of = |listed: Declaration, reached: Declaration, code| {
        let entries = vec![naming("A", &[2]), listed, reached, block("K", code)];
        schema(entries).listing(&[0, 1])
    };
    let one = of(block("L", 1), block("L", 1), 1);
    let name = "imports: the reached one changes under a survivor";
    cases.both_ways(name, &one, &of(block("L", 1), block("L", 2), 1));
    let name = "imports: the survivor changes";
    cases.both_ways(name, &one, &of(block("L", 2), block("L", 1), 1));
    let through = |code| of(block("L", 1), naming("L", &[3]), code);
    let name = "imports: through the reached one under a survivor";
    cases.both_ways(name, &through(1), &through(2));
    cases.both_ways("imports: it leads nowhere", &one, &through(1));
    let lower = |code| {
        let entries = vec![block("L", 1), block("L", code), naming("A", &[1, 0])];
        schema(entries).listing(&[2, 0])
    };
    let name = "imports: a survivor with the lower id";
    cases.both_ways(name, &lower(1), &lower(2));
    let own = |code| {
        let entries = vec![
            naming("A", &[1]),
            message("A", vec![field(7, "x", named(2))]),
        ];
        importing([entries, vec![block("L", code)]].concat())
    };
    let name = "imports: a reached entry with the survivor's own name";
    cases.both_ways(name, &own(1), &own(2));
}

/// From the list to the imports and the other way, in one image or both.
fn moved(cases: &mut Cases) {
    let of = |code| importing(vec![naming("A", &[1]), block("L", code)]);
    let listed = |code| of(code).listing(&[0, 1]);
    cases.both_ways("imports: from the list", &listed(1), &of(1));
    cases.both_ways("imports: from the list, changed", &listed(1), &of(2));
    cases.pair("imports: listed and reached", &listed(1), &listed(2));
    let alone = |code| listed(code).listing(&[1]);
    cases.both_ways("imports: the importer goes", &of(1), &alone(1));
    cases.both_ways("imports: seen with imports only", &of(1), &of(2));
    let before = |code| listed(code).listing(&[1, 0]);
    cases.both_ways("imports: listed before", &before(1), &of(2));
}

fn one_side(cases: &mut Cases) {
    let with = importing(vec![naming("A", &[1]), naming("B", &[2]), config("C")]);
    let without = importing(vec![message("A", vec![])]);
    cases.both_ways("imports: on one side only", &with, &without);
    let step = importing(vec![naming("A", &[1]), message("B", vec![])]);
    cases.both_ways("imports: a step on one side only", &with, &step);
    let other = importing(vec![naming("A", &[1]), naming("X", &[2]), config("C")]);
    cases.both_ways("imports: another name between", &with, &other);
    let nothing = Schema::default().in_namespace(&["ride"]);
    cases.both_ways("imports: nothing on one side", &with, &nothing);
    let all = |name: &str| {
        let fields = (0..3).map(|n| field(n, "f", named(n + 1)));
        let names = [format!("{name}b"), format!("{name}a"), format!("{name}0")];
        let blocks = names.iter().map(|name| block(name, 1));
        importing(
            [message("A", fields.collect())]
                .into_iter()
                .chain(blocks)
                .collect(),
        )
    };
    cases.both_ways("imports: names in byte order", &all("x"), &all("y"));
}

/// An impl has the empty name like any other.
fn empty_names(cases: &mut Cases) {
    let of = |ids: &[u32], listed: &[u32]| {
        let entries = vec![naming("A", ids), implementation(), config(""), block("", 1)];
        schema(entries).listing(listed)
    };
    let impls = of(&[1], &[0]);
    cases.both_ways("imports: an impl and none", &impls, &of(&[], &[0]));
    cases.both_ways("imports: an impl, listed", &impls, &of(&[], &[0, 1]));
    let name = "imports: an impl under the empty name";
    cases.both_ways(name, &impls, &of(&[1, 2], &[0]));
    cases.both_ways(
        "imports: the empty name twice",
        &of(&[1, 2], &[0]),
        &of(&[2, 3], &[0]),
    );
    let name = "imports: an impl listed, the empty name reached";
    cases.both_ways(name, &of(&[3], &[0, 1]), &of(&[3], &[0]));
}
