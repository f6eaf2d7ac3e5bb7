//! Named nodes at every place of a type, and imports of every kind.

use super::{block, importing};
use crate::cases::Cases;
use crate::limits::NODES;
use crate::make::*;
use crate::random::deepened;
use crate::schema::{Declaration, Schema, Type, KIND_NAMES};

pub fn add(cases: &mut Cases) {
    places(cases);
    kinds(cases);
}

/// A listed newtype, and blocks `K` and `L` that types lead to.
fn of(ty: Type, codes: [u8; 2]) -> Schema {
    let blocks = [block("K", codes[0]), block("L", codes[1])];
    importing([vec![newtype("A", ty)], blocks.to_vec()].concat())
}

fn places(cases: &mut Cases) {
    let mut place = |name: &str, ty: Type| {
        let name = format!("imports: {name}");
        let (old, new) = (of(ty.clone(), [1, 1]), of(ty, [2, 2]));
        cases.pair(&name, &old, &new);
    };
    place("a root", named(1));
    for tag in [4, 5, 7, 10, 11, 12, 13, 14, 15] {
        place(&format!("under tag {tag}"), wrapped(tag, named(1)));
        let deeper = wrapped(4, wrapped(tag, wrapped(5, named(2))));
        place(&format!("deeper under tag {tag}"), deeper);
    }
    place("under tag 6", fixed_array(named(1), 4));
    for tag in [8, 9] {
        let first = double(tag, named(1), primitive(0));
        place(&format!("first under tag {tag}"), first);
        let second = double(tag, primitive(0), named(2));
        place(&format!("second under tag {tag}"), second.clone());
        let both = double(tag, named(2), wrapped(7, second));
        place(&format!("twice under tag {tag}"), both);
        let nested = double(tag, double(17 - tag, named(1), named(1)), named(2));
        place(&format!("nested under tag {tag}"), nested);
    }
    place("the 32nd node", deepened(named(1), NODES));
    let wide = double(8, deepened(named(1), NODES - 1), named(2));
    place("the 32nd node of a map", wide);
}

/// An import of each kind that is kept, changes its kind, goes and comes.
fn kinds(cases: &mut Cases) {
    let to = |entry: Declaration| importing(vec![newtype("A", named(1)), entry]);
    let none = || importing(vec![newtype("A", primitive(0))]);
    for (kind, word) in (0..).zip(KIND_NAMES) {
        let of = || to(of_kind(kind, "K"));
        cases.pair(&format!("imports: {word} kept"), &of(), &of());
        let other = to(of_kind((kind + 1) % 8, "K"));
        cases.both_ways(&format!("imports: {word}, another kind"), &of(), &other);
        cases.both_ways(&format!("imports: {word} on one side"), &of(), &none());
    }
    let mode = |marks, list| to(enumeration("K", marks, items(list)));
    let (one, two) = (&[(0, "a")], &[(0, "a"), (1, "b")]);
    cases.both_ways("imports: an open enum", &mode(2, one), &mode(2, two));
    cases.both_ways("imports: an enum", &mode(0, one), &mode(2, two));
    let lamps = |list| to(flags("K", items(list)));
    cases.both_ways("imports: flags", &lamps(one), &lamps(two));
    let command = |list: Vec<u32>| {
        let fields = |n: u32| vec![field(n, "f", primitive(n as u8))];
        let variants = list.iter().map(|n| variant(*n, "v", fields(*n)));
        to(union("K", variants.collect()))
    };
    cases.both_ways("imports: a union", &command(vec![0]), &command(vec![0, 1]));
    let serial = |code| to(newtype("K", primitive(code)));
    cases.both_ways("imports: a newtype", &serial(1), &serial(2));
    let marked = |name: &str, marks, deltas| {
        let field = field(0, name, primitive(1)).marked(marks);
        to(marked_message("K", marks, vec![field.encoded(deltas, 1)]))
    };
    let plain = marked("a", 0, 0);
    cases.both_ways("imports: a field renamed", &plain, &marked("b", 0, 0));
    cases.both_ways("imports: deprecated", &plain, &marked("a", 1, 0));
    cases.both_ways("imports: an encoding", &plain, &marked("a", 0, 1));
}
