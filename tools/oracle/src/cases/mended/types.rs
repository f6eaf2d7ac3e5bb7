//! Vectors at every place of a type: kept, of another tag, on one side, and with
//! something else below or beside them.

use super::{of_types, vec2, vec3};
use crate::cases::Cases;
use crate::limits::NODES;
use crate::make::*;
use crate::random::deepened;
use crate::schema::{Type, GEOMETRIC};

pub fn add(cases: &mut Cases) {
    roots(cases);
    nested(cases);
    nodes(cases);
    paths(cases);
    one_sided(cases);
    codes(cases);
    two_inner(cases);
    without(cases);
}

/// A message with these types against itself.
fn kept(cases: &mut Cases, name: &str, types: Vec<Type>) {
    let same = schema(vec![of_types(types)]);
    cases.pair(&format!("mended: {name}"), &same, &same);
}

/// Two such messages.
fn differing(cases: &mut Cases, name: &str, one: Vec<Type>, other: Vec<Type>) {
    let [one, other] = [one, other].map(|types| schema(vec![of_types(types)]));
    cases.pair(&format!("mended: {name}"), &one, &other);
}

/// The same both ways.
fn changed(cases: &mut Cases, name: &str, one: Vec<Type>, other: Vec<Type>) {
    let name = format!("mended: {name}");
    cases.lists(&name, vec![of_types(one)], vec![of_types(other)]);
}

fn roots(cases: &mut Cases) {
    for tag in GEOMETRIC {
        kept(cases, &format!("tag {tag}"), vec![of_tag(tag)]);
        for other in tag + 1..=*GEOMETRIC.end() {
            let name = format!("tag {tag} and tag {other}");
            changed(cases, &name, vec![of_tag(tag)], vec![of_tag(other)]);
        }
    }
}

/// A vector around a node of every tag, and a node of every tag around a vector.
fn nested(cases: &mut Cases) {
    for tag in GEOMETRIC {
        let around = |code| {
            let inner = (0..=16).map(|inner| match inner {
                8 | 9 => double(inner, primitive(2), primitive(code)),
                4..=15 => around_tag(inner, primitive(code)),
                _ => of_tag(inner),
            });
            inner.map(|inner| wrapped(tag, inner)).collect()
        };
        kept(cases, &format!("every tag in tag {tag}"), around(1));
        let name = format!("every tag in tag {tag}, changed");
        differing(cases, &name, around(1), around(2));
    }
    for outer in 4..10 {
        let inside = |code| {
            let vectors = GEOMETRIC.map(|tag| wrapped(tag, primitive(code)));
            vectors.map(|vector| around_tag(outer, vector)).collect()
        };
        kept(cases, &format!("vectors in tag {outer}"), inside(1));
        let name = format!("vectors in tag {outer}, changed");
        differing(cases, &name, inside(1), inside(2));
    }
}

/// A node of this tag, of 4 to 15, above another one.
fn around_tag(tag: u8, inner: Type) -> Type {
    match tag {
        6 => fixed_array(inner, 4),
        8 | 9 => double(tag, semantic(0), inner),
        _ => wrapped(tag, inner),
    }
}

/// The first vector at each node of a path, and a difference right below it.
fn nodes(cases: &mut Cases) {
    let at = |node: usize, code| {
        let optionals = 1..node;
        optionals.fold(vec3(primitive(code)), |ty, _| wrapped(4, ty))
    };
    let each = |code| (1..NODES).map(|node| at(node, code)).collect();
    kept(cases, "the first vector at each node", each(1));
    differing(cases, "a difference at each node", each(1), each(2));
    let deepest = |code| vec![at(NODES - 1, code)];
    kept(cases, "the 31st node", deepest(1));
    differing(cases, "below the 31st node", deepest(1), deepest(2));
    kept(cases, "a vector at the 32nd node", vec![at(NODES, 1)]);
    let top = |code| vec![vec3(deepened(primitive(code), NODES - 1))];
    kept(cases, "32 nodes below a vector", top(1));
    differing(cases, "the 32nd node below a vector", top(1), top(2));
}

/// Several vectors on one path.
fn paths(cases: &mut Cases) {
    let all = |code| {
        let tags = GEOMETRIC.chain(GEOMETRIC).cycle().take(NODES - 1);
        vec![tags.fold(primitive(code), |ty, tag| wrapped(tag, ty))]
    };
    kept(cases, "31 vectors on a path", all(1));
    differing(cases, "31 vectors on a path, changed", all(1), all(2));
    let two = |outer, inner, code| vec![wrapped(outer, wrapped(inner, primitive(code)))];
    kept(cases, "two vectors", two(10, 11, 1));
    changed(cases, "below two vectors", two(10, 11, 1), two(10, 11, 2));
    let name = "the second of two vectors";
    changed(cases, name, two(10, 11, 1), two(10, 12, 1));
    let name = "the first of two vectors";
    changed(cases, name, two(10, 11, 1), two(13, 11, 1));
    let name = "two vectors in another order";
    changed(cases, name, two(10, 11, 1), two(11, 10, 1));
    let three = |code| vec![vec2(wrapped(5, vec3(vec3(primitive(code)))))];
    kept(cases, "three vectors", three(1));
    changed(cases, "below three vectors", three(1), three(2));
}

/// A vector where the other side has none.
fn one_sided(cases: &mut Cases) {
    let inner = || primitive(9);
    changed(cases, "a vector around", vec![inner()], vec![vec3(inner())]);
    let name = "a vector around a vector";
    changed(cases, name, vec![vec3(inner())], vec![vec3(vec3(inner()))]);
    let inside = |ty: Type| vec![wrapped(4, ty)];
    let name = "a vector around, inside";
    changed(cases, name, inside(inner()), inside(vec3(inner())));
    let name = "a vector and another vector inside";
    changed(cases, name, vec![vec2(vec3(inner()))], vec![vec3(inner())]);
    let others = (4..10).map(|tag| around_tag(tag, inner())).collect();
    let name = "a vector and tags 4 to 9";
    changed(cases, name, vec![vec3(inner()); 6], others);
    let leaves = [0, 1, 2, 3, 16].map(of_tag).to_vec();
    changed(cases, "a vector and leaves", vec![vec3(inner()); 5], leaves);
}

/// Both of one tag below a vector, with other codes, sizes or names.
fn codes(cases: &mut Cases) {
    let below = |ty: Type| vec![vec3(ty)];
    let pairs = [
        ("primitives", primitive(9), primitive(10)),
        ("widths", sub_byte(false, 3), sub_byte(false, 4)),
        ("signs", sub_byte(false, 3), sub_byte(true, 3)),
        ("u8 and u8", primitive(1), sub_byte(false, 8)),
        ("semantics", semantic(0), semantic(5)),
        (
            "sizes",
            fixed_array(primitive(1), 4),
            fixed_array(primitive(1), 5),
        ),
        (
            "array and array",
            wrapped(5, primitive(1)),
            fixed_array(primitive(1), 4),
        ),
        ("bits", bits(&["a", "b"]), bits(&["b", "a"])),
        ("no bits", bits(&[]), bits(&[""])),
    ];
    for (name, one, other) in pairs {
        let name = format!("below a vector: {name}");
        differing(cases, &name, below(one), below(other));
    }
    let seats = |size| vec![fixed_array(vec3(primitive(9)), size)];
    kept(cases, "seats", seats(4));
    changed(cases, "seats, one more", seats(4), seats(5));
    kept(cases, "edge b", vec![wrapped(4, vec3(primitive(9)))]);
}

/// Vectors in one or both of the inner types of a map or result.
fn two_inner(cases: &mut Cases) {
    let u8s = || primitive(1);
    for tag in [8, 9] {
        let of = |first, second| vec![double(tag, first, second)];
        let name = |what: &str| format!("tag {tag}, {what}");
        kept(cases, &name("first"), of(vec3(u8s()), u8s()));
        kept(cases, &name("second"), of(u8s(), vec3(u8s())));
        let both = || of(vec2(u8s()), vec3(u8s()));
        kept(cases, &name("both"), both());
        let turned = of(vec3(u8s()), vec2(u8s()));
        changed(cases, &name("turned round"), both(), turned);
        let second = of(vec2(u8s()), vec3(primitive(2)));
        changed(cases, &name("both, the second differs"), both(), second);
        let first = of(vec2(primitive(2)), vec3(u8s()));
        changed(cases, &name("both, the first differs"), both(), first);
        let (one, other) = (of(vec3(u8s()), u8s()), of(vec3(u8s()), primitive(2)));
        changed(cases, &name("beside the first"), one, other);
        let (one, other) = (of(u8s(), vec3(u8s())), of(primitive(2), vec3(u8s())));
        changed(cases, &name("beside the second"), one, other);
        let (one, other) = (of(vec3(u8s()), u8s()), of(u8s(), vec3(u8s())));
        changed(cases, &name("first and second"), one, other);
        let nested = |code| {
            let inner = double(17 - tag, primitive(code), vec2(u8s()));
            vec![vec3(double(tag, inner, vec3(u8s())))]
        };
        kept(cases, &name("nested"), nested(1));
        differing(cases, &name("nested, changed"), nested(1), nested(2));
    }
}

/// Equal and different types without a vector: every verdict says the same.
fn without(cases: &mut Cases) {
    let tags = || (0..=16).filter(|tag| !GEOMETRIC.contains(tag));
    let types: Vec<Type> = tags().map(of_tag).collect();
    kept(cases, "no vector", types.clone());
    let turned = types.iter().rev().cloned().collect();
    differing(cases, "no vector, changed", types, turned);
}
