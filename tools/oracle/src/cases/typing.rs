//! Types: every tag against every tag, every code, every way to differ, nesting
//! and depth.

use super::Cases;
use crate::limits::NODES;
use crate::make::*;
use crate::schema::{Field, Type, GEOMETRIC};

pub fn add(cases: &mut Cases) {
    tags(cases);
    codes(cases);
    sub_bytes(cases);
    labels(cases);
    nested(cases);
    depths(cases);
    geometric(cases);
}

/// Fields of these types from ordinal 0 on.
fn fields_of(types: impl IntoIterator<Item = Type>) -> Vec<Field> {
    let numbered = (0..).zip(types);
    numbered
        .map(|(n, ty)| field(n, &format!("f{n}"), ty))
        .collect()
}

/// One way only: the lists below hold every pair both ways.
fn listed(cases: &mut Cases, name: &str, old: Vec<Type>, new: Vec<Type>) {
    let of = |types| schema(vec![message("M", fields_of(types))]);
    cases.pair(name, &of(old), &of(new));
}

/// Each of the types in old against each of them in new.
fn all_against_all(cases: &mut Cases, what: &str, types: &[Type]) {
    for (place, ty) in types.iter().enumerate() {
        let old = vec![ty.clone(); types.len()];
        listed(
            cases,
            &format!("{what} {place} against all"),
            old,
            types.to_vec(),
        );
    }
}

fn tags(cases: &mut Cases) {
    let types: Vec<Type> = (0..=16).map(of_tag).collect();
    all_against_all(cases, "tag", &types);
    for tag in 0..=16 {
        let of = || schema(vec![newtype("N", of_tag(tag))]);
        cases.pair(&format!("newtype of tag {tag} kept"), &of(), &of());
        let other = schema(vec![newtype("N", semantic(5))]);
        cases.both_ways(&format!("newtype of tag {tag} and another"), &of(), &other);
    }
}

fn codes(cases: &mut Cases) {
    let types: Vec<Type> = (0..14).map(primitive).collect();
    all_against_all(cases, "primitive", &types);
    let types: Vec<Type> = (0..6).map(semantic).collect();
    all_against_all(cases, "semantic", &types);
}

fn sub_bytes(cases: &mut Cases) {
    let widths = |signed, from: u8| (0..64).map(move |n| sub_byte(signed, (n + from) % 64 + 1));
    let (plain, signed) = (widths(false, 0).collect(), widths(true, 0).collect());
    listed(cases, "sub-bytes by sign", plain, signed);
    listed(
        cases,
        "sub-bytes by width",
        widths(false, 0).collect(),
        widths(false, 1).collect(),
    );
    listed(
        cases,
        "signed sub-bytes by width",
        widths(true, 1).collect(),
        widths(true, 0).collect(),
    );
    let both = || widths(false, 0).chain(widths(true, 0)).collect::<Vec<_>>();
    listed(cases, "sub-bytes kept", both(), both());
    let alike = [
        (1, false, 8),
        (2, false, 16),
        (3, false, 32),
        (4, false, 64),
    ];
    let signed = [(5, true, 8), (6, true, 16), (7, true, 32), (8, true, 64)];
    for (code, signed, width) in alike.into_iter().chain(signed) {
        let name = format!("primitive {code} and sub-byte of {width}");
        cases.types(&name, primitive(code), sub_byte(signed, width));
    }
}

fn labels(cases: &mut Cases) {
    let sizes = [0, 1, 4, 255, 256, 65_536, 1 << 32, 1 << 63, u64::MAX];
    let arrays: Vec<Type> = sizes
        .iter()
        .map(|n| fixed_array(primitive(1), *n))
        .collect();
    all_against_all(cases, "size", &arrays);
    let powers = (0..20).map(|n| 10u64.pow(n));
    let decimal = powers.map(|n| fixed_array(primitive(1), n)).collect();
    listed(
        cases,
        "sizes of every width",
        decimal,
        vec![primitive(0); 20],
    );
    let lists: [&[&str]; 9] = [
        &[],
        &[""],
        &["", ""],
        &["a"],
        &["a", "b"],
        &["b", "a"],
        &["ab"],
        &["a", "b", "c"],
        &["A", "b"],
    ];
    let inline: Vec<Type> = lists.iter().map(|list| bits(list)).collect();
    all_against_all(cases, "bits", &inline);
    let many: Vec<String> = (0..255).map(|n| format!("b{n}")).collect();
    let mut many: Vec<&str> = many.iter().map(String::as_str).collect();
    let all = bits(&many);
    many[254] = "last";
    cases.types("255 bits, the last differs", all, bits(&many));
    let longest = "b".repeat(255);
    cases.types(
        "bits of the longest name",
        bits(&[&longest]),
        bits(&[&longest[1..]]),
    );
}

fn around(tag: u8, inner: Type) -> Type {
    match tag {
        6 => fixed_array(inner, 3),
        8 | 9 => double(tag, inner.clone(), inner),
        _ => wrapped(tag, inner),
    }
}

fn nested(cases: &mut Cases) {
    for outer in 4..=15 {
        let kept = || {
            (0..=16)
                .map(|tag| around(outer, of_tag(tag)))
                .collect::<Vec<_>>()
        };
        listed(
            cases,
            &format!("all tags within tag {outer}"),
            kept(),
            kept(),
        );
        let differing = (0..=16).map(|tag| around(outer, of_tag((tag + 1) % 17)));
        let name = format!("tags within tag {outer} against the next");
        listed(cases, &name, kept(), differing.collect());
    }
    for tag in [8, 9] {
        let of = |first, second| double(tag, primitive(first), primitive(second));
        cases.types(&format!("tag {tag}, first differs"), of(1, 2), of(3, 2));
        cases.types(&format!("tag {tag}, second differs"), of(1, 2), of(1, 3));
        cases.types(&format!("tag {tag}, both differ"), of(1, 2), of(3, 4));
        cases.types(&format!("tag {tag}, the two swapped"), of(1, 2), of(2, 1));
        let deep = |code| double(tag, around(4, of(1, 2)), around(5, of(1, code)));
        cases.types(&format!("tag {tag}, within both"), deep(2), deep(3));
    }
    let inner = double(9, bits(&["a", "b"]), named(9));
    let shown = double(8, around(7, inner), fixed_array(wrapped(4, semantic(4)), 7));
    cases.types("many tags in one type", shown, primitive(13));
}

/// A path of `nodes` nodes that ends in this leaf, through all of the tags.
fn path(nodes: usize, leaf: Type) -> Type {
    let tags = [4, 5, 6, 7, 8, 9].iter().cycle();
    tags.take(nodes - 1).fold(leaf, |ty, tag| match tag {
        8 => double(8, primitive(0), ty),
        9 => double(9, ty, semantic(1)),
        tag => around(*tag, ty),
    })
}

fn depths(cases: &mut Cases) {
    let plain = |leaf: u8| {
        let of = |nodes| (1..nodes).fold(primitive(leaf), |ty, _| wrapped(4, ty));
        (1..=NODES).map(of).collect::<Vec<_>>()
    };
    listed(cases, "leaves differ at every depth", plain(1), plain(2));
    listed(cases, "leaves alike at every depth", plain(1), plain(1));
    let mixed = |leaf: u8| {
        (1..=NODES)
            .map(|nodes| path(nodes, primitive(leaf)))
            .collect::<Vec<_>>()
    };
    listed(
        cases,
        "mixed leaves differ at every depth",
        mixed(1),
        mixed(2),
    );
    listed(
        cases,
        "mixed leaves alike at every depth",
        mixed(3),
        mixed(3),
    );
    let wide =
        |first: u8, second: u8| double(8, path(31, primitive(first)), path(31, primitive(second)));
    cases.types("deep in the key", wide(1, 2), wide(3, 2));
    cases.types("deep in the value", wide(1, 2), wide(1, 3));
    cases.types(
        "depths that differ",
        path(32, primitive(1)),
        path(31, primitive(1)),
    );
}

fn geometric(cases: &mut Cases) {
    for tag in GEOMETRIC {
        for code in [9, 10, 11] {
            let of = || schema(vec![newtype("N", wrapped(tag, primitive(code)))]);
            cases.pair(
                &format!("tag {tag} of primitive {code} and itself"),
                &of(),
                &of(),
            );
        }
        let deep = || path(20, wrapped(tag, named(0)));
        cases.types(&format!("tag {tag} deep within"), deep(), deep());
    }
    let hidden = |tag| {
        let first = field(0, "f", wrapped(tag, primitive(9)));
        vec![first, field(0, "f", primitive(9))]
    };
    cases.fields(
        "vector in a field that does not stand",
        hidden(11),
        hidden(12),
    );
    let import = newtype("Pose", wrapped(13, primitive(9)));
    let named = || vec![newtype("N", named(1))];
    let import = schema(named()).with_entries(vec![Some(import)]);
    cases.pair("vector behind a name", &import, &import);
}
