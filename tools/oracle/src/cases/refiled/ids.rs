//! Ids: in lists and in types, at any depth, resolvable or not, and registries
//! that are full.

use super::Filed;
use crate::cases::sizes::filled;
use crate::limits::{IMAGE_BYTES, NODES};
use crate::make::*;
use crate::random::deepened;
use crate::schema::{Declaration, Schema, Type};

pub fn add(filed: &mut Filed) {
    unresolvable(filed);
    deep(filed);
    imports(filed);
    full(filed);
}

/// Lists the types as fields of a message; 1 is `A`, 2 is `B`, 3 is empty, 4 is N.
fn of(types: Vec<Type>) -> Schema {
    let fields = (0..).zip(types).map(|(n, ty)| field(n, "f", ty));
    let message = message("M", fields.collect());
    schema(vec![message, config("A"), trait_of("B")]).with_entries(vec![None])
}

/// An empty entry's id, N, further off and the last.
const UNKNOWN: [u32; 4] = [3, 4, 65_537, u32::MAX];

fn unresolvable(filed: &mut Filed) {
    let leaves = || UNKNOWN.map(named).to_vec();
    let listed = of(leaves()).listing(&[3, 0, 4, 4, u32::MAX, 1, 65_537]);
    filed.pair("unresolvable ids", &listed, &of(leaves()));
    let only = of(leaves()).listing(&UNKNOWN);
    filed.pair("only unresolvable ids", &only, &only);
    let nested = |ids: [u32; 4]| {
        let under = |tag| double(tag, named(ids[0]), wrapped(4, named(ids[1])));
        let lists = fixed_array(double(9, named(ids[2]), named(ids[3])), 4);
        of(vec![under(8), under(9), wrapped(7, lists)])
    };
    filed.pair(
        "unresolvable ids in nested types",
        &nested(UNKNOWN),
        &nested(UNKNOWN),
    );
    let some = nested([1, 4, 3, 2]);
    filed.pair("ids in nested types", &some, &nested([1, 2, 3, 4]));
    filed.pair("ids in nested types kept", &some, &some);
}

fn deep(filed: &mut Filed) {
    let each = |id| {
        let under = |tag| match tag {
            6 => fixed_array(named(id), 4),
            8 | 9 => double(tag, named(1), named(id)),
            _ => wrapped(tag, named(id)),
        };
        of((4..=9).map(under).collect())
    };
    filed.pair("ids under every tag", &each(1), &each(2));
    let bottom = |id| of(vec![deepened(named(id), NODES)]);
    filed.pair("the 32nd node", &bottom(1), &bottom(2));
    filed.pair("the 32nd node kept", &bottom(1), &bottom(1));
    filed.pair("the 32nd node, and none", &bottom(4), &bottom(1));
    let paired = |id| {
        let wrap = |ty, tag| double(tag, named(2), double(17 - tag, ty, named(id)));
        let ty = [8, 9, 8, 9].into_iter().fold(named(id), wrap);
        of(vec![deepened(ty.clone(), NODES), ty])
    };
    filed.pair("maps and results of names", &paired(1), &paired(4));
}

fn imports(filed: &mut Filed) {
    let of = |imports: Vec<Declaration>, id| {
        let fields = vec![field(0, "f", named(id)), field(1, "g", named(2))];
        let listed = schema(vec![message("M", fields)]);
        listed.with_entries(imports.into_iter().map(Some).collect())
    };
    let same = || vec![config("A"), trait_of("A"), message("M", vec![])];
    filed.pair("imports of one name", &of(same(), 1), &of(same(), 2));
    let itself = || vec![config("A"), newtype("M", named(3)), newtype("A", named(2))];
    filed.pair(
        "a listed name among the imports",
        &of(itself(), 0),
        &of(same(), 3),
    );
    let ring = |length: u32| {
        let next = |n: u32| field(0, "next", named((n + 1) % length));
        let of = |n: u32| message(&format!("R{n}"), vec![next(n), field(1, "self", named(n))]);
        schema((0..length).map(of).collect())
    };
    filed.pair("a ring of messages", &ring(6), &ring(7));
}

fn full(filed: &mut Filed) {
    let all = |kind, letter: &str| {
        let named = |n| of_kind(if n % 32 == 0 { kind } else { 5 }, &format!("{letter}{n}"));
        schema((0..512).map(named).collect())
    };
    filed.pair("512 entries", &all(0, "d"), &all(2, "d"));
    let mut sparse = of(vec![named(1), named(511), named(2)]);
    sparse.registry.resize(511, None);
    let last = sparse.clone().with_entries(vec![Some(config("Last"))]);
    filed.pair("512 entries, nearly all empty", &sparse, &last);
    let large = filled(of(vec![named(1), named(3), named(2)]), IMAGE_BYTES);
    filed.pair("32,768 bytes", &large, &of(vec![named(2), named(4)]));
}
