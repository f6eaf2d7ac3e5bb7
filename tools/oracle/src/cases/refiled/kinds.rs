//! Every kind of declaration and of change, impls, aliases, names.

use super::Filed;
use crate::cases::mixed;
use crate::make::*;
use crate::schema::{Declaration, GENERIC_ALIAS, IMPL, KIND_NAMES};

pub fn add(filed: &mut Filed) {
    kinds(filed);
    impls(filed);
    aliases(filed);
    names(filed);
}

/// One of each kind, by the names that reports give the kinds.
fn each(except: &[u8]) -> Vec<Declaration> {
    let kinds = (0..=IMPL).filter(|kind| !except.contains(kind));
    kinds
        .map(|kind| of_kind(kind, KIND_NAMES[usize::from(kind)]))
        .collect()
}

fn kinds(filed: &mut Filed) {
    let (before, after) = (mixed::before(), mixed::after());
    filed.pair("every kind of change", &before, &after);
    filed.pair("every kind of change, swapped", &after, &before);
    let (all, one) = (schema(each(&[])), schema(vec![config("kept")]));
    filed.pair("every kind removed", &all, &one);
    filed.pair("every kind added", &one, &all);
    let kept = schema(each(&[GENERIC_ALIAS]));
    filed.pair("every kind kept", &kept, &kept);
    let shifted = |by: u8| {
        let kind = |place| (place + by) % IMPL;
        let named = |place| of_kind(kind(place), &format!("d{place}"));
        schema((0..IMPL).map(named).collect())
    };
    filed.pair("every kind to the next", &shifted(0), &shifted(1));
}

fn impls(filed: &mut Filed) {
    let beside = |impls: usize| {
        let mut list = vec![config("A"), trait_of("B"), newtype("N", named(3))];
        list.extend((0..impls).map(|_| implementation()));
        schema(list)
    };
    filed.pair("several impls", &beside(5), &beside(3));
    filed.pair("several impls gone", &beside(4), &beside(0));
    filed.pair("several impls come", &beside(0), &beside(4));
    let listed = beside(2).listing(&[3, 0, 3, 4, 2, 3, 1]);
    filed.pair("one impl listed three times", &listed, &beside(1));
    let unnamed = |code| schema(vec![config("A"), newtype("", primitive(code))]);
    filed.pair("one that is unnamed", &unnamed(1), &unnamed(2));
    filed.pair("impls and one that is unnamed", &beside(3), &unnamed(1));
}

fn aliases(filed: &mut Filed) {
    let of = |list: Vec<Declaration>| schema(list);
    let old = of(vec![alias("A"), config("B"), alias("C")]);
    filed.pair("alias pair", &old, &of(vec![config("D"), alias("C")]));
    filed.pair("alias pair of itself", &old, &old);
    let kept = of(vec![trait_of("A"), alias("B"), config("C"), alias("D")]);
    filed.pair("aliases without a pair", &old, &kept);
    let unlisted = old.clone().listing(&[1]);
    filed.pair("aliases that one side does not list", &old, &unlisted);
}

/// In byte order, whatever order they are filed in.
fn names(filed: &mut Filed) {
    let of = |names: &[&str]| schema(names.iter().map(|name| config(name)).collect());
    let old = of(&["a", "Z", "aa", "_", "z9", "aB", "Ab", "0"]);
    let new = of(&["zz", "A", "ab", "9", "a_", "a0", "B"]);
    filed.pair("names in byte order", &old, &new);
    let segments: Vec<String> = (0..16).map(|n| format!("s{n}")).collect();
    let segments: Vec<&str> = segments.iter().map(String::as_str).collect();
    let renamed = of(&["a", "b"]).in_namespace(&segments);
    filed.pair("16 segments", &of(&["b", "a"]), &renamed);
    filed.pair("nothing declared", &of(&[]), &of(&[]));
}
