//! Declarations of each kind: kept, added, removed, changed to another kind;
//! aliases and impls.

use super::Cases;
use crate::make::*;
use crate::schema::{Schema, IMPL, KIND_NAMES};

pub fn add(cases: &mut Cases) {
    one_kind(cases);
    two_kinds(cases);
    aliases(cases);
    other_aliases(cases);
    impls(cases);
    several(cases);
}

fn word(kind: u8) -> &'static str {
    KIND_NAMES[usize::from(kind)]
}

fn one_kind(cases: &mut Cases) {
    for kind in 0..=IMPL {
        let with = || schema(vec![of_kind(kind, "Same")]);
        cases.pair(&format!("{} kept", word(kind)), &with(), &with());
        let name = format!("{} added", word(kind));
        cases.both_ways(&name, &schema(vec![]), &with());
        let unlisted = with().listing(&[]);
        let name = format!("{} not listed", word(kind));
        cases.both_ways(&name, &unlisted, &with());
    }
}

/// All 72 changes of kind. Those from or to an impl have the empty name.
fn two_kinds(cases: &mut Cases) {
    for old in 0..=IMPL {
        for new in (0..=IMPL).filter(|new| *new != old) {
            let name = if old == IMPL || new == IMPL {
                ""
            } else {
                "Kind"
            };
            let of = |kind| schema(vec![of_kind(kind, name)]);
            let title = format!("{} to {}", word(old), word(new));
            cases.pair(&title, &of(old), &of(new));
        }
    }
}

fn aliases(cases: &mut Cases) {
    let one = || schema(vec![alias("A")]);
    let more = schema(vec![config("B"), alias("A"), message("M", vec![])]);
    cases.both_ways("alias pair among others", &one(), &more);
    cases.pair(
        "alias pair of the empty name",
        &schema(vec![alias("")]),
        &schema(vec![alias("")]),
    );
    let hidden = schema(vec![alias("A"), config("A")]);
    cases.both_ways("alias hidden by a later config", &one(), &hidden);
    cases.pair("alias hidden on both sides", &hidden, &hidden);
    let shown = schema(vec![config("A"), alias("A")]);
    cases.both_ways("alias after a config", &one(), &shown);
    cases.both_ways("alias hidden against alias shown", &hidden, &shown);
    let relisted = schema(vec![alias("A"), config("A")]).listing(&[0, 1, 0]);
    cases.both_ways("alias listed again behind a config", &one(), &relisted);
    let emptied = schema(vec![alias("A")]).listing(&[0, 1, u32::MAX]);
    cases.both_ways("alias before unresolvable ids", &one(), &emptied);
    let changed = |name: &str| one().in_namespace(&[name]);
    cases.both_ways("alias pair in two namespaces", &changed("a"), &changed("b"));
}

/// No alias pair: not listed, of two names, or hidden by an impl.
fn other_aliases(cases: &mut Cases) {
    let one = || schema(vec![alias("A")]);
    let unlisted = schema(vec![alias("A"), config("B")]).listing(&[1]);
    cases.both_ways("alias listed on one side", &one(), &unlisted);
    cases.pair("alias listed on no side", &unlisted, &unlisted);
    cases.lists("aliases of two names", vec![alias("A")], vec![alias("B")]);
    let with_impl = || schema(vec![alias(""), implementation()]);
    cases.both_ways(
        "alias of the empty name behind an impl",
        &with_impl(),
        &schema(vec![alias("")]),
    );
    cases.pair(
        "alias of the empty name hidden by impls",
        &with_impl(),
        &with_impl(),
    );
    let by_name = schema(vec![alias("A"), newtype("N", named(0))]);
    cases.both_ways(
        "alias in a type, listed once",
        &by_name,
        &by_name.clone().listing(&[1]),
    );
}

fn impls(cases: &mut Cases) {
    let impls = |n: usize| schema(vec![implementation(); n]);
    cases.both_ways("two impls and one", &impls(2), &impls(1));
    cases.both_ways("impls and none", &impls(3), &impls(0));
    let unnamed = |ty| message("", vec![field(0, "f", primitive(ty))]);
    let first = |ty| schema(vec![unnamed(ty), implementation()]);
    let last = |ty| schema(vec![implementation(), unnamed(ty)]);
    cases.both_ways("unnamed message before an impl", &first(1), &first(2));
    cases.both_ways("unnamed message after an impl", &last(1), &last(2));
    cases.both_ways("unnamed message before and after", &first(1), &last(1));
    let between = schema(vec![implementation(), unnamed(1), implementation()]);
    cases.both_ways("unnamed message between impls", &between, &last(1));
}

fn several(cases: &mut Cases) {
    let all = |name: &str| -> Schema {
        let kinds = (0..=IMPL).filter(|kind| *kind != 6);
        schema(
            kinds
                .map(|kind| of_kind(kind, &format!("{name}{kind}")))
                .collect(),
        )
    };
    cases.pair("all kinds kept", &all("K"), &all("K"));
    cases.both_ways("all kinds renamed", &all("K"), &all("L"));
    let reversed = |n: u32| all("K").listing(&(0..n).rev().collect::<Vec<_>>());
    cases.both_ways(
        "all kinds listed the other way round",
        &all("K"),
        &reversed(8),
    );
    cases.both_ways("half of the kinds listed", &all("K"), &reversed(4));
}
