//! What is reached and what stands, on small schemas and against a second way to say
//! both.

use super::{first_listed, naming, of_types};
use crate::commands::random_pair;
use crate::imports::{longer, named_ids, reached, standing};
use crate::make::*;
use crate::model::surviving_declarations;
use crate::reader::read_image;
use crate::record::SEED;
use crate::rng::Rng;
use crate::schema::{Schema, Type};
use crate::selftest::Tests;
use std::collections::BTreeSet;

pub fn run(tests: &mut Tests) {
    steps(tests);
    dead(tests);
    types(tests);
    names(tests);
    random(tests);
}

fn reaches(tests: &mut Tests, name: &str, schema: &Schema, wanted: &[u32]) {
    let found: Vec<u32> = reached(schema).into_iter().collect();
    tests.equal(name, found, wanted.to_vec());
}

fn steps(tests: &mut Tests) {
    let itself = first_listed(vec![naming("A", &[0]), config("B")]);
    reaches(tests, "itself", &itself, &[0]);
    let ring = vec![naming("A", &[2]), config("B"), naming("C", &[3])];
    let ring = first_listed([ring, vec![naming("D", &[2, 0])]].concat());
    reaches(tests, "a ring", &ring, &[0, 2, 3]);
    let unlisted = ring.clone().listing(&[1]);
    reaches(tests, "from survivors only", &unlisted, &[]);
    let chain = |n: u32| naming(&format!("C{n}"), &[n + 1]);
    let chain = first_listed((0..500).map(chain).collect());
    let all: Vec<u32> = (1..500).collect();
    reaches(tests, "500 steps", &chain, &all);
    let lost = schema(vec![naming("A", &[2]), naming("A", &[3])]);
    let lost = lost.with_entries(vec![Some(config("B")), Some(config("C"))]);
    reaches(tests, "not from one that lost its name", &lost, &[3]);
    let lost = lost.with_entries(vec![Some(naming("N", &[0]))]);
    let lost = lost.listing(&[0, 1, 4]);
    reaches(tests, "unless it is reached", &lost, &[0, 2, 3]);
}

/// Fields and variants that do not survive lead nowhere.
fn dead(tests: &mut Tests) {
    let fields = || vec![field(1, "a", named(1)), field(1, "b", named(2))];
    let others = || vec![config("B"), config("C")];
    let of = |declaration| first_listed([vec![declaration], others()].concat());
    reaches(tests, "a dead field", &of(message("A", fields())), &[2]);
    let one = union("A", vec![variant(0, "v", fields())]);
    reaches(tests, "a variant's dead field", &of(one), &[2]);
    let one = |id| variant(7, "v", vec![field(0, "f", named(id))]);
    let two = union("A", vec![one(1), one(2)]);
    reaches(tests, "a dead variant", &of(two), &[2]);
}

fn types(tests: &mut Tests) {
    let of = |ty: Type| {
        let entries = vec![of_types("A", vec![ty]), config("B"), config("C")];
        first_listed(entries).with_entries(vec![None])
    };
    for tag in [4, 5, 7, 10, 11, 12, 13, 14, 15] {
        let under = wrapped(tag, wrapped(4, named(2)));
        reaches(tests, "under one tag", &of(under), &[2]);
    }
    reaches(tests, "in an array", &of(fixed_array(named(1), 4)), &[1]);
    for tag in [8, 9] {
        reaches(tests, "two", &of(double(tag, named(1), named(2))), &[1, 2]);
    }
    for id in [3, 4, 65_537, u32::MAX] {
        reaches(tests, "unresolvable", &of(named(id)), &[]);
    }
    let newtype = first_listed(vec![newtype("A", named(1)), config("B")]);
    reaches(tests, "a newtype", &newtype, &[1]);
}

fn stands(tests: &mut Tests, name: &str, schema: &Schema, wanted: &[(&str, u8)]) {
    let found = standing(schema).into_iter().map(|(n, d)| (n, d.kind()));
    tests.equal(name, found.collect::<Vec<_>>(), wanted.to_vec());
}

fn names(tests: &mut Tests) {
    let entries = vec![naming("A", &[1, 2]), config("B"), trait_of("B")];
    let two = first_listed(entries);
    stands(tests, "the highest id", &two, &[("A", 0), ("B", 7)]);
    let listed = two.listing(&[1, 0]);
    stands(tests, "the listed one", &listed, &[("A", 0), ("B", 5)]);
    let entries = vec![naming("A", &[1]), naming("A", &[2]), config("B")];
    let behind = first_listed(entries);
    reaches(tests, "through one that does not stand", &behind, &[1, 2]);
    stands(tests, "behind it", &behind, &[("A", 0), ("B", 5)]);
    let impls = vec![naming("A", &[1, 2]), implementation(), config("")];
    stands(
        tests,
        "an impl has the empty name",
        &first_listed(impls),
        &[("", 5), ("A", 0)],
    );
}

/// The least set by iteration: what is named from the survivors and from the set
/// before, until nothing comes.
pub fn iterated(schema: &Schema) -> BTreeSet<u32> {
    let survivors = surviving_declarations(schema);
    let mut set = BTreeSet::new();
    loop {
        let entries = set.iter().filter_map(|id| schema.get(*id));
        let followed = survivors.values().copied().chain(entries);
        let named = followed.flat_map(named_ids);
        let next: BTreeSet<u32> = named.filter(|id| schema.get(*id).is_some()).collect();
        if next == set {
            return set;
        }
        set = next;
    }
}

fn random(tests: &mut Tests) {
    let mut rng = Rng::new(SEED);
    let mut schemas = Vec::new();
    for _ in 0..2_000 {
        let (old, new) = random_pair(&mut rng);
        schemas.extend([old, new].iter().filter_map(|image| read_image(image).ok()));
    }
    let all = |holds: fn(&Schema) -> bool| schemas.iter().all(holds);
    let least = all(|schema| reached(schema) == iterated(schema));
    tests.holds("what is reached is the least set", least);
    let same = all(|schema| standing(schema) == surviving_declarations(&longer(schema)));
    tests.holds("what stands survives in the longer list", same);
}
