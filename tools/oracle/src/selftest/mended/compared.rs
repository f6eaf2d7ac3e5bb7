//! The three answers of the type comparison, on types written out, and against a second
//! way to say them.

use crate::edits::types_of;
use crate::limits::NODES;
use crate::make::*;
use crate::mended::{compared, disguised, mended_releases, undisguised, Compared};
use crate::random::deepened;
use crate::record::SEED;
use crate::rng::Rng;
use crate::schema::*;
use crate::selftest::Tests;
use crate::types::{type_display, types_equal};

use Compared::{Alike, Different, Equal};

pub fn run(tests: &mut Tests) {
    trees(tests);
    inner_types(tests);
    names(tests);
    disguises(tests);
    random(tests);
}

/// Types without names: any schema will do.
fn says(tests: &mut Tests, name: &str, old: &Type, new: &Type, wanted: Compared) {
    let none = Schema::default();
    tests.equal(name, compared(&none, old, &none, new), wanted);
    let back = compared(&none, new, &none, old);
    tests.equal(&format!("{name}, swapped"), back, wanted);
}

fn trees(tests: &mut Tests) {
    let f32s = || primitive(9);
    for tag in 0..=16 {
        let wanted = if (10..=15).contains(&tag) {
            Alike
        } else {
            Equal
        };
        let name = format!("tag {tag} and itself");
        says(tests, &name, &of_tag(tag), &of_tag(tag), wanted);
        for other in (0..=16).filter(|other| *other != tag) {
            let name = format!("tag {tag} and tag {other}");
            says(tests, &name, &of_tag(tag), &of_tag(other), Different);
        }
    }
    let vec3 = |inner| wrapped(11, inner);
    let f64s = vec3(primitive(10));
    says(tests, "another inner type", &vec3(f32s()), &f64s, Different);
    says(tests, "a vector around", &f32s(), &vec3(f32s()), Different);
    let twice = vec3(vec3(f32s()));
    says(tests, "one more", &vec3(f32s()), &twice, Different);
    says(tests, "two on a path", &twice, &twice, Alike);
    let mixed = vec3(wrapped(13, f32s()));
    says(tests, "another below", &twice, &mixed, Different);
    let inside = deepened(vec3(f32s()), NODES);
    says(tests, "the 31st node", &inside, &inside, Alike);
    let other = deepened(vec3(primitive(10)), NODES);
    says(tests, "below the 31st node", &inside, &other, Different);
    let plain = deepened(f32s(), NODES);
    says(tests, "32 nodes without one", &plain, &plain, Equal);
}

fn inner_types(tests: &mut Tests) {
    let (u8s, u16s) = (|| primitive(1), || primitive(2));
    let vector = || wrapped(12, u8s());
    for tag in [8, 9] {
        let of = |first, second| double(tag, first, second);
        let mut itself = |name: &str, ty: Type, wanted| says(tests, name, &ty, &ty, wanted);
        itself("the first", of(vector(), u8s()), Alike);
        itself("the second", of(u8s(), vector()), Alike);
        itself("both", of(vector(), vector()), Alike);
        itself("none", of(u8s(), u16s()), Equal);
        let mut two = |name: &str, one: Type, other: Type| {
            says(tests, name, &one, &other, Different);
        };
        two("after it", of(vector(), u8s()), of(vector(), u16s()));
        two("before it", of(u8s(), vector()), of(u16s(), vector()));
        two("turned round", of(u8s(), vector()), of(vector(), u8s()));
    }
}

/// Entries 0 to 2 are `A`, `B` and a newtype of a vector.
fn names(tests: &mut Tests) {
    let seat = |tag: u8| newtype("Seat", wrapped(tag, primitive(9)));
    let old = schema(vec![config("A"), config("B"), seat(10)]);
    let new = schema(vec![trait_of("B"), message("A", vec![]), seat(11)]);
    let mut says = |name: &str, o: Type, n: Type, wanted: Compared| {
        tests.equal(name, compared(&old, &o, &new, &n), wanted);
    };
    let vec3 = |id| wrapped(11, named(id));
    says("one name, two ids", vec3(0), vec3(1), Alike);
    says("one id, two names", vec3(0), vec3(0), Different);
    says("both unresolvable", vec3(3), vec3(u32::MAX), Alike);
    says("a name and unresolvable", vec3(0), vec3(9), Different);
    says("unresolvable and a name", vec3(9), vec3(0), Different);
    says("a newtype is not entered", named(2), named(2), Equal);
    says("nor below a vector", vec3(2), vec3(2), Alike);
    let (one, other) = (named(2), wrapped(10, primitive(9)));
    says("a newtype and what it is", one, other, Different);
}

/// What `check` is asked about, and what it shows, turned back.
fn disguises(tests: &mut Tests) {
    let ty = wrapped(
        4,
        wrapped(11, double(8, wrapped(15, primitive(9)), primitive(1))),
    );
    let seat = schema(vec![newtype("Seat", ty)]);
    let disguised = disguised(&seat);
    let shown = |schema: &Schema| match &schema.registry[0] {
        Some(Declaration {
            body: Body::Newtype(ty),
            ..
        }) => type_display(schema, ty),
        _ => String::new(),
    };
    let wanted = "optional<map<bits { vec3! }, map<map<bits { mat4! }, f32>, u8>>>";
    tests.equal("a disguise", shown(&disguised).as_str(), wanted);
    let back = undisguised(&shown(&disguised));
    tests.equal("and back", back, shown(&seat));
    let plain = "map<bits { vec3 }, map<bits { vec3, a }, u8>>";
    tests.equal("no disguise", undisguised(plain).as_str(), plain);
}

/// 01 says equal where the answer is equal, and of disguised types where it is not
/// different.
fn random(tests: &mut Tests) {
    let mut rng = Rng::new(SEED);
    let mut met = [0; 3];
    let mut held = true;
    for _ in 0..400 {
        let [old, new, _] = mended_releases(&mut rng);
        let types = |schema: &Schema| -> Vec<Type> {
            let mut schema = schema.clone();
            let entries = schema.registry.iter_mut().flatten();
            entries.flat_map(types_of).map(|ty| ty.clone()).collect()
        };
        let hidden = [disguised(&old), disguised(&new)];
        let both = |o: &Type, n: &Type, from: &[Schema; 2]| types_equal(&from[0], o, &from[1], n);
        let seen = [old, new];
        let [old_types, new_types] = seen.each_ref().map(types);
        let [old_hidden, new_hidden] = hidden.each_ref().map(types);
        for ((o, n), (oh, nh)) in old_types
            .iter()
            .zip(&new_types)
            .zip(old_hidden.iter().zip(&new_hidden))
        {
            let answer = compared(&seen[0], o, &seen[1], n);
            met[answer as usize] += 1;
            held &= both(o, n, &seen) == (answer == Equal);
            held &= both(oh, nh, &hidden) == (answer != Different);
        }
    }
    tests.holds("01's equality, and that of disguised types", held);
    let often = met.iter().all(|times| *times > 200);
    tests.holds(&format!("each answer often: {met:?}"), often);
}
