//! Three releases: each with the next one, and the first with the last.

use super::{of_types, vec2, vec3};
use crate::cases::Cases;
use crate::make::*;
use crate::schema::{Schema, Type};

pub fn chain(cases: &mut Cases, name: &str, releases: &[Schema; 3]) {
    let [first, second, third] = releases;
    cases.pair(&format!("{name}, 0"), first, second);
    cases.pair(&format!("{name}, 1"), second, third);
    cases.pair(&format!("{name}, first and last"), first, third);
}

pub fn add(cases: &mut Cases) {
    let mut of = |name: &str, types: [Type; 3]| {
        let releases = types.map(|ty| schema(vec![of_types(vec![ty])]));
        chain(cases, &format!("mended: chain, {name}"), &releases);
    };
    let seat = || vec3(primitive(9));
    of(
        "a vector there and back",
        [seat(), vec2(primitive(9)), seat()],
    );
    of("a vector comes", [primitive(9), seat(), vec2(seat())]);
    of("a vector kept twice", [seat(), seat(), seat()]);
    let named_at = |place: u32, deprecated: u8, name: &str| {
        let fields = vec![field(0, name, vec3(named(place))).marked(deprecated)];
        let mut entries = vec![message("M", fields)];
        entries.extend([config("none"), config("none")]);
        entries[place as usize] = config("Mode");
        schema(entries).listing(&[0])
    };
    let releases = [
        named_at(1, 0, "a"),
        named_at(2, 1, "b"),
        named_at(1, 1, "a"),
    ];
    chain(cases, "mended: chain, renamed and back", &releases);
}
