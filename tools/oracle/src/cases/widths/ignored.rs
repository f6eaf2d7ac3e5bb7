//! What the earlier verdicts and the listing ignore: the same pairs in every format, and
//! with other widths.

use super::mixed::in_each_format;
use crate::cases::rich::rich;
use crate::cases::{mixed, Cases};
use crate::formats::{in_formats, SECOND_FORMAT};
use crate::make::*;
use crate::refiling::unrepeated_releases;
use crate::rng::Rng;
use crate::schema::Schema;

pub fn add(cases: &mut Cases) {
    let (old, new) = (mixed::before(), mixed::after());
    in_each_format(cases, "widths: every kind of change", &old, &new);
    in_each_format(cases, "widths: every kind of change, back", &new, &old);
    in_each_format(cases, "widths: rich", &rich(), &rich());
    in_each_format(cases, "widths: rich and another", &rich(), &new);
    widened(cases, "every kind of change", &old, &new);
    widened(cases, "rich", &rich(), &rich());
    imported(cases);
    releases(cases);
}

/// In format 2, with other widths on one side or on both.
fn widened(cases: &mut Cases, name: &str, old: &Schema, new: &Schema) {
    let mut rng = Rng::new(6);
    let formats = [SECOND_FORMAT; 2];
    for n in 0..3 {
        let [old, new] = in_formats(&mut rng, [old.clone(), new.clone()], formats);
        cases.pair(&format!("widths: {name}, widths {n}"), &old, &new);
    }
}

/// With imports, too, where enums and flags are reached.
fn imported(cases: &mut Cases) {
    let of = |code, list: &[(u32, &str)]| {
        let entries = vec![
            newtype("N", double(8, named(1), named(2))),
            enumeration("E", 2, items(list)),
            flags("F", items(list)),
            message("M", vec![field(0, "f", primitive(code))]),
        ];
        schema(entries).listing(&[0, 3])
    };
    let (old, new) = (of(1, &[(0, "a")]), of(1, &[(0, "a"), (9, "b")]));
    in_each_format(cases, "widths: imports", &old, &new);
    widened(cases, "imports", &old, &new);
    let new = of(2, &[]);
    in_each_format(cases, "widths: imports, and a field", &old, &new);
}

/// Random releases, each pair in all formats.
fn releases(cases: &mut Cases) {
    let mut rng = Rng::new(66);
    for n in 0..12 {
        let [old, new] = unrepeated_releases(&mut rng, 6);
        let name = format!("widths: release {n}");
        in_each_format(cases, &name, &old, &new);
        widened(cases, &format!("release {n}"), &old, &new);
    }
}
