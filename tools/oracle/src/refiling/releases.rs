//! Random releases in which nothing repeats, and pairs of them with copies.

use super::refiled;
use crate::edits::edited;
use crate::formats::{any_formats, in_formats};
use crate::limits::IMAGE_BYTES;
use crate::make::implementation;
use crate::random::{random_id, random_name, random_schema};
use crate::rng::Rng;
use crate::schema::*;
use crate::writer::image;
use std::collections::BTreeSet;

/// An image, then a copy of it that is filed anew, each of any format.
pub type FiledTwice = [Vec<u8>; 2];

/// The images of a random pair without repeats, each with a copy.
pub fn filed_pair(rng: &mut Rng) -> [FiledTwice; 2] {
    let most = match rng.once_in(200) {
        true => 150,
        false => *rng.pick(&[1, 3, 8, 24]),
    };
    let releases = unrepeated_releases(rng, most);
    releases.map(|release| {
        let [format, other] = any_formats(rng);
        let [release] = in_formats(rng, [release], [format]);
        let mut copy = refiled(rng, &release);
        // Else widths and tombstones are those of the release.
        if format != other || rng.once_in(2) {
            [copy] = in_formats(rng, [copy], [other]);
        }
        [release, copy].map(|schema| image(&schema))
    })
}

/// A release and mostly the next one, else another or the same.
pub fn unrepeated_releases(rng: &mut Rng, most_entries: usize) -> [Schema; 2] {
    loop {
        let old = unrepeated(rng, most_entries);
        let new = match rng.below(10) {
            0 => unrepeated(rng, most_entries),
            1 => old.clone(),
            _ => {
                let new = edited(rng, &old, 6);
                mended(rng, new)
            }
        };
        let releases = [old, new];
        if releases.iter().all(|r| image(r).len() <= IMAGE_BYTES) {
            return releases;
        }
    }
}

fn unrepeated(rng: &mut Rng, most_entries: usize) -> Schema {
    let mut schema = random_schema(rng, most_entries);
    for _ in 0..rng.below(6).saturating_sub(2) {
        add_entry(rng, &mut schema);
    }
    mended(rng, schema)
}

/// One impl or empty entry more, listed once or twice, or not at all.
fn add_entry(rng: &mut Rng, schema: &mut Schema) {
    let id = schema.registry.len();
    schema.registry.push(rng.once_in(2).then(implementation));
    for _ in 0..rng.below(3) {
        let place = rng.below(schema.declarations.len() + 1);
        schema.declarations.insert(place, random_id(rng, id + 1));
        schema.declarations.push(id as u32);
    }
}

/// The schema with other names and numbers where they repeat.
fn mended(rng: &mut Rng, mut schema: Schema) -> Schema {
    mend_names(rng, &mut schema);
    for declaration in schema.registry.iter_mut().flatten() {
        mend_numbers(rng, &mut declaration.body);
    }
    schema
}

/// Impls keep their name. Of one id listed twice the second place goes.
fn mend_names(rng: &mut Rng, schema: &mut Schema) {
    let listed = std::mem::take(&mut schema.declarations);
    let is_impl = |id: &u32| schema.get(*id).is_some_and(|d| d.kind() == IMPL);
    let mut taken: BTreeSet<String> = listed
        .iter()
        .filter(|id| is_impl(id))
        .map(|_| String::new())
        .collect();
    let mut met = BTreeSet::new();
    for id in listed {
        let entry = schema
            .registry
            .get_mut(id as usize)
            .and_then(Option::as_mut);
        if let Some(declaration) = entry.filter(|d| d.kind() != IMPL) {
            if !met.insert(id) {
                continue;
            }
            while !taken.insert(declaration.name.clone()) {
                declaration.name = format!("{}{}", random_name(rng), rng.below(100));
            }
        }
        schema.declarations.push(id);
    }
}

fn mend_numbers(rng: &mut Rng, body: &mut Body) {
    match body {
        Body::Message(_, fields) => mend_list(rng, fields, |field| &mut field.ordinal),
        Body::Enum(_, _, items) | Body::Flags(_, items) => {
            mend_list(rng, items, |item| &mut item.ordinal)
        }
        Body::Union(variants) => {
            mend_list(rng, variants, |variant| &mut variant.ordinal);
            for variant in variants {
                mend_list(rng, &mut variant.fields, |field| &mut field.ordinal);
            }
        }
        _ => {}
    }
}

fn mend_list<T>(rng: &mut Rng, list: &mut [T], ordinal: impl Fn(&mut T) -> &mut u32) {
    let mut taken = BTreeSet::new();
    for ordinal in list.iter_mut().map(ordinal) {
        while !taken.insert(*ordinal) {
            *ordinal = rng.next() as u32 >> rng.below(32);
        }
    }
}
