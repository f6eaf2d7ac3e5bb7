//! Random releases made for R-6: most declarations are enums or flags.

use super::mended_releases;
use super::struck::struck_releases;
use crate::edits::{edited, pick_mut, renumber};
use crate::formats::in_formats;
use crate::limits::IMAGE_BYTES;
use crate::make::*;
use crate::random::{random_id, random_item, random_schema};
use crate::rng::Rng;
use crate::schema::*;
use crate::writer::image;

/// Three releases in these formats, made for R-5 or for R-6, and where one of them has
/// tombstones mostly for R-10.
pub fn releases_in(rng: &mut Rng, formats: [u16; 3]) -> [Schema; 3] {
    let struck = formats.iter().any(|format| has_tombstones(*format));
    loop {
        let releases = match struck && !rng.once_in(3) {
            true => struck_releases(rng),
            false => match rng.below(5) {
                0 | 1 => wide_releases(rng),
                _ => mended_releases(rng),
            },
        };
        let releases = in_formats(rng, releases, formats);
        if releases.iter().all(|r| image(r).len() <= IMAGE_BYTES) {
            return releases;
        }
    }
}

/// Three releases of the first format: each mostly the next one or the same.
pub fn wide_releases(rng: &mut Rng) -> [Schema; 3] {
    let first = random_wide(rng);
    let second = release_after(rng, &first);
    let third = release_after(rng, &second);
    match rng.once_in(2) {
        true => [first, second, third],
        false => [third, second, first],
    }
}

fn random_wide(rng: &mut Rng) -> Schema {
    let most = *rng.pick(&[1, 2, 3, 5, 8]);
    let mut schema = random_schema(rng, most);
    for declaration in schema.registry.iter_mut().flatten() {
        if declaration.kind() != IMPL && !rng.once_in(5) {
            widen(rng, declaration);
        }
    }
    if rng.once_in(4) {
        import_one(rng, &mut schema);
    }
    if rng.once_in(10) {
        declare(&mut schema, alias("A"));
    }
    schema
}

fn declare(schema: &mut Schema, declaration: Declaration) {
    schema.declarations.push(schema.registry.len() as u32);
    schema.registry.push(Some(declaration));
}

/// An entry is no longer listed, and a newtype that is names it.
fn import_one(rng: &mut Rng, schema: &mut Schema) {
    let id = random_id(rng, schema.registry.len());
    schema.declarations.retain(|listed| *listed != id);
    declare(schema, newtype("Holder", named(id)));
}

/// Makes it an enum or flags.
fn widen(rng: &mut Rng, declaration: &mut Declaration) {
    let items = (0..rng.below(4)).map(|_| random_item(rng)).collect();
    let name = &declaration.name;
    *declaration = match rng.once_in(2) {
        true => enumeration(name, rng.below(4) as u8, items),
        false => flags(name, items),
    };
}

fn release_after(rng: &mut Rng, schema: &Schema) -> Schema {
    let mut next = schema.clone();
    match rng.below(8) {
        0 => return random_wide(rng),
        1..=3 => {}
        4 if !next.registry.is_empty() => renumber(rng, &mut next),
        5 | 6 if rng.once_in(2) => {
            let mut declared: Vec<&mut Declaration> = next.registry.iter_mut().flatten().collect();
            let one = pick_mut(rng, &mut declared).filter(|one| one.kind() != IMPL);
            one.into_iter().for_each(|one| widen(rng, one));
        }
        _ => next = edited(rng, &next, 2),
    }
    next
}
