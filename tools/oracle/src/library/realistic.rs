//! Random releases of the size and shape of real ones: as many declarations as
//! asked for, each with a name of its own, and ordinals that count up.

use crate::edits::edited;
use crate::formats::in_formats;
use crate::limits::IMAGE_BYTES;
use crate::make::schema;
use crate::random::random_declaration;
use crate::rng::Rng;
use crate::schema::{Body, Declaration, Schema, GENERIC_ALIAS, IMPL};
use crate::writer::image;

const MOST_EDITS: usize = 6;

/// The images of a release with so many declarations and of the next one, of one format.
pub fn releases(rng: &mut Rng, declarations: usize, format: u16) -> (Vec<u8>, Vec<u8>) {
    loop {
        let old = release(rng, declarations);
        let new = edited(rng, &old, MOST_EDITS);
        let [old, new] = in_formats(rng, [old, new], [format; 2]).map(|s| image(&s));
        if old.len().max(new.len()) <= IMAGE_BYTES {
            return (old, new);
        }
    }
}

fn release(rng: &mut Rng, declarations: usize) -> Schema {
    let declared = (0..declarations).map(|place| declaration(rng, place, declarations));
    schema(declared.collect())
}

/// No impl, which has no name, and no generic alias, which both images would have.
fn declaration(rng: &mut Rng, place: usize, declarations: usize) -> Declaration {
    loop {
        let mut declaration = random_declaration(rng, declarations);
        if ![GENERIC_ALIAS, IMPL].contains(&declaration.kind()) {
            declaration.name += &format!("_{place}");
            number_items(&mut declaration.body);
            return declaration;
        }
    }
}

fn number_items(body: &mut Body) {
    match body {
        Body::Message(_, fields) => count_up(fields.iter_mut().map(|f| &mut f.ordinal)),
        Body::Enum(_, _, items) | Body::Flags(_, items) => {
            count_up(items.iter_mut().map(|i| &mut i.ordinal));
        }
        Body::Union(variants) => {
            count_up(variants.iter_mut().map(|v| &mut v.ordinal));
            for variant in variants {
                count_up(variant.fields.iter_mut().map(|f| &mut f.ordinal));
            }
        }
        _ => {}
    }
}

fn count_up<'a>(ordinals: impl Iterator<Item = &'a mut u32>) {
    ordinals.zip(0..).for_each(|(ordinal, n)| *ordinal = n);
}
