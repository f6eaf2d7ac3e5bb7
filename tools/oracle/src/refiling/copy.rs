//! A copy of a schema that is filed anew: lists reordered, the registry
//! renumbered, every id following. Inline bits are names in order and stay.

use crate::edits::types_of;
use crate::limits::{ENTRIES, IMAGE_BYTES};
use crate::rng::Rng;
use crate::schema::*;
use crate::writer::image;

/// The copy of an accepted image's schema; its image is accepted too.
pub fn refiled(rng: &mut Rng, schema: &Schema) -> Schema {
    let filing = Filing::of(rng, schema);
    let mut copy = Schema {
        format: schema.format,
        namespace: schema.namespace.clone(),
        registry: vec![None; filing.entries as usize],
        declarations: schema.declarations.clone(),
    };
    for (entry, place) in schema.registry.iter().zip(&filing.places) {
        let (Some(declaration), Some(place)) = (entry, place) else {
            continue;
        };
        let mut declaration = declaration.clone();
        reorder(rng, &mut declaration);
        for ty in types_of(&mut declaration) {
            filing.follow_in(rng, ty);
        }
        copy.registry[*place as usize] = Some(declaration);
    }
    rng.shuffle(&mut copy.declarations);
    for id in &mut copy.declarations {
        filing.follow(rng, id);
    }
    copy
}

/// Where the entries stand in the copy.
struct Filing {
    /// By former id; an empty entry has no place.
    places: Vec<Option<u32>>,
    /// The ids of the copy's empty entries.
    empty: Vec<u32>,
    entries: u32,
}

impl Filing {
    fn of(rng: &mut Rng, schema: &Schema) -> Filing {
        let full = schema.registry.iter().flatten().count();
        let entries = (full + empty_entries(rng, schema, full)) as u32;
        let mut ids: Vec<u32> = (0..entries).collect();
        rng.shuffle(&mut ids);
        let empty = ids.split_off(full);
        let mut ids = ids.into_iter();
        let places = schema.registry.iter();
        Filing {
            places: places
                .map(|entry| entry.as_ref().and_then(|_| ids.next()))
                .collect(),
            empty,
            entries,
        }
    }

    fn follow(&self, rng: &mut Rng, id: &mut u32) {
        let place = self.places.get(*id as usize).copied().flatten();
        *id = place.unwrap_or_else(|| self.unresolvable(rng));
    }

    fn follow_in(&self, rng: &mut Rng, ty: &mut Type) {
        if let Label::Named(id) = &mut ty.label {
            self.follow(rng, id);
        }
        for inner in &mut ty.inner {
            self.follow_in(rng, inner);
        }
    }

    /// Any id that does not resolve in the copy, some rather than others: an empty
    /// entry's, N, the last of all, and one whose low half would resolve.
    fn unresolvable(&self, rng: &mut Rng) -> u32 {
        match rng.below(8) {
            0..=2 if !self.empty.is_empty() => *rng.pick(&self.empty),
            3 => self.entries,
            4 => u32::MAX,
            5 => 0x1_0000 + rng.below(self.entries as usize + 1) as u32,
            _ => {
                let over = rng.next() as u32 >> rng.below(32);
                self.entries.saturating_add(over)
            }
        }
    }
}

/// How many empty entries the copy has: as many as there were, none, some, or as
/// many as an image holds beside the full ones.
fn empty_entries(rng: &mut Rng, schema: &Schema, full: usize) -> usize {
    let had = schema.registry.len() - full;
    let bytes = image(schema).len() - 4 * had;
    let most = (usize::from(ENTRIES) - full).min((IMAGE_BYTES - bytes) / 4);
    match rng.below(16) {
        0..=5 => had,
        6..=9 => 0,
        10..=14 => most.min(had + 1 + rng.below(5)),
        _ => most,
    }
}

/// The tombstones of a body stay in it; their order is any, too.
fn reorder(rng: &mut Rng, declaration: &mut Declaration) {
    rng.shuffle(&mut declaration.tombstones);
    match &mut declaration.body {
        Body::Message(_, fields) => rng.shuffle(fields),
        Body::Enum(_, _, items) | Body::Flags(_, items) => rng.shuffle(items),
        Body::Union(variants) => {
            rng.shuffle(variants);
            for variant in variants {
                rng.shuffle(&mut variant.fields);
                rng.shuffle(&mut variant.tombstones);
            }
        }
        _ => {}
    }
}
