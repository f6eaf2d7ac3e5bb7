//! Random releases made for R-10: most declarations number what they hold, and from one
//! release to the next numbers go and come.

use crate::edits::{edited, pick_mut, renumber};
use crate::make::*;
use crate::random::*;
use crate::rng::Rng;
use crate::schema::*;
use crate::struck::any_ordinal;

/// Three releases of the first format: each mostly the next one or the same.
pub fn struck_releases(rng: &mut Rng) -> [Schema; 3] {
    let first = random_numbered(rng);
    let second = release_after(rng, &first);
    let third = release_after(rng, &second);
    match rng.once_in(3) {
        true => [third, second, first],
        false => [first, second, third],
    }
}

fn random_numbered(rng: &mut Rng) -> Schema {
    let most = *rng.pick(&[1, 2, 3, 5]);
    let mut schema = random_schema(rng, most);
    let entries = schema.registry.len();
    for declaration in schema.registry.iter_mut().flatten() {
        if declaration.kind() != IMPL && !rng.once_in(6) {
            declaration.body = numbered(rng, entries);
        }
    }
    if rng.once_in(24) {
        schema.declarations.push(entries as u32);
        schema.registry.push(Some(alias("A")));
    }
    schema
}

/// Some items of a message, an enum, flags or, more often, a union.
fn numbered(rng: &mut Rng, entries: usize) -> Body {
    let count = 0..rng.below(4);
    match rng.below(5) {
        0 => {
            let fields = count.map(|_| random_field(rng, entries)).collect();
            Body::Message(Marks::of(rng.below(4) as u8), fields)
        }
        1 => {
            let items = count.map(|_| random_item(rng)).collect();
            Body::Enum(Marks::of(rng.below(4) as u8), None, items)
        }
        2 => Body::Flags(None, count.map(|_| random_item(rng)).collect()),
        _ => Body::Union(count.map(|_| random_variant(rng, entries)).collect()),
    }
}

fn release_after(rng: &mut Rng, schema: &Schema) -> Schema {
    let mut next = schema.clone();
    match rng.below(12) {
        0 => return random_numbered(rng),
        1 | 2 => {}
        3 if !next.registry.is_empty() => renumber(rng, &mut next),
        4 | 5 => next = edited(rng, &next, 2),
        _ => {
            let entries = next.registry.len();
            for _ in 0..1 + rng.below(3) {
                let declared = next.registry.iter_mut().flatten();
                let mut numbering: Vec<_> = declared.filter(|d| d.strikes_off()).collect();
                if let Some(one) = pick_mut(rng, &mut numbering) {
                    turn(rng, &mut one.body, entries);
                }
            }
        }
    }
    next
}

fn turn(rng: &mut Rng, body: &mut Body, entries: usize) {
    let some_field = |rng: &mut Rng| random_field(rng, entries);
    match body {
        Body::Message(marks, _) | Body::Enum(marks, _, _) if rng.once_in(5) => {
            *marks = Marks::of(rng.below(4) as u8);
        }
        Body::Message(_, fields) => turn_list(rng, fields, some_field, |f| &mut f.ordinal),
        Body::Enum(_, _, items) | Body::Flags(_, items) => {
            turn_list(rng, items, random_item, |item| &mut item.ordinal);
        }
        Body::Union(variants) => match pick_mut(rng, variants) {
            Some(variant) if rng.once_in(8) => variant.name = random_name(rng),
            Some(variant) if !rng.once_in(3) => {
                turn_list(rng, &mut variant.fields, some_field, |f| &mut f.ordinal);
            }
            _ => {
                let some_variant = |rng: &mut Rng| random_variant(rng, entries);
                turn_list(rng, variants, some_variant, |v| &mut v.ordinal);
            }
        },
        _ => {}
    }
}

/// One more, one less, or one of another number.
fn turn_list<T>(
    rng: &mut Rng,
    list: &mut Vec<T>,
    make: impl Fn(&mut Rng) -> T,
    ordinal: impl Fn(&mut T) -> &mut u32,
) {
    if list.is_empty() || list.len() < 6 && rng.once_in(3) {
        list.push(make(rng));
        return;
    }
    let place = rng.below(list.len());
    match rng.once_in(2) {
        true => *ordinal(&mut list[place]) = any_ordinal(rng),
        false => {
            list.remove(place);
        }
    }
}
