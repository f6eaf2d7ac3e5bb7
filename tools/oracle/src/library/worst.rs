//! Legal pairs on which the library takes longest, as far as was found. A search passes
//! over every item, so that its time grows with the square of how many there are, and
//! with what can't be foretold of each. Of all orders a random one takes longest, and of
//! all pairs those in which everything is removed and something else is added.

use crate::formats::SECOND_FORMAT;
use crate::limits::{ENTRIES, IMAGE_BYTES};
use crate::make::*;
use crate::record::SEED;
use crate::rng::Rng;
use crate::schema::{Declaration, Field, Schema, Type};
use crate::writer::image;

/// A name, and the images.
pub type Named = (String, Vec<u8>, Vec<u8>);

/// Past all numbers of an old image.
const OTHERS: u32 = 1 << 16;

pub fn pairs() -> Vec<Named> {
    let mut rng = Rng::new(SEED);
    let field_types: [(&str, fn(&mut Rng) -> Type); 3] = [
        ("fields of `bits` with 16 empty names", |_| bits(&[""; 16])),
        ("fields of `u16`", |_| primitive(2)),
        ("fields of random types and encodings", |rng| {
            random_type(rng, 1)
        }),
    ];
    let mut pairs: Vec<Named> = field_types
        .map(|(what, ty)| {
            let next = |rng: &mut Rng, n| coded(field(n, "", ty(rng)), rng);
            pair(&mut rng, what, |fields| message("", fields), next)
        })
        .into();
    let variants = |variants| union("", variants);
    let next = |_: &mut Rng, n| variant(n, "", Vec::new());
    pairs.push(pair(
        &mut rng,
        "union variants without fields",
        variants,
        next,
    ));
    let variants = |items| enumeration("", 0, items);
    let next = |_: &mut Rng, n| item(n, "");
    pairs.push(pair(&mut rng, "enum variants", variants, next));
    pairs.push(long_names());
    pairs
}

/// Default or varint: one more thing that can't be foretold.
fn coded(field: Field, rng: &mut Rng) -> Field {
    let base = rng.below(2) as u8;
    field.encoded(0, base)
}

/// Nothing about the next node can be foretold, and most take one byte.
fn random_type(rng: &mut Rng, node: usize) -> Type {
    if node == 32 || rng.below(100) >= 45 {
        return [primitive(2), bits(&[]), semantic(1)][rng.below(3)].clone();
    }
    match rng.once_in(3) {
        true => double(9, random_type(rng, node + 1), random_type(rng, node + 1)),
        false => wrapped(4, random_type(rng, node + 1)),
    }
}

/// Of format 2, which every call takes, and without a namespace.
fn of_schema(schema: Schema) -> Vec<u8> {
    image(&schema.in_namespace(&[]).in_format(SECOND_FORMAT))
}

/// One declaration with as many items as there is room for, under numbers from `first`
/// on, in a random order: the image, and how many.
fn filled<T: Clone>(
    rng: &mut Rng,
    first: u32,
    declared: impl Fn(Vec<T>) -> Declaration,
    next: impl Fn(&mut Rng, u32) -> T,
) -> (Vec<u8>, usize) {
    let image_of = |items| of_schema(schema(vec![declared(items)]));
    let front = image_of(Vec::new()).len();
    let mut room = IMAGE_BYTES - front;
    let mut items = Vec::new();
    for number in first.. {
        let item = next(rng, number);
        let length = image_of(vec![item.clone()]).len() - front;
        if length > room {
            break;
        }
        room -= length;
        items.push(item);
    }
    rng.shuffle(&mut items);
    let count = items.len();
    (image_of(items), count)
}

/// All items of such a declaration are removed, and others are added.
fn pair<T: Clone>(
    rng: &mut Rng,
    what: &str,
    declared: impl Fn(Vec<T>) -> Declaration,
    next: impl Fn(&mut Rng, u32) -> T,
) -> Named {
    let (old, count) = filled(rng, 0, &declared, &next);
    let (new, _) = filled(rng, OTHERS, &declared, &next);
    (format!("{count} {what}, others added"), old, new)
}

/// As many declarations as may be, with names that differ at their ends only and fall,
/// each in a newtype that names the next: with imports each is listed and reached.
fn long_names() -> Named {
    let count = u32::from(ENTRIES);
    // Of an entry's share its name has all but the entry, the id and the body's others.
    let length = (IMAGE_BYTES - 8) / usize::from(ENTRIES) - 4 - 4 - 7;
    let image_of = |mark: char| {
        let declared = (0..count).map(|n| {
            let end = format!("{mark}{:03}", count - 1 - n);
            let name = "n".repeat(length - end.len()) + &end;
            newtype(&name, named((n + 1) % count))
        });
        of_schema(schema(declared.collect()))
    };
    let name = format!("{count} newtypes with names of {length} bytes, others added");
    (name, image_of('a'), image_of('b'))
}
