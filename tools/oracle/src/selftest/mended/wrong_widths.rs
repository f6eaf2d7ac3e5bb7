//! Wrong readings of R-6, one at a time: each as the answer that it gives to two images
//! instead of the right one.

use crate::answer::{Answer, Side, Verdict};
use crate::changes::{Bump, Change, ChangeKind, Comparison};
use crate::mended;
use crate::model::{alias_pair, check, kept, refusal, surviving_declarations, Reading};
use crate::reader::read_image;
use crate::refusal::{Read, ALIAS_PAIR, BODY, CODE, MIXED};
use crate::schema::*;
use std::collections::BTreeMap;

/// Two images, and what the reader says of them.
pub struct Images {
    pub bytes: [Vec<u8>; 2],
    pub read: [Read<Schema>; 2],
}

/// What is wrong, by which verdict it is told, and the answer.
pub type Wrong = (&'static str, Verdict, fn(&Images) -> Answer);

use Verdict::{Imports, Mended, Plain};

/// The answer by a reading, of images as they were read.
pub fn answer([old, new]: &[Read<Schema>; 2], reading: Reading) -> Answer {
    match (old, new) {
        (Err(refusal), _) => Answer::refused(refusal.number, Side::Old),
        (_, Err(refusal)) => Answer::refused(refusal.number, Side::New),
        (Ok(old), Ok(new)) => match refusal(old, new, reading) {
            Some(number) => Answer::refused(number, Side::Both),
            None => Answer::of(&check(old, new, reading)),
        },
    }
}

/// 16 where this holds of the formats, by the mended verdict.
fn mixed_if(images: &Images, mixed: fn(&Schema, &Schema) -> bool) -> Answer {
    let reading = Mended.reading();
    answer(&images.read, Reading { mixed, ..reading })
}

/// Other widths are reported.
fn reported(
    images: &Images,
    width_change: fn(&Declaration, &Declaration) -> Option<[u8; 2]>,
) -> Answer {
    let reading = Mended.reading();
    let reading = Reading {
        width_change,
        ..reading
    };
    answer(&images.read, reading)
}

/// The right comparison with its changes done in another way, where there is one.
pub fn told(images: &Images, change: fn(&[Schema; 2], Vec<Change>) -> Vec<Change>) -> Answer {
    let reading = Mended.reading();
    let right = answer(&images.read, reading);
    let ([Ok(old), Ok(new)], 0) = (&images.read, right.number) else {
        return right;
    };
    let changes = check(old, new, reading).changes;
    let changes = change(&[old.clone(), new.clone()], changes);
    Answer::of(&Comparison::of(changes))
}

fn is_width(change: &Change) -> bool {
    change.kind == ChangeKind::WidthChanged
}

/// Each line on a width moves behind those of its declaration that follow and are so.
fn behind(mut changes: Vec<Change>, so: fn(&Change) -> bool) -> Vec<Change> {
    for place in (0..changes.len()).rev() {
        let mut at = place;
        while is_width(&changes[at])
            && changes
                .get(at + 1)
                .is_some_and(|next| next.declaration == changes[at].declaration && so(next))
        {
            changes.swap(at, at + 1);
            at += 1;
        }
    }
    changes
}

/// A line on the widths where kinds differ, before that on the kinds.
fn across_kinds([old, new]: &[Schema; 2], changes: Vec<Change>) -> Vec<Change> {
    let (old, new) = (surviving_declarations(old), surviving_declarations(new));
    let widths: BTreeMap<&str, [u8; 2]> = kept(&old, &new)
        .filter_map(|(name, o, n)| Some((*name, [width(o)?, width(n)?])))
        .filter(|(_, [old, new])| old != new)
        .collect();
    let of_kind = |change: &Change| {
        let [from, to] = *widths.get(change.declaration.as_str())?;
        (change.kind == ChangeKind::DeclarationKindChanged).then(|| Change {
            kind: ChangeKind::WidthChanged,
            detail: format!("width changed from {from} to {to}"),
            ..change.clone()
        })
    };
    let changes = changes.into_iter();
    changes
        .flat_map(|change| of_kind(&change).into_iter().chain([change]))
        .collect()
}

fn width(declaration: &Declaration) -> Width {
    match declaration.body {
        Body::Enum(_, width, _) | Body::Flags(width, _) => width,
        _ => None,
    }
}

/// Of declarations of one name the width of the first listed.
fn first_widths(schema: &Schema) -> Schema {
    let mut first = BTreeMap::new();
    for declaration in schema.declarations.iter().filter_map(|id| schema.get(*id)) {
        let key = (declaration.kind(), declaration.name.clone());
        first.entry(key).or_insert(width(declaration));
    }
    let mut schema = schema.clone();
    for declaration in schema.registry.iter_mut().flatten() {
        let found = first.get(&(declaration.kind(), declaration.name.clone()));
        if let (Some(place), Some(first)) = (declaration.width_mut(), found) {
            *place = *first;
        }
    }
    schema
}

/// The images as another reader reads them.
fn read_by(images: &Images, verdict: Verdict, read: fn(&[u8]) -> Read<Schema>) -> Answer {
    let read = images.bytes.each_ref().map(|image| read(image));
    answer(&read, verdict.reading())
}

/// The image with its format turned into this one, if it is so.
fn as_format(image: &[u8], so: fn(u16) -> bool, format: fn(u16) -> u16) -> Read<Schema> {
    let mut image = image.to_vec();
    if let [low, high, ..] = image[..] {
        let found = u16::from_le_bytes([low, high]);
        if so(found) {
            image[..2].copy_from_slice(&format(found).to_le_bytes());
        }
    }
    read_image(&image)
}

/// Flags may have other widths, too.
fn flags_of(image: &[u8], allowed: fn(u8) -> bool) -> Read<Schema> {
    let mut read = read_image(image);
    let mut image = image.to_vec();
    // What is refused is put right, and the next looked at.
    while let Err(refusal) = &read {
        let of_width = (refusal.number, refusal.what) == (CODE, "width");
        let (Some(at), true) = (refusal.at, of_width && allowed(refusal.value as u8)) else {
            break;
        };
        image[at] = 1;
        read = read_image(&image);
    }
    read
}

/// The width is judged once the count is read.
fn after_count(image: &[u8]) -> Read<Schema> {
    read_image(image).map_err(|mut refusal| {
        if (refusal.number, refusal.what) == (CODE, "width") {
            let (at, id) = (refusal.at.unwrap_or(0), refusal.entry.unwrap_or(0));
            let number = |at: usize| usize::from(u16::from_le_bytes([image[at], image[at + 1]]));
            let end = number(8 + 4 * id) + number(10 + 4 * id);
            if end < at + 3 {
                refusal.number = BODY;
            }
        }
        refusal
    })
}

/// An enum's wire bits are as the wire bytes of flags.
fn enums_as_flags(image: &[u8]) -> Read<Schema> {
    let schema = read_image(image)?;
    let mut entries = schema.registry.iter().flatten();
    let wrong = entries.any(|d| width(d).is_some_and(|width| !WIRE_BYTES.contains(&width)));
    match wrong {
        true => Err(crate::refusal::Refusal::new(CODE, "width", 0)),
        false => Ok(schema),
    }
}

/// The format that a head says, where there is one.
fn head_format(image: &[u8]) -> Option<u16> {
    match image {
        [low, high, _, _, _, _, _, _, ..] => Some(u16::from_le_bytes([*low, *high])),
        _ => None,
    }
}

pub const WRONG: [Wrong; 38] = [
    ("a width by 01", Plain, |images| {
        let width_change = mended::width_change;
        let reading = Plain.reading();
        answer(
            &images.read,
            Reading {
                width_change,
                ..reading
            },
        )
    }),
    ("a width with imports", Imports, |images| {
        let width_change = mended::width_change;
        let reading = Imports.reading();
        answer(
            &images.read,
            Reading {
                width_change,
                ..reading
            },
        )
    }),
    ("16 by 01", Plain, |images| {
        let mixed = mended::mixed;
        let reading = Plain.reading();
        answer(&images.read, Reading { mixed, ..reading })
    }),
    ("16 with imports", Imports, |images| {
        let mixed = mended::mixed;
        let reading = Imports.reading();
        answer(&images.read, Reading { mixed, ..reading })
    }),
    ("no 16", Mended, |images| mixed_if(images, |_, _| false)),
    ("16 for two images of format 2", Mended, |images| {
        mixed_if(images, |_, _| true)
    }),
    ("16 only where the formats differ", Mended, |images| {
        mixed_if(images, |old, new| old.format != new.format)
    }),
    ("16 only where both are of format 1", Mended, |images| {
        mixed_if(images, |old, new| [old.format, new.format] == [1; 2])
    }),
    ("16 by the old image", Mended, |images| {
        mixed_if(images, |old, _| old.format == 1)
    }),
    ("16 by the new image", Mended, |images| {
        mixed_if(images, |_, new| new.format == 1)
    }),
    ("16 where there are enums or flags", Mended, |images| {
        mixed_if(images, |old, new| {
            let mut entries = [old, new].into_iter().flat_map(|s| &s.registry).flatten();
            let held = entries.any(|d| [1, 2].contains(&d.kind()));
            held && mended::mixed(old, new)
        })
    }),
    ("16 before 1 to 10", Mended, |images| {
        let right = answer(&images.read, Mended.reading());
        let mut formats = images.bytes.iter().map(|image| head_format(image));
        match formats.any(|format| format == Some(1)) {
            true => Answer::refused(MIXED, Side::Both),
            false => right,
        }
    }),
    (
        "16 before the new image is read",
        Mended,
        |images| match &images.read[0] {
            Ok(old) if old.format == 1 => Answer::refused(MIXED, Side::Both),
            _ => answer(&images.read, Mended.reading()),
        },
    ),
    ("16 after 11", Mended, |images| match &images.read {
        [Ok(old), Ok(new)] if alias_pair(old, new, Mended.reading()) => {
            Answer::refused(ALIAS_PAIR, Side::Both)
        }
        read => answer(read, Mended.reading()),
    }),
    ("16 of one side", Mended, |images| {
        let right = answer(&images.read, Mended.reading());
        match &images.read {
            [Ok(old), Ok(new)] if right.number == MIXED => match [old.format, new.format] {
                [1, 2] => Answer::refused(MIXED, Side::Old),
                [2, 1] => Answer::refused(MIXED, Side::New),
                _ => right,
            },
            _ => right,
        }
    }),
    ("no width", Mended, |images| reported(images, |_, _| None)),
    ("only a wider one", Mended, |images| {
        reported(images, |old, new| {
            mended::width_change(old, new).filter(|[old, new]| old < new)
        })
    }),
    ("only a narrower one", Mended, |images| {
        reported(images, |old, new| {
            mended::width_change(old, new).filter(|[old, new]| old > new)
        })
    }),
    ("only that of flags", Mended, |images| {
        reported(images, |old, new| {
            mended::width_change(old, new).filter(|_| old.kind() == 2)
        })
    }),
    ("only that of an enum", Mended, |images| {
        reported(images, |old, new| {
            mended::width_change(old, new).filter(|_| old.kind() == 1)
        })
    }),
    ("wire bytes told as bits", Mended, |images| {
        reported(images, |old, new| {
            let widths = mended::width_change(old, new);
            match old.kind() {
                2 => widths.map(|widths| widths.map(|bytes| 8 * bytes)),
                _ => widths,
            }
        })
    }),
    ("0 for no width", Mended, |images| {
        reported(images, |old, new| {
            mended::width_change(old, new).filter(|widths| !widths.contains(&0))
        })
    }),
    ("the other way round", Mended, |images| {
        reported(images, |old, new| mended::width_change(new, old))
    }),
    ("that of the first of two", Mended, |images| {
        let read = images
            .read
            .clone()
            .map(|read| read.map(|s| first_widths(&s)));
        answer(&read, Mended.reading())
    }),
    ("after NonExhaustiveChanged", Mended, |images| {
        told(images, |_, changes| {
            behind(changes, |next| {
                next.kind == ChangeKind::NonExhaustiveChanged
            })
        })
    }),
    ("last in its declaration", Mended, |images| {
        told(images, |_, changes| behind(changes, |_| true))
    }),
    ("before all others", Mended, |images| {
        told(images, |_, changes| {
            let (widths, others): (Vec<_>, Vec<_>) = changes.into_iter().partition(is_width);
            [widths, others].concat()
        })
    }),
    ("Minor", Mended, |images| {
        told(images, |_, mut changes| {
            let widths = changes.iter_mut().filter(|change| is_width(change));
            widths.for_each(|change| change.bump = Bump::Minor);
            changes
        })
    }),
    ("with a field", Mended, |images| {
        told(images, |_, mut changes| {
            let widths = changes.iter_mut().filter(|change| is_width(change));
            widths.for_each(|change| change.field = Some(change.declaration.clone()));
            changes
        })
    }),
    (
        "that of declarations whose kinds differ",
        Mended,
        |images| told(images, across_kinds),
    ),
    ("a width in format 1", Plain, |images| {
        read_by(images, Plain, |image| {
            as_format(image, |format| format == 1, |_| 2)
        })
    }),
    ("no width in format 2", Plain, |images| {
        read_by(images, Plain, |image| {
            as_format(image, |format| format == 2, |_| 1)
        })
    }),
    ("format 4 is known", Plain, |images| {
        read_by(images, Plain, |image| {
            as_format(image, |format| format == 4, |_| 2)
        })
    }),
    ("a format of one byte", Plain, |images| {
        read_by(images, Plain, |image| {
            as_format(image, |_| true, |format| format % 256)
        })
    }),
    ("flags of any width", Plain, |images| {
        read_by(images, Plain, |image| flags_of(image, |_| true))
    }),
    ("flags of 0", Plain, |images| {
        read_by(images, Plain, |image| flags_of(image, |bytes| bytes == 0))
    }),
    ("an enum's width as that of flags", Plain, |images| {
        read_by(images, Plain, enums_as_flags)
    }),
    ("9 after the count", Plain, |images| {
        read_by(images, Plain, after_count)
    }),
];
