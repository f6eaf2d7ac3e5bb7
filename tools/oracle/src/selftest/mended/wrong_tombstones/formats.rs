//! What is read of format 3, and what is refused by 16.

use crate::answer::{Answer, Side, Verdict};
use crate::mended;
use crate::model::{alias_pair, Reading};
use crate::reader::read_image;
use crate::refusal::{Read, Refusal, ALIAS_PAIR, BODY, CODE, CONTENTS, MIXED};
use crate::schema::*;
use crate::selftest::mended::wrong_widths::{answer, Images, Wrong};
use std::collections::BTreeSet;

use Verdict::{Imports, Mended, Plain};

/// 16 where this holds of the two schemas.
fn mixed_if(images: &Images, verdict: Verdict, mixed: fn(&Schema, &Schema) -> bool) -> Answer {
    let reading = verdict.reading();
    answer(&images.read, Reading { mixed, ..reading })
}

/// The images as another reader reads them.
fn read_by(images: &Images, read: fn(&[u8]) -> Read<Schema>) -> Answer {
    let read = images.bytes.each_ref().map(|image| read(image));
    answer(&read, Plain.reading())
}

/// The image with this format in its head turned into another.
fn as_format(image: &[u8], from: u16, to: u16) -> Read<Schema> {
    let mut image = image.to_vec();
    if image.starts_with(&from.to_le_bytes()) {
        image[..2].copy_from_slice(&to.to_le_bytes());
    }
    read_image(&image)
}

/// Another number for a body that ends inside its tombstones.
fn ends_by(image: &[u8], number: u8) -> Read<Schema> {
    read_image(image).map_err(|refusal| match refusal.what {
        "tombstone" | "tombstone count" => Refusal { number, ..refusal },
        _ => refusal,
    })
}

/// Refuses an accepted image for what a body uses and strikes off.
fn refused_if(image: &[u8], number: u8, wrong: fn(&[u32], &[u32]) -> bool) -> Read<Schema> {
    let schema = read_image(image)?;
    let holds = schema.registry.iter().flatten().any(|declaration| {
        let variants = match &declaration.body {
            Body::Union(variants) => &variants[..],
            _ => &[],
        };
        let mut variants = variants.iter();
        wrong(&declaration.used(), &declaration.tombstones)
            || variants.any(|v| wrong(&ordinals(&v.fields), &v.tombstones))
    });
    match holds {
        true => Err(Refusal::new(number, "tombstone", 0)),
        false => Ok(schema),
    }
}

/// The format that a head says, where there is one.
fn head_format(image: &[u8]) -> Option<u16> {
    match image {
        [low, high, _, _, _, _, _, _, ..] => Some(u16::from_le_bytes([*low, *high])),
        _ => None,
    }
}

fn thirds(old: &Schema, new: &Schema) -> [bool; 2] {
    [old, new].map(|schema| schema.format == 3)
}

fn first(old: &Schema, new: &Schema) -> bool {
    old.format == 1 || new.format == 1
}

pub const WRONG: [Wrong; 26] = [
    ("16 by 01", Plain, |images| {
        mixed_if(images, Plain, mended::mixed)
    }),
    ("16 with imports", Imports, |images| {
        mixed_if(images, Imports, mended::mixed)
    }),
    ("16 as in R-6", Mended, |images| {
        mixed_if(images, Mended, first)
    }),
    ("16 for two images of format 3", Mended, |images| {
        mixed_if(images, Mended, |old, new| {
            first(old, new) || thirds(old, new) != [false; 2]
        })
    }),
    ("16 for two images of format 2", Mended, |images| {
        mixed_if(images, Mended, |old, new| thirds(old, new) != [true; 2])
    }),
    ("16 only where the formats differ", Mended, |images| {
        mixed_if(images, Mended, |old, new| old.format != new.format)
    }),
    ("no 16 for 1 against 3", Mended, |images| {
        mixed_if(images, Mended, |old, new| {
            mended::mixed(old, new) && old.format.abs_diff(new.format) < 2
        })
    }),
    ("no 16 for an old image of format 3", Mended, |images| {
        mixed_if(images, Mended, |old, new| {
            first(old, new) || thirds(old, new) == [false, true]
        })
    }),
    ("no 16 for a new image of format 3", Mended, |images| {
        mixed_if(images, Mended, |old, new| {
            first(old, new) || thirds(old, new) == [true, false]
        })
    }),
    ("16 only where a number is struck off", Mended, |images| {
        mixed_if(images, Mended, |old, new| {
            let mut entries = [old, new].into_iter().flat_map(|s| &s.registry).flatten();
            let struck = entries.any(|declaration| !declaration.tombstones.is_empty());
            first(old, new) || mended::mixed(old, new) && struck
        })
    }),
    ("16 after 11", Mended, |images| match &images.read {
        [Ok(old), Ok(new)] if alias_pair(old, new, Mended.reading()) => {
            Answer::refused(ALIAS_PAIR, Side::Both)
        }
        read => answer(read, Mended.reading()),
    }),
    ("16 before 1 to 10", Mended, |images| {
        let formats = images.bytes.each_ref().map(|image| head_format(image));
        match formats {
            [Some(2), Some(3)] | [Some(3), Some(2)] => Answer::refused(MIXED, Side::Both),
            _ => answer(&images.read, Mended.reading()),
        }
    }),
    ("16 of the side of format 3", Mended, |images| {
        let right = answer(&images.read, Mended.reading());
        match &images.read {
            [Ok(old), Ok(new)] if right.number == MIXED => match thirds(old, new) {
                [true, false] => Answer::refused(MIXED, Side::Old),
                [false, true] => Answer::refused(MIXED, Side::New),
                _ => right,
            },
            _ => right,
        }
    }),
    ("format 3 is not known", Plain, |images| {
        read_by(images, |image| as_format(image, 3, 4))
    }),
    ("format 4 is known", Plain, |images| {
        read_by(images, |image| as_format(image, 4, 3))
    }),
    ("no tombstones in format 3", Plain, |images| {
        read_by(images, |image| as_format(image, 3, 2))
    }),
    ("tombstones in format 2", Plain, |images| {
        read_by(images, |image| as_format(image, 2, 3))
    }),
    ("tombstones in format 1", Plain, |images| {
        read_by(images, |image| as_format(image, 1, 3))
    }),
    ("a format of one byte", Plain, |images| {
        read_by(images, |image| as_format(image, 259, 3))
    }),
    ("no widths in format 3", Plain, |images| {
        read_by(images, |image| {
            // What they stand for would be a count.
            let schema = read_image(image)?;
            let mut entries = schema.registry.iter().flatten();
            match schema.format == 3 && entries.any(|d| [1, 2].contains(&d.kind())) {
                true => Err(Refusal::new(BODY, "width", 0)),
                false => Ok(schema),
            }
        })
    }),
    ("widths not compared in format 3", Mended, |images| {
        let reading = Mended.reading();
        let third = |image: &Read<Schema>| image.as_ref().is_ok_and(|s| s.format == 3);
        match images.read.iter().all(third) {
            true => answer(
                &images.read,
                Reading {
                    width_change: |_, _| None,
                    ..reading
                },
            ),
            false => answer(&images.read, reading),
        }
    }),
    ("9 where a body ends inside", Plain, |images| {
        read_by(images, |image| ends_by(image, CODE))
    }),
    ("5 where a body ends inside", Plain, |images| {
        read_by(images, |image| ends_by(image, CONTENTS))
    }),
    ("9 of a number struck off twice", Plain, |images| {
        read_by(images, |image| {
            refused_if(image, CODE, |_, struck| {
                BTreeSet::from_iter(struck).len() < struck.len()
            })
        })
    }),
    ("9 of a number used and struck off", Plain, |images| {
        read_by(images, |image| {
            refused_if(image, CODE, |used, struck| {
                struck.iter().any(|number| used.contains(number))
            })
        })
    }),
    ("9 of numbers that do not rise", Plain, |images| {
        read_by(images, |image| {
            refused_if(image, CODE, |_, struck| !struck.is_sorted())
        })
    }),
];
