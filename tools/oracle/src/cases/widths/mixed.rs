//! Refusal 16 beside the others: after 1 to 10 of either image, before 11 and 12.

use super::second;
use crate::cases::both_bad::refused_by;
use crate::cases::sizes::reporting;
use crate::cases::Cases;
use crate::formats::SECOND_FORMAT;
use crate::limits::REPORT_BYTES;
use crate::make::*;
use crate::schema::{Schema, FIRST_FORMAT};
use crate::writer::image;

const FORMATS: [u16; 2] = [FIRST_FORMAT, SECOND_FORMAT];

pub fn add(cases: &mut Cases) {
    plain(cases);
    refused(cases);
    both_refused(cases);
    aliases(cases);
    long_reports(cases);
}

/// What has a width and what has none.
fn plain(cases: &mut Cases) {
    let schemas: [(&str, Schema); 4] = [
        ("nothing", Schema::default()),
        ("a message", schema(vec![of_kind(0, "M")])),
        ("an enum", schema(vec![of_kind(1, "E")])),
        ("flags", schema(vec![of_kind(2, "F")])),
    ];
    for (name, schema) in schemas {
        let name = format!("widths: {name}");
        in_each_format(cases, &name, &schema, &schema);
    }
    let old = schema(vec![of_kind(0, "M"), of_kind(1, "E")]);
    let new = schema(vec![of_kind(0, "M"), of_kind(2, "E"), config("C")]);
    in_each_format(cases, "widths: Major by 01", &old, &new);
    let new = old.clone().with_entries(vec![Some(config("C"))]);
    let new = new.listing(&[0, 1, 2]);
    in_each_format(cases, "widths: Minor by 01", &old, &new);
}

/// The pair in the four ways in which its images can be of the two formats.
pub fn in_each_format(cases: &mut Cases, name: &str, old: &Schema, new: &Schema) {
    for from in FORMATS {
        for to in FORMATS {
            let [old, new] = [(old, from), (new, to)].map(|(s, f)| s.clone().in_format(f));
            cases.pair(&format!("{name}, formats {from} and {to}"), &old, &new);
        }
    }
}

/// The image refused by each number, in each format; the other image is accepted.
fn refused(cases: &mut Cases) {
    for number in 1..=10 {
        for format in FORMATS {
            // One that is too long is large, and the format of 3 is neither.
            if [1, 3].contains(&number) && format == SECOND_FORMAT {
                continue;
            }
            let faulty = match number {
                2 => vec![format as u8, 0, 1, 0, 0, 0, 0, 0],
                3 => refused_by(number),
                _ => in_format(format, refused_by(number)),
            };
            for beside in FORMATS {
                let other = image(&schema(vec![]).in_format(beside));
                let name = format!("widths: {number} in format {format}, beside {beside}");
                cases.bytes(&format!("{name}, old"), faulty.clone(), other.clone());
                cases.bytes(&format!("{name}, new"), other, faulty.clone());
            }
        }
    }
    // A width in format 2 that is refused beside an image of format 1.
    let lamps = super::bodies::with_body(vec![2, 1, b'F', 3, 0, 0]);
    let other = image(&schema(vec![alias("A")]));
    cases.bytes(
        "widths: 9 of a width before 16",
        lamps.clone(),
        other.clone(),
    );
    cases.bytes("widths: 9 of a width before 16, new", other, lamps);
}

/// An image with another format in its head.
fn in_format(format: u16, mut image: Vec<u8>) -> Vec<u8> {
    image[..2].copy_from_slice(&format.to_le_bytes());
    image
}

fn both_refused(cases: &mut Cases) {
    for (old, new) in [(2, 10), (10, 2), (3, 9), (8, 8), (5, 7)] {
        let name = format!("widths: old refused by {old}, new by {new}, of formats 1 and 2");
        let other = in_format(SECOND_FORMAT, refused_by(new));
        cases.bytes(&name, refused_by(old), other);
    }
}

/// 16 before 11, whatever else the images hold.
fn aliases(cases: &mut Cases) {
    let one = schema(vec![alias("A")]);
    in_each_format(cases, "widths: an alias pair", &one, &one);
    let wide = |width| vec![alias("A"), of_kind(1, "E").of_width(width)];
    cases.pair(
        "widths: 11 beside a width",
        &second(wide(8)),
        &second(wide(9)),
    );
    let reached = schema(vec![newtype("N", named(1)), alias("A")]).listing(&[0]);
    in_each_format(cases, "widths: an alias pair reached", &reached, &reached);
}

/// 16 before 12.
fn long_reports(cases: &mut Cases) {
    let (old, new) = reporting(REPORT_BYTES + 1);
    for (from, to) in [(1, 2), (2, 1)] {
        let [old, new] = [(&old, from), (&new, to)].map(|(s, f)| s.clone().in_format(f));
        let name = format!("widths: a report too long, formats {from} and {to}");
        cases.pair(&name, &old, &new);
    }
}
