//! Reports around the small program's buffer, and what stands between declarations.

use super::{all_ways, holding, third, using};
use crate::cases::sizes::reporting;
use crate::cases::Cases;
use crate::formats::THIRD_FORMAT;
use crate::limits::REPORT_BYTES;
use crate::make::*;
use crate::schema::{Body, Schema};

pub fn add(cases: &mut Cases) {
    several(cases);
    lengths(cases);
}

/// Each last in its own declaration.
fn several(cases: &mut Cases) {
    let all = |used: &[u32], struck: &[u32], marks| {
        third(vec![
            using(2, "Zb", used, struck),
            enumeration("B", marks, items(&[(u32::from(marks), "v")])).striking(struck),
            using(0, "C", used, struck),
            union("A", vec![holding(0, "v", used, struck)]).striking(struck),
            using(1, "", used, struck),
            newtype("N", primitive(1 + marks)),
        ])
    };
    let (old, new) = (all(&[0], &[2, 5, 1], 0), all(&[0, 5], &[1], 2));
    all_ways(cases, "five at once", &old, &new);
    let other = new.clone().in_namespace(&["other"]).listing(&[4, 2, 0]);
    all_ways(cases, "five, and some are gone", &old, &other);
    let seats = |tag, struck: &[u32]| {
        let at = field(0, "at", wrapped(tag, primitive(9)));
        third(vec![message("Seat", vec![at]).striking(struck)])
    };
    all_ways(cases, "beside a vector", &seats(11, &[3]), &seats(11, &[]));
    let name = "beside a vector that changes";
    all_ways(cases, name, &seats(11, &[3, 0]), &seats(10, &[]));
}

/// Short by 01, and by the mended verdict just as long as the buffer, or longer.
fn lengths(cases: &mut Cases) {
    for length in [REPORT_BYTES, REPORT_BYTES + 1, 80_000] {
        let (old, new) = striking(length - LINE);
        let name = format!("tombstones: report of {length} bytes");
        cases.pair(&name, &old, &new);
    }
    // Where it is no longer than by 01.
    for length in [REPORT_BYTES, REPORT_BYTES + 1] {
        let (old, new) = reporting(length);
        let [old, new] = [old, new].map(|schema| schema.in_format(THIRD_FORMAT));
        let name = format!("tombstones: report of {length} bytes without any");
        cases.pair(&name, &old, &new);
    }
    let many: Vec<u32> = (0..1_400).collect();
    let of = |struck: &[u32]| third(vec![using(0, "M", &[], struck)]);
    cases.both_ways("tombstones: a long report of dropped", &of(&many), &of(&[]));
}

/// The line on the tombstone of the one enum below, whose name has 150 bytes.
const LINE: usize = "TombstoneDropped;Major;;-;tombstone @70000 was dropped\n".len() + 150;

/// A pair whose report has this length by 01, and a line more by the mended verdict.
fn striking(length: usize) -> (Schema, Schema) {
    let (old, new) = reporting(length);
    let [mut old, new] = [old, new].map(|schema| schema.in_format(THIRD_FORMAT));
    for declaration in old.registry.iter_mut().flatten() {
        assert!(matches!(declaration.body, Body::Enum(..)));
        declaration.tombstones = vec![70_000; 2];
    }
    (old, new)
}
