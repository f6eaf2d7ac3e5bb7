//! Reports that are long by 01 and short by the mended verdict, and lengths around the
//! small program's buffer.

use super::vec3;
use crate::cases::sizes::reporting;
use crate::cases::Cases;
use crate::limits::REPORT_BYTES;
use crate::make::*;

pub fn add(cases: &mut Cases) {
    let entry = |n: u32| newtype(&format!("N{n}"), vec3(primitive(9)));
    let all = schema((0..512).map(entry).collect());
    let mut other = all.clone();
    other.registry[511] = Some(newtype("N511", vec3(primitive(10))));
    cases.pair("mended: 512 newtypes of vectors", &all, &other);
    // A long name that stands in every line.
    let fields = (0..200).map(|n| field(n, "f", vec3(primitive(9))));
    let long = schema(vec![message(&"M".repeat(255), fields.collect())]);
    cases.pair("mended: a report too long by 01 only", &long, &long);
    for length in [REPORT_BYTES, REPORT_BYTES + 1] {
        let (old, new) = reporting(length);
        let [old, new] = [old, new].map(|mut schema| {
            schema.declarations.push(schema.registry.len() as u32);
            let seat = newtype("Seat", vec3(primitive(9)));
            schema.with_entries(vec![Some(seat)])
        });
        cases.pair(&format!("mended: report of {length} bytes"), &old, &new);
    }
}
