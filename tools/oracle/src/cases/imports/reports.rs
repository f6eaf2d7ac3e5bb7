//! Reports with imports: many lines of what is reached, and lengths around the small
//! program's buffer.

use super::{importing, naming};
use crate::cases::sizes::reporting;
use crate::cases::Cases;
use crate::limits::REPORT_BYTES;
use crate::make::*;
use crate::schema::Schema;

pub fn add(cases: &mut Cases) {
    full(cases);
    for length in [REPORT_BYTES, REPORT_BYTES + 1] {
        let (old, new) = reporting(length);
        let name = format!("imports: report of {length} bytes");
        cases.pair(&name, &imported(old), &imported(new));
    }
    let (old, new) = reporting(REPORT_BYTES + 1);
    let [old, new] = [old, new].map(|schema| {
        let mut schema = imported(schema);
        schema.registry.push(Some(alias("L")));
        schema.registry[1] = Some(naming("A", &[0, 2]));
        schema
    });
    cases.pair("imports: 11 before 12", &old, &new);
}

/// The one declaration of a schema is imported by a message that stays as it is.
fn imported(mut schema: Schema) -> Schema {
    schema.registry.push(Some(naming("A", &[0])));
    schema.listing(&[1])
}

/// A registry of 512 entries, each reached from the first.
fn full(cases: &mut Cases) {
    let of = |code| {
        let entry = |n: u32| newtype(&format!("N{n}"), primitive(code));
        let ids: Vec<u32> = (1..512).collect();
        importing(
            [naming("A", &ids)]
                .into_iter()
                .chain((1..512).map(entry))
                .collect(),
        )
    };
    cases.both_ways("imports: 512 entries", &of(1), &of(2));
}
