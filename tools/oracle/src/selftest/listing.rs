//! The contents listing.

use super::Tests;
use crate::listing::listing;
use crate::make::*;
use crate::schema::Schema;

pub fn run(tests: &mut Tests) {
    let drive = message("Drive", vec![field(0, "speed", primitive(2))]);
    let mut entries: Vec<_> = (0..9).map(|kind| Some(of_kind(kind, "Name"))).collect();
    entries.insert(3, None);
    entries.push(Some(drive));
    let all = schema(Vec::new()).with_entries(entries);
    let wanted =
        "0;message;Name\n1;enum;Name\n2;flags;Name\n4;union;Name\n5;newtype;Name\n6;config;Name\n\
        7;generic_alias;Name\n8;trait;Name\n9;impl;\n10;message;Drive\n";
    tests.equal(
        "every kind, an empty entry",
        listing(&all),
        wanted.to_string(),
    );
    tests.equal("no entry", listing(&Schema::default()), String::new());
    let empty = schema(Vec::new()).with_entries(vec![None, None]);
    tests.equal("empty entries only", listing(&empty), String::new());
}
