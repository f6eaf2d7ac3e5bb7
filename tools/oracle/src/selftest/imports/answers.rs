//! The answers with imports, beside those of 01.

use super::{first_listed, naming, report, with_imports};
use crate::answer::judge;
use crate::make::*;
use crate::schema::{Declaration, Schema};
use crate::selftest::Tests;
use crate::writer::image;

const SILENT: &str = "Compatible;Patch;0\n";
const PAIR: &str = "refused 11 both\n";

pub fn run(tests: &mut Tests) {
    changed(tests);
    one_side(tests);
    moved(tests);
    aliases(tests);
}

/// Entry 0, listed, names 1.
fn importing(entry: Declaration) -> Schema {
    first_listed(vec![naming("A", &[1]), entry])
}

fn plain(old: &Schema, new: &Schema) -> String {
    let answer = judge(&image(old), &image(new)).answer;
    String::from_utf8_lossy(&answer.printed()).into_owned()
}

fn changed(tests: &mut Tests) {
    let block = |code| message("L", vec![field(0, "most", primitive(code))]);
    let (old, new) = (importing(block(1)), importing(block(2)));
    tests.equal("01 does not see it", plain(&old, &new).as_str(), SILENT);
    let line = "FieldTypeChanged;Major;L;+most;field 'most' @0 type changed from u8 to u16";
    let wanted = format!("{line}\nBreaking;Major;1\n");
    tests.equal("a changed import", report(&old, &new), wanted.clone());
    let twice = |code| {
        first_listed(vec![
            naming("A", &[1, 1, 2]),
            block(code),
            naming("B", &[1]),
        ])
    };
    tests.equal("compared once", report(&twice(1), &twice(2)), wanted);
    let kind = report(&old, &importing(flags("L", vec![])));
    let line = "DeclarationKindChanged;Major;L;-;'L' changed from message to flags";
    tests.equal("its kind", kind, format!("{line}\nBreaking;Major;1\n"));
    tests.equal("against itself", report(&old, &old).as_str(), SILENT);
}

fn one_side(tests: &mut Tests) {
    let with = importing(config("L"));
    let without = first_listed(vec![naming("A", &[])]);
    let removed = report(&with, &without);
    let line = "DeclarationRemoved;Major;L;-;config 'L' was removed\n";
    tests.holds("removed", removed.starts_with(line));
    let added = report(&without, &with);
    let line = "DeclarationAdded;Minor;L;-;config 'L' was added\n";
    tests.holds("added", added.starts_with(line));
}

/// From the list to the imports, and back.
fn moved(tests: &mut Tests) {
    let reached = importing(config("L"));
    let listed = reached.clone().listing(&[0, 1]);
    tests.equal("kept", report(&listed, &reached).as_str(), SILENT);
    tests.equal("kept", report(&reached, &listed).as_str(), SILENT);
    let removed = plain(&listed, &reached);
    tests.holds("01: removed", removed.starts_with("DeclarationRemoved;"));
}

fn aliases(tests: &mut Tests) {
    let reached = importing(alias("L"));
    let listed = reached.clone().listing(&[0, 1]);
    for (old, new) in [
        (&reached, &reached),
        (&reached, &listed),
        (&listed, &reached),
    ] {
        tests.equal("an alias pair", report(old, new).as_str(), PAIR);
    }
    tests.equal("not by 01", plain(&reached, &reached).as_str(), SILENT);
    let other = reached.with_entries(vec![Some(config("L"))]);
    let other = other.listing(&[0, 2]);
    tests.equal("it does not stand", report(&other, &other).as_str(), SILENT);
    let counts = with_imports(&listed, &listed).counts;
    tests.holds("no counts", counts.iter().all(|count| *count == 0));
}
