//! The verdict with imports: what is reached, what stands, and the answers, with
//! the ids and texts written out.

mod answers;
mod pairs;
mod reach;
mod wrong;

use super::Tests;
use crate::answer::{judge, Answer, Verdict};
use crate::make::*;
use crate::schema::{Declaration, Schema, Type};
use crate::writer::image;

pub fn run(tests: &mut Tests) {
    reach::run(tests);
    answers::run(tests);
    pairs::run(tests);
}

/// Lists entry 0 only.
fn first_listed(entries: Vec<Declaration>) -> Schema {
    schema(entries).listing(&[0])
}

/// A message whose fields, from ordinal 0 on, have these types.
fn of_types(name: &str, types: Vec<Type>) -> Declaration {
    let fields = (0..).zip(types).map(|(n, ty)| field(n, "f", ty));
    message(name, fields.collect())
}

/// A message that names these entries.
fn naming(name: &str, ids: &[u32]) -> Declaration {
    of_types(name, ids.iter().map(|id| named(*id)).collect())
}

fn with_imports(old: &Schema, new: &Schema) -> Answer {
    judge(&image(old), &image(new)).by(Verdict::Imports)
}

fn report(old: &Schema, new: &Schema) -> String {
    let answer = with_imports(old, new);
    String::from_utf8_lossy(&answer.printed()).into_owned()
}
