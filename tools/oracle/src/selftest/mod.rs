//! The oracle's own tests.

mod against_check;
mod calls;
mod clauses;
mod documents;
#[cfg(vexil)]
mod exporting;
mod imports;
mod listing;
mod made;
mod mended;
mod pinned;
mod reading;
mod recording;
mod refiling;
mod samples;
mod texts;
mod tombstones;
mod widths;
mod words;

use crate::commands::Outcome;
use std::fmt::Debug;

/// The repository that the oracle was built in.
const ROOT: &str = env!("VEXIL_COMPAT_ROOT");

/// A file of the repository; one that can't be read is empty and fails its test.
fn read_file(path: &str) -> Vec<u8> {
    std::fs::read(format!("{ROOT}/{path}")).unwrap_or_default()
}

#[derive(Default)]
pub struct Tests {
    passed: u32,
    failed: u32,
}

impl Tests {
    pub fn equal<T: PartialEq + Debug>(&mut self, name: &str, found: T, wanted: T) {
        if found == wanted {
            self.passed += 1;
            return;
        }
        self.failed += 1;
        println!("failed: {name}\n  found  {found:?}\n  wanted {wanted:?}");
    }

    pub fn holds(&mut self, name: &str, condition: bool) {
        self.equal(name, condition, true);
    }
}

pub fn run() -> Outcome {
    let mut tests = Tests::default();
    reading::run(&mut tests);
    widths::run(&mut tests);
    tombstones::run(&mut tests);
    words::run(&mut tests);
    clauses::run(&mut tests);
    listing::run(&mut tests);
    against_check::run(&mut tests);
    recording::run(&mut tests);
    refiling::run(&mut tests);
    imports::run(&mut tests);
    mended::run(&mut tests);
    pinned::run(&mut tests);
    texts::run(&mut tests);
    samples::run(&mut tests);
    documents::run(&mut tests);
    calls::run(&mut tests);
    #[cfg(vexil)]
    exporting::run(&mut tests);
    #[cfg(not(vexil))]
    println!("not run: the tests of the exporter");
    println!("{} passed, {} failed", tests.passed, tests.failed);
    match tests.failed {
        0 => Ok(()),
        _ => Err("selftest failed".to_string()),
    }
}
