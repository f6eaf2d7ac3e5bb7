//! The mended verdict: what the type comparison says, the answers with their
//! texts written out, the distance rule, formats, widths and tombstones, and the pairs made for it.

mod answers;
mod compared;
mod formats;
mod laws;
mod pairs;
mod tombstones;
mod walks;
mod wrong;
mod wrong_tombstones;
mod wrong_widths;

use super::Tests;

pub fn run(tests: &mut Tests) {
    compared::run(tests);
    answers::run(tests);
    laws::run(tests);
    pairs::run(tests);
    formats::run(tests);
    tombstones::run(tests);
}
