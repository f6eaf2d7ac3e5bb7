//! Random pairs, by the verdict that they are made for.

use crate::answer::Verdict;
use crate::commands::random_pair_in;
use crate::edits::{damaged, too_deep};
use crate::formats::{any_formats, first_or_second, in_formats, mostly_second, mostly_third};
use crate::imports::import_releases;
use crate::mended::releases_in;
use crate::rng::Rng;
use crate::schema::Schema;
use crate::writer::image;

/// How the formats of a pair come up.
pub type Formats = fn(&mut Rng) -> [u16; 2];

/// The images of a pair; now and then one of them is faulty. Formats are mixed, but for
/// the mended verdict mostly those of a pair that it takes.
pub fn pair_for(verdict: Verdict, rng: &mut Rng) -> (Vec<u8>, Vec<u8>) {
    pair_in(verdict, rng, any_formats, mostly_third)
}

/// The same of the first two formats.
pub fn former_pair_for(verdict: Verdict, rng: &mut Rng) -> (Vec<u8>, Vec<u8>) {
    pair_in(verdict, rng, first_or_second, mostly_second)
}

fn pair_in(verdict: Verdict, rng: &mut Rng, any: Formats, mended: Formats) -> (Vec<u8>, Vec<u8>) {
    match verdict {
        Verdict::Plain => random_pair_in(rng, any),
        Verdict::Imports => {
            let releases = import_releases(rng);
            let formats = any(rng);
            let releases = in_formats(rng, releases, formats);
            images(rng, releases)
        }
        Verdict::Mended => {
            let [old, new] = mended(rng);
            let [old, new, _] = releases_in(rng, [old, new, new]);
            images(rng, [old, new])
        }
    }
}

/// The images of two releases, of which now and then one is made faulty.
pub fn images(rng: &mut Rng, [old, mut new]: [Schema; 2]) -> (Vec<u8>, Vec<u8>) {
    if rng.once_in(80) {
        too_deep(rng, &mut new);
    }
    let [old, new] = [old, new].map(|release| {
        let image = image(&release);
        match rng.once_in(30) {
            true => damaged(rng, &image),
            false => image,
        }
    });
    (old, new)
}
