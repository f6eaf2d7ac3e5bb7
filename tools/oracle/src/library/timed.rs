//! Pairs that get a verdict, and how long calls on them take.

use super::{Calls, IMPORTS, MENDED, PLAIN};
use crate::answer::{judge, SELECTORS};
use crate::formats::SECOND_FORMAT;
use crate::imports::compared_types;
use crate::ir::CompiledSchema;
use crate::limits::IMAGE_BYTES;
use crate::mended::holds_geometric;
use crate::reader::read_image;
use crate::schema::Schema;
use crate::vexil::compat::check;
use crate::vexil::compile;
use crate::writer::image;
use std::hint::black_box;
use std::time::Instant;

/// The selector of the bump; each of them makes the whole comparison.
const BUMP: u64 = 2;
/// No report of these is longer.
const REPORT_ROOM: usize = 4 << 20;
/// A run goes over its pairs until so much time has passed.
const RUN_NANOSECONDS: f64 = 20e6;

pub struct Pair {
    pub name: String,
    old: Vec<u8>,
    new: Vec<u8>,
    /// The same in format 2, which the mended verdict asks for.
    second: [Vec<u8>; 2],
    built: [CompiledSchema; 2],
    /// One of tags 10 to 15 stands in a type of either image.
    pub vectors: bool,
}

fn holds_vectors(schema: &Schema) -> bool {
    let entries = schema.registry.iter().flatten();
    let mut types = entries.flat_map(compared_types);
    types.any(holds_geometric)
}

impl Pair {
    /// A pair that gets a verdict, the same from the library as from the Rust, in its own
    /// formats and in format 2.
    pub fn of(name: String, old: Vec<u8>, new: Vec<u8>) -> Option<Pair> {
        let pair = judge(&old, &new);
        let found = PLAIN.verdict(&old, &new, BUMP);
        assert_eq!(found, pair.answer.select(BUMP), "the bump of {name}");
        let (Ok(older), Ok(newer), 0) = (pair.old, pair.new, pair.answer.number) else {
            return None;
        };
        let built = [compile(&older), compile(&newer)];
        let vectors = [&older, &newer].into_iter().any(holds_vectors);
        let second = [older, newer].map(|schema| image(&schema.in_format(SECOND_FORMAT)));
        if second.iter().any(|image| image.len() > IMAGE_BYTES) {
            return None;
        }
        let found = PLAIN.verdict(&second[0], &second[1], BUMP);
        assert_eq!(found, pair.answer.select(BUMP), "{name} in format 2");
        Some(Pair {
            name,
            old,
            new,
            second,
            built,
            vectors,
        })
    }

    pub fn larger(&self) -> usize {
        self.old.len().max(self.new.len())
    }
}

/// What is timed on a pair.
pub type Side = fn(&Pair);

pub fn library_verdict(pair: &Pair) {
    black_box(PLAIN.verdict(&pair.old, &pair.new, BUMP));
}

pub fn imports_verdict(pair: &Pair) {
    black_box(IMPORTS.verdict(&pair.old, &pair.new, BUMP));
}

/// In format 2, as the mended one.
pub fn second_verdict(pair: &Pair) {
    let [old, new] = &pair.second;
    black_box(PLAIN.verdict(old, new, BUMP));
}

pub fn mended_verdict(pair: &Pair) {
    let [old, new] = &pair.second;
    black_box(MENDED.verdict(old, new, BUMP));
}

pub fn values(calls: &Calls, pair: &Pair) {
    let mut out = [0; SELECTORS as usize];
    let [old, new] = &pair.second;
    calls.values(old, new, &mut out);
    black_box(out);
}

pub fn report(calls: &Calls, pair: &Pair) {
    let mut out = vec![0; REPORT_ROOM];
    let [old, new] = &pair.second;
    let length = calls.report(old, new, &mut out);
    assert_ne!(length, 0, "the report of {}", pair.name);
    black_box(out);
}

pub fn check_built(pair: &Pair) {
    black_box(check(&pair.built[0], &pair.built[1]));
}

pub fn check_images(pair: &Pair) {
    let [old, new] =
        [&pair.old, &pair.new].map(|image| compile(&read_image(image).expect("it was read")));
    black_box(check(&old, &new));
}

/// Nanoseconds a pair, of so many passes over all of them.
fn time(side: Side, pairs: &[&Pair], passes: usize) -> f64 {
    let start = Instant::now();
    for _ in 0..passes {
        pairs.iter().for_each(|pair| side(black_box(pair)));
    }
    start.elapsed().as_nanos() as f64 / (passes * pairs.len()) as f64
}

/// The median and the best of the runs, for each side. The sides take turns, so
/// that other work on the machine meets all of them.
pub fn measure<const N: usize>(sides: [Side; N], pairs: &[&Pair], count: usize) -> [(f64, f64); N] {
    let passes = sides.map(|side| {
        let pass = time(side, pairs, 1) * pairs.len() as f64;
        (RUN_NANOSECONDS / pass) as usize + 1
    });
    let mut runs = [const { Vec::new() }; N];
    for _ in 0..count {
        for (side, times) in runs.iter_mut().enumerate() {
            times.push(time(sides[side], pairs, passes[side]));
        }
    }
    runs.map(|mut times| {
        times.sort_by(f64::total_cmp);
        (times[count / 2], times[0])
    })
}

/// The best of five calls of each side on one pair.
pub fn best<const N: usize>(sides: [Side; N], pair: &Pair) -> [f64; N] {
    sides.map(|side| {
        let calls = (0..5).map(|_| time(side, &[pair], 1));
        calls.fold(f64::INFINITY, f64::min)
    })
}
