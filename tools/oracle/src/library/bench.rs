//! Times a verdict of the library beside the Rust, and the other verdicts beside it, on
//! the same pairs, in markdown tables.

use super::realistic::releases;
use super::timed::*;
use super::{worst, IMPORTS, MENDED, PLAIN};
use crate::answers;
use crate::commands::Outcome;
use crate::formats::SECOND_FORMAT;
use crate::record::SEED;
use crate::rng::Rng;
use crate::schema::FIRST_FORMAT;

/// Classes of the larger image: its length is below the number.
const CLASSES: [(&str, usize); 5] = [
    ("under 256 B", 256),
    ("under 1 KiB", 1 << 10),
    ("under 4 KiB", 4 << 10),
    ("under 16 KiB", 16 << 10),
    ("16 KiB and over", usize::MAX),
];
const DECLARATIONS: [usize; 4] = [5, 20, 100, 400];
const PAIRS_OF_EACH: usize = 12;
const RUNS: usize = 15;
/// Of the pairs that take longest.
const WORST_RUNS: usize = 5;
const RECORDED_WORST: &str = "2,700 fields in 32,768 bytes, the last differs";

/// The rest of a row: how many pairs, the three times and the two ratios.
fn print_times(pairs: &[&Pair]) {
    let times = measure([library_verdict, check_built, check_images], pairs, RUNS);
    let shown = times.map(|(median, best)| format!("{median:.0} ({best:.0})"));
    let [verdict, built, images] = times.map(|(median, _)| median);
    println!(
        "{} | {} | {:.2} | {:.2} |",
        pairs.len(),
        shown.join(" | "),
        verdict / built,
        verdict / images
    );
}

fn print_head(first: &str) {
    println!("\n| {first} | pairs | library's verdict | `check`, schemas built | read, build, `check` | verdict to `check` | verdict to all |");
    println!("|---|---|---|---|---|---|---|");
}

fn print_classes(pairs: &[Pair]) {
    print_head("larger image");
    for (name, class) in classes(pairs) {
        print!("| {name} | ");
        print_times(&class);
    }
}

fn print_growth(pairs: &[Vec<Pair>]) {
    print_head("declarations");
    for (declarations, pairs) in DECLARATIONS.iter().zip(pairs) {
        print!("| {declarations} | ");
        print_times(&pairs.iter().collect::<Vec<_>>());
    }
}

/// In each class the pair on which the library is slowest beside the Rust from
/// the bytes on, each side at the best of five calls.
fn print_slowest(pairs: &[Pair]) {
    println!("\n| larger image | slowest pair | bytes | library's verdict | read, build, `check` | ratio |");
    println!("|---|---|---|---|---|---|");
    for (name, class) in classes(pairs) {
        let timed = class.iter().map(|pair| {
            let [verdict, images] = best([library_verdict, check_images], pair);
            (verdict / images, verdict, images, pair)
        });
        if let Some((ratio, verdict, images, pair)) = timed.max_by(|a, b| a.0.total_cmp(&b.0)) {
            let (slowest, bytes) = (&pair.name, pair.larger());
            println!("| {name} | {slowest} | {bytes} | {verdict:.0} | {images:.0} | {ratio:.2} |");
        }
    }
}

fn print_beside_head(word: &str) {
    println!("\n| larger image | pairs | {word} | of 01 | ratio | longest {word} | bytes | {word} | of 01 |");
    println!("|---|---|---|---|---|---|---|---|---|");
}

/// Another verdict beside that of 01 on a class of pairs, and the pair of it on which it
/// takes longest.
fn print_beside(name: &str, [verdict, plain]: [Side; 2], class: &[&Pair]) {
    let sides = [verdict, plain];
    let timed = class.iter().map(|pair| (best(sides, pair), pair));
    if let Some(([most, beside], pair)) = timed.max_by(|a, b| a.0[0].total_cmp(&b.0[0])) {
        let [other, plain] = measure(sides, class, RUNS).map(|(median, _)| median);
        let (count, ratio) = (class.len(), other / plain);
        let (longest, bytes) = (&pair.name, pair.larger());
        println!("| {name} | {count} | {other:.0} | {plain:.0} | {ratio:.2} | {longest} | {bytes} | {most:.0} | {beside:.0} |");
    }
}

fn print_imports(pairs: &[Pair]) {
    print_beside_head("with imports");
    for (name, class) in classes(pairs) {
        print_beside(name, [imports_verdict, library_verdict], &class);
    }
}

/// Of each class those that hold a vector, a quaternion or a matrix, and the others, all
/// in format 2.
fn print_mended(pairs: &[Pair]) {
    print_beside_head("mended");
    for (name, class) in classes(pairs) {
        let (with, without): (Vec<_>, Vec<_>) = class.into_iter().partition(|p| p.vectors);
        let sides: [Side; 2] = [mended_verdict, second_verdict];
        print_beside(&format!("{name}, vectors"), sides, &with);
        print_beside(&format!("{name}, none"), sides, &without);
    }
}

/// The legal pairs that take longest, a recorded one and those made for it, by each
/// call that compares.
fn print_worst(pairs: &[Pair]) {
    let made = worst::pairs().into_iter();
    let made = made.filter_map(|(name, old, new)| Pair::of(name, old, new));
    let made: Vec<Pair> = made.collect();
    let recorded = pairs.iter().filter(|pair| pair.name == RECORDED_WORST);
    let sides: [Side; 7] = [
        |pair| values(&PLAIN, pair),
        |pair| report(&PLAIN, pair),
        |pair| values(&IMPORTS, pair),
        |pair| report(&IMPORTS, pair),
        |pair| values(&MENDED, pair),
        |pair| report(&MENDED, pair),
        check_images,
    ];
    println!("\nMilliseconds: the median of {WORST_RUNS} runs, and the best.");
    println!("\n| longest legal pairs | bytes | values of 01 | report of 01 | values with imports | report with imports | values mended | report mended | read, build, `check` |");
    println!("|---|---|---|---|---|---|---|---|---|");
    for pair in recorded.chain(&made) {
        let times = measure(sides, &[pair], WORST_RUNS);
        let shown = times.map(|(median, best)| format!("{:.1} ({:.1})", median / 1e6, best / 1e6));
        let (name, bytes) = (&pair.name, pair.larger());
        println!("| {name} | {bytes} | {} |", shown.join(" | "));
    }
}

fn classes(pairs: &[Pair]) -> Vec<(&'static str, Vec<&Pair>)> {
    let mut least = 0;
    let class = CLASSES.map(|(name, below)| {
        let range = least..below;
        least = below;
        let pairs = pairs.iter().filter(|pair| range.contains(&pair.larger()));
        (name, pairs.collect::<Vec<_>>())
    });
    class.into_iter().filter(|(_, p)| !p.is_empty()).collect()
}

/// The generated pairs, for each number of declarations.
fn generated() -> Vec<Vec<Pair>> {
    let mut rng = Rng::new(SEED);
    let mut next = |declarations: usize, place: usize| loop {
        // Every other pair is of format 2.
        let format = if place % 2 == 0 {
            FIRST_FORMAT
        } else {
            SECOND_FORMAT
        };
        let (old, new) = releases(&mut rng, declarations, format);
        let name = format!("generated {declarations}, {place}");
        if let Some(pair) = Pair::of(name, old, new) {
            return pair;
        }
    };
    let pairs = |n| (0..PAIRS_OF_EACH).map(|place| next(n, place)).collect();
    DECLARATIONS.map(pairs).into()
}

fn recorded(path: &str) -> Result<Vec<Pair>, String> {
    let bytes = std::fs::read(path).map_err(|error| format!("{path}: {error}"))?;
    let list = answers::read(&bytes)?.into_iter();
    let pairs = list.filter_map(|pair| Pair::of(pair.name, pair.old, pair.new));
    Ok(pairs.collect())
}

/// The recorded pairs of a file that get a verdict, and generated ones.
pub fn run(path: &str) -> Outcome {
    let generated = generated();
    let mut all = recorded(path)?;
    println!("Nanoseconds a pair: the median of {RUNS} runs, and the best.");
    print_growth(&generated);
    all.extend(generated.into_iter().flatten());
    print_classes(&all);
    print_slowest(&all);
    print_imports(&all);
    print_mended(&all);
    print_worst(&all);
    Ok(())
}
