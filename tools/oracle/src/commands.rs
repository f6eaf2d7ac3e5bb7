//! The subcommands.

use crate::answer::{judge, Answer, Side, Verdict, SELECTORS, VERDICTS};
use crate::changes::{CHANGE_KINDS, COUNTS};
use crate::coverage::facts_for;
use crate::edits::{damaged, edited, too_deep};
use crate::formats::{any_formats, in_formats};
use crate::limits::IMAGE_BYTES;
use crate::listing::listing;
use crate::made::{pair_for, Formats};
use crate::random::random_schema;
use crate::reader::read_image;
use crate::refiling::{refiled, repeat};
use crate::refusal::{FULL, MIXED};
use crate::rng::Rng;
use crate::text;
#[cfg(vexil)]
use crate::vexil::{caller::write_image, compile, exporter::Format};
use crate::writer::image;
use std::collections::BTreeMap;
use std::fs::File;
use std::io::{Read, Write};
#[cfg(vexil)]
use std::path::Path;

/// A command has done its job, or says why not.
pub type Outcome = Result<(), String>;

/// The bytes of a file, as far as they decide anything.
fn read_file(path: &str) -> Result<Vec<u8>, String> {
    let file = File::open(path).map_err(|error| format!("{path}: can't be opened: {error}"))?;
    let mut bytes = Vec::new();
    let read = file.take(IMAGE_BYTES as u64 + 1).read_to_end(&mut bytes);
    read.map_err(|error| format!("{path}: can't be read: {error}"))?;
    Ok(bytes)
}

/// The same, but a file that can't be opened counts as empty (01).
fn read_or_empty(path: &str) -> Vec<u8> {
    read_file(path).unwrap_or_default()
}

fn answer(verdict: Verdict, old: &str, new: &str) -> Answer {
    judge(&read_or_empty(old), &read_or_empty(new)).by(verdict)
}

/// What the small program prints, or with `whole` a report of any length.
pub fn report(verdict: Verdict, whole: bool, old: &str, new: &str) -> Outcome {
    let answer = answer(verdict, old, new);
    let printed = match whole {
        true => answer.whole(),
        false => answer.printed(),
    };
    let written = std::io::stdout().write_all(&printed);
    written.map_err(|error| error.to_string())
}

/// Every selector with its value, or one value.
pub fn verdict(verdict: Verdict, old: &str, new: &str, selector: Option<&str>) -> Outcome {
    let answer = answer(verdict, old, new);
    match selector {
        Some(text) => println!("{}", answer.select(number(text)?)),
        None => (0..SELECTORS).for_each(|n| println!("{n} {}", answer.select(n))),
    }
    Ok(())
}

/// Prints the text of an image, or the refusal.
pub fn show(path: &str) -> Outcome {
    let schema = read_image(&read_file(path)?).map_err(|refusal| {
        println!("refused {}", refusal.number);
        format!("{path}: {refusal}")
    })?;
    let written = std::io::stdout().write_all(text::show(&schema).as_bytes());
    written.map_err(|error| error.to_string())
}

/// Writes the image that a text stands for.
pub fn make(text: &str, image: &str) -> Outcome {
    let of = |path: &str, fault: &dyn std::fmt::Display| format!("{path}: {fault}");
    let read = std::fs::read_to_string(text).map_err(|error| of(text, &error))?;
    let bytes = text::make(&read).map_err(|fault| of(text, &fault))?;
    std::fs::write(image, bytes).map_err(|error| of(image, &error))
}

/// The same by way of a `CompiledSchema`, as a build of Vexil does it: with the
/// exporter, which is asked for the text's format, and its caller. An empty entry
/// becomes a stub.
#[cfg(vexil)]
pub fn export(text: &str, image: &str) -> Outcome {
    let read = std::fs::read_to_string(text).map_err(|error| format!("{text}: {error}"))?;
    let schema = text::parse(&read).map_err(|fault| format!("{text}: {fault}"))?;
    let format = Format::of(schema.format);
    let format = format.ok_or_else(|| format!("{text}: no export in its format"))?;
    match write_image(&compile(&schema), format, Path::new(image)) {
        true => Ok(()),
        false => Err(format!("{image}: not written")),
    }
}

/// Writes a copy of an accepted image without repeats that is filed anew.
pub fn refile(path: &str, seed: u64, out: &str) -> Outcome {
    let schema = read_image(&read_file(path)?).map_err(|refusal| format!("{path}: {refusal}"))?;
    if let Some(what) = repeat(&schema) {
        return Err(format!("{path}: repeated: {what}"));
    }
    let copy = refiled(&mut Rng::new(seed), &schema);
    std::fs::write(out, image(&copy)).map_err(|error| format!("{out}: {error}"))
}

/// The contents listing of one image, or its refusal, always of the old side.
pub fn list(path: &str) -> Outcome {
    match read_image(&read_or_empty(path)) {
        Ok(schema) => print!("{}", listing(&schema)),
        Err(refusal) => println!("refused {} old", refusal.number),
    }
    Ok(())
}

pub fn number(text: &str) -> Result<u64, String> {
    text.parse().map_err(|_| format!("not a number: {text}"))
}

/// What was answered by one verdict.
struct Tally {
    refusals: BTreeMap<u8, u64>,
    bumps: [u64; 3],
    kinds: [u64; COUNTS],
}

impl Tally {
    fn new() -> Tally {
        let numbers = (1..FULL).chain([MIXED]);
        Tally {
            refusals: numbers.map(|number| (number, 0)).collect(),
            bumps: [0; 3],
            kinds: [0; COUNTS],
        }
    }

    fn add(&mut self, answer: &Answer) {
        match answer.side {
            Side::None => self.bumps[answer.bump as usize] += 1,
            _ => *self.refusals.entry(answer.number).or_default() += 1,
        }
        for (sum, count) in self.kinds.iter_mut().zip(answer.counts) {
            *sum += u64::from(count);
        }
    }

    fn print(&self, prefix: &str) {
        let [patch, minor, major] = self.bumps;
        println!("{prefix}verdicts: {patch} Patch, {minor} Minor, {major} Major");
        for (number, count) in &self.refusals {
            println!("{prefix}refused {number}: {count}");
        }
        for (kind, count) in CHANGE_KINDS.iter().zip(self.kinds) {
            println!("{prefix}{kind:?}: {count}");
        }
    }
}

/// Pairs of random releases of all formats, some of them damaged, by every verdict
/// through the model and `check`.
pub fn random(seed: u64, count: u64) -> Outcome {
    let mut rng = Rng::new(seed);
    let mut tallies = VERDICTS.map(|verdict| (verdict, Tally::new()));
    for _ in 0..count {
        let (old, new) = random_pair(&mut rng);
        let pair = judge(&old, &new);
        for (verdict, tally) in &mut tallies {
            tally.add(&pair.by(*verdict));
        }
    }
    println!("{count} pairs, seed {seed}");
    for (verdict, tally) in tallies {
        tally.print(verdict.prefix());
    }
    Ok(())
}

/// Pairs made for a verdict, by that of 01 and by this one, and how many hold each
/// fact.
pub fn random_made(verdict: Verdict, seed: u64, count: u64) -> Outcome {
    let mut rng = Rng::new(seed);
    let mut seen: BTreeMap<String, u64> = BTreeMap::new();
    for _ in 0..count {
        let (old, new) = pair_for(verdict, &mut rng);
        let pair = judge(&old, &new);
        let answer = pair.by(verdict);
        let last = match answer.number {
            0 => format!("{}verdict {:?}", verdict.prefix(), answer.bump),
            number => format!("{}refused {number}", verdict.prefix()),
        };
        for fact in facts_for(verdict, &pair).into_iter().chain([last]) {
            *seen.entry(fact).or_default() += 1;
        }
    }
    println!("{count} pairs, seed {seed}");
    for (fact, times) in seen {
        println!("{times:8}  {fact}");
    }
    Ok(())
}

/// A release and the next one, or another, each of any format; some of them damaged.
pub fn random_pair(rng: &mut Rng) -> (Vec<u8>, Vec<u8>) {
    random_pair_in(rng, any_formats)
}

pub fn random_pair_in(rng: &mut Rng, formats: Formats) -> (Vec<u8>, Vec<u8>) {
    let most = *rng.pick(&[1, 3, 8, 24]);
    let old = random_schema(rng, most);
    let mut new = match rng.once_in(8) {
        true => random_schema(rng, most),
        false => edited(rng, &old, 6),
    };
    if rng.once_in(60) {
        too_deep(rng, &mut new);
    }
    let formats = formats(rng);
    let [mut old, mut new] = in_formats(rng, [old, new], formats).map(|schema| image(&schema));
    if rng.once_in(5) {
        old = damaged(rng, &old);
    }
    if rng.once_in(5) {
        new = damaged(rng, &new);
    }
    (old, new)
}
