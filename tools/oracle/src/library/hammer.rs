//! Many pairs through the library against the oracle, by every verdict, and the
//! contents of each image. Of pairs without repeats also copies that are filed anew,
//! which must get the same answer by 01.

use super::guarded::Guarded;
use super::{calls_of, held};
use crate::answer::{judge, Verdict, VERDICTS};
use crate::answers;
use crate::commands::Outcome;
use crate::made::pair_for;
use crate::refiling::filed_pair;
use crate::rng::Rng;
use std::fs::File;
use std::os::unix::fs::FileExt;
use std::path::{Path, PathBuf};
use std::time::{Duration, Instant};

const IMAGE_ROOM: usize = 1 << 16;
const REPORT_ROOM: usize = 1 << 20;
/// After so many random pairs more are run: one with its copies, and one made for each
/// other verdict than that of 01.
const MORE_ONCE_IN: u64 = 4;

/// The images that stand for each side of a pair: one, or one and its copies.
pub type Sides = [Vec<Vec<u8>>; 2];

/// The pair in hand, in files, and that of which it is a copy, or itself: there
/// they are also after a fault or a call without end.
struct InHand {
    paths: [PathBuf; 4],
    files: [File; 4],
}

const FILES: [&str; 4] = ["old.img", "new.img", "original-old.img", "original-new.img"];

impl InHand {
    fn new(folder: &Path) -> std::io::Result<InHand> {
        std::fs::create_dir_all(folder)?;
        let paths = FILES.map(|name| folder.join(name));
        let [old, new, original_old, original_new] = paths.each_ref().map(File::create);
        let files = [old?, new?, original_old?, original_new?];
        Ok(InHand { paths, files })
    }

    fn keep(&self, images: [&[u8]; 4]) -> std::io::Result<()> {
        for (file, image) in self.files.iter().zip(images) {
            file.write_all_at(image, 0)?;
            file.set_len(image.len() as u64)?;
        }
        Ok(())
    }
}

struct Hammer {
    in_hand: InHand,
    old: Guarded,
    new: Guarded,
    out: Guarded,
    stop: Instant,
    passed: u64,
}

impl Hammer {
    /// Judges the first image of each side and holds the library against that
    /// answer on all pairs. By the other verdicts each pair is judged for itself: with
    /// imports filing may matter, of two reached entries with one name. An error says
    /// in what it differs.
    fn pairs(&mut self, [olds, news]: &Sides) -> Outcome {
        let mut answer = None;
        for (old, new) in olds
            .iter()
            .flat_map(|old| news.iter().map(move |new| (old, new)))
        {
            let kept = self.in_hand.keep([old, new, &olds[0], &news[0]]);
            kept.map_err(|error| error.to_string())?;
            let place = if answer.is_some() { "of a copy, " } else { "" };
            let pair = judge(old, new);
            let answer = answer.get_or_insert_with(|| pair.answer.clone());
            let images = [self.old.lend(old), self.new.lend(new)];
            let out = &mut self.out;
            for verdict in VERDICTS {
                let answer = match verdict {
                    Verdict::Plain => answer.clone(),
                    _ => pair.by(verdict),
                };
                let held = held::pair(calls_of(verdict), images, out, &answer);
                let prefix = verdict.prefix();
                held.map_err(|difference| format!("{place}{prefix}{difference}"))?;
            }
            for (side, image, read) in
                [("old", images[0], &pair.old), ("new", images[1], &pair.new)]
            {
                let held = held::image(image, out, read);
                held.map_err(|difference| format!("{place}{side} image: {difference}"))?;
            }
            self.passed += 1;
        }
        Ok(())
    }

    /// Runs pairs until one differs or the time is over.
    fn all(&mut self, list: impl Iterator<Item = Sides>) -> Outcome {
        for sides in list {
            if Instant::now() >= self.stop {
                println!("the time is over after {} pairs", self.passed);
                break;
            }
            self.pairs(&sides)?;
        }
        Ok(())
    }
}

fn alone((old, new): (Vec<u8>, Vec<u8>)) -> Sides {
    [vec![old], vec![new]]
}

fn with_copies(rng: &mut Rng) -> Sides {
    filed_pair(rng).map(Vec::from)
}

/// Random pairs, among them some with copies and some made for another verdict, each
/// from numbers of their own: the others are those of the seed alone.
pub fn random(seed: u64, count: u64) -> impl Iterator<Item = Sides> {
    let (mut rng, mut filing) = (Rng::new(seed), Rng::new(!seed));
    let others = [(Verdict::Imports, 32), (Verdict::Mended, 16)];
    let mut others = others.map(|(verdict, turn)| (verdict, Rng::new(seed.rotate_left(turn))));
    (0..count).flat_map(move |n| {
        let mut pairs = vec![alone(pair_for(Verdict::Plain, &mut rng))];
        if n % MORE_ONCE_IN == 0 {
            pairs.push(with_copies(&mut filing));
            let made = others.iter_mut();
            pairs.extend(made.map(|(verdict, rng)| alone(pair_for(*verdict, rng))));
        }
        pairs
    })
}

/// Pairs of one kind only.
fn of_one_kind(
    seed: u64,
    count: u64,
    make: impl Fn(&mut Rng) -> Sides + 'static,
) -> Box<dyn Iterator<Item = Sides>> {
    let mut rng = Rng::new(seed);
    Box::new((0..count).map(move |_| make(&mut rng)))
}

/// The recorded pairs of a file, then random ones; `--refiled` in its place are pairs
/// with copies only, `--imports` and `--mended` pairs made for that verdict only.
fn list(path: &str, seed: u64, count: u64) -> Result<Box<dyn Iterator<Item = Sides>>, String> {
    if path == "--refiled" {
        return Ok(of_one_kind(seed, count, with_copies));
    }
    if let Some(verdict) = Verdict::asked_by(path) {
        let make = move |rng: &mut Rng| alone(pair_for(verdict, rng));
        return Ok(of_one_kind(seed, count, make));
    }
    let bytes = std::fs::read(path).map_err(|error| format!("{path}: {error}"))?;
    let recorded = answers::read(&bytes)?.into_iter();
    let recorded = recorded.map(|pair| alone((pair.old, pair.new)));
    Ok(Box::new(recorded.chain(random(seed, count))))
}

/// Runs them for so many seconds at most.
pub fn run(path: &str, seed: u64, count: u64, seconds: u64, folder: &str) -> Outcome {
    let list = list(path, seed, count)?;
    let in_hand = InHand::new(Path::new(folder)).map_err(|error| format!("{folder}: {error}"))?;
    let mut hammer = Hammer {
        in_hand,
        old: Guarded::new(IMAGE_ROOM),
        new: Guarded::new(IMAGE_ROOM),
        out: Guarded::new(REPORT_ROOM),
        stop: Instant::now() + Duration::from_secs(seconds),
        passed: 0,
    };
    let outcome = hammer.all(list);
    let failed = u8::from(outcome.is_err());
    if let Err(difference) = outcome {
        let [old, new, ..] = &hammer.in_hand.paths;
        println!("{difference}: {} {}", old.display(), new.display());
    }
    println!("{} passed, {failed} failed", hammer.passed);
    // Nothing comes after the last line, which is the summary.
    std::process::exit(i32::from(failed))
}
