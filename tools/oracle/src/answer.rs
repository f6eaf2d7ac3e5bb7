//! The answer to two images: the verdict by selector, and the report.

use crate::changes::{Bump, Comparison, CompatResult, COUNTS};
use crate::limits::REPORT_BYTES;
use crate::model::Reading;
use crate::reader::read_image;
use crate::refusal::{Read, Refusal, FULL};
use crate::schema::Schema;
use crate::writer::image;
use crate::{imports, mended, model, vexil};
use std::borrow::Cow;

#[derive(Clone, Copy, PartialEq, Debug)]
pub enum Side {
    None,
    Old,
    New,
    Both,
}

#[derive(Clone, PartialEq, Debug)]
pub struct Answer {
    pub number: u8,
    pub side: Side,
    pub bump: Bump,
    pub result: CompatResult,
    pub counts: [u32; COUNTS],
    /// Empty if refused; its length is the verdict's length.
    pub report: Vec<u8>,
}

/// Selectors 0 to 4, then the counts.
pub const SELECTORS: u64 = 5 + COUNTS as u64;

impl Answer {
    pub fn of(comparison: &Comparison) -> Answer {
        Answer {
            number: 0,
            side: Side::None,
            bump: comparison.bump,
            result: comparison.result,
            counts: comparison.counts(),
            report: comparison.report().into_bytes(),
        }
    }

    pub fn refused(number: u8, side: Side) -> Answer {
        Answer {
            number,
            side,
            bump: Bump::Major,
            result: CompatResult::Breaking,
            counts: [0; COUNTS],
            report: Vec::new(),
        }
    }

    pub fn select(&self, selector: u64) -> u64 {
        match selector {
            0 => u64::from(self.number),
            1 => self.side as u64,
            2 => self.bump as u64,
            3 => self.result as u64,
            4 => self.report.len() as u64,
            _ if selector < SELECTORS => u64::from(self.counts[selector as usize - 5]),
            _ => 0,
        }
    }

    /// The answer of a report call into a buffer of `room` bytes: 12 comes last.
    pub fn within(self, room: usize) -> Answer {
        match self.report.len() > room {
            true => Answer::refused(FULL, Side::Both),
            false => self,
        }
    }

    /// What the small program prints.
    pub fn printed(self) -> Vec<u8> {
        self.within(REPORT_BYTES).whole()
    }

    /// The same of any length: the report, or the refusal in a line.
    pub fn whole(self) -> Vec<u8> {
        let side = match self.side {
            Side::None => return self.report,
            Side::Old => "old",
            Side::New => "new",
            Side::Both => "both",
        };
        format!("refused {} {side}\n", self.number).into_bytes()
    }
}

/// A verdict on two images: that of 01, the one with imports, or the mended one
///
#[derive(Clone, Copy, PartialEq, Debug)]
pub enum Verdict {
    Plain,
    Imports,
    Mended,
}

/// In the order of the recorded answers.
pub const VERDICTS: [Verdict; 3] = [Verdict::Plain, Verdict::Imports, Verdict::Mended];

impl Verdict {
    /// The word that asks for it, on a command line; none asks for that of 01.
    pub fn option(self) -> Option<&'static str> {
        match self {
            Verdict::Plain => None,
            Verdict::Imports => Some("--imports"),
            Verdict::Mended => Some("--mended"),
        }
    }

    /// The verdict that a word asks for.
    pub fn asked_by(word: &str) -> Option<Verdict> {
        let mut verdicts = VERDICTS.into_iter();
        verdicts.find(|verdict| verdict.option() == Some(word))
    }

    /// Stands before what is said of its answers.
    pub fn prefix(self) -> &'static str {
        match self {
            Verdict::Plain => "",
            Verdict::Imports => "with imports, ",
            Verdict::Mended => "mended, ",
        }
    }

    pub fn reading(self) -> Reading {
        match self {
            Verdict::Plain => model::PLAIN,
            Verdict::Imports => Reading {
                standing: imports::standing,
                ..model::PLAIN
            },
            Verdict::Mended => Reading {
                types_equal: mended::types_equal,
                width_change: mended::width_change,
                tombstone_changes: mended::tombstone_changes,
                mixed: mended::mixed,
                ..model::PLAIN
            },
        }
    }

    /// A schema of which `check` says what this verdict says of the one given.
    fn for_check(self, schema: &Schema) -> Cow<'_, Schema> {
        match self {
            Verdict::Plain => Cow::Borrowed(schema),
            Verdict::Imports => Cow::Owned(imports::longer(schema)),
            Verdict::Mended => Cow::Owned(mended::disguised(schema)),
        }
    }

    /// A detail that `check` gave of such schemas, as it is of those given.
    fn from_check(self, detail: &str) -> String {
        match self {
            Verdict::Plain | Verdict::Imports => detail.to_string(),
            Verdict::Mended => mended::undisguised(detail),
        }
    }
}

/// Both images as read, and the answer of 01 to them.
pub struct Pair {
    pub old: Result<Schema, Refusal>,
    pub new: Result<Schema, Refusal>,
    pub answer: Answer,
}

/// Judges two images. With number 0 the real `check` has been run and agreed,
/// or else the program has stopped.
pub fn judge(old_image: &[u8], new_image: &[u8]) -> Pair {
    let (old, new) = (read_image(old_image), read_image(new_image));
    let answer = answer(Verdict::Plain, &old, &new);
    Pair { old, new, answer }
}

impl Pair {
    /// The answer by a verdict, judged as that of 01 is.
    pub fn by(&self, verdict: Verdict) -> Answer {
        match verdict {
            Verdict::Plain => self.answer.clone(),
            _ => answer(verdict, &self.old, &self.new),
        }
    }

    /// Both schemas, if both images are accepted.
    pub fn schemas(&self) -> Option<(&Schema, &Schema)> {
        Some((self.old.as_ref().ok()?, self.new.as_ref().ok()?))
    }
}

fn answer(verdict: Verdict, old: &Read<Schema>, new: &Read<Schema>) -> Answer {
    match (old, new) {
        (Err(refusal), _) => Answer::refused(refusal.number, Side::Old),
        (_, Err(refusal)) => Answer::refused(refusal.number, Side::New),
        (Ok(old), Ok(new)) => compare(verdict, old, new).unwrap_or_else(|difference| {
            eprintln!("the model and the real check differ\n{difference}");
            eprintln!("old image: {}", hexadecimal(&image(old)));
            eprintln!("new image: {}", hexadecimal(&image(new)));
            std::process::exit(1)
        }),
    }
}

fn hexadecimal(bytes: &[u8]) -> String {
    bytes.iter().map(|byte| format!("{byte:02x}")).collect()
}

/// The answer, or how the model differs from `check`.
fn compare(verdict: Verdict, old: &Schema, new: &Schema) -> Result<Answer, String> {
    let reading = verdict.reading();
    if let Some(number) = model::refusal(old, new, reading) {
        return Ok(Answer::refused(number, Side::Both));
    }
    let comparison = model::check(old, new, reading);
    match difference(verdict, old, new, &comparison) {
        Some(difference) => Err(difference),
        None => Ok(Answer::of(&comparison)),
    }
}

/// How the model's comparison by a verdict differs from what `check` says, which compares
/// neither widths nor tombstones.
pub fn difference(
    verdict: Verdict,
    old: &Schema,
    new: &Schema,
    model: &Comparison,
) -> Option<String> {
    let Some(model) = model.known_to_check() else {
        return Some(format!("result and bump are of other changes: {model:?}"));
    };
    let [old, new] = [old, new].map(|schema| verdict.for_check(schema));
    let detail = |detail: &str| verdict.from_check(detail);
    vexil::difference(&old, &new, &detail, &model)
}
