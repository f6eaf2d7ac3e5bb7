//! The file of recorded answers: written, and read strictly. README.md gives its
//! form.

use crate::answer::{Answer, Pair, SELECTORS, VERDICTS};
use crate::changes::COUNTS;
use crate::listing::listing;
use std::collections::BTreeSet;

const MAGIC: &[u8; 8] = b"VEXANSW6";

/// A pair with its answer as the file holds it.
#[derive(Clone, PartialEq, Debug)]
pub struct Recorded {
    pub name: String,
    pub old: Vec<u8>,
    pub new: Vec<u8>,
    /// The number that reading each image gives, old and new: 0 if it is accepted.
    pub readings: [u8; 2],
    /// The contents listing of each image; empty if it is refused.
    pub listings: [Vec<u8>; 2],
    /// By each of the verdicts.
    pub answers: [Answered; VERDICTS.len()],
}

/// An answer as the file holds it.
#[derive(Clone, PartialEq, Debug)]
pub struct Answered {
    /// By selector.
    pub verdict: Vec<u64>,
    /// With number 0 only.
    pub report: Vec<u8>,
}

impl Answered {
    fn of(answer: &Answer) -> Answered {
        Answered {
            verdict: (0..SELECTORS).map(|n| answer.select(n)).collect(),
            report: answer.report.clone(),
        }
    }

    fn bytes(&self) -> Vec<u8> {
        let mut bytes: Vec<u8> = self.verdict[..4].iter().map(|n| *n as u8).collect();
        bytes.extend(self.verdict[4..].iter().flat_map(|n| number(*n as usize)));
        bytes.extend(&self.report);
        bytes
    }
}

/// Whether the answer by another verdict is the one of 01, or follows the mark.
const SAME: u8 = 0;
const FOLLOWS: u8 = 1;

fn number(n: usize) -> [u8; 4] {
    (n as u32).to_le_bytes()
}

impl Recorded {
    pub fn of(name: &str, old: &[u8], new: &[u8], pair: &Pair) -> Recorded {
        Recorded {
            name: name.to_string(),
            old: old.to_vec(),
            new: new.to_vec(),
            readings: [&pair.old, &pair.new]
                .map(|image| image.as_ref().err().map_or(0, |refusal| refusal.number)),
            listings: [&pair.old, &pair.new].map(|image| {
                image
                    .as_ref()
                    .map_or(Vec::new(), |schema| listing(schema).into_bytes())
            }),
            answers: VERDICTS.map(|verdict| Answered::of(&pair.by(verdict))),
        }
    }
}

/// The largest name, image, report and listing of a list.
fn largest(list: &[Recorded]) -> [usize; 4] {
    let most = |length: fn(&Recorded) -> usize| list.iter().map(length).max().unwrap_or(0);
    [
        most(|pair| pair.name.len()),
        most(|pair| pair.old.len().max(pair.new.len())),
        most(|pair| {
            let reports = pair.answers.iter().map(|answer| answer.report.len());
            reports.max().unwrap_or(0)
        }),
        most(|pair| pair.listings[0].len().max(pair.listings[1].len())),
    ]
}

pub fn write(list: &[Recorded]) -> Vec<u8> {
    let mut file = MAGIC.to_vec();
    file.extend(number(list.len()));
    file.extend(number(COUNTS));
    file.extend(largest(list).iter().flat_map(|n| number(*n)));
    for pair in list {
        file.push(u8::try_from(pair.name.len()).expect("a case's name has at most 255 bytes"));
        file.extend(pair.name.as_bytes());
        for image in [&pair.old, &pair.new] {
            file.extend(number(image.len()));
            file.extend(image);
        }
        file.extend(pair.readings);
        for listing in &pair.listings {
            file.extend(number(listing.len()));
            file.extend(listing);
        }
        file.extend(answers(&pair.answers));
    }
    file
}

/// The answer of 01, and each other one where it is another.
fn answers([plain, others @ ..]: &[Answered; VERDICTS.len()]) -> Vec<u8> {
    let mut bytes = plain.bytes();
    for other in others {
        match plain == other {
            true => bytes.push(SAME),
            false => {
                bytes.push(FOLLOWS);
                bytes.extend(other.bytes());
            }
        }
    }
    bytes
}

struct File<'a>(&'a [u8]);

impl<'a> File<'a> {
    fn take(&mut self, count: usize) -> Result<&'a [u8], String> {
        if count > self.0.len() {
            return Err("the file ends early".to_string());
        }
        let (taken, rest) = self.0.split_at(count);
        self.0 = rest;
        Ok(taken)
    }

    fn u8(&mut self) -> Result<u8, String> {
        Ok(self.take(1)?[0])
    }

    fn u32(&mut self) -> Result<usize, String> {
        let bytes = self.take(4)?;
        Ok(bytes.iter().rev().fold(0, |n, b| n << 8 | usize::from(*b)))
    }

    /// A length, and so many bytes.
    fn bytes(&mut self) -> Result<Vec<u8>, String> {
        let length = self.u32()?;
        Ok(self.take(length)?.to_vec())
    }

    fn pair(&mut self) -> Result<Recorded, String> {
        let length = self.u8()?;
        let name = self.take(usize::from(length))?;
        if name.is_empty() || !name.iter().all(|b| (b' '..=b'~').contains(b)) {
            return Err(format!("not a case's name: {}", name.escape_ascii()));
        }
        let (old, new) = (self.bytes()?, self.bytes()?);
        let readings = [self.u8()?, self.u8()?];
        let listings = [self.bytes()?, self.bytes()?];
        let plain = self.answered()?;
        let answers = [plain.clone(), self.other(&plain)?, self.other(&plain)?];
        Ok(Recorded {
            name: name.iter().map(|b| char::from(*b)).collect(),
            old,
            new,
            readings,
            listings,
            answers,
        })
    }

    /// The answer by another verdict than that of 01.
    fn other(&mut self, plain: &Answered) -> Result<Answered, String> {
        let other = match self.u8()? {
            SAME => return Ok(plain.clone()),
            FOLLOWS => self.answered()?,
            mark => return Err(format!("no mark of an answer: {mark}")),
        };
        match other == *plain {
            true => Err("one answer stands twice".to_string()),
            false => Ok(other),
        }
    }

    fn answered(&mut self) -> Result<Answered, String> {
        let mut verdict = Vec::new();
        for selector in 0..SELECTORS {
            verdict.push(match selector {
                0..=3 => u64::from(self.u8()?),
                _ => self.u32()? as u64,
            });
        }
        let report = match verdict[0] {
            0 => self.take(verdict[4] as usize)?.to_vec(),
            _ => Vec::new(),
        };
        Ok(Answered { verdict, report })
    }
}

/// The pairs of a file, or why it is not such a file.
pub fn read(bytes: &[u8]) -> Result<Vec<Recorded>, String> {
    let mut file = File(bytes);
    if file.take(MAGIC.len())? != MAGIC {
        return Err(format!(
            "the file does not start with {}",
            MAGIC.escape_ascii()
        ));
    }
    let pairs = file.u32()?;
    let counts = file.u32()?;
    if counts != COUNTS {
        return Err(format!(
            "answers have {COUNTS} counts, the file says {counts}"
        ));
    }
    let said = [file.u32()?, file.u32()?, file.u32()?, file.u32()?];
    let mut list = Vec::new();
    let mut names = BTreeSet::new();
    for place in 0..pairs {
        let pair = file
            .pair()
            .map_err(|error| format!("pair {place}: {error}"))?;
        if !names.insert(pair.name.clone()) {
            return Err(format!("pair {place}: a second case named {}", pair.name));
        }
        list.push(pair);
    }
    if !file.0.is_empty() {
        return Err(format!("{} bytes after the last pair", file.0.len()));
    }
    if said != largest(&list) {
        let found = largest(&list);
        return Err(format!(
            "largest lengths are {found:?}, the file says {said:?}"
        ));
    }
    Ok(list)
}
