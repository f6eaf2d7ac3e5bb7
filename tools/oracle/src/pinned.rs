//! What the files `Pinned*.antt` of crates/rules/specs pin, read as data: images in
//! hexadecimal, and what is said of pairs of them by which verdict.

use crate::answer::{Verdict, VERDICTS};
use crate::changes::{ChangeKind, CHANGE_KINDS};
use std::collections::BTreeMap;
use std::sync::OnceLock;

macro_rules! files {
    ($($record:literal)*) => {
        /// A later file has images of the former ones.
        const TEXT: &str = concat!(
            $(include_str!(concat!("../../../crates/rules/specs/", $record, ".antt")),)*
        );

        /// The record of each file, by which it is named.
        pub const RECORDS: &[&str] = &[$($record),*];
    };
}

// A file more is its name here.
files!("Pinned" "PinnedImports" "PinnedMended" "PinnedIgnored");

/// What is said of a pair.
#[derive(Clone, PartialEq, Debug)]
pub enum Said {
    /// The report, by its lines.
    Report(Vec<String>),
    /// The values from selector 0 on; those that are left out are 0.
    Values(Vec<u64>),
    Distance(u64),
    Count(ChangeKind, u64),
    /// That there is a verdict.
    Verdict,
    /// That both are accepted, and hold the same but for format and widths.
    SameStripped,
}

#[derive(Clone, PartialEq, Debug)]
pub struct Pin {
    /// The record that it stands in.
    pub record: String,
    pub names: [String; 2],
    pub images: [Vec<u8>; 2],
    pub verdict: Verdict,
    pub said: Said,
}

impl Pin {
    /// The name of its recorded pair, in which each further word of an image's name
    /// has a capital: `richOld` for `rich_old`.
    pub fn recorded(&self) -> String {
        let names = self.names.each_ref().map(|name| joined(name));
        format!("pinned {}", names.join(" "))
    }
}

fn joined(name: &str) -> String {
    let mut words = name.split('_');
    let first = words.next().unwrap_or_default().to_string();
    words.fold(first, |joined, word| {
        joined + &word[..1].to_uppercase() + &word[1..]
    })
}

/// All that is pinned, in the order of the file.
pub fn pins() -> &'static [Pin] {
    static PINS: OnceLock<Vec<Pin>> = OnceLock::new();
    PINS.get_or_init(|| {
        let read = read(TEXT, RECORDS);
        read.unwrap_or_else(|fault| panic!("{}: {fault}", RECORDS.join(", ")))
    })
}

/// The pins of a text with these records; nothing in them is passed over.
pub fn read(text: &str, records: &[&str]) -> Result<Vec<Pin>, String> {
    let words = words(text);
    let words: Vec<&str> = words.iter().map(String::as_str).collect();
    let images = images(&words)?;
    let mut pins = Vec::new();
    for record in records {
        for field in fields(&words, record)? {
            let said = said(field).map_err(|fault| format!("{fault}: {}", field.join(" ")))?;
            for (names, verdict, said) in said {
                let image = |n: &str| images.get(n).cloned().ok_or(format!("no image {n}"));
                pins.push(Pin {
                    record: record.to_string(),
                    images: [image(names[0])?, image(names[1])?],
                    names: names.map(str::to_string),
                    verdict,
                    said,
                });
            }
        }
    }
    Ok(pins)
}

/// The fields of a record, which goes on to the next file, if there is one.
fn fields<'a, 'b>(words: &'b [&'a str], record: &str) -> Result<Vec<&'b [&'a str]>, String> {
    let start = words.windows(2).position(|w| w == ["record", record]);
    let rest = &words[start.ok_or(format!("no record {record}"))?..];
    let end = rest.iter().position(|word| *word == "use");
    let fields = rest[..end.unwrap_or(rest.len())].split(|word| *word == "pub");
    Ok(fields.skip(1).collect())
}

/// Words, parentheses and texts, each text after a quotation mark; no comments.
fn words(text: &str) -> Vec<String> {
    let mut words = Vec::new();
    let lines = text.lines().map(str::trim);
    for line in lines.filter(|line| !line.starts_with("--")) {
        for (n, part) in line.split('"').enumerate() {
            if n % 2 == 1 {
                words.push(format!("\"{part}"));
                continue;
            }
            let spaced = part.replace('(', " ( ").replace(')', " ) ");
            words.extend(spaced.split_whitespace().map(str::to_string));
        }
    }
    words
}

/// The images by their names: `name = image ("01 00" ∷ "02" ∷ [])`.
fn images(words: &[&str]) -> Result<BTreeMap<String, Vec<u8>>, String> {
    let mut images = BTreeMap::new();
    for n in 0..words.len() {
        if let [name, "=", "image", "(", parts @ ..] = &words[n..] {
            let mut image = Vec::new();
            for part in list(parts)? {
                let digits = text(part)?.split(' ');
                let bytes = digits.map(|digits| u8::from_str_radix(digits, 16));
                let bytes: Result<Vec<u8>, _> = bytes.collect();
                image.extend(bytes.map_err(|fault| format!("{name}: {fault}"))?);
            }
            images.insert(name.to_string(), image);
        }
    }
    Ok(images)
}

/// What a field of the record says, by pairs of names and by a verdict.
fn said<'a>(field: &[&'a str]) -> Result<Vec<([&'a str; 2], Verdict, Said)>, String> {
    let [_, ":", field @ ..] = field else {
        return Err("no field".to_string());
    };
    let (pair, verdict, said) = match field {
        [call, old, new, "≡", "lines", "(", lines @ ..] => {
            let lines: Result<Vec<&str>, String> = list(lines)?.into_iter().map(text).collect();
            let lines = lines?.into_iter().map(str::to_string).collect();
            ([*old, *new], asked(TOLD, call)?, Said::Report(lines))
        }
        ["selected", "(", "checked", old, new, ")", "≡", values @ ..] => {
            ([*old, *new], Verdict::Plain, Said::Values(numbers(values)?))
        }
        ["selected", "(", "outcome", call, old, new, ")", "≡", values @ ..] => {
            let values = Said::Values(numbers(values)?);
            ([*old, *new], asked(OUTCOME, call)?, values)
        }
        ["distance", call, old, new, "≡", distance] => {
            let distance = Said::Distance(number(distance)?);
            ([*old, *new], asked(OF, call)?, distance)
        }
        ["count_between", call, "(", "kind_at", name, ")", old, new, "≡", count] => {
            let count = Said::Count(kind(name)?, number(count)?);
            ([*old, *new], asked(OF, call)?, count)
        }
        ["Verdict", call, old, new] => ([*old, *new], asked(OF, call)?, Said::Verdict),
        ["SameStripped", old, new] => ([*old, *new], Verdict::Plain, Said::SameStripped),
        ["Steps", call, first, "(", rest @ ..] => {
            let verdict = asked(OF, call)?;
            let chain: Vec<&str> = [*first].into_iter().chain(list(rest)?).collect();
            let pairs = chain.windows(2).map(|pair| [pair[0], pair[1]]);
            return Ok(pairs.map(|pair| (pair, verdict, Said::Verdict)).collect());
        }
        _ => return Err("not understood".to_string()),
    };
    Ok(vec![(pair, verdict, said)])
}

/// How the verdicts are named, in their order: by their reports, by their values (those
/// of 01 have a form of their own), and in all else.
const TOLD: [&str; 3] = ["told", "imports_told", "mended_told"];
const OUTCOME: [&str; 3] = ["", "imports", "mended"];
const OF: [&str; 3] = ["verdict_of", "imports_of", "mended_of"];

/// The verdict that a call names.
fn asked(calls: [&str; 3], call: &str) -> Result<Verdict, String> {
    let mut named = VERDICTS.into_iter().zip(calls);
    let verdict = named.find(|(_, name)| *name == call);
    let verdict = verdict.map(|(verdict, _)| verdict);
    verdict.ok_or(format!("{call} is no call"))
}

fn numbers(words: &[&str]) -> Result<Vec<u64>, String> {
    list(words)?.into_iter().map(number).collect()
}

/// The items of `a ∷ b ∷ []`, after which at most a parenthesis stands that closes.
fn list<'a>(words: &[&'a str]) -> Result<Vec<&'a str>, String> {
    let mut items = Vec::new();
    for n in (0..words.len()).step_by(2) {
        match &words[n..] {
            ["[]", ..] => return Ok(items),
            [item, "∷", ..] => items.push(*item),
            _ => break,
        }
    }
    Err("a list without an end".to_string())
}

fn text(word: &str) -> Result<&str, String> {
    let text = word.strip_prefix('"');
    text.ok_or(format!("{word} is no text"))
}

fn kind(word: &str) -> Result<ChangeKind, String> {
    let mut kinds = CHANGE_KINDS.into_iter();
    let kind = kinds.find(|kind| format!("{kind:?}") == word);
    kind.ok_or(format!("no kind {word}"))
}

fn number(word: &str) -> Result<u64, String> {
    word.parse().map_err(|fault| format!("{word}: {fault}"))
}
