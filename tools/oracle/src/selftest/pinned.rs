//! What crates/rules pins by theorems is what the model and `check` answer, and its
//! text is read whole or not at all.

use super::Tests;
use crate::answer::{judge, Answer, Verdict, SELECTORS};
use crate::pinned::{pins, read, Pin, Said};
use crate::reader::read_image;

pub fn run(tests: &mut Tests) {
    for pin in pins() {
        let [old, new] = &pin.images;
        let answer = judge(old, new).by(pin.verdict);
        let name = format!("{} {:?}", pin.names.join(" "), pin.verdict);
        tests.equal(&name, found(pin, &answer), pin.said.clone());
    }
    tests.holds("20 pins or more", pins().len() >= 20);
    form(tests);
}

/// What an answer says, in the way in which the pin says it.
fn found(pin: &Pin, answer: &Answer) -> Said {
    match &pin.said {
        Said::Report(_) => {
            let report = String::from_utf8_lossy(&answer.report);
            Said::Report(report.lines().map(str::to_string).collect())
        }
        Said::Values(values) => {
            let all: Vec<u64> = (0..SELECTORS).map(|n| answer.select(n)).collect();
            let rest = all.get(values.len()..).unwrap_or_default();
            let shown = if rest.iter().all(|value| *value == 0) {
                values.len().min(all.len())
            } else {
                all.len()
            };
            Said::Values(all[..shown].to_vec())
        }
        Said::Distance(_) if answer.number == 0 => Said::Distance(answer.select(2)),
        Said::Count(kind, _) if answer.number == 0 => {
            Said::Count(*kind, answer.select(5 + *kind as u64))
        }
        Said::Verdict if answer.number == 0 => Said::Verdict,
        Said::SameStripped if stripped_alike(&pin.images) => Said::SameStripped,
        _ => Said::Values(vec![answer.select(0)]),
    }
}

/// Whether both are accepted, and hold the same but for format, widths and tombstones.
fn stripped_alike(images: &[Vec<u8>; 2]) -> bool {
    let [old, new] = images.each_ref().map(|image| read_image(image));
    match (old, new) {
        (Ok(old), Ok(new)) => old.in_format(1) == new.in_format(1),
        _ => false,
    }
}

/// Two images, and the start of the record.
const START: &str = "-- a = image (\"07\" ∷ [])
a = image (\"01 ff\" ∷ \"02\" ∷ [])
b =
    image (\"0a\" ∷ [])
pub record Pinned : Type 0 where
  pub ";

/// Fields, and the pins of each; none of one that is not understood.
const FIELDS: [(&str, &str); 31] = [
    (
        "f : told a b ≡ lines (\"x (y)\" ∷ \"z\" ∷ [])",
        "a b Report([\"x (y)\", \"z\"])",
    ),
    (
        "f : selected (checked a a) ≡ 11 ∷ 3 ∷ []",
        "a a Values([11, 3])",
    ),
    ("f : distance verdict_of b a ≡ 2", "b a Distance(2)"),
    (
        "f : count_between verdict_of (kind_at FieldRemoved) b a ≡ 2",
        "b a Count(FieldRemoved, 2)",
    ),
    (
        "f : Steps verdict_of a (b ∷ a ∷ [])",
        "a b Verdict, b a Verdict",
    ),
    (
        "f : Verdict verdict_of a b\n  -- more\n  pub g : Verdict verdict_of b b",
        "a b Verdict, b b Verdict",
    ),
    (
        "f : imports_told a b ≡ lines (\"x\" ∷ [])",
        "a b with imports Report([\"x\"])",
    ),
    (
        "f : selected (outcome imports a a) ≡ 11 ∷ 3 ∷ []",
        "a a with imports Values([11, 3])",
    ),
    (
        "f : distance imports_of b a ≡ 2\nuse x.{y}\n  pub g : 1 ≡ 1",
        "b a with imports Distance(2)",
    ),
    ("f : Steps imports_of a (b ∷ [])", "a b with imports Verdict"),
    (
        "f : mended_told a b ≡ lines (\"x\" ∷ [])",
        "a b mended Report([\"x\"])",
    ),
    (
        "f : selected (outcome mended b a) ≡ 0 ∷ []",
        "b a mended Values([0])",
    ),
    ("f : distance mended_of b b ≡ 0", "b b mended Distance(0)"),
    (
        "f : count_between mended_of (kind_at FieldTypeChanged) a a ≡ 0",
        "a a mended Count(FieldTypeChanged, 0)",
    ),
    ("f : Verdict mended_of a b", "a b mended Verdict"),
    (
        "f : Steps mended_of a (b ∷ a ∷ [])",
        "a b mended Verdict, b a mended Verdict",
    ),
    ("f : SameStripped b a", "b a SameStripped"),
    ("f : mended_of a b ≡ lines (\"x\" ∷ [])", ""),
    ("f : distance mended_told a b ≡ 0", ""),
    ("f : distance mended a b ≡ 0", ""),
    ("f : selected (outcome mended_of a b) ≡ 0 ∷ []", ""),
    ("f : distance otherOf a b ≡ 2", ""),
    ("f : selected (outcome plain a a) ≡ 11 ∷ []", ""),
    ("f : told a c ≡ lines (\"x\" ∷ [])", ""),
    ("f : told a b ≡ lines (\"x\" ∷", ""),
    ("f : told a b ≡ lines (x ∷ [])", ""),
    ("f : distance verdict_of a b ≡ two", ""),
    ("f : distance verdict_of a b", ""),
    (
        "f : count_between verdict_of (kind_at NothingAdded) a b ≡ 1",
        "",
    ),
    ("f : 1 ≡ 1", ""),
    ("f", ""),
];

/// The pins of a text with this field, shown; none of one that is not understood.
fn shown(field: &str) -> String {
    let pins = read(&format!("{START}{field}"), &["Pinned"]).unwrap_or_default();
    let by = |pin: &Pin| match pin.verdict {
        Verdict::Plain => "",
        Verdict::Imports => " with imports",
        Verdict::Mended => " mended",
    };
    let show = |pin: &Pin| format!("{}{} {:?}", pin.names.join(" "), by(pin), pin.said);
    pins.iter().map(show).collect::<Vec<_>>().join(", ")
}

/// Texts with one field.
fn form(tests: &mut Tests) {
    let pins = read(&format!("{START}f : Verdict verdict_of a b"), &["Pinned"]);
    let images = pins.map(|pins| pins[0].images.clone());
    tests.equal("two images", images, Ok([vec![1, 255, 2], vec![10]]));
    for (field, wanted) in FIELDS {
        tests.equal(field, shown(field), wanted.to_string());
    }
    let other = START.replace("0a", "0g");
    tests.holds("an image that is none", read(&other, &["Pinned"]).is_err());
    let none = read("a = image (\"01\" ∷ [])", &["Pinned"]);
    tests.holds("no record", none.is_err());
    two_files(tests);
}

/// The images of the first stand in the second, and a pin knows its record.
fn two_files(tests: &mut Tests) {
    let first = format!("{START}f : Verdict verdict_of a b\n");
    let second = "use Pinned.{a}\nc = image (\"03\" ∷ [])\n\
                  pub record More : Type 0 where\n  pub f : Verdict mended_of a c\n";
    let read = read(&(first + second), &["Pinned", "More"]);
    let found = read.map(|pins| {
        let pins = pins.into_iter();
        let told = pins.map(|pin| (pin.record, pin.names.join(" ")));
        told.collect::<Vec<_>>()
    });
    let wanted = [("Pinned", "a b"), ("More", "a c")];
    let wanted = wanted.map(|(record, names)| (record.to_string(), names.to_string()));
    tests.equal("two files", found, Ok(wanted.into()));
}
