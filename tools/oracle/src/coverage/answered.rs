//! Facts about the answers.

use super::{Facts, Rows};
use crate::answer::{Pair, Side};
use crate::changes::{ChangeKind, CHANGE_KINDS, MENDED, NEVER};
use crate::limits::REPORT_BYTES;
use crate::refusal::FULL;

const TOO_LONG: &str = "refused 12 Both from a buffer of 65,536 bytes";

/// How many kinds of change stand in one report.
const TOGETHER: [usize; 5] = [2, 4, 6, 8, 15];

/// Variants, and for deprecation fields, of one name can report the same line.
const CAN_REPEAT: [ChangeKind; 6] = [
    ChangeKind::FieldAdded,
    ChangeKind::FieldRemoved,
    ChangeKind::FieldTypeChanged,
    ChangeKind::FieldRenamed,
    ChangeKind::FieldDeprecated,
    ChangeKind::FieldEncodingChanged,
];

pub fn facts(facts: &mut Facts, pair: &Pair) {
    let answer = &pair.answer;
    if let (Err(old), Err(new)) = (&pair.old, &pair.new) {
        facts.add(format!("both at fault: {} and {}", old.number, new.number));
    }
    if answer.side != Side::None {
        facts.add(format!("refused {} {:?}", answer.number, answer.side));
        return;
    }
    facts.add(format!("bump {:?}", answer.bump));
    facts.add(format!("result {:?}", answer.result));
    let kinds = CHANGE_KINDS.iter().zip(answer.counts);
    let mut together = 0;
    for (kind, count) in kinds.filter(|(_, count)| *count > 0) {
        together += 1;
        facts.add(format!("change {kind:?}"));
        facts.add_if(count > 1, format!("change {kind:?} more than once"));
        facts.add_if(count > 255, "a count over 255");
    }
    for least in TOGETHER {
        facts.add_if(
            together >= least,
            format!("{least} kinds of change together"),
        );
    }
    lines(facts, pair);
}

/// What the report's lines say.
fn lines(facts: &mut Facts, pair: &Pair) {
    let report = String::from_utf8_lossy(&pair.answer.report);
    let length = report.len();
    facts.add(format!("report of {length} bytes"));
    let printed = pair.answer.clone().within(REPORT_BYTES);
    facts.add_if(printed.number == FULL, TOO_LONG);
    let lines: Vec<&str> = report.lines().collect();
    let (last, changes) = lines.split_last().expect("a report has its last line");
    for (place, line) in changes.iter().enumerate() {
        let (kind, rest) = line.split_once(';').unwrap_or_default();
        let (bump, _) = rest.split_once(';').unwrap_or_default();
        facts.add(format!("line {kind};{bump}"));
        let again = changes[..place].contains(line);
        facts.add_if(again, format!("one line twice: {kind}"));
    }
    let (start, number) = last.rsplit_once(';').unwrap_or_default();
    facts.add(format!("last line {start}"));
    let digits = number.len();
    facts.add(format!("last line with a number of {digits} digits"));
    facts.add_if(changes.is_empty(), "last line alone");
    facts.add_if(
        !changes.is_empty(),
        format!("last line {start} after changes"),
    );
}

pub fn rows(rows: &mut Rows) {
    changes(rows);
    verdicts(rows);
    refusals(rows);
}

fn changes(rows: &mut Rows) {
    for kind in CHANGE_KINDS {
        if NEVER.contains(&kind) || MENDED.contains(&kind) {
            rows.never(format!("change {kind:?}"));
            continue;
        }
        rows.one(format!("change {kind:?}"));
        // A pair has one namespace on each side.
        if kind != ChangeKind::NamespaceChanged {
            rows.one(format!("change {kind:?} more than once"));
        }
    }
    rows.one("a count over 255");
    rows.one("line VariantAdded;Minor");
    rows.one("line VariantAdded;Major");
    for kind in CAN_REPEAT {
        rows.one(format!("one line twice: {kind:?}"));
    }
    for least in TOGETHER {
        rows.one(format!("{least} kinds of change together"));
    }
}

fn verdicts(rows: &mut Rows) {
    for bump in ["Patch", "Minor", "Major"] {
        rows.one(format!("bump {bump}"));
    }
    for result in ["Compatible", "Breaking"] {
        rows.one(format!("result {result}"));
    }
    for last in ["Compatible;Patch", "Compatible;Minor", "Breaking;Major"] {
        rows.one(format!("last line {last}"));
        rows.one(format!("last line {last} after changes"));
    }
    rows.one("last line alone");
    for digits in 1..=4 {
        rows.one(format!("last line with a number of {digits} digits"));
    }
    for length in [REPORT_BYTES, REPORT_BYTES + 1] {
        rows.one(format!("report of {length} bytes"));
    }
}

fn refusals(rows: &mut Rows) {
    for number in 1..=10 {
        rows.one(format!("refused {number} Old"));
        rows.one(format!("refused {number} New"));
    }
    rows.one("refused 11 Both");
    rows.one(TOO_LONG);
    for old in 2..=10 {
        for new in 2..=10 {
            rows.one(format!("both at fault: {old} and {new}"));
        }
    }
    rows.one("both at fault: 1 and 2");
    rows.one("both at fault: 10 and 1");
}
