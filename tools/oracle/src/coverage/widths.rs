//! Facts about formats and widths: of which formats two accepted images are, how
//! their widths differ beside what else, and what the verdicts make of it.

use super::another::BUMPS;
use crate::answer::{Answer, Pair, Side, Verdict};
use crate::changes::{Bump, ChangeKind};
use crate::imports::reached;
use crate::limits::REPORT_BYTES;
use crate::model::{kept, surviving_declarations, survivors};
use crate::refusal::{ALIAS_PAIR, MIXED};
use crate::schema::*;
use std::collections::{BTreeMap, BTreeSet};

pub const FORMATS: [u16; 3] = [1, 2, 3];

const ALONE: &str = "widths: one change alone";
const SEVERAL: &str = "widths: two changes or more";
pub const NINTH_BIT: &str = "widths: a ninth bit";
const DEAD: &str = "widths: a dead declaration of another width, that of the survivor kept";
const DEAD_ALIKE: &str = "widths: another width, where a dead declaration has the old one";
const NOT_LISTED: &str = "widths: another width, not listed";
const REACHED: &str = "widths: another width, reached only";
const ONE_SIDED: &str = "widths: an enum or flags on one side only";
const KINDS: [&str; 2] = [
    "widths: an enum to flags of another width",
    "widths: flags to an enum of another width",
];
const ENUMS: [&str; 3] = ["kept", "wider", "narrower"];
const ENDS: [u8; 2] = [0, 255];
const BESIDE: [&str; 7] = [
    "non-exhaustive changed",
    "a variant removed",
    "a variant added, open",
    "a variant added, closed",
    "a bit removed",
    "a bit added",
    "another line of another declaration",
];

/// In a buffer of 65,536 bytes.
pub const LONG_BY_01: &str = "widths: a report too long by 01 alone";
pub const LONG_MENDED: &str = "widths: a report too long by the mended verdict alone";

const BY_01: &str = "widths: a change of width by 01";
const BY_IMPORTS: &str = "widths: a change of width with imports";
const NOT_FIRST: &str = "widths: a change of width that is not first in its declaration";
const NOT_REFUSED: &str = "widths: no 16, though an image is of format 1";
const REFUSED: &str = "widths: 16 for two images of one format but 1";
const ONE_OF_THREE: &str = "widths: no 16, though one image alone is of format 3";
const NOT_BOTH: &str = "widths: 16 of one side";

pub fn facts(pair: &Pair) -> BTreeSet<String> {
    let mut facts = BTreeSet::new();
    let Some((old, new)) = pair.schemas() else {
        return facts;
    };
    let formats = [old.format, new.format];
    let [imports, mended] = [Verdict::Imports, Verdict::Mended].map(|verdict| pair.by(verdict));
    facts.insert(says(formats, "01", &pair.answer));
    facts.insert(says(formats, "with imports", &imports));
    facts.insert(says(formats, "mended", &mended));
    if mended.number == MIXED {
        facts.insert(refused_where(&pair.answer));
    }
    let mut never = |holds: bool, fact: &str| {
        facts.extend(holds.then(|| fact.to_string()));
    };
    let count = |answer: &Answer| answer.counts[ChangeKind::WidthChanged as usize];
    never(count(&pair.answer) > 0, BY_01);
    never(count(&imports) > 0, BY_IMPORTS);
    let first = formats.contains(&FORMATS[0]);
    let same = formats[0] == formats[1];
    never(first && mended.number != MIXED, NOT_REFUSED);
    never(!same && mended.number != MIXED, ONE_OF_THREE);
    never(!first && same && mended.number == MIXED, REFUSED);
    never(
        mended.number == MIXED && mended.side != Side::Both,
        NOT_BOTH,
    );
    never(!first_lines(&mended), NOT_FIRST);
    if mended.number == 0 {
        facts.extend(compared(old, new, &mended));
        facts.extend(not_compared(old, new));
        let long = [&pair.answer, &mended].map(|answer| answer.report.len() > REPORT_BYTES);
        facts.extend((long == [true, false]).then(|| LONG_BY_01.to_string()));
        facts.extend((long == [false, true]).then(|| LONG_MENDED.to_string()));
    }
    let differ = mended.number == 0 && count(&mended) > 0;
    facts.extend(differ.then(|| ignored(pair.answer.bump)));
    facts
}

/// Whether each line on a width is the first of its declaration.
fn first_lines(answer: &Answer) -> bool {
    let report = String::from_utf8_lossy(&answer.report);
    let lines: Vec<Vec<&str>> = report.lines().map(|l| l.split(';').collect()).collect();
    let mut places = lines.iter().enumerate();
    places.all(|(place, line)| {
        // The namespace's line has no declaration, and one may have the empty name.
        let before = lines[..place].iter();
        let mut before = before.filter(|earlier| earlier[0] != "NamespaceChanged");
        line[0] != "WidthChanged" || !before.any(|earlier| earlier[2] == line[2])
    })
}

fn width(declaration: &Declaration) -> Width {
    match declaration.body {
        Body::Enum(_, width, _) | Body::Flags(width, _) => width,
        _ => None,
    }
}

/// What is said of the widths of survivors of one name.
fn compared(old: &Schema, new: &Schema, answer: &Answer) -> BTreeSet<String> {
    let mut facts = BTreeSet::new();
    let (old, new) = (surviving_declarations(old), surviving_declarations(new));
    let mut changed = 0;
    for (_, o, n) in kept(&old, &new) {
        let (Some(from), Some(to)) = (width(o), width(n)) else {
            continue;
        };
        if o.kind() != n.kind() {
            let flags = usize::from(matches!(o.body, Body::Flags(..)));
            facts.extend((from != to).then(|| KINDS[flags].to_string()));
            continue;
        }
        changed += usize::from(from != to);
        facts.extend(of_widths(&o.body, from, to));
        if from != to {
            facts.extend(beside(&o.body, &n.body).map(changed_beside));
        }
        let bits = [&o.body, &n.body].map(high_bits);
        let ninth = matches!(o.body, Body::Flags(..)) && [from, to] == [1, 2];
        let ninth = ninth && bits == [false, true];
        facts.extend(ninth.then(|| NINTH_BIT.to_string()));
    }
    let lines = answer.counts.iter().sum::<u32>() as usize;
    facts.extend((lines == 1 && changed == 1).then(|| ALONE.to_string()));
    facts.extend((changed >= 2).then(|| SEVERAL.to_string()));
    let names = old.keys().chain(new.keys());
    let one_sided = names.filter(|name| old.contains_key(*name) != new.contains_key(*name));
    let mut sides = one_sided.filter_map(|name| old.get(name).or(new.get(name)));
    let held = sides.any(|declaration| width(declaration).is_some());
    facts.extend(held.then(|| ONE_SIDED.to_string()));
    let others = other_lines(answer);
    facts.extend((changed > 0 && others).then(|| changed_beside(BESIDE[6])));
    facts
}

fn of_widths(body: &Body, from: u8, to: u8) -> Vec<String> {
    if matches!(body, Body::Flags(..)) {
        return vec![flags(from, to)];
    }
    let how = ENUMS[usize::from(from != to) + usize::from(from > to)];
    let mut facts = vec![enums(how)];
    for end in ENDS {
        facts.extend((from == end).then(|| enum_at("from", end)));
        facts.extend((to == end).then(|| enum_at("to", end)));
    }
    facts
}

/// Whether flags have a bit over 7.
fn high_bits(body: &Body) -> bool {
    match body {
        Body::Flags(_, bits) => survivors(bits).keys().any(|bit| *bit > 7),
        _ => false,
    }
}

/// How else two enums or flags differ.
fn beside(old: &Body, new: &Body) -> impl Iterator<Item = &'static str> {
    let (gone, came) = match (old, new) {
        (Body::Enum(_, _, o), Body::Enum(_, _, n)) | (Body::Flags(_, o), Body::Flags(_, n)) => {
            let (o, n) = (survivors(o), survivors(n));
            let gone = o.keys().any(|ordinal| !n.contains_key(ordinal));
            (gone, n.keys().any(|ordinal| !o.contains_key(ordinal)))
        }
        _ => (false, false),
    };
    let holds = match (old, new) {
        (Body::Enum(o, _, _), Body::Enum(n, _, _)) => {
            let open = n.non_exhaustive;
            let opened = o.non_exhaustive != open;
            [opened, gone, came && open, came && !open, false, false]
        }
        _ => [false, false, false, false, gone, came],
    };
    let all = BESIDE.into_iter().zip(holds);
    all.filter_map(|(word, holds)| holds.then_some(word))
}

/// Whether a line is of a declaration whose width is the same.
fn other_lines(answer: &Answer) -> bool {
    let report = String::from_utf8_lossy(&answer.report);
    let lines: Vec<Vec<&str>> = report.lines().map(|l| l.split(';').collect()).collect();
    let wide = |line: &&Vec<&str>| line[0] == "WidthChanged";
    let names: Vec<&str> = lines.iter().filter(wide).map(|line| line[2]).collect();
    let changes = lines.iter().filter(|line| line.len() > 3);
    let others = changes.filter(|line| !names.contains(&line[2]));
    others.count() > 0
}

/// Widths that differ and are not looked at.
fn not_compared(old: &Schema, new: &Schema) -> BTreeSet<String> {
    let mut facts = BTreeSet::new();
    let [o, n] = [old, new].map(surviving_declarations);
    for (name, o, n) in kept(&o, &n) {
        let (Some(from), Some(to)) = (width(o), width(n)) else {
            continue;
        };
        let dead = |schema, survivor: &Declaration, wanted: &dyn Fn(u8) -> bool| {
            let listed: Vec<&Declaration> = listed(schema);
            let dead = |d: &&&Declaration| d.name == **name && !std::ptr::eq(**d, survivor);
            let mut dead = listed.iter().filter(dead);
            dead.any(|d| d.kind() == survivor.kind() && width(d).is_some_and(wanted))
        };
        let others = dead(old, o, &|width| width != from) || dead(new, n, &|width| width != to);
        facts.extend((from == to && others).then(|| DEAD.to_string()));
        let alike = dead(new, n, &|width| width == from);
        facts.extend((from != to && alike).then(|| DEAD_ALIKE.to_string()));
    }
    let standing = |name: &str| o.contains_key(name) || n.contains_key(name);
    let [o, n] = [old, new].map(|schema| unlisted(schema, &standing));
    for (key, (from, o_reached)) in &o {
        let Some((to, n_reached)) = n.get(key).filter(|(to, _)| to != from) else {
            continue;
        };
        let both = *o_reached && *n_reached && to != from;
        facts.insert(if both { REACHED } else { NOT_LISTED }.to_string());
    }
    facts
}

fn listed(schema: &Schema) -> Vec<&Declaration> {
    let ids = schema.declarations.iter();
    ids.filter_map(|id| schema.get(*id)).collect()
}

/// By kind and name the widths of what is not listed, and whether it is reached.
fn unlisted<'a>(
    schema: &'a Schema,
    standing: &dyn Fn(&str) -> bool,
) -> BTreeMap<(u8, &'a str), (u8, bool)> {
    let reached = reached(schema);
    let ids = 0..schema.registry.len() as u32;
    let entries = ids.filter_map(|id| Some((id, schema.get(id)?)));
    let others = entries.filter(|(_, d)| !standing(&d.name));
    others
        .filter_map(|(id, d)| {
            Some((
                (d.kind(), d.name.as_str()),
                (width(d)?, reached.contains(&id)),
            ))
        })
        .collect()
}

fn says(formats: [u16; 2], word: &str, answer: &Answer) -> String {
    let [old, new] = formats;
    match answer.number {
        0 => format!("widths: formats {old} and {new}, {word}: {:?}", answer.bump),
        number => format!("widths: formats {old} and {new}, {word}: refused {number}"),
    }
}

fn refused_where(plain: &Answer) -> String {
    match plain.number {
        0 => format!("widths: refused by 16, where 01 says {:?}", plain.bump),
        number => format!("widths: refused by 16, where 01 refuses by {number}"),
    }
}

fn ignored(plain: Bump) -> String {
    format!("widths: another width, and 01 says {plain:?}")
}

fn enums(how: &str) -> String {
    format!("widths: an enum's {how}")
}

fn enum_at(way: &str, end: u8) -> String {
    format!("widths: an enum's, {way} {end}")
}

fn flags(from: u8, to: u8) -> String {
    format!("widths: flags' from {from} to {to}")
}

fn changed_beside(what: &str) -> String {
    format!("widths: another width beside {what}")
}

/// All facts of a pair.
pub fn all_facts() -> Vec<String> {
    let texts = [
        ALONE, SEVERAL, DEAD, DEAD_ALIKE, NOT_LISTED, REACHED, ONE_SIDED,
    ];
    let mut all: Vec<String> = texts.map(str::to_string).into();
    all.extend(KINDS.map(str::to_string));
    all.extend(ENUMS.map(enums));
    all.extend(ENDS.map(|end| enum_at("from", end)));
    all.extend(ENDS.map(|end| enum_at("to", end)));
    for from in WIRE_BYTES {
        all.extend(WIRE_BYTES.map(|to| flags(from, to)));
    }
    all.extend(BESIDE.map(changed_beside));
    all.extend(BUMPS.map(ignored));
    let answers = || {
        let verdicts = BUMPS.map(|bump| format!("{bump:?}"));
        verdicts
            .into_iter()
            .chain([format!("refused {ALIAS_PAIR}")])
    };
    for (old, new) in FORMATS.into_iter().flat_map(|o| FORMATS.map(|n| (o, n))) {
        let said =
            |word: &str, what: String| format!("widths: formats {old} and {new}, {word}: {what}");
        all.extend(answers().map(|what| said("01", what)));
        all.extend(answers().map(|what| said("with imports", what)));
        match [old, new] {
            [2, 2] | [3, 3] => all.extend(answers().map(|what| said("mended", what))),
            _ => all.push(said("mended", format!("refused {MIXED}"))),
        }
    }
    all.extend(BUMPS.map(|bump| format!("widths: refused by 16, where 01 says {bump:?}")));
    all.push(format!(
        "widths: refused by 16, where 01 refuses by {ALIAS_PAIR}"
    ));
    all
}

/// What can never be.
pub fn never() -> Vec<String> {
    let texts = [
        BY_01,
        BY_IMPORTS,
        NOT_FIRST,
        NOT_REFUSED,
        ONE_OF_THREE,
        REFUSED,
        NOT_BOTH,
    ];
    texts.map(str::to_string).into()
}
