//! Document 01's edges, found again in the schemas and the reports.

use super::{Facts, Rows};
use crate::answer::Pair;
use crate::model::{kept, surviving_declarations, survivors};
use crate::schema::*;

pub fn facts(facts: &mut Facts, pair: &Pair) {
    let (Ok(old), Ok(new)) = (&pair.old, &pair.new) else {
        return;
    };
    if pair.answer.number != 0 {
        return;
    }
    let report = String::from_utf8_lossy(&pair.answer.report);
    texts(facts, &report);
    let silent = report == "Compatible;Patch;0\n";
    let (o, n) = (surviving_declarations(old), surviving_declarations(new));
    facts.add_if(
        silent && o.is_empty() && n.is_empty(),
        "nothing declared on both sides",
    );
    for (name, o, n) in kept(&o, &n) {
        match (&o.body, &n.body) {
            (Body::Message(_, o), Body::Message(_, n)) => of_fields(facts, o, n, silent),
            (Body::Enum(o, _, _), Body::Enum(n, _, _)) => of_enum(facts, &report, name, *o, *n),
            (Body::Union(o), Body::Union(n)) => {
                let (o, n) = (survivors(o), survivors(n));
                let renamed = kept(&o, &n).any(|(_, o, n)| o.name != n.name);
                facts.add_if(renamed && silent, "edge k: union variant renamed, silent");
            }
            _ => {}
        }
    }
}

const TEXTS: [(&str, &str); 7] = [
    ("edge a: u8 to u8", "type changed from u8 to u8\n"),
    (
        "edge b: optional<vec3<f32>>",
        "type changed from optional<vec3<f32>> to optional<vec3<f32>>\n",
    ),
    (
        "edge e: default to default",
        "encoding changed from default to default\n",
    ),
    (
        "edge f: array<u8> to array<u8, 4>",
        "type changed from array<u8> to array<u8, 4>\n",
    ),
    (
        "no segment and an empty one",
        "namespace changed from '' to ''\n",
    ),
    ("bits without names shown", "bits {  }"),
    ("unresolvable id shown", "<unknown>"),
];

fn texts(facts: &mut Facts, report: &str) {
    for (fact, text) in TEXTS {
        facts.add_if(report.contains(text), fact);
    }
}

fn of_fields(facts: &mut Facts, old: &[Field], new: &[Field], silent: bool) {
    let twice = |list: &[Field]| list.iter().filter(|field| field.ordinal == 3).count() == 2;
    facts.add_if(twice(old), "edge l: ordinal 3 twice, old");
    facts.add_if(twice(new), "edge l: ordinal 3 twice, new");
    let (o, n) = (survivors(old), survivors(new));
    for (_, o, n) in kept(&o, &n) {
        let lost = o.marks.deprecated && !n.marks.deprecated;
        facts.add_if(lost && silent, "edge j: deprecation lost, silent");
        let limits = (o.limit, n.limit) == (Some(8), Some(9));
        facts.add_if(limits, "edge e: limit 8 to 9");
    }
}

fn of_enum(facts: &mut Facts, report: &str, name: &str, old: Marks, new: Marks) {
    let added = |bump: &str| report.contains(&format!("VariantAdded;{bump};{name};"));
    match (old.non_exhaustive, new.non_exhaustive) {
        (true, true) => facts.add_if(added("Minor"), "edge g: variant added, open"),
        (false, false) => facts.add_if(added("Major"), "edge h: variant added, closed"),
        (false, true) => facts.add_if(added("Minor"), "edge i: variant added, closed to open"),
        (true, false) => facts.add_if(added("Major"), "variant added, open to closed"),
    }
}

pub fn rows(rows: &mut Rows) {
    for (fact, _) in TEXTS {
        rows.one(fact);
    }
    rows.one("edge c: two unresolvable ids");
    rows.one("edge d: unresolvable and impl");
    rows.one("edge e: limit 8 to 9");
    rows.one("edge g: variant added, open");
    rows.one("edge h: variant added, closed");
    rows.one("edge i: variant added, closed to open");
    rows.one("variant added, open to closed");
    rows.one("edge j: deprecation lost, silent");
    rows.one("edge k: union variant renamed, silent");
    rows.sides(|side| format!("edge l: ordinal 3 twice, {side}"));
    rows.one("nothing declared on both sides");
}
