//! Facts about a pair without repeats that differs from an earlier one only in how
//! its images are filed.

use super::held::unresolvable;
use super::{Facts, Rows};
use crate::answer::{Answer, Pair};
use crate::limits::NODES;
use crate::model::{kept, surviving_declarations, survivors};
use crate::refiling::{form, repeat, Form};
use crate::schema::*;
use std::collections::{BTreeMap, BTreeSet};

const SAME: &str = "filed anew, the same answer";
const ANOTHER: &str = "filed anew, another answer";

/// Of pairs with the same forms the first, and its answer.
#[derive(Default)]
pub struct Filed(BTreeMap<[Form; 2], ([Schema; 2], Answer)>);

impl Filed {
    pub fn facts(&mut self, facts: &mut Facts, pair: &Pair) {
        let (Ok(old), Ok(new)) = (&pair.old, &pair.new) else {
            return;
        };
        if repeat(old).is_some() || repeat(new).is_some() {
            return;
        }
        let first = || ([old.clone(), new.clone()], pair.answer.clone());
        let forms = [form(old), form(new)];
        let (first, answer) = self.0.entry(forms).or_insert_with(first);
        let moved = [first[0] != *old, first[1] != *new];
        let sides = match moved {
            [false, false] => return,
            [true, false] => "old",
            [false, true] => "new",
            [true, true] => "both",
        };
        facts.add(format!("filed anew: {sides}"));
        facts.add(if pair.answer == *answer {
            SAME
        } else {
            ANOTHER
        });
        facts.add(match answer.number {
            0 => format!("filed anew, bump {:?}", answer.bump),
            number => format!("filed anew, refused {number}"),
        });
        for (side, moves) in [
            ("old", moves(&first[0], old)),
            ("new", moves(&first[1], new)),
        ] {
            for text in moves {
                facts.add(format!("{side} filed anew: {text}"));
            }
        }
    }
}

/// In what a copy is filed anew.
pub fn moves(schema: &Schema, copy: &Schema) -> BTreeSet<String> {
    let found = BTreeSet::new();
    let mut moves = Moves {
        schema,
        copy,
        found,
    };
    moves.of_schemas();
    moves.found
}

struct Moves<'a> {
    schema: &'a Schema,
    copy: &'a Schema,
    found: BTreeSet<String>,
}

impl Moves<'_> {
    fn add_if(&mut self, condition: bool, text: &str) {
        if condition {
            self.found.insert(text.to_string());
        }
    }

    fn of_schemas(&mut self) {
        let both = [self.schema, self.copy];
        let [o, n] = both.map(listed_names);
        self.add_if(o != n, "declarations reordered");
        let impls = o.iter().filter(|(_, kind)| *kind == IMPL).count();
        self.add_if(o != n && impls > 1, "several impls");
        let [o, n] = both.map(unresolvable_ids);
        self.add_if(o != n, "other unresolvable ids listed");
        let [o, n] = both.map(|schema| schema.registry.len());
        self.add_if(o < n, "more entries");
        self.add_if(o > n, "fewer entries");
        let [o, n] = both.map(entry_names);
        self.add_if(o != n, "registry renumbered");
        let [o, n] = both.map(surviving_declarations);
        for (_, o, n) in kept(&o, &n) {
            self.of_bodies(&o.body, &n.body);
        }
    }

    fn of_bodies(&mut self, one: &Body, other: &Body) {
        match (one, other) {
            (Body::Message(_, o), Body::Message(_, n)) => self.of_fields("fields", o, n),
            (Body::Enum(_, _, o), Body::Enum(_, _, n)) => self.of_order("enum variants", o, n),
            (Body::Flags(_, o), Body::Flags(_, n)) => self.of_order("bits", o, n),
            (Body::Union(o), Body::Union(n)) => {
                self.of_order("union variants", o, n);
                for (_, o, n) in kept(&survivors(o), &survivors(n)) {
                    self.of_fields("variant's fields", &o.fields, &n.fields);
                }
            }
            (Body::Newtype(o), Body::Newtype(n)) => self.of_types(o, n, "a root", 1),
            _ => {}
        }
    }

    fn of_order<T: Numbered>(&mut self, place: &str, one: &[T], other: &[T]) {
        let ordinals = |list: &[T]| list.iter().map(T::ordinal).collect::<Vec<_>>();
        self.add_if(
            ordinals(one) != ordinals(other),
            &format!("{place} reordered"),
        );
    }

    fn of_fields(&mut self, place: &str, one: &[Field], other: &[Field]) {
        self.of_order(place, one, other);
        for (_, o, n) in kept(&survivors(one), &survivors(other)) {
            self.of_types(&o.ty, &n.ty, "a root", 1);
        }
    }

    fn of_types(&mut self, one: &Type, other: &Type, place: &str, node: usize) {
        if let (Label::Named(o), Label::Named(n)) = (&one.label, &other.label) {
            if o != n {
                self.of_ids(*o, *n, place, node);
            }
        }
        let inner = one.inner.iter().zip(&other.inner).enumerate();
        for (n, (o, other)) in inner {
            let place = format!("inner type {n} of tag {}", one.tag());
            self.of_types(o, other, &place, node + 1);
        }
    }

    fn of_ids(&mut self, one: u32, other: u32, place: &str, node: usize) {
        let [from, to] =
            [(self.schema, one), (self.copy, other)].map(|(s, id)| unresolvable(s, id));
        let resolves = from.is_none() && to.is_none();
        self.add_if(resolves, &format!("id in {place} renumbered"));
        self.add_if(resolves && node == NODES, DEEPEST);
        let [from, to] = [from, to].map(|what| what == Some(EMPTY));
        self.add_if(!resolves && from && !to, FROM_EMPTY);
        self.add_if(!resolves && !from && to, TO_EMPTY);
        self.add_if(!resolves && !from && !to, "other unresolvable id in a type");
    }
}

const EMPTY: &str = "of an empty entry";
const FROM_EMPTY: &str = "id of an empty entry in a type, then N or more";
const TO_EMPTY: &str = "id of N or more in a type, then of an empty entry";
const DEEPEST: &str = "id in a 32nd node renumbered";

fn listed_names(schema: &Schema) -> Vec<(&str, u8)> {
    let listed = schema.declarations.iter().filter_map(|id| schema.get(*id));
    listed.map(|d| (d.name.as_str(), d.kind())).collect()
}

fn unresolvable_ids(schema: &Schema) -> Vec<u32> {
    let listed = schema.declarations.iter().copied();
    let mut ids: Vec<u32> = listed.filter(|id| schema.get(*id).is_none()).collect();
    ids.sort();
    ids
}

fn entry_names(schema: &Schema) -> Vec<(&str, u8)> {
    let full = schema.registry.iter().flatten();
    full.map(|d| (d.name.as_str(), d.kind())).collect()
}

const MOVED: [&str; 16] = [
    "declarations reordered",
    "several impls",
    "fields reordered",
    "enum variants reordered",
    "bits reordered",
    "union variants reordered",
    "variant's fields reordered",
    "registry renumbered",
    "more entries",
    "fewer entries",
    "other unresolvable ids listed",
    "other unresolvable id in a type",
    FROM_EMPTY,
    TO_EMPTY,
    "id in a root renumbered",
    DEEPEST,
];

/// All ways in which a copy can be filed anew.
pub fn all_moves() -> Vec<String> {
    let mut all: Vec<String> = MOVED.map(str::to_string).into();
    for tag in 4..=9 {
        let places = 0..inner_types(tag);
        all.extend(places.map(|place| format!("id in inner type {place} of tag {tag} renumbered")));
    }
    all
}

pub fn rows(rows: &mut Rows) {
    rows.one(SAME);
    rows.never(ANOTHER);
    for sides in ["old", "new", "both"] {
        rows.one(format!("filed anew: {sides}"));
    }
    for bump in ["Patch", "Minor", "Major"] {
        rows.one(format!("filed anew, bump {bump}"));
    }
    rows.one("filed anew, refused 11");
    for text in all_moves() {
        rows.sides(|side| format!("{side} filed anew: {text}"));
    }
}
