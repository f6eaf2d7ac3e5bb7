//! Where the names of one schema lead: what is reached and how, what is not,
//! and which of it stands.

use crate::imports::{named_ids, reached, standing};
use crate::limits::NODES;
use crate::model::survivors;
use crate::schema::*;
use std::collections::{BTreeMap, BTreeSet};

const UNLISTED: &str = "an entry reached that is not listed";
const NOTHING: &str = "an entry that nothing leads to";
const ITSELF: &str = "an entry that names itself";
const RING: &str = "a ring of two entries or more";
const SURVIVOR: &str = "a survivor reached";
const LOST: &str = "a declaration that lost its name is reached";
const LOST_LEADS: &str = "a declaration that lost its name leads to what is not reached";
const UNDER_SURVIVOR: &str = "a reached entry under a survivor's name";
const THROUGH_UNDER: &str = "reached only through entries under a survivor's name";
const TWO: &str = "two reached entries of one name";
const THROUGH_LOWER: &str = "reached only through entries with a lower id than another's";
const DEAD_FIELD: &str = "a dead field leads to what is not reached";
const DEAD_VARIANT: &str = "a dead variant leads to what is not reached";
const DEAD_IN_VARIANT: &str = "a variant's dead field leads to what is not reached";
const UNRESOLVABLE: &str = "an unresolvable id in what is followed";
const TWICE: &str = "an entry named twice";
const DEEPEST: &str = "a 32nd node leads to what is not listed";
const STEPS: [usize; 4] = [2, 3, 5, 8];

pub fn ways(schema: &Schema) -> BTreeSet<String> {
    let mut ways = Ways::of(schema);
    ways.steps();
    ways.entries();
    ways.names();
    ways.dead();
    ways.nodes();
    ways.found
}

/// All of them.
pub fn all_ways() -> Vec<String> {
    let texts = [
        UNLISTED,
        NOTHING,
        ITSELF,
        RING,
        SURVIVOR,
        LOST,
        LOST_LEADS,
        UNDER_SURVIVOR,
        THROUGH_UNDER,
        TWO,
        THROUGH_LOWER,
        DEAD_FIELD,
        DEAD_VARIANT,
        DEAD_IN_VARIANT,
        UNRESOLVABLE,
        TWICE,
        DEEPEST,
    ];
    let mut all: Vec<String> = texts.map(str::to_string).into();
    all.extend(STEPS.map(in_steps));
    all.extend(KIND_NAMES.map(reached_kind));
    all.push(at_root());
    for tag in 4..=15 {
        all.extend((0..inner_types(tag)).map(|place| under(tag, place)));
    }
    all
}

fn in_steps(steps: usize) -> String {
    format!("reached in {steps} steps or more")
}

fn reached_kind(word: &str) -> String {
    format!("{word} stands and is not listed")
}

fn at_root() -> String {
    "a root leads to what is not listed".to_string()
}

fn under(tag: u8, place: usize) -> String {
    format!("inner type {place} of tag {tag} leads to what is not listed")
}

struct Ways<'a> {
    schema: &'a Schema,
    survivors: BTreeSet<u32>,
    reached: BTreeSet<u32>,
    found: BTreeSet<String>,
}

impl<'a> Ways<'a> {
    fn of(schema: &'a Schema) -> Ways<'a> {
        let listed = schema.declarations.iter();
        let named = listed.filter_map(|id| Some((&schema.get(*id)?.name, *id)));
        let last: BTreeMap<&String, u32> = named.collect();
        Ways {
            schema,
            survivors: last.into_values().collect(),
            reached: reached(schema),
            found: BTreeSet::new(),
        }
    }

    fn add_if(&mut self, condition: bool, text: impl Into<String>) {
        if condition {
            self.found.insert(text.into());
        }
    }

    fn entry(&self, id: u32) -> &'a Declaration {
        self.schema.get(id).expect("it is resolvable")
    }

    fn resolvable(&self, ids: Vec<u32>) -> BTreeSet<u32> {
        let ids = ids.into_iter();
        ids.filter(|id| self.schema.get(*id).is_some()).collect()
    }

    /// What these entries name.
    fn named(&self, ids: &BTreeSet<u32>) -> BTreeSet<u32> {
        let entries = ids.iter().map(|id| self.entry(*id));
        self.resolvable(entries.flat_map(named_ids).collect())
    }

    fn followed(&self) -> BTreeSet<u32> {
        &self.survivors | &self.reached
    }

    /// What is reached from these, if only what is `through` is followed.
    fn from(&self, start: &BTreeSet<u32>, through: &dyn Fn(u32) -> bool) -> BTreeSet<u32> {
        let mut found = self.named(start);
        loop {
            let follow = found.iter().copied().filter(|id| through(*id)).collect();
            let next = &found | &self.named(&follow);
            if next == found {
                return found;
            }
            found = next;
        }
    }

    fn steps(&mut self) {
        let mut met = self.named(&self.survivors);
        let mut steps = usize::from(!met.is_empty());
        loop {
            let next = &met | &self.named(&met);
            if next == met {
                break;
            }
            met = next;
            steps += 1;
        }
        for least in STEPS {
            self.add_if(steps >= least, in_steps(least));
        }
    }

    fn entries(&mut self) {
        let listed: BTreeSet<u32> = self.schema.declarations.iter().copied().collect();
        let followed = self.followed();
        let standing: Vec<&Declaration> = standing(self.schema).into_values().collect();
        for id in (0..self.schema.registry.len() as u32).filter(|id| self.schema.get(*id).is_some())
        {
            let (is_listed, survives) = (listed.contains(&id), self.survivors.contains(&id));
            if self.reached.contains(&id) {
                self.add_if(!is_listed, UNLISTED);
                self.add_if(survives, SURVIVOR);
                self.add_if(is_listed && !survives, LOST);
                let stands = standing.iter().any(|d| std::ptr::eq(*d, self.entry(id)));
                let word = KIND_NAMES[usize::from(self.entry(id).kind())];
                self.add_if(stands && !is_listed, reached_kind(word));
            }
            let names = self.named(&[id].into());
            self.add_if(followed.contains(&id) && names.contains(&id), ITSELF);
            let others = &names - &[id].into();
            let returns = self.from(&others, &|_| true).contains(&id) || others.contains(&id);
            self.add_if(
                followed.contains(&id) && !others.is_empty() && returns,
                RING,
            );
            self.add_if(!followed.contains(&id) && !is_listed, NOTHING);
            let leads = !names.is_subset(&self.reached);
            self.add_if(is_listed && !followed.contains(&id) && leads, LOST_LEADS);
        }
    }

    fn names(&mut self) {
        let name = |id: &u32| self.entry(*id).name.as_str();
        let surviving: BTreeSet<&str> = self.survivors.iter().map(name).collect();
        let others = &self.reached - &self.survivors;
        let (under, free): (BTreeSet<u32>, BTreeSet<u32>) =
            others.iter().partition(|id| surviving.contains(name(id)));
        let highest: BTreeMap<&str, u32> = free.iter().map(|id| (name(id), *id)).collect();
        let lower: BTreeSet<u32> = free
            .iter()
            .copied()
            .filter(|id| highest[name(id)] != *id)
            .collect();
        let without = |left_out: &BTreeSet<u32>| {
            let found = self.from(&self.survivors, &|id| !left_out.contains(&id));
            found != self.reached
        };
        let through = [without(&under), without(&lower)];
        self.add_if(!under.is_empty(), UNDER_SURVIVOR);
        self.add_if(!lower.is_empty(), TWO);
        self.add_if(through[0], THROUGH_UNDER);
        self.add_if(through[1], THROUGH_LOWER);
    }

    fn dead(&mut self) {
        for id in self.followed() {
            match &self.entry(id).body {
                Body::Message(_, fields) => self.dead_fields(fields, DEAD_FIELD),
                Body::Union(variants) => {
                    let alive = survivors(variants);
                    for variant in variants {
                        let lives = std::ptr::eq(alive[&variant.ordinal], variant);
                        match lives {
                            true => self.dead_fields(&variant.fields, DEAD_IN_VARIANT),
                            false => self.leads(&variant.fields, DEAD_VARIANT),
                        }
                    }
                }
                _ => {}
            }
        }
    }

    fn dead_fields(&mut self, fields: &[Field], text: &str) {
        let alive = survivors(fields);
        let dead = fields
            .iter()
            .filter(|f| !std::ptr::eq(alive[&f.ordinal], *f));
        let dead: Vec<Field> = dead.cloned().collect();
        self.leads(&dead, text);
    }

    /// Whether one of these fields names an entry that is not reached.
    fn leads(&mut self, fields: &[Field], text: &str) {
        let each = fields
            .iter()
            .map(|field| crate::make::newtype("", field.ty.clone()));
        let ids = each.flat_map(|newtype| named_ids(&newtype)).collect();
        let leads = !self.resolvable(ids).is_subset(&self.reached);
        self.add_if(leads, text);
    }

    fn nodes(&mut self) {
        let mut times = BTreeMap::new();
        for id in self.followed() {
            for ty in crate::imports::compared_types(self.entry(id)) {
                self.node(ty, at_root(), 1, &mut times);
            }
        }
        self.add_if(times.values().any(|times| *times > 1), TWICE);
    }

    fn node(&mut self, ty: &Type, place: String, node: usize, times: &mut BTreeMap<u32, usize>) {
        if let Label::Named(id) = ty.label {
            let resolves = self.schema.get(id).is_some();
            let imported = resolves && !self.schema.declarations.contains(&id);
            self.add_if(!resolves, UNRESOLVABLE);
            self.add_if(imported, place);
            self.add_if(imported && node == NODES, DEEPEST);
            *times.entry(id).or_default() += usize::from(resolves);
        }
        for (n, inner) in ty.inner.iter().enumerate() {
            self.node(inner, under(ty.tag(), n), node + 1, times);
        }
    }
}
