//! Pairs without repeats, and copies of them that are filed anew.

mod bodies;
mod ids;
mod kinds;

use super::Cases;
use crate::refiling::{refiled, repeat, unrepeated_releases};
use crate::rng::Rng;
use crate::schema::Schema;

pub fn add(cases: &mut Cases, seed: u64) {
    let mut filed = Filed {
        cases,
        rng: Rng::new(!seed),
    };
    for n in 0..30 {
        let most = *filed.rng.pick(&[2, 4, 8, 16]);
        let [old, new] = unrepeated_releases(&mut filed.rng, most);
        filed.pair(&n.to_string(), &old, &new);
    }
    kinds::add(&mut filed);
    bodies::add(&mut filed);
    ids::add(&mut filed);
}

/// Cases of their own random numbers, so that those before them stay as they are.
struct Filed<'a> {
    cases: &'a mut Cases,
    rng: Rng,
}

impl Filed<'_> {
    /// The pair, and the three in which one image or both are copies.
    fn pair(&mut self, name: &str, old: &Schema, new: &Schema) {
        let name = format!("refiled {name}");
        let [old_copy, new_copy] = [old, new].map(|schema| self.copy(&name, schema));
        self.cases.pair(&name, old, new);
        let copy = format!("{name}, copy");
        self.cases.pair(&copy, &old_copy, &new_copy);
        self.cases.pair(&format!("{copy} of old"), &old_copy, new);
        self.cases.pair(&format!("{copy} of new"), old, &new_copy);
    }

    /// A copy in which every entry has another id, or at least one of other bytes,
    /// if such a copy comes up soon.
    fn copy(&mut self, name: &str, schema: &Schema) -> Schema {
        let repeated = repeat(schema);
        assert!(repeated.is_none(), "{name}: {repeated:?}");
        let copies: Vec<Schema> = (0..24).map(|_| refiled(&mut self.rng, schema)).collect();
        let moved = copies.iter().find(|copy| all_moved(schema, copy));
        let other = || copies.iter().find(|copy| *copy != schema);
        moved.or_else(other).unwrap_or(schema).clone()
    }
}

fn all_moved(schema: &Schema, copy: &Schema) -> bool {
    let mut ids = schema.registry.iter().zip(&copy.registry);
    ids.all(|pair| match pair {
        (Some(one), Some(other)) => one.name != other.name,
        _ => true,
    })
}
