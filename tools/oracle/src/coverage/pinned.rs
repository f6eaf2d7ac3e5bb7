//! Which pairs are pinned by theorems, by their bytes.

use super::{Facts, Rows};
use crate::cases::Case;
use crate::pinned::{pins, Pin};

fn fact(pin: &Pin) -> String {
    format!("pinned: {}", pin.names.join(" "))
}

pub fn facts(facts: &mut Facts, case: &Case) {
    for pin in pins() {
        let [old, new] = &pin.images;
        facts.add_if(*old == case.old && *new == case.new, fact(pin));
    }
}

pub fn rows(rows: &mut Rows) {
    let mut all: Vec<String> = pins().iter().map(fact).collect();
    all.sort();
    all.dedup();
    for fact in all {
        rows.one(fact);
    }
}
