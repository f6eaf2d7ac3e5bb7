//! Refusal 11 with imports: over all that stands, and over that only.

use super::{importing, naming};
use crate::cases::Cases;
use crate::make::*;
use crate::schema::{Declaration, Schema};

/// The alias `L` is entry 1, which 0 names; more entries follow.
fn of(more: Vec<Declaration>) -> Schema {
    importing([vec![naming("A", &[1, 2]), alias("L")], more].concat())
}

pub fn add(cases: &mut Cases) {
    let reached = of(vec![]);
    let listed = reached.clone().listing(&[0, 1]);
    cases.pair(
        "imports: an alias reached on both sides",
        &reached,
        &reached,
    );
    cases.both_ways("imports: an alias listed and reached", &listed, &reached);
    cases.pair("imports: an alias listed on both sides", &listed, &listed);
    let other = of(vec![config("L")]);
    cases.both_ways("imports: an alias, and a config reached", &reached, &other);
    cases.pair("imports: an alias with a lower id", &other, &other);
    let survivor = of(vec![config("L")]).listing(&[0, 2]);
    cases.pair("imports: an alias under a survivor", &survivor, &survivor);
    let name = "imports: an alias, and one under a survivor";
    cases.both_ways(name, &reached, &survivor);
    let under = of(vec![config("L")]).listing(&[0, 1]);
    cases.pair("imports: a config under an alias", &under, &under);
    let unreached = importing(vec![message("A", vec![]), alias("L")]);
    cases.both_ways("imports: an alias not reached", &reached, &unreached);
    cases.pair("imports: no alias reached", &unreached, &unreached);
    let deep = importing(vec![naming("A", &[2]), alias("L"), naming("B", &[1])]);
    cases.both_ways("imports: an alias in two steps", &reached, &deep);
    let twice = of(vec![alias("L")]);
    cases.both_ways("imports: two aliases of one name", &reached, &twice);
    let changed = of(vec![]).in_namespace(&["other"]);
    cases.both_ways("imports: an alias pair and a change", &reached, &changed);
}
