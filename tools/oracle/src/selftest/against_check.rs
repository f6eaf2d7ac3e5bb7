//! The model is held against the real `check`, and a difference is seen.

use super::Tests;
use crate::answer::{difference, Verdict, VERDICTS};
use crate::changes::{Bump, ChangeKind, Comparison, CompatResult, CHANGE_KINDS, NEVER};
use crate::formats::SECOND_FORMAT;
use crate::make::*;
use crate::model;
use crate::schema::{Declaration, Schema};
use crate::vexil::{panics, CHECK_IS_RUN};

pub fn run(tests: &mut Tests) {
    for (place, kind) in CHANGE_KINDS.iter().enumerate() {
        tests.equal("the kinds stand in their order", *kind as usize, place);
    }
    if !CHECK_IS_RUN {
        println!("not run: the tests of the real check");
        return;
    }
    let aliases = schema(vec![alias("A")]);
    tests.holds("check panics on an alias pair", panics(&aliases, &aliases));
    let (old, new) = pair();
    tests.holds("check does not panic otherwise", !panics(&old, &new));
    for verdict in VERDICTS {
        a_difference_is_seen(tests, verdict, &old, &new);
    }
    let (old, new) = wider();
    let changes = model::check(&old, &new, Verdict::Mended.reading()).changes;
    let kinds = changes.iter().map(|change| change.kind);
    let widths = kinds.filter(|kind| *kind == ChangeKind::WidthChanged);
    tests.equal("a width that check does not know of", widths.count(), 1);
    a_difference_is_seen(tests, Verdict::Mended, &old, &new);
    of_widths_alone(tests);
}

/// A pair with a change of width between others.
fn wider() -> (Schema, Schema) {
    let (old, new) = pair();
    let with = |schema: Schema, width| {
        let [message, other] = ["A", "Z"].map(|name| {
            let entry = schema.registry[0].clone();
            entry.map(|entry| Declaration {
                name: name.to_string(),
                ..entry
            })
        });
        let wide = flags("F", vec![]).of_width(width);
        let entries = vec![message, Some(wide), other];
        let all = crate::make::schema(vec![]).with_entries(entries);
        all.listing(&[0, 1, 2]).in_format(SECOND_FORMAT)
    };
    (with(old, 1), with(new, 2))
}

/// Nothing but a width changes: result and bump are seen, too.
fn of_widths_alone(tests: &mut Tests) {
    let of = |width| schema(vec![flags("F", vec![]).of_width(width)]).in_format(SECOND_FORMAT);
    let (old, new) = (of(1), of(2));
    let right = model::check(&old, &new, Verdict::Mended.reading());
    let difference = |model: &Comparison| difference(Verdict::Mended, &old, &new, model);
    tests.equal("a width alone", difference(&right), None);
    let silent = Comparison {
        result: CompatResult::Compatible,
        bump: Bump::Patch,
        ..right
    };
    let seen = difference(&silent).is_some();
    tests.holds("a width that is called Compatible is seen", seen);
}

fn pair() -> (Schema, Schema) {
    let old = schema(vec![message("M", vec![field(0, "a", primitive(2))])]);
    let new = vec![field(0, "b", primitive(3)), field(1, "c", primitive(3))];
    (old, schema(vec![message("M", new)]))
}

fn a_difference_is_seen(tests: &mut Tests, verdict: Verdict, old: &Schema, new: &Schema) {
    let difference = |model: &Comparison| difference(verdict, old, new, model);
    let model = model::check(old, new, verdict.reading());
    let mut seen = |name: &str, spoil: &dyn Fn(&mut Comparison)| {
        let mut spoiled = model.clone();
        spoil(&mut spoiled);
        let name = format!("{}{name}", verdict.prefix());
        tests.holds(&name, difference(&spoiled).is_some());
    };
    seen("a change too few is seen", &|m| {
        m.changes.pop();
    });
    seen("a change twice is seen", &|m| {
        m.changes.push(m.changes[0].clone())
    });
    seen("another kind is seen", &|m| m.changes[0].kind = NEVER[0]);
    seen("another bump of a change is seen", &|m| {
        m.changes[0].bump = Bump::Minor
    });
    seen("another declaration is seen", &|m| {
        m.changes[0].declaration += "x"
    });
    seen("another field is seen", &|m| m.changes[0].field = None);
    seen("another detail is seen", &|m| m.changes[0].detail += "x");
    seen("another result is seen", &|m| {
        m.result = CompatResult::Compatible
    });
    seen("another bump is seen", &|m| m.bump = Bump::Patch);
    tests.equal("no difference", difference(&model), None);
}
