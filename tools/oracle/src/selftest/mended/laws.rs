//! The distance rule on random releases of formats 2 and 3: by every verdict the chain rule
//! and the swap of counts, and by the mended one the distance of each image from itself, 0
//! but where it strikes off a number that it uses.

use crate::answer::{judge, Answer, Verdict, VERDICTS};
use crate::cases;
use crate::changes::{Bump, ChangeKind, CHANGE_KINDS};
use crate::formats::{SECOND_FORMAT, THIRD_FORMAT};
use crate::mended::releases_in;
use crate::model::{check, surviving_declarations, survivors};
use crate::reader::read_image;
use crate::record::SEED;
use crate::rng::Rng;
use crate::schema::{ordinals, Body, Schema};
use crate::selftest::Tests;
use crate::writer::image;

use ChangeKind::*;

const CHAINS: usize = 2_000;

/// Removed, and added in that place.
const SWAPPED: [(ChangeKind, ChangeKind); 4] = [
    (DeclarationRemoved, DeclarationAdded),
    (FieldRemoved, FieldAdded),
    (VariantRemoved, VariantAdded),
    (FlagsBitRemoved, FlagsBitAdded),
];

pub fn run(tests: &mut Tests) {
    let mut rng = Rng::new(SEED);
    let mut chains = |format| -> Vec<[Vec<u8>; 3]> {
        let releases = (0..CHAINS).map(|_| releases_in(&mut rng, [format; 3]));
        let chains = releases.map(|releases| releases.map(|release| image(&release)));
        chains.collect()
    };
    let [second, third] = [SECOND_FORMAT, THIRD_FORMAT].map(&mut chains);
    for verdict in VERDICTS {
        for chains in [&second, &third] {
            chain_rule(tests, verdict, chains);
            swaps(tests, verdict, chains);
        }
    }
    selves(tests, &second);
    struck(tests, &third);
    hidden(tests);
}

/// The answer of a pair that gets a verdict.
fn verdict_on(verdict: Verdict, old: &[u8], new: &[u8]) -> Option<Answer> {
    let answer = judge(old, new).by(verdict);
    (answer.number == 0).then_some(answer)
}

/// No jump is larger than the largest step; that says something where none is Major.
fn chain_rule(tests: &mut Tests, verdict: Verdict, chains: &[[Vec<u8>; 3]]) {
    let (mut held, mut met, mut below) = (true, 0, 0);
    for [first, second, third] in chains {
        let pairs = [(first, second), (second, third), (first, third)];
        let answers = pairs.map(|(old, new)| verdict_on(verdict, old, new));
        let [Some(one), Some(other), Some(jump)] = answers else {
            continue;
        };
        let steps = one.bump.max(other.bump);
        held &= jump.bump <= steps;
        met += 1;
        below += usize::from(steps < Bump::Major);
    }
    let name = |what: &str| format!("{}{what}", verdict.prefix());
    tests.holds(&name("the chain rule"), held);
    tests.holds(&name("on 1,200 chains or more"), met >= 1_200);
    let least = if verdict == Verdict::Mended { 300 } else { 50 };
    let found = format!("{below} of them without a Major step");
    tests.holds(&name(&found), below >= least);
}

/// What one way removes the other adds; of the rest only `FieldDeprecated` may differ, and
/// what is told of tombstones.
fn swaps(tests: &mut Tests, verdict: Verdict, chains: &[[Vec<u8>; 3]]) {
    let mut held = true;
    for [old, new, _] in chains {
        let both = [verdict_on(verdict, old, new), verdict_on(verdict, new, old)];
        let [Some(there), Some(back)] = both else {
            continue;
        };
        let counts = |kind: ChangeKind| (there.counts[kind as usize], back.counts[kind as usize]);
        for (removed, added) in SWAPPED {
            let ((one, other), (more, fewer)) = (counts(removed), counts(added));
            held &= (one, other) == (fewer, more);
        }
        let swapped = |kind: &ChangeKind| SWAPPED.iter().any(|(r, a)| [r, a].contains(&kind));
        let rest = CHANGE_KINDS.into_iter().filter(|kind| !swapped(kind));
        let one_way = [FieldDeprecated, TombstoneReused, TombstoneDropped];
        for kind in rest.filter(|kind| !one_way.contains(kind)) {
            let (there, back) = counts(kind);
            held &= there == back;
        }
    }
    let name = format!("{}the swap of counts", verdict.prefix());
    tests.holds(&name, held);
}

/// By 01 many of them are at distance 2 from themselves.
fn selves(tests: &mut Tests, chains: &[[Vec<u8>; 3]]) {
    let images = chains.iter().flatten();
    let answers = images.filter_map(|image| {
        let mended = verdict_on(Verdict::Mended, image, image)?;
        Some((mended, judge(image, image).answer))
    });
    let answers: Vec<_> = answers.collect();
    let zero = |(mended, _): &(Answer, Answer)| {
        mended.bump == Bump::Patch && mended.report == b"Compatible;Patch;0\n"
    };
    tests.holds(
        "each image at distance 0 from itself",
        answers.iter().all(zero),
    );
    tests.holds("4,000 images or more", answers.len() >= 4_000);
    let breaking = answers
        .iter()
        .filter(|(_, plain)| plain.bump == Bump::Major);
    tests.holds("2,000 of them not by 01", breaking.count() >= 2_000);
}

/// At distance 2 from itself exactly what strikes off and uses a number, else at 0.
fn struck(tests: &mut Tests, chains: &[[Vec<u8>; 3]]) {
    let mut far = 0;
    let (mut held, mut met) = (true, 0);
    for image in chains.iter().flatten() {
        let Some(mended) = verdict_on(Verdict::Mended, image, image) else {
            continue;
        };
        let uses = read_image(image).is_ok_and(|schema| uses_struck(&schema));
        let wanted = if uses { Bump::Major } else { Bump::Patch };
        held &= mended.bump == wanted;
        met += 1;
        far += usize::from(uses);
    }
    tests.holds("the distance of an image of format 3 from itself", held);
    let name = format!("4,000 images or more, {met}, and 400 at distance 2, {far}");
    tests.holds(&name, met >= 4_000 && far >= 400);
}

/// Whether a surviving declaration, or a surviving variant of one, strikes off a number
/// that it uses.
fn uses_struck(schema: &Schema) -> bool {
    let both = |struck: &[u32], used: &[u32]| struck.iter().any(|number| used.contains(number));
    let declared = surviving_declarations(schema);
    let mut declared = declared.values();
    declared.any(|declaration| {
        let own = both(&declaration.tombstones, &declaration.used());
        own || match &declaration.body {
            Body::Union(variants) => {
                let variants = survivors(variants);
                let mut variants = variants.values();
                variants.any(|v| both(&v.tombstones, &ordinals(&v.fields)))
            }
            _ => false,
        }
    })
}

/// Without the drops some recorded chains would break the rule.
fn hidden(tests: &mut Tests) {
    let without_drops = |(old, new): (&Vec<u8>, &Vec<u8>)| {
        let [old, new] = [old, new].map(|image| read_image(image).ok());
        let (old, new) = (old?, new?);
        let mut changes = check(&old, &new, Verdict::Mended.reading()).changes;
        changes.retain(|change| change.kind != TombstoneDropped);
        changes.iter().map(|change| change.bump).max()
    };
    let cases = cases::all(SEED).into_iter();
    let chains = cases.filter(|case| case.name.starts_with("tombstones: chain"));
    let pairs: Vec<_> = chains.map(|case| (case.old, case.new)).collect();
    let broken = pairs.chunks(3).filter(|chain| {
        let bumps = [0, 1, 2].map(|n| without_drops((&chain[n].0, &chain[n].1)));
        bumps[2] > bumps[0].max(bumps[1])
    });
    let broken = broken.count();
    let name = format!("2 chains or more hide a reuse but for the drop, {broken}");
    tests.holds(&name, broken >= 2);
}
