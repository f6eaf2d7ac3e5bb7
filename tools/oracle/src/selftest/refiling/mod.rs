//! what repeats, copies that are filed anew and their answers, and
//! that what is no such copy is told.

mod controls;
mod repeats;
mod spoiled;

use super::Tests;
use crate::answer::{judge, Answer, Verdict};
use crate::cases;
use crate::coverage::refiled::{all_moves, moves};
use crate::edits::edited;
use crate::formats::{in_formats, THIRD_FORMAT};
use crate::reader::read_image;
use crate::record::SEED;
use crate::refiling::{filed_pair, form, refiled, repeat, unrepeated_releases};
use crate::rng::Rng;
use crate::schema::{Body, Schema};
use crate::writer::image;
use std::collections::BTreeMap;

pub fn run(tests: &mut Tests) {
    repeats::run(tests);
    copies(tests);
    moved(tests);
    spoiled::run(tests);
    answers(tests);
    struck(tests);
    one_form(tests);
    recorded(tests);
    controls::run(tests);
}

/// Schemas without repeats, each with a copy that is filed anew.
fn filed(seed: u64, count: usize) -> Vec<(Schema, Schema)> {
    let mut rng = Rng::new(seed);
    let mut list = Vec::new();
    while list.len() < count {
        let most = *rng.pick(&[3, 8, 24]);
        for schema in unrepeated_releases(&mut rng, most) {
            let copy = refiled(&mut rng, &schema);
            list.push((schema, copy));
        }
    }
    list
}

fn copies(tests: &mut Tests) {
    let list = filed(SEED, 4_000);
    let all = |holds: fn(&(Schema, Schema)) -> bool| list.iter().all(holds);
    let unrepeated = all(|(schema, _)| repeat(schema).is_none());
    tests.holds("random releases without repeats", unrepeated);
    let unrepeated = all(|(_, copy)| repeat(copy).is_none());
    tests.holds("nor do their copies have any", unrepeated);
    let accepted = all(|(_, copy)| read_image(&image(copy)).as_ref() == Ok(copy));
    tests.holds("copies are accepted images", accepted);
    let alike = all(|(schema, copy)| form(schema) == form(copy));
    tests.holds("copies have the form of what they are copies of", alike);
    let moved = list.iter().filter(|(schema, copy)| schema != copy).count();
    tests.holds("nearly all copies are filed anew", moved >= 3_600);
}

/// Copies are filed anew in every way.
fn moved(tests: &mut Tests) {
    let mut times: BTreeMap<String, usize> = BTreeMap::new();
    for (schema, copy) in filed(SEED + 3, 8_000) {
        for text in moves(&schema, &copy) {
            *times.entry(text).or_default() += 1;
        }
    }
    for text in all_moves() {
        let times = times.get(&text).copied().unwrap_or(0);
        tests.holds(&format!("20 copies or more: {text}"), times >= 20);
    }
}

/// The four pairs of images and copies have one answer, by the model and check.
fn answers(tests: &mut Tests) {
    let mut rng = Rng::new(SEED);
    let mut verdicts = 0;
    let mut differing = 0;
    for _ in 0..2_000 {
        let [[old, old_copy], [new, new_copy]] = filed_pair(&mut rng);
        let answer = judge(&old, &new).answer;
        verdicts += usize::from(answer.number == 0);
        let copies = [(&old, &new_copy), (&old_copy, &new), (&old_copy, &new_copy)];
        let other = |(old, new): (&Vec<u8>, &Vec<u8>)| judge(old, new).answer != answer;
        differing += copies.into_iter().filter(|pair| other(*pair)).count();
    }
    tests.equal("copies with another answer", differing, 0);
    tests.holds("1,200 verdicts or more", verdicts >= 1_200);
    tests.holds("100 refusals or more", verdicts <= 1_900);
}

/// Tombstones stay with their body, in any order, and copies get one mended answer too.
fn struck(tests: &mut Tests) {
    let mut rng = Rng::new(SEED + 10);
    let (mut held, mut moved, mut differing) = (true, 0, 0);
    for _ in 0..1_500 {
        let releases = unrepeated_releases(&mut rng, 8);
        let releases = in_formats(&mut rng, releases, [THIRD_FORMAT; 2]);
        let copies = releases
            .each_ref()
            .map(|release| refiled(&mut rng, release));
        for (release, copy) in releases.iter().zip(&copies) {
            held &= tombstones(release, true) == tombstones(copy, true);
            moved += usize::from(tombstones(release, false) != tombstones(copy, false));
        }
        let [old, new] = releases.map(|release| image(&release));
        let [old_copy, new_copy] = copies.map(|copy| image(&copy));
        let answer = |old, new| judge(old, new).by(Verdict::Mended);
        let wanted = answer(&old, &new);
        let pairs = [(&old, &new_copy), (&old_copy, &new), (&old_copy, &new_copy)];
        differing += pairs
            .into_iter()
            .filter(|(o, n)| answer(o, n) != wanted)
            .count();
    }
    tests.holds("copies have the tombstones of each body", held);
    tests.holds(
        &format!("500 copies or more in another order, {moved}"),
        moved >= 500,
    );
    tests.equal("copies with another mended answer", differing, 0);
}

/// Those of each body and variant, by kind, name and ordinal; sorted, or as they stand.
fn tombstones(schema: &Schema, sorted: bool) -> Vec<(u8, String, Option<u32>, Vec<u32>)> {
    let mut all = Vec::new();
    for declaration in schema.registry.iter().flatten() {
        let (kind, name) = (declaration.kind(), &declaration.name);
        let mut add = |ordinal, list: &[u32]| {
            let mut list = list.to_vec();
            if sorted {
                list.sort();
            }
            all.push((kind, name.clone(), ordinal, list));
        };
        add(None, &declaration.tombstones);
        if let Body::Union(variants) = &declaration.body {
            variants
                .iter()
                .for_each(|v| add(Some(v.ordinal), &v.tombstones));
        }
    }
    all.sort();
    all
}

/// Where an edit leaves the form as it is, whatever made it, the next release gets
/// the answer that the old one gets.
fn one_form(tests: &mut Tests) {
    let mut rng = Rng::new(SEED + 1);
    let (mut alike, mut differing) = (0, 0);
    for _ in 0..8_000 {
        let [old, _] = unrepeated_releases(&mut rng, 8);
        let new = edited(&mut rng, &old, 2);
        if old == new || form(&old) != form(&new) || repeat(&new).is_some() {
            continue;
        }
        let (old, new) = (image(&old), image(&new));
        alike += 1;
        differing += usize::from(judge(&old, &new).answer != judge(&old, &old).answer);
    }
    tests.equal("one form and two answers", differing, 0);
    tests.holds("200 edits or more that keep the form", alike >= 200);
}

/// Every recorded copy beside the pair that it is a copy of.
fn recorded(tests: &mut Tests) {
    let mut first: BTreeMap<String, ([Vec<u8>; 2], Answer)> = BTreeMap::new();
    let (mut copies, mut moved) = (0, 0);
    let cases = cases::all(SEED).into_iter();
    for case in cases.filter(|case| case.name.starts_with("refiled ")) {
        let answer = judge(&case.old, &case.new).answer;
        let images = [case.old, case.new];
        let Some((name, _)) = case.name.split_once(", copy") else {
            first.insert(case.name, (images, answer));
            continue;
        };
        let Some((originals, wanted)) = first.get(name) else {
            tests.holds(&format!("{name} before its copies"), false);
            continue;
        };
        let forms =
            |images: &[Vec<u8>; 2]| images.each_ref().map(|i| read_image(i).map(|s| form(&s)));
        tests.holds(&case.name, forms(&images) == forms(originals));
        tests.equal(&case.name, &answer, wanted);
        copies += 1;
        moved += usize::from(images != *originals);
    }
    tests.equal("three copies of each", copies, 3 * first.len());
    tests.holds("200 copies of other bytes or more", moved >= 200);
}
