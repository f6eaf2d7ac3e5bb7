//! Facts about damage: which cuts and changed bytes of the rich image there are.

use super::{Facts, Rows};
use crate::cases::rich::rich;
use crate::cases::Case;
use crate::writer::image;

pub fn facts(facts: &mut Facts, case: &Case) {
    let whole = image(&rich());
    of_side(facts, &whole, &case.old, "old");
    of_side(facts, &whole, &case.new, "new");
}

fn of_side(facts: &mut Facts, whole: &[u8], image: &[u8], side: &str) {
    if image.len() < whole.len() && whole.starts_with(image) {
        facts.add(format!("rich image cut, {side}: {}", image.len()));
    }
    if image.len() != whole.len() {
        return;
    }
    let changed: Vec<usize> = (0..whole.len())
        .filter(|n| whole[*n] != image[*n])
        .collect();
    if let [place] = changed[..] {
        facts.add(format!("rich image's byte changed, {side}: {place}"));
        let value = image[place];
        facts.add(format!("rich image's values, {side}: {place} {value}"));
    }
}

pub fn rows(rows: &mut Rows) {
    let length = image(&rich()).len();
    for side in ["old", "new"] {
        rows.distinct(format!("rich image cut, {side}: "), length);
        rows.distinct(format!("rich image's byte changed, {side}: "), length);
    }
    rows.distinct("rich image's values, new: ", length + length / 4);
}
