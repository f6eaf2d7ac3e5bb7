//! The file of recorded answers: its form, that nothing else passes for it, and
//! that a changed answer is seen.

use super::Tests;
use crate::answer::judge;
use crate::answers::{read, write, Answered, Recorded};
use crate::cases;
use crate::coverage::Coverage;
use crate::record::{again, SEED};

fn recorded(name: &str, old: &[u8], new: &[u8]) -> Recorded {
    Recorded::of(name, old, new, &judge(old, new))
}

/// A verdict with a report, and a refusal.
fn two() -> Vec<Recorded> {
    let empty = [1, 0, 0, 0, 0, 0, 0, 0];
    let segment = [1, 0, 0, 0, 0, 0, 1, 0, 1, b'a'];
    vec![
        recorded("verdict", &empty, &segment),
        recorded("refusal", &[7], &segment),
    ]
}

pub fn run(tests: &mut Tests) {
    form(tests);
    strictness(tests);
    names(tests);
    marks(tests);
    answers(tests);
    generator(tests);
}

fn form(tests: &mut Tests) {
    let file = write(&two()[1..]);
    let mut wanted = b"VEXANSW6".to_vec();
    for number in [1u32, 21, 7, 10, 0, 0] {
        wanted.extend(number.to_le_bytes());
    }
    wanted.extend(b"\x07refusal\x01\0\0\0\x07\x0a\0\0\0\x01\0\0\0\0\0\x01\0\x01a");
    wanted.extend([2, 0]);
    wanted.extend([0; 8]);
    wanted.extend([2, 1, 2, 1]);
    wanted.extend([0; 4 + 4 * 21]);
    // The answers with imports and mended are the same.
    wanted.extend([0, 0]);
    tests.equal("the form of a refusal", file, wanted);
    let list = two();
    tests.equal("what is written is read", read(&write(&list)), Ok(list));
}

fn strictness(tests: &mut Tests) {
    let file = write(&two());
    let cut = (0..file.len()).all(|length| read(&file[..length]).is_err());
    tests.holds("a file cut at any length is no file", cut);
    let mut longer = file.clone();
    longer.push(0);
    tests.holds("nor is one with a byte after it", read(&longer).is_err());
    let changed = (0..32).filter(|place| {
        let mut file = file.clone();
        file[*place] ^= 1;
        read(&file).is_err()
    });
    tests.equal("every byte of the head counts", changed.count(), 32);
}

/// The marks before the answers by the other verdicts.
fn marks(tests: &mut Tests) {
    let list = two();
    let same = write(&list[1..]);
    let (front, marks) = same.split_at(same.len() - 2);
    tests.equal("the last bytes are the marks", marks, &[0, 0]);
    let answer = &front[front.len() - 4 - 4 - 4 * 21..];
    for (before, after) in [(&[][..], &[0][..]), (&[0], &[])] {
        let file = |mark: u8| [front, before, &[mark], answer, after].concat();
        tests.holds("one answer twice is no file", read(&file(1)).is_err());
        tests.holds("nor is another mark", read(&file(2)).is_err());
    }
    for others in [&[1][..], &[2], &[1, 2]] {
        let mut other = list.clone();
        for place in others {
            other[1].answers[*place] = other[0].answers[0].clone();
        }
        let written = write(&other);
        tests.equal("other answers are read", read(&written), Ok(other));
    }
}

fn names(tests: &mut Tests) {
    let named = |name: &str| {
        let mut list = two();
        list[0].name = name.to_string();
        read(&write(&list))
    };
    tests.holds("a name", named("a b,c").is_ok());
    tests.holds("no name", named("").is_err());
    tests.holds("a name with a line's end", named("a\n").is_err());
    tests.holds("a name beyond ASCII", named("\u{e9}").is_err());
    tests.holds("a name twice", named("refusal").is_err());
}

fn answers(tests: &mut Tests) {
    for recorded in two() {
        tests.equal("an answer is found again", again(&recorded), None);
        let seen = (0..2).all(|image| {
            let mut changed = recorded.clone();
            changed.readings[image] ^= 1;
            again(&changed).is_some()
        });
        tests.holds("a change in a reading is seen", seen);
        let seen = (0..2).all(|image| {
            let mut changed = recorded.clone();
            changed.listings[image].push(b'x');
            again(&changed).is_some()
        });
        tests.holds("a change in a listing is seen", seen);
        (0..3).for_each(|which| answer(tests, &recorded, which));
    }
}

/// The answer by each verdict, for itself.
fn answer(tests: &mut Tests, recorded: &Recorded, which: usize) {
    let seen = |spoil: &dyn Fn(&mut Answered)| {
        let mut changed = recorded.clone();
        spoil(&mut changed.answers[which]);
        again(&changed).is_some() && read(&write(&[changed.clone()])) == Ok(vec![changed])
    };
    let selectors = recorded.answers[which].verdict.len();
    // A false number or length makes another file.
    let selectors = (0..selectors).filter(|selector| ![0, 4].contains(selector));
    let all = selectors.map(|n| seen(&|answer| answer.verdict[n] ^= 1));
    tests.holds(
        "a change in any selector is seen",
        all.into_iter().all(|seen| seen),
    );
    let places = 0..recorded.answers[which].report.len();
    let all = places.map(|place| seen(&|answer| answer.report[place] ^= 1));
    tests.holds(
        "a change in any byte of the report is seen",
        all.into_iter().all(|seen| seen),
    );
    for spoil in [0, 4] {
        let mut changed = recorded.clone();
        changed.answers[which].verdict[spoil] ^= 1;
        tests.holds(
            "a false number or length is seen",
            again(&changed).is_some(),
        );
    }
    let mut longer = recorded.clone();
    longer.answers[which].report.push(b'x');
    tests.holds("a longer report is seen", again(&longer).is_some());
}

fn generator(tests: &mut Tests) {
    let bytes = |seed| -> Vec<(String, Vec<u8>, Vec<u8>)> {
        let list = cases::all(seed).into_iter();
        list.map(|case| (case.name, case.old, case.new)).collect()
    };
    let cases = bytes(SEED);
    tests.holds("one seed, the same cases", cases == bytes(SEED));
    tests.holds("another seed, other cases", cases != bytes(SEED + 1));
    tests.holds("3,000 cases or more", cases.len() >= 3_000);
    let nothing = Coverage::default().missing().len();
    tests.holds("no case covers no row", nothing > 1_000);
}
