//! Many pairs by three: the library, this oracle's model and `check`, and the second
//! judge of tools/judge. They are held against each other by every verdict; pairs without
//! repeats also with copies that either of the two copiers filed anew.

use super::calls_of;
use super::hammer::{random, Sides};
use crate::answer::{judge, Answer, Pair, Verdict, SELECTORS, VERDICTS};
use crate::commands::Outcome;
use crate::limits::IMAGE_BYTES;
use crate::reader::read_image;
use crate::refiling::{form, repeat};
use crate::refusal::Read;
use crate::schema::Schema;
use std::collections::BTreeSet;
use std::fs;
use std::time::{Duration, Instant};

const REPORT_ROOM: usize = 1 << 20;
/// All selectors, and one beyond them.
const VALUES: usize = SELECTORS as usize + 1;
const PROGRESS: u64 = 100_000;

/// In what two differ, and the images.
type Fault = (String, [Vec<u8>; 2]);

extern "C" {
    fn judge_all(
        which: i32,
        o: *const u8,
        m: usize,
        n: *const u8,
        k: usize,
        v: *mut u64,
        p: usize,
        t: *mut u8,
        r: usize,
        written: *mut usize,
    ) -> u64;
    fn judge_accepts(image: *const u8, m: usize) -> i32;
    fn judge_repeats(image: *const u8, m: usize) -> i32;
    fn judge_refile(image: *const u8, m: usize, seed: u64, t: *mut u8, r: usize) -> usize;
    fn judge_refiled(a: *const u8, m: usize, b: *const u8, k: usize) -> i32;
}

/// The values and the report of one of the three.
#[derive(PartialEq)]
struct Told {
    values: [u64; VALUES],
    report: Vec<u8>,
}

impl Told {
    fn by_first(answer: &Answer) -> Told {
        Told {
            values: std::array::from_fn(|selector| answer.select(selector as u64)),
            report: answer.report.clone(),
        }
    }

    fn by_library(verdict: Verdict, [old, new]: [&[u8]; 2], room: &mut [u8]) -> Told {
        let (calls, mut values) = (calls_of(verdict), [u64::MAX; VALUES]);
        let number = calls.values(old, new, &mut values);
        // A refusal leaves the values, and the selectors tell them.
        if number != 0 {
            let select = |selector| calls.verdict(old, new, selector as u64);
            values = std::array::from_fn(select);
        }
        let written = calls.report(old, new, room) as usize;
        let report = room[..written].to_vec();
        Told { values, report }
    }

    fn by_second(verdict: Verdict, [old, new]: [&[u8]; 2], room: &mut [u8]) -> Told {
        let (mut values, mut written) = ([u64::MAX; VALUES], 0);
        let which = VERDICTS.iter().position(|v| *v == verdict).unwrap() as i32;
        let (place, len) = (room.as_mut_ptr(), room.len());
        // Slices are valid for their lengths; the callee writes into the two buffers alone.
        unsafe {
            judge_all(
                which,
                old.as_ptr(),
                old.len(),
                new.as_ptr(),
                new.len(),
                values.as_mut_ptr(),
                VALUES,
                place,
                len,
                &mut written,
            )
        };
        let report = room[..written].to_vec();
        Told { values, report }
    }
}

/// One pair by all verdicts.
fn pair(images: [&[u8]; 2], judged: &Pair, room: &mut [u8]) -> Outcome {
    for verdict in VERDICTS {
        let first = Told::by_first(&judged.by(verdict));
        let others = [
            ("the library", Told::by_library(verdict, images, room)),
            ("the second judge", Told::by_second(verdict, images, room)),
        ];
        for (who, told) in others {
            if told != first {
                return Err(format!("{}{who} differs", verdict.prefix()));
            }
        }
    }
    Ok(())
}

/// What is said of one image: whether it is accepted, and whether anything repeats.
fn image(image: &[u8], read: &Read<Schema>) -> Outcome {
    let number = unsafe { judge_accepts(image.as_ptr(), image.len()) };
    let (wanted, repeated) = match read {
        Ok(schema) => (0, repeat(schema).is_some()),
        Err(refusal) => (i32::from(refusal.number), false),
    };
    let found = unsafe { judge_repeats(image.as_ptr(), image.len()) } != 0;
    // Of an id that is listed twice the second judge says that it is one declaration.
    match (number == wanted, found == repeated || lists_twice(read)) {
        (true, true) => Ok(()),
        (false, _) => Err(format!("the second judge gives {number}, wanted {wanted}")),
        (_, false) => Err(format!("the second judge says repeats: {found}")),
    }
}

fn lists_twice(read: &Read<Schema>) -> bool {
    let listed = read.as_ref().map_or(&[][..], |schema| &schema.declarations);
    let once: BTreeSet<_> = listed.iter().collect();
    once.len() < listed.len()
}

/// The images of a side with a copy more, filed anew by the second judge: both take it for
/// one. The copies that are there may be of another format, which the second judge asks of
/// no copy.
fn with_copy(images: &[Vec<u8>], seed: u64) -> Result<Vec<Vec<u8>>, Fault> {
    let (first, mut copy) = (&images[0], vec![0; IMAGE_BYTES]);
    let (place, room) = (copy.as_mut_ptr(), copy.len());
    let written = unsafe { judge_refile(first.as_ptr(), first.len(), seed, place, room) };
    copy.truncate(written);
    let mut all = images.to_vec();
    if written > 0 {
        let refiled =
            unsafe { judge_refiled(first.as_ptr(), first.len(), copy.as_ptr(), copy.len()) };
        let forms = [first, &copy].map(|image| read_image(image).ok().map(|schema| form(&schema)));
        if refiled != 1 || forms[0].is_none() || forms[0] != forms[1] {
            let why = "what the second judge files anew is no copy".to_string();
            return Err((why, [first.clone(), copy]));
        }
        all.push(copy);
    }
    Ok(all)
}

/// All pairs of the images of both sides; by 01 each gets the answer of the first. Says how
/// many they were, or with the images what differs.
fn sides(list: &Sides, seed: u64, room: &mut [u8]) -> Result<u64, Fault> {
    let mut list = list.clone();
    if list.iter().any(|images| images.len() > 1) {
        for images in &mut list {
            *images = with_copy(images, seed)?;
        }
    }
    let (mut answer, mut count) = (None, 0);
    for old in &list[0] {
        for new in &list[1] {
            let fault = |why| (why, [old.clone(), new.clone()]);
            let judged = judge(old, new);
            if *answer.get_or_insert_with(|| judged.answer.clone()) != judged.answer {
                return Err(fault("a copy gets another answer".to_string()));
            }
            pair([old, new], &judged, room).map_err(fault)?;
            image(old, &judged.old).map_err(fault)?;
            image(new, &judged.new).map_err(fault)?;
            count += 1;
        }
    }
    Ok(count)
}

/// Random pairs of a seed, of all kinds, until so many are run or the time is over.
pub fn run(seed: u64, count: u64, seconds: u64, folder: &str) -> Outcome {
    let stop = Instant::now() + Duration::from_secs(seconds);
    let (mut passed, mut shown, mut room) = (0, 0, vec![0; REPORT_ROOM]);
    for (n, list) in random(seed, count).enumerate() {
        if passed >= count || Instant::now() >= stop {
            break;
        }
        match sides(&list, seed ^ n as u64, &mut room) {
            Ok(pairs) => passed += pairs,
            Err((difference, images)) => {
                fs::create_dir_all(folder).map_err(|error| error.to_string())?;
                for (name, image) in ["old.img", "new.img"].iter().zip(images) {
                    fs::write(format!("{folder}/{name}"), image).map_err(|e| e.to_string())?;
                }
                println!("{difference}: {folder}/old.img {folder}/new.img");
                println!("{passed} passed, 1 failed");
                std::process::exit(1);
            }
        }
        if passed / PROGRESS > shown {
            shown = passed / PROGRESS;
            eprintln!("{passed} pairs");
        }
    }
    println!("{passed} passed, 0 failed");
    Ok(())
}
