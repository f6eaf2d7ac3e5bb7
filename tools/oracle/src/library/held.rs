//! The library's calls held against an answer: every selector, and the values, the
//! report and the listing in buffers of several lengths, all against guard pages. An
//! error says in what they differ.

use super::guarded::Guarded;
use super::Calls;
use crate::answer::{Answer, Side, SELECTORS};
use crate::changes::{Bump, CompatResult, COUNTS};
use crate::commands::Outcome;
use crate::listing::listing;
use crate::refusal::{Read, FULL};
use crate::schema::Schema;
use std::hint::black_box;

/// No byte of a report or a listing.
const UNTOUCHED: u8 = 0xa5;
/// So many bytes before such a buffer are watched.
const BEFORE: usize = 64;
/// No value of an answer.
const UNTOUCHED_VALUE: u64 = u64::MAX / 3;
/// So many places before a values buffer are watched.
const PLACES_BEFORE: usize = 8;

/// The calls of one verdict on two images.
pub fn pair(calls: &Calls, images: [&[u8]; 2], out: &mut Guarded, answer: &Answer) -> Outcome {
    verdicts(calls, images, answer)?;
    let all = SELECTORS as usize;
    for places in [0, 1, 5, all, all + 1, all + 40] {
        values(calls, images, out, places, answer)?;
    }
    for room in rooms(&answer.report) {
        let written = answer.clone().within(room).report;
        let call = |out: &mut [u8]| calls.report(images[0], images[1], out);
        text("report", call, out, room, &written)?;
    }
    Ok(())
}

/// The calls on one image, as it was read.
pub fn image(image: &[u8], out: &mut Guarded, read: &Read<Schema>) -> Outcome {
    let listed = listed(read);
    for room in rooms(&listed.report) {
        let answer = listed_within(&listed, room as u64);
        let call = |out: &mut [u8]| super::listing(image, out);
        text("listing", call, out, room, &answer.report)?;
        listing_verdicts(image, room as u64, &answer)?;
    }
    listing_verdicts(image, u64::MAX, &listed)
}

/// Every selector, two beyond them and the last of all.
fn selectors() -> impl Iterator<Item = u64> {
    (0..SELECTORS + 2).chain([u64::MAX])
}

/// The lengths of buffers for a text.
fn rooms(text: &[u8]) -> [usize; 5] {
    let length = text.len();
    let less = length.saturating_sub(1);
    [length, less, length + 1, length + 300, 0]
}

fn verdicts(calls: &Calls, [old, new]: [&[u8]; 2], answer: &Answer) -> Outcome {
    for selector in selectors() {
        let found = calls.verdict(old, new, selector);
        let wanted = answer.select(selector);
        if found != wanted {
            return Err(format!("selector {selector} is {found}, wanted {wanted}"));
        }
    }
    Ok(())
}

/// The values in a buffer of so many places: the number is returned, each place has
/// what its selector gives, and those before it stay.
fn values(
    calls: &Calls,
    [old, new]: [&[u8]; 2],
    out: &mut Guarded,
    places: usize,
    answer: &Answer,
) -> Outcome {
    let memory = out.last_numbers(PLACES_BEFORE + places);
    memory.fill(UNTOUCHED_VALUE);
    let number = calls.values(old, new, &mut memory[PLACES_BEFORE..]);
    let mut wanted = vec![UNTOUCHED_VALUE; PLACES_BEFORE];
    wanted.extend((0..places as u64).map(|selector| answer.select(selector)));
    if number != answer.select(0) {
        let wanted = answer.select(0);
        return Err(format!(
            "values in {places} places: number {number}, wanted {wanted}"
        ));
    }
    // As with the report.
    match black_box(&*memory) == wanted {
        true => Ok(()),
        false => Err(format!("values in {places} places are not as wanted")),
    }
}

/// A report or a listing in a buffer of `room` bytes: its length and its bytes, and
/// that all others stay, those past its end and, if it is refused, all.
fn text(
    what: &str,
    call: impl FnOnce(&mut [u8]) -> u64,
    out: &mut Guarded,
    room: usize,
    written: &[u8],
) -> Outcome {
    let memory = out.last(BEFORE + room);
    memory.fill(UNTOUCHED);
    let length = call(&mut memory[BEFORE..]);
    let mut wanted = vec![UNTOUCHED; BEFORE + room];
    wanted[BEFORE..BEFORE + written.len()].copy_from_slice(written);
    if length != written.len() as u64 {
        let wanted = written.len();
        return Err(format!(
            "{what} in {room} bytes: length {length}, wanted {wanted}"
        ));
    }
    // The library could have written where Rust takes for granted that it did not.
    match black_box(&*memory) == wanted {
        true => Ok(()),
        false => Err(format!(
            "{what} in {room} bytes: the memory is not as wanted"
        )),
    }
}

/// The answer to one image in a buffer of any length, with the listing in the place of
/// the report: every refusal is of the old side, and nothing else has a value.
fn listed(read: &Read<Schema>) -> Answer {
    match read {
        Err(refusal) => Answer::refused(refusal.number, Side::Old),
        Ok(schema) => Answer {
            number: 0,
            side: Side::None,
            bump: Bump::Patch,
            result: CompatResult::Compatible,
            counts: [0; COUNTS],
            report: listing(schema).into_bytes(),
        },
    }
}

/// The same in a buffer of `room` bytes.
fn listed_within(listed: &Answer, room: u64) -> Answer {
    match listed.report.len() as u64 > room {
        true => Answer::refused(FULL, Side::Old),
        false => listed.clone(),
    }
}

fn listing_verdicts(image: &[u8], room: u64, answer: &Answer) -> Outcome {
    for selector in selectors() {
        let found = super::listing_verdict(image, room, selector);
        let wanted = answer.select(selector);
        if found != wanted {
            return Err(format!(
                "listing in {room} bytes: selector {selector} is {found}, wanted {wanted}"
            ));
        }
    }
    Ok(())
}
