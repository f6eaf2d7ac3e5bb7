//! Times two readers of images on the same bytes: the proved one, from its static
//! library, and the oracle's.

use std::hint::black_box;
use std::time::Instant;

#[path = "../oracle/src/bodies.rs"]
mod bodies;
#[path = "../oracle/src/cursor.rs"]
mod cursor;
#[path = "../oracle/src/limits.rs"]
mod limits;
#[path = "../oracle/src/reader.rs"]
mod reader;
#[path = "../oracle/src/refusal.rs"]
mod refusal;
#[path = "../oracle/src/schema.rs"]
mod schema;

extern "C" {
    fn read_image_number(bytes: *const u8, length: usize) -> u8;
}

/// The number that the proved reader gives.
fn proved(image: &[u8]) -> u8 {
    // The slice's pointer is valid for its length, and the callee only reads.
    unsafe { read_image_number(image.as_ptr(), image.len()) }
}

/// The number that the oracle's reader gives; the schema that it builds is dropped.
fn oracle(image: &[u8]) -> u8 {
    reader::read_image(image)
        .err()
        .map_or(0, |refusal| refusal.number)
}

/// The images of the recorded answers, in order.
fn images(file: &[u8]) -> Vec<&[u8]> {
    let number = |at: usize| u32::from_le_bytes(file[at..at + 4].try_into().unwrap()) as usize;
    let (pairs, counts) = (number(8), number(12));
    let (mut at, mut list) = (32, Vec::new());
    for _ in 0..pairs {
        at += 1 + usize::from(file[at]);
        for _ in 0..2 {
            let length = number(at);
            list.push(&file[at + 4..at + 4 + length]);
            at += 4 + length;
        }
        at += 2;
        for _ in 0..2 {
            at += 4 + number(at);
        }
        // The answer of 01, and each of the two others where it is another.
        let past = |at: usize| at + 8 + 4 * counts + number(at + 4);
        at = past(at);
        for _ in 0..2 {
            at = if file[at] == 0 { at + 1 } else { past(at + 1) };
        }
    }
    assert_eq!(at, file.len());
    list
}

/// Nanoseconds a byte, the best of five runs.
fn time(read: fn(&[u8]) -> u8, image: &[u8]) -> f64 {
    const TURNS: u32 = 500;
    let run = || {
        let start = Instant::now();
        for _ in 0..TURNS {
            black_box(read(black_box(image)));
        }
        start.elapsed().as_nanos() as f64 / f64::from(TURNS) / image.len() as f64
    };
    (0..5).map(|_| run()).fold(f64::INFINITY, f64::min)
}

fn main() {
    let path = std::env::args()
        .nth(1)
        .expect("the file of recorded answers");
    let file = std::fs::read(path).expect("the file of recorded answers");
    let all = images(&file);
    let differing = all
        .iter()
        .filter(|image| proved(image) != oracle(image))
        .count();
    println!("{} images, {differing} read differently", all.len());
    let mut large = all;
    large.retain(|image| image.len() == 32_768 && oracle(image) == 0);
    large.sort();
    large.dedup();
    println!("ns a byte: proved, oracle, ratio");
    for image in large {
        let (ours, theirs) = (time(proved, image), time(oracle, image));
        println!("{ours:.2} {theirs:.2} {:.2}", ours / theirs);
    }
}
