//! Both images at fault: the old one answers. Every pair of numbers from 2 to
//! 10, and 1 with two others, for an image refused by 1 is large.

use super::bodies::with_body;
use super::Cases;
use crate::limits::IMAGE_BYTES;

pub fn refused_by(number: u8) -> Vec<u8> {
    match number {
        1 => vec![1; IMAGE_BYTES + 1],
        2 => vec![1, 0, 0],
        3 => vec![0; 8],
        4 => vec![1, 0, 255, 255, 0, 0, 0, 0],
        5 => vec![1, 0, 0, 0, 0, 0, 0, 0, 0],
        6 => with_body(vec![99]),
        7 => with_body(vec![5, 1, b' ']),
        8 => with_body(vec![5, 1]),
        9 => with_body(vec![4, 0, 17]),
        _ => with_body([&[4, 0][..], &[5; 32]].concat()),
    }
}

pub fn add(cases: &mut Cases) {
    let mut both = |old: u8, new: u8| {
        let name = format!("old refused by {old}, new by {new}");
        cases.bytes(&name, refused_by(old), refused_by(new));
    };
    for old in 2..=10 {
        for new in 2..=10 {
            both(old, new);
        }
    }
    both(1, 2);
    both(10, 1);
}
