//! Which numbers are told.

use super::right;
use crate::answer::{Answer, Verdict};
use crate::mended::{self, Numbers};
use crate::model::Reading;
use crate::selftest::mended::wrong_widths::{answer, Images, Wrong};

use Verdict::{Imports, Mended, Plain};

/// Other tombstones are told, by a verdict.
fn by(
    images: &Images,
    verdict: Verdict,
    tombstone_changes: fn(&Numbers) -> [Vec<u32>; 2],
) -> Answer {
    let reading = Reading {
        tombstone_changes,
        ..verdict.reading()
    };
    answer(&images.read, reading)
}

fn reused_only(numbers: &Numbers, keep: fn(&Numbers, u32) -> bool) -> [Vec<u32>; 2] {
    let [reused, dropped] = mended::tombstone_changes(numbers);
    let reused = reused.into_iter().filter(|number| keep(numbers, *number));
    [reused.collect(), dropped]
}

fn dropped_only(numbers: &Numbers, keep: fn(&Numbers, u32) -> bool) -> [Vec<u32>; 2] {
    let [reused, dropped] = mended::tombstone_changes(numbers);
    let dropped = dropped.into_iter().filter(|number| keep(numbers, *number));
    [reused, dropped.collect()]
}

pub const WRONG: [Wrong; 24] = [
    ("by 01", Plain, |images| {
        by(images, Plain, mended::tombstone_changes)
    }),
    ("with imports", Imports, |images| {
        by(images, Imports, mended::tombstone_changes)
    }),
    ("none reused", Mended, |images| {
        by(images, Mended, |n| reused_only(n, |_, _| false))
    }),
    ("none dropped", Mended, |images| {
        by(images, Mended, |n| dropped_only(n, |_, _| false))
    }),
    ("the new side's asked for reuse", Mended, |images| {
        by(images, Mended, |n| {
            let [_, dropped] = mended::tombstone_changes(n);
            let [reused, _] = right(n.used.clone(), [n.struck[1]; 2]);
            [reused, dropped]
        })
    }),
    ("those of both sides asked for reuse", Mended, |images| {
        by(images, Mended, |n| {
            let [_, dropped] = mended::tombstone_changes(n);
            let [reused, _] = right(n.used.clone(), [&n.struck.concat(), n.struck[1]]);
            [reused, dropped]
        })
    }),
    ("what the old side uses", Mended, |images| {
        by(images, Mended, |n| {
            right([n.used[1].clone(), n.used[0].clone()], n.struck)
        })
    }),
    ("the other way round", Mended, |images| {
        by(images, Mended, |n| {
            right(
                [n.used[1].clone(), n.used[0].clone()],
                [n.struck[1], n.struck[0]],
            )
        })
    }),
    ("dropped where the new side uses it", Mended, |images| {
        by(images, Mended, |n| {
            let [reused, _] = mended::tombstone_changes(n);
            let [_, dropped] = right([Vec::new(), Vec::new()], n.struck);
            [reused, dropped]
        })
    }),
    (
        "dropped where the new side does not use it",
        Mended,
        |images| {
            by(images, Mended, |n| {
                let [reused, _] = mended::tombstone_changes(n);
                let [_, dropped] = right(n.used.clone(), [n.struck[0], &[]]);
                [reused, dropped]
            })
        },
    ),
    ("kept, or struck off again, is reused", Mended, |images| {
        by(images, Mended, |n| {
            right([Vec::new(), [&n.used[1], n.struck[1]].concat()], n.struck)
        })
    }),
    (
        "not reused where it is struck off as well",
        Mended,
        |images| {
            by(images, Mended, |n| {
                reused_only(n, |n, number| !n.struck[1].contains(&number))
            })
        },
    ),
    ("not reused where the old side uses it", Mended, |images| {
        by(images, Mended, |n| {
            reused_only(n, |n, number| !n.used[0].contains(&number))
        })
    }),
    ("not dropped where the old side uses it", Mended, |images| {
        by(images, Mended, |n| {
            dropped_only(n, |n, number| !n.used[0].contains(&number))
        })
    }),
    ("dropped only where none is left", Mended, |images| {
        by(images, Mended, |n| {
            dropped_only(n, |n, _| n.struck[1].is_empty())
        })
    }),
    ("dropped only where one is left", Mended, |images| {
        by(images, Mended, |n| {
            dropped_only(n, |n, _| !n.struck[1].is_empty())
        })
    }),
    ("0 is none", Mended, |images| {
        by(images, Mended, |n| {
            mended::tombstone_changes(n).map(|told| told.into_iter().filter(|n| *n > 0).collect())
        })
    }),
    ("the largest is none", Mended, |images| {
        by(images, Mended, |n| {
            let largest = |told: Vec<u32>| told.into_iter().filter(|n| *n < u32::MAX).collect();
            mended::tombstone_changes(n).map(largest)
        })
    }),
    ("numbers of two bytes", Mended, |images| {
        by(images, Mended, |n| {
            let low = |list: &[u32]| -> Vec<u32> { list.iter().map(|n| n & 0xffff).collect() };
            let [old, new] = n.struck.map(low);
            right([low(&n.used[0]), low(&n.used[1])], [&old, &new])
        })
    }),
    ("repeated ones count as many", Mended, |images| {
        by(images, Mended, |n| {
            mended::tombstone_changes(n).map(|told| {
                let mut all: Vec<u32> = n.struck[0].to_vec();
                all.retain(|number| told.contains(number));
                all.sort();
                all
            })
        })
    }),
    ("as they are stored", Mended, |images| {
        by(images, Mended, |n| {
            mended::tombstone_changes(n).map(|told| {
                let mut stored: Vec<u32> = Vec::new();
                for number in n.struck[0].iter().filter(|number| told.contains(number)) {
                    if !stored.contains(number) {
                        stored.push(*number);
                    }
                }
                stored
            })
        })
    }),
    ("falling", Mended, |images| {
        by(images, Mended, |n| {
            mended::tombstone_changes(n).map(|told| told.into_iter().rev().collect())
        })
    }),
    ("sorted as text", Mended, |images| {
        by(images, Mended, |n| {
            mended::tombstone_changes(n).map(|mut told| {
                told.sort_by_key(|number| number.to_string());
                told
            })
        })
    }),
    ("one of each only", Mended, |images| {
        by(images, Mended, |n| {
            mended::tombstone_changes(n).map(|told| told.into_iter().take(1).collect())
        })
    }),
];
