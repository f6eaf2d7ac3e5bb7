//! Wrong readings of R-5, one at a time. The pairs made for it must tell each from the
//! right one, and often. Some are told by 01 only: what it reads as equal is no matter
//! of the mended verdict.

use super::walks::*;
use crate::answer::Verdict;
use crate::imports::standing;
use crate::limits::NODES;
use crate::mended;
use crate::model::{Reading, TypesEqual};
use crate::schema::Label;
use crate::types::types_equal;

/// What is wrong, by which verdict it is told, and how that reads then.
type Wrong = (&'static str, Verdict, Reading);

pub fn wrong() -> Vec<Wrong> {
    let by = |verdict: Verdict, (name, types_equal): (&'static str, TypesEqual)| {
        let reading = verdict.reading();
        let wrong = Reading {
            types_equal,
            ..reading
        };
        (name, verdict, wrong)
    };
    let mut all: Vec<Wrong> = MENDED.map(|wrong| by(Verdict::Mended, wrong)).into();
    all.extend(FORMER.map(|wrong| by(Verdict::Plain, wrong)));
    let equal = (
        "with imports, alike is equal",
        mended::types_equal as TypesEqual,
    );
    all.push(by(Verdict::Imports, equal));
    let followed = Reading {
        standing,
        ..Verdict::Mended.reading()
    };
    all.push(("imports are followed", Verdict::Mended, followed));
    all
}

const MENDED: [(&str, TypesEqual); 22] = [
    ("alike is different", types_equal),
    ("every vector is like every other", |old, o, new, n| {
        walk(o, n, &|o, n, _| match geometric(o) && geometric(n) {
            true => Step::Enter,
            false => right((old, o), (new, n)),
        })
    }),
    ("below a vector only tags are compared", |old, o, new, n| {
        walk(
            o,
            n,
            &|o, n, place| match place.vectors > 0 && o.tag() == n.tag() {
                true => Step::Enter,
                false => right((old, o), (new, n)),
            },
        )
    }),
    (
        "a type with a vector on each side is alike",
        |old, o, new, n| {
            let vectors = [o, n].into_iter().all(mended::holds_geometric);
            vectors || mended::types_equal(old, o, new, n)
        },
    ),
    (
        "codes are not compared, with a vector or without",
        |_, o, _, n| walk(o, n, &|o, n, _| Step::of(o.tag() == n.tag())),
    ),
    ("the walk ends at the first vector", |old, o, new, n| {
        first_vector((old, o), (new, n)).unwrap_or(true)
    }),
    ("a vector is its tag only", |old, o, new, n| {
        walk(o, n, &|o, n, _| match geometric(o) && o.tag() == n.tag() {
            true => Step::Pass,
            false => right((old, o), (new, n)),
        })
    }),
    ("only roots", |old, o, new, n| {
        except(old, o, new, n, |_, place| place.node > 1)
    }),
    ("not at the root", |old, o, new, n| {
        except(old, o, new, n, |_, place| place.node == 1)
    }),
    ("one on a path only", |old, o, new, n| {
        except(old, o, new, n, |_, place| place.vectors > 0)
    }),
    ("only the first inner type", |old, o, new, n| {
        walk(o, n, &|o, n, place| match place.second {
            true => Step::Pass,
            false => right((old, o), (new, n)),
        })
    }),
    ("no vector in a second inner type", |old, o, new, n| {
        except(old, o, new, n, |_, place| place.second)
    }),
    ("no vector in a first inner type", |old, o, new, n| {
        except(old, o, new, n, |_, place| place.first)
    }),
    ("a named newtype is entered", |old, o, new, n| {
        walk(o, n, &|o, n, _| {
            let inner = |schema, ty| newtype_of(schema, ty);
            match (inner(old, o), inner(new, n)) {
                (Some(o), Some(n)) if !mended::types_equal(old, o, new, n) => Step::Differ,
                _ => right((old, o), (new, n)),
            }
        })
    }),
    ("a named node below a vector is its id", |old, o, new, n| {
        walk(o, n, &|o, n, place| match place.vectors > 0 {
            true => Step::of(o.label == n.label),
            false => right((old, o), (new, n)),
        })
    }),
    ("unresolvable below a vector differs", |old, o, new, n| {
        walk(o, n, &|o, n, place| match o.label {
            Label::Named(id) if place.vectors > 0 && old.get(id).is_none() => Step::Differ,
            _ => right((old, o), (new, n)),
        })
    }),
    ("a vector on one side is passed over", |old, o, new, n| {
        bare(old, o, new, n)
    }),
    ("no quaternions and matrices", |old, o, new, n| {
        except(old, o, new, n, |tag, _| tag >= 13)
    }),
    ("no vectors of two", |old, o, new, n| {
        except(old, o, new, n, |tag, _| tag == 10)
    }),
    ("no matrices of four", |old, o, new, n| {
        except(old, o, new, n, |tag, _| tag == 15)
    }),
    ("the 32nd node is not compared", |old, o, new, n| {
        walk(o, n, &|o, n, place| match place.node == NODES {
            true => Step::Pass,
            false => right((old, o), (new, n)),
        })
    }),
    ("nothing is different", |_, _, _, _| true),
];

const FORMER: [(&str, TypesEqual); 11] = [
    ("alike is equal", mended::types_equal),
    ("alike without a vector", |old, o, new, n| {
        unless(old, o, new, n, |_, _| true)
    }),
    ("only roots occur", |old, o, new, n| {
        unless(old, o, new, n, |_, ty| geometric(ty))
    }),
    ("none occurs at the root", |old, o, new, n| {
        unless(old, o, new, n, |_, ty| {
            ty.inner.iter().any(mended::holds_geometric)
        })
    }),
    ("only in first inner types", |old, o, new, n| {
        unless(old, o, new, n, |_, ty| occurs(ty, &|ty| ty.inner.first()))
    }),
    ("only in last inner types", |old, o, new, n| {
        unless(old, o, new, n, |_, ty| occurs(ty, &|ty| ty.inner.last()))
    }),
    ("behind a name", |old, o, new, n| {
        unless(old, o, new, n, |schema, ty| {
            holds(ty, &|ty| {
                let newtype = newtype_of(schema, ty);
                geometric(ty) || newtype.is_some_and(mended::holds_geometric)
            })
        })
    }),
    ("no vectors of two occur", |old, o, new, n| {
        unless(old, o, new, n, |_, ty| {
            holds(ty, &|ty| (11..=15).contains(&ty.tag()))
        })
    }),
    ("no matrices of four occur", |old, o, new, n| {
        unless(old, o, new, n, |_, ty| {
            holds(ty, &|ty| (10..=14).contains(&ty.tag()))
        })
    }),
    ("a result is one of them", |old, o, new, n| {
        unless(old, o, new, n, |_, ty| {
            holds(ty, &|ty| (9..=15).contains(&ty.tag()))
        })
    }),
    ("bits are one of them", |old, o, new, n| {
        unless(old, o, new, n, |_, ty| {
            holds(ty, &|ty| (10..=16).contains(&ty.tag()))
        })
    }),
];
