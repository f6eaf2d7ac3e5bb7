//! Walks over two types, for wrong readings: each goes wrong in one way. "A vector" is
//! one of tags 10 to 15.

use crate::mended;
use crate::schema::*;
use crate::types::labels_alike;

pub fn geometric(ty: &Type) -> bool {
    GEOMETRIC.contains(&ty.tag())
}

pub fn newtype_of<'a>(schema: &'a Schema, ty: &Type) -> Option<&'a Type> {
    let Label::Named(id) = ty.label else {
        return None;
    };
    match &schema.get(id)?.body {
        Body::Newtype(inner) => Some(inner),
        _ => None,
    }
}

/// What a walk over both trees makes of two nodes.
pub enum Step {
    Differ,
    Enter,
    /// Equal with all below.
    Pass,
}

impl Step {
    pub fn of(equal: bool) -> Step {
        match equal {
            true => Step::Enter,
            false => Step::Differ,
        }
    }
}

/// Where two nodes stand: how many on the path, how many vectors above, and whether they
/// are an inner type of a map or result.
#[derive(Clone, Copy, Default)]
pub struct Place {
    pub node: usize,
    pub vectors: usize,
    pub first: bool,
    pub second: bool,
}

pub fn right((old, o): (&Schema, &Type), (new, n): (&Schema, &Type)) -> Step {
    Step::of(labels_alike(old, &o.label, new, &n.label))
}

pub type Steps<'a> = &'a dyn Fn(&Type, &Type, Place) -> Step;

pub fn walk(o: &Type, n: &Type, step: Steps) -> bool {
    let root = Place {
        node: 1,
        ..Place::default()
    };
    walk_from(o, n, root, step)
}

fn walk_from(o: &Type, n: &Type, place: Place, step: Steps) -> bool {
    match step(o, n, place) {
        Step::Differ => return false,
        Step::Pass => return true,
        Step::Enter => {}
    }
    let mut inner = o.inner.iter().zip(&n.inner).enumerate();
    inner.all(|(which, (i, j))| {
        let below = Place {
            node: place.node + 1,
            vectors: place.vectors + usize::from(geometric(o)),
            first: o.inner.len() == 2 && which == 0,
            second: which == 1,
        };
        walk_from(i, j, below, step)
    })
}

/// Vectors at such places are never equal.
pub fn except(
    old: &Schema,
    o: &Type,
    new: &Schema,
    n: &Type,
    never: fn(u8, Place) -> bool,
) -> bool {
    walk(
        o,
        n,
        &|o, n, place| match geometric(o) && never(o.tag(), place) {
            true => Step::Differ,
            false => right((old, o), (new, n)),
        },
    )
}

/// Up to the first vector, if there is one before a difference.
pub fn first_vector((old, o): (&Schema, &Type), (new, n): (&Schema, &Type)) -> Option<bool> {
    if !labels_alike(old, &o.label, new, &n.label) {
        return Some(false);
    }
    if geometric(o) {
        return Some(true);
    }
    let mut inner = o.inner.iter().zip(&n.inner);
    inner.find_map(|(o, n)| first_vector((old, o), (new, n)))
}

/// Types without their vectors.
pub fn bare(old: &Schema, o: &Type, new: &Schema, n: &Type) -> bool {
    match [o, n].map(geometric) {
        [true, false] => bare(old, &o.inner[0], new, n),
        [false, true] => bare(old, o, new, &n.inner[0]),
        _ => {
            let mut inner = o.inner.iter().zip(&n.inner);
            labels_alike(old, &o.label, new, &n.label) && inner.all(|(o, n)| bare(old, o, new, n))
        }
    }
}

/// 01's equality, where a vector is taken to occur in this way.
pub fn unless(
    old: &Schema,
    o: &Type,
    new: &Schema,
    n: &Type,
    occurs: fn(&Schema, &Type) -> bool,
) -> bool {
    mended::types_equal(old, o, new, n) && !occurs(old, o)
}

/// Whether a vector occurs on the path that goes on so.
pub fn occurs(ty: &Type, next: &dyn Fn(&Type) -> Option<&Type>) -> bool {
    geometric(ty) || next(ty).is_some_and(|inner| occurs(inner, next))
}

pub fn holds(ty: &Type, wanted: &dyn Fn(&Type) -> bool) -> bool {
    wanted(ty) || ty.inner.iter().any(|inner| holds(inner, wanted))
}
