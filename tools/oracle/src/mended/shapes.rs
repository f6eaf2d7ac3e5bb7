//! Random schemas with vectors, quaternions and matrices in most types.

use crate::edits::types_of;
use crate::imports::random_imports;
use crate::limits::NODES;
use crate::make::*;
use crate::random::{random_field, random_schema, random_type};
use crate::rng::Rng;
use crate::schema::*;

pub fn random_geometric(rng: &mut Rng) -> Schema {
    let most = *rng.pick(&[1, 2, 3, 5, 8, 12]);
    let mut schema = match rng.once_in(6) {
        true => random_imports(rng, most),
        false => random_schema(rng, most),
    };
    let entries = schema.registry.len();
    for declaration in schema.registry.iter_mut().flatten() {
        // Where there is no type nothing is told, and two aliases refuse the pair.
        if types_of(declaration).is_empty() && declaration.kind() != IMPL && !rng.once_in(6) {
            declaration.body = typed_body(rng, entries);
        }
        for ty in types_of(declaration) {
            sprinkle(rng, ty);
            if rng.once_in(5) {
                *ty = deepened(rng, ty.clone());
            }
        }
    }
    schema
}

fn typed_body(rng: &mut Rng, entries: usize) -> Body {
    match rng.once_in(3) {
        true => Body::Newtype(random_type(rng, entries, 4)),
        false => Body::Message(Marks::default(), vec![random_field(rng, entries)]),
    }
}

pub fn geometric_tag(rng: &mut Rng) -> u8 {
    GEOMETRIC.start() + rng.below(6) as u8
}

/// Puts one of tags 10 to 15 above a node.
pub fn enclose(rng: &mut Rng, ty: &mut Type) {
    *ty = wrapped(geometric_tag(rng), ty.clone());
}

/// Half of the nodes with one inner type get one of tags 10 to 15, and now and then such
/// a node comes above another one.
fn sprinkle(rng: &mut Rng, ty: &mut Type) {
    let wrapper = matches!(ty.label, Label::Wrapper(_)) && ty.inner.len() == 1;
    if wrapper && rng.once_in(2) {
        ty.label = Label::Wrapper(geometric_tag(rng));
    }
    ty.inner.iter_mut().for_each(|inner| sprinkle(rng, inner));
    if depth(ty) < 6 && rng.once_in(4) {
        enclose(rng, ty);
    }
}

/// The type at the end of a longer path, of vectors only or with one of them at most.
fn deepened(rng: &mut Rng, ty: Type) -> Type {
    let most = match rng.once_in(3) {
        true => NODES,
        false => 2 + rng.below(NODES - 1),
    };
    let one = rng.below(most);
    let all = rng.once_in(3);
    (depth(&ty)..most).fold(ty, |mut ty, node| match all || node == one {
        true => {
            enclose(rng, &mut ty);
            ty
        }
        false => wrapped(*rng.pick(&[4, 5, 7]), ty),
    })
}
