//! Facts about two compared types of which at least one holds a vector, by which is
//! meant one of tags 10 to 15.

use crate::limits::NODES;
use crate::mended::{compared, holds_geometric, Compared};
use crate::schema::*;
use crate::types::{labels_alike, name_of};

/// Two types that are compared.
pub struct Met<'a> {
    pub place: &'static str,
    /// The fields that hold them, if they are of fields.
    pub fields: Option<[&'a Field; 2]>,
    pub old: &'a Type,
    pub new: &'a Type,
}

/// So many vectors on one path.
const ON_A_PATH: [usize; 4] = [2, 3, 8, NODES - 1];
/// How two named nodes stand to each other.
const NAMED: [&str; 6] = [
    "one name, one id",
    "one name, two ids",
    "both unresolvable",
    "two names",
    "a name and unresolvable",
    "unresolvable and a name",
];
/// What differs though the tag is one: codes, sizes, names.
const CODED: [u8; 6] = [0, 1, 2, 3, 6, 16];
const ONE_SIDED: [&str; 2] = ["old", "new"];
const NEWTYPE: &str = "mended: equal, names a newtype of a vector";
const NEWTYPES_DIFFER: &str = "mended: equal, names newtypes of different vectors";

fn geometric(ty: &Type) -> bool {
    GEOMETRIC.contains(&ty.tag())
}

fn named(old: &Schema, o: u32, new: &Schema, n: u32) -> usize {
    match (name_of(old, o), name_of(new, n)) {
        (None, None) => 2,
        (Some(_), None) => 4,
        (None, Some(_)) => 5,
        (Some(one), Some(other)) if one != other => 3,
        _ => usize::from(o != n),
    }
}

/// Both trees together from the root, as far as the labels are alike: the nodes, how
/// many stand on the path to them, and how many vectors above them.
fn walk<'a>(
    (old, new): (&Schema, &Schema),
    (o, n): (&'a Type, &'a Type),
    (node, vectors): (usize, usize),
    see: &mut dyn FnMut((&'a Type, &'a Type), usize, usize),
) {
    see((o, n), node, vectors);
    if labels_alike(old, &o.label, new, &n.label) {
        let below = (node + 1, vectors + usize::from(geometric(o)));
        for inner in o.inner.iter().zip(&n.inner) {
            walk((old, new), inner, below, see);
        }
    }
}

pub fn of_alike(old: &Schema, new: &Schema, met: &Met) -> Vec<String> {
    let mut facts = Vec::new();
    let mut first = NODES;
    let mut most = 0;
    walk(
        (old, new),
        (met.old, met.new),
        (1, 0),
        &mut |(o, n), node, above| {
            if geometric(o) {
                first = first.min(node);
                most = most.max(above + 1);
                facts.push(contains(o.tag(), o.inner[0].tag()));
            }
            facts.extend(
                o.inner
                    .iter()
                    .filter(|i| geometric(i))
                    .map(|i| contains(o.tag(), i.tag())),
            );
            if o.inner.len() == 2 {
                facts.extend(inner_types_with(o));
            }
            if let (Label::Named(a), Label::Named(b), true) = (&o.label, &n.label, above > 0) {
                facts.push(named_below(NAMED[named(old, *a, new, *b)]));
            }
        },
    );
    if geometric(met.old) {
        facts.push(at_root(met.old.tag()));
    }
    facts.push(first_at(first));
    let reached = ON_A_PATH.into_iter().filter(|count| most >= *count);
    facts.extend(reached.map(on_a_path));
    facts
}

/// In which inner type of a map or result a vector stands.
fn inner_types_with(ty: &Type) -> Option<String> {
    let which = match [holds_geometric(&ty.inner[0]), holds_geometric(&ty.inner[1])] {
        [true, true] => "both inner types",
        [true, false] => "the first inner type",
        [false, true] => "the second inner type",
        [false, false] => return None,
    };
    Some(within(which, ty.tag()))
}

pub fn of_different(old: &Schema, new: &Schema, met: &Met) -> Vec<String> {
    let mut facts = Vec::new();
    let (mut differences, mut equal_vectors, mut most) = (0, 0, 0);
    walk(
        (old, new),
        (met.old, met.new),
        (1, 0),
        &mut |(o, n), node, above| {
            if compared(old, o, new, n) == Compared::Alike {
                equal_vectors += 1;
            }
            if labels_alike(old, &o.label, new, &n.label) {
                return;
            }
            differences += 1;
            most = most.max(above);
            facts.extend(of_labels((old, o), (new, n), above > 0));
            if above > 0 && differences == 1 {
                facts.push(differs_at(node));
            }
        },
    );
    facts.extend((equal_vectors > 0).then(|| BESIDE_ALIKE.to_string()));
    let reached = ON_A_PATH[..2].iter().filter(|count| most >= **count);
    facts.extend(reached.map(|count| below(*count)));
    facts
}

const BESIDE_ALIKE: &str = "mended: different, beside a vector that is alike";

/// Two nodes of which the labels differ.
fn of_labels((old, o): (&Schema, &Type), (new, n): (&Schema, &Type), below: bool) -> Vec<String> {
    let mut facts = Vec::new();
    match [o, n].map(geometric) {
        [true, true] => facts.push(two_tags(o.tag(), n.tag())),
        [true, false] => facts.push(one_sided(ONE_SIDED[0])),
        [false, true] => facts.push(one_sided(ONE_SIDED[1])),
        [false, false] => {}
    }
    let inner = |one: &Type, other: (&Schema, &Type), mine: &Schema| {
        geometric(one) && compared(mine, &one.inner[0], other.0, other.1) != Compared::Different
    };
    if inner(o, (new, n), old) || inner(n, (old, o), new) {
        facts.push(BUT_FOR_ONE.to_string());
    }
    if below && o.tag() == n.tag() {
        facts.push(codes_below(o.tag()));
    }
    if let (Label::Named(a), Label::Named(b), true) = (&o.label, &n.label, below) {
        facts.push(named_below(NAMED[named(old, *a, new, *b)]));
    }
    facts
}

const BUT_FOR_ONE: &str = "mended: different, equal without one vector";

/// A named node is not entered: newtypes of vectors behind equal names.
pub fn named_vectors(old: &Schema, new: &Schema, met: &Met) -> Vec<String> {
    let mut facts = Vec::new();
    walk(
        (old, new),
        (met.old, met.new),
        (1, 0),
        &mut |(o, n), _, _| {
            let (Label::Named(a), Label::Named(b)) = (&o.label, &n.label) else {
                return;
            };
            let newtypes = (newtype_of(old, *a), newtype_of(new, *b));
            let (Some(one), Some(other)) = newtypes else {
                return;
            };
            if name_of(old, *a) != name_of(new, *b) || !holds_geometric(one) {
                return;
            }
            facts.push(NEWTYPE.to_string());
            if compared(old, one, new, other) == Compared::Different && holds_geometric(other) {
                facts.push(NEWTYPES_DIFFER.to_string());
            }
        },
    );
    facts
}

fn newtype_of(schema: &Schema, id: u32) -> Option<&Type> {
    match &schema.get(id)?.body {
        Body::Newtype(inner) => Some(inner),
        _ => None,
    }
}

fn at_root(tag: u8) -> String {
    format!("mended: alike, tag {tag} at the root")
}

fn contains(outer: u8, inner: u8) -> String {
    format!("mended: alike, tag {inner} in tag {outer}")
}

fn within(which: &str, tag: u8) -> String {
    format!("mended: alike, vectors in {which} of tag {tag}")
}

fn first_at(node: usize) -> String {
    format!("mended: alike, the first vector is node {node}")
}

fn on_a_path(count: usize) -> String {
    format!("mended: alike, {count} vectors or more on a path")
}

fn named_below(how: &str) -> String {
    format!("mended: named below a vector: {how}")
}

fn two_tags(old: u8, new: u8) -> String {
    format!("mended: different, tag {old} and tag {new}")
}

fn one_sided(side: &str) -> String {
    format!("mended: different, a vector in {side} where the other has none")
}

fn differs_at(node: usize) -> String {
    format!("mended: different below a vector, first at node {node}")
}

fn below(count: usize) -> String {
    format!("mended: different below {count} vectors or more")
}

fn codes_below(tag: u8) -> String {
    format!("mended: different below a vector, both of tag {tag}")
}

pub fn all_facts() -> Vec<String> {
    let texts = [NEWTYPE, NEWTYPES_DIFFER, BESIDE_ALIKE, BUT_FOR_ONE];
    let mut all: Vec<String> = texts.map(str::to_string).into();
    for tag in GEOMETRIC {
        all.push(at_root(tag));
        all.extend((0..=16).map(|inner| contains(tag, inner)));
        let outer = (4..*GEOMETRIC.start()).map(|outer| contains(outer, tag));
        all.extend(outer);
        let others = GEOMETRIC.filter(|other| *other != tag);
        all.extend(others.map(|other| two_tags(tag, other)));
    }
    for which in [
        "both inner types",
        "the first inner type",
        "the second inner type",
    ] {
        all.extend([8, 9].map(|tag| within(which, tag)));
    }
    all.extend((1..NODES).map(first_at));
    all.extend(ON_A_PATH.map(on_a_path));
    all.extend(ON_A_PATH[..2].iter().map(|count| below(*count)));
    all.extend(NAMED.map(named_below));
    all.extend(ONE_SIDED.map(one_sided));
    all.extend((2..=NODES).map(differs_at));
    all.extend(CODED.map(codes_below));
    all
}
