//! Of which bodies a tombstone is told.

use super::{right, told, variants};
use crate::answer::{Answer, Verdict};
use crate::changes::{Bump, Change, ChangeKind};
use crate::model::{kept, surviving_declarations, survivors, ByName};
use crate::schema::*;
use crate::selftest::mended::wrong_widths::{answer, Images, Wrong};
use std::collections::BTreeMap;

use Verdict::Mended;

/// More lines, of bodies that are not compared.
fn more(
    mut changes: Vec<Change>,
    declaration: &str,
    used: [Vec<u32>; 2],
    struck: [&[u32]; 2],
) -> Vec<Change> {
    let told = right(used, struck);
    let kinds = [ChangeKind::TombstoneReused, ChangeKind::TombstoneDropped];
    for ((numbers, kind), word) in told.into_iter().zip(kinds).zip(["reused", "dropped"]) {
        changes.extend(numbers.into_iter().map(|number| Change {
            kind,
            bump: Bump::Major,
            declaration: declaration.to_string(),
            field: None,
            detail: format!("tombstone @{number} was {word}"),
        }));
    }
    changes
}

/// The declarations that one side alone has, or both of another kind.
fn unlike<'a>(
    one: &'a ByName<'a>,
    other: &'a ByName<'a>,
) -> impl Iterator<Item = (&'a str, &'a Declaration)> {
    let alone = one.iter().filter(|(name, _)| !other.contains_key(*name));
    alone.map(|(name, declaration)| (*name, *declaration))
}

/// The schemas with other tombstones or items, by the mended verdict.
fn changed(images: &Images, change: fn(&mut Declaration)) -> Answer {
    let mut read = images.read.clone();
    for schema in read.iter_mut().flatten() {
        let declared = schema.registry.iter_mut().flatten();
        declared.for_each(change);
    }
    answer(&read, Mended.reading())
}

/// Of variants of one ordinal another counts for its tombstones, on both sides.
fn of_variants(declaration: &mut Declaration, counts: fn(&[&Variant]) -> Vec<u32>) {
    let Body::Union(list) = &mut declaration.body else {
        return;
    };
    let mut alike: BTreeMap<u32, Vec<&Variant>> = BTreeMap::new();
    let former = list.clone();
    for variant in &former {
        alike.entry(variant.ordinal).or_default().push(variant);
    }
    for variant in list {
        variant.tombstones = counts(&alike[&variant.ordinal]);
    }
}

/// Of declarations of one name the first listed counts for its tombstones.
fn first_listed(schema: &Schema) -> Schema {
    let mut first = BTreeMap::new();
    for declaration in schema.declarations.iter().filter_map(|id| schema.get(*id)) {
        let key = (declaration.kind(), declaration.name.clone());
        first.entry(key).or_insert(declaration.tombstones.clone());
    }
    let mut schema = schema.clone();
    for declaration in schema.registry.iter_mut().flatten() {
        if let Some(first) = first.get(&(declaration.kind(), declaration.name.clone())) {
            declaration.tombstones = first.clone();
        }
    }
    schema
}

/// Of variants that the old side alone has, or the new.
fn one_sided(mut changes: Vec<Change>, [old, new]: [&Schema; 2], removed: bool) -> Vec<Change> {
    let (old, new) = (surviving_declarations(old), surviving_declarations(new));
    for (name, o, n) in kept(&old, &new).filter(|(_, o, n)| o.kind() == n.kind()) {
        let [o, n] = [survivors(variants(o)), survivors(variants(n))];
        let (one, other) = if removed { (o, n) } else { (n, o) };
        for variant in one.values().filter(|v| !other.contains_key(&v.ordinal)) {
            let declaration = format!("{name}::{}", variant.name);
            let struck = &variant.tombstones[..];
            let used = ordinals(&variant.fields);
            let (used, struck) = match removed {
                true => ([used, Vec::new()], [struck, &[]]),
                false => ([used.clone(), used], [struck, struck]),
            };
            changes = more(changes, &declaration, used, struck);
        }
    }
    changes
}

pub const WRONG: [Wrong; 17] = [
    ("not of messages", Mended, |images| {
        changed(images, |d| {
            if d.kind() == 0 {
                d.tombstones.clear()
            }
        })
    }),
    ("not of enums", Mended, |images| {
        changed(images, |d| {
            if d.kind() == 1 {
                d.tombstones.clear()
            }
        })
    }),
    ("not of flags", Mended, |images| {
        changed(images, |d| {
            if d.kind() == 2 {
                d.tombstones.clear()
            }
        })
    }),
    ("not of unions", Mended, |images| {
        changed(images, |d| {
            if d.kind() == 3 {
                d.tombstones.clear()
            }
        })
    }),
    ("not of variants", Mended, |images| {
        changed(images, |d| of_variants(d, |_| Vec::new()))
    }),
    ("of variants the first counts", Mended, |images| {
        changed(images, |d| {
            of_variants(d, |alike| alike[0].tombstones.clone())
        })
    }),
    ("of variants all of one ordinal count", Mended, |images| {
        changed(images, |d| {
            of_variants(d, |alike| {
                alike.iter().flat_map(|v| v.tombstones.clone()).collect()
            });
        })
    }),
    (
        "a union's are those of its variants too",
        Mended,
        |images| {
            changed(images, |d| {
                let own = d.tombstones.clone();
                if let Body::Union(list) = &mut d.body {
                    list.iter_mut().for_each(|v| v.tombstones.extend(&own));
                }
            })
        },
    ),
    ("a variant's are those of its union", Mended, |images| {
        changed(images, |d| {
            let all: Vec<u32> = variants(d)
                .iter()
                .flat_map(|v| v.tombstones.clone())
                .collect();
            d.tombstones.extend(all);
        })
    }),
    ("of declarations the first counts", Mended, |images| {
        let read = images
            .read
            .clone()
            .map(|read| read.map(|s| first_listed(&s)));
        answer(&read, Mended.reading())
    }),
    (
        "a union uses the numbers of its variants' fields",
        Mended,
        |images| {
            told(images, |[old, new], mut changes| {
                let (old, new) = (surviving_declarations(old), surviving_declarations(new));
                for (name, o, n) in kept(&old, &new).filter(|(_, o, n)| o.kind() == n.kind()) {
                    let own = n.used();
                    let all = variants(n).iter().flat_map(|v| ordinals(&v.fields));
                    let fields: Vec<u32> = all.filter(|number| !own.contains(number)).collect();
                    let struck: Vec<u32> = o.tombstones.iter().copied().collect();
                    let both: Vec<u32> =
                        struck.into_iter().filter(|n| fields.contains(n)).collect();
                    changes = more(changes, name, [Vec::new(), both.clone()], [&both, &[]]);
                }
                changes
            })
        },
    ),
    ("of declarations whose kinds differ", Mended, |images| {
        told(images, |[old, new], mut changes| {
            let (old, new) = (surviving_declarations(old), surviving_declarations(new));
            for (name, o, n) in kept(&old, &new).filter(|(_, o, n)| o.kind() != n.kind()) {
                let used = [o.used(), n.used()];
                changes = more(changes, name, used, [&o.tombstones, &n.tombstones]);
            }
            changes
        })
    }),
    ("of declarations added", Mended, |images| {
        told(images, |[old, new], mut changes| {
            let (old, new) = (surviving_declarations(old), surviving_declarations(new));
            for (name, n) in unlike(&new, &old) {
                let struck = [&n.tombstones[..], &n.tombstones];
                changes = more(changes, name, [n.used(), n.used()], struck);
            }
            changes
        })
    }),
    ("of declarations removed", Mended, |images| {
        told(images, |[old, new], mut changes| {
            let (old, new) = (surviving_declarations(old), surviving_declarations(new));
            for (name, o) in unlike(&old, &new) {
                changes = more(changes, name, [o.used(), Vec::new()], [&o.tombstones, &[]]);
            }
            changes
        })
    }),
    ("of variants added", Mended, |images| {
        told(images, |[old, new], changes| {
            one_sided(changes, [old, new], false)
        })
    }),
    ("of variants removed", Mended, |images| {
        told(images, |[old, new], changes| {
            one_sided(changes, [old, new], true)
        })
    }),
    (
        "also of declarations that are not listed",
        Mended,
        |images| {
            let mut read = images.read.clone();
            for schema in read.iter_mut().flatten() {
                let ids = 0..schema.registry.len() as u32;
                let (mut standing, listed) = (Vec::new(), schema.declarations.clone());
                standing.extend(ids.filter(|id| !listed.contains(id)));
                standing.extend(listed);
                schema.declarations = standing;
            }
            let [right, wrong] = [&images.read, &read].map(|read| answer(read, Mended.reading()));
            let told = |answer: &Answer| [19, 20].map(|kind| answer.counts[kind]);
            match right.number == 0 && told(&right) != told(&wrong) {
                true => wrong,
                false => right,
            }
        },
    ),
];
