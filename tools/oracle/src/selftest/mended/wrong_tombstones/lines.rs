//! In which order the lines stand, and of which words they are.

use super::{told, variants};
use crate::answer::Verdict;
use crate::changes::{Bump, Change, ChangeKind};
use crate::model::{kept, surviving_declarations, survivors};
use crate::schema::{Schema, Variant};
use crate::selftest::mended::wrong_widths::Wrong;
use std::collections::BTreeMap;

use Verdict::Mended;

fn is_told(change: &Change) -> bool {
    use ChangeKind::{TombstoneDropped, TombstoneReused};
    [TombstoneReused, TombstoneDropped].contains(&change.kind)
}

/// Each line on a tombstone is done in another way.
fn each(mut changes: Vec<Change>, wrong: fn(&mut Change)) -> Vec<Change> {
    changes.iter_mut().filter(|c| is_told(c)).for_each(wrong);
    changes
}

fn number(change: &Change) -> u32 {
    let text = change.detail.trim_start_matches("tombstone @");
    let number = text
        .split(' ')
        .next()
        .and_then(|number| number.parse().ok());
    number.expect("a detail has its number")
}

/// Those of one declaration or variant, in another order.
fn sorted<K: Ord>(mut changes: Vec<Change>, key: fn(&Change) -> K) -> Vec<Change> {
    let same = |one: &Change, next: &Change| {
        is_told(one) && is_told(next) && one.declaration == next.declaration
    };
    for group in changes.chunk_by_mut(same) {
        group.sort_by_key(|change| key(change));
    }
    changes
}

/// Each line on a tombstone moves in front of those of its declaration for which this holds.
fn in_front(mut changes: Vec<Change>, of: fn(&Change, &Change) -> bool) -> Vec<Change> {
    for place in 0..changes.len() {
        let mut at = place;
        while at > 0
            && is_told(&changes[at])
            && !is_told(&changes[at - 1])
            && of(&changes[at - 1], &changes[at])
        {
            changes.swap(at - 1, at);
            at -= 1;
        }
    }
    changes
}

/// The lines of a variant get another declaration, where there is one.
fn named(
    [old, new]: &[Schema; 2],
    changes: Vec<Change>,
    name: fn(&str, &Variant) -> String,
) -> Vec<Change> {
    let (old, new) = (surviving_declarations(old), surviving_declarations(new));
    let mut names = BTreeMap::new();
    for (declaration, o, n) in kept(&old, &new) {
        for (_, o, n) in kept(&survivors(variants(o)), &survivors(variants(n))) {
            names.insert(format!("{declaration}::{}", o.name), name(declaration, n));
        }
    }
    let other = |mut change: Change| {
        let found = names.get(&change.declaration).filter(|_| is_told(&change));
        change.declaration = found.cloned().unwrap_or(change.declaration);
        change
    };
    changes.into_iter().map(other).collect()
}

pub const WRONG: [Wrong; 17] = [
    ("dropped before reused", Mended, |images| {
        told(images, |_, changes| {
            sorted(changes, |c| {
                (c.kind != ChangeKind::TombstoneDropped, number(c))
            })
        })
    }),
    ("reused and dropped by number", Mended, |images| {
        told(images, |_, changes| sorted(changes, number))
    }),
    ("before the fields, variants and bits", Mended, |images| {
        told(images, |_, changes| {
            in_front(changes, |one, next| {
                one.declaration == next.declaration && one.field.is_some()
            })
        })
    }),
    ("first in the declaration", Mended, |images| {
        told(images, |_, changes| {
            in_front(changes, |one, next| {
                let declared = !matches!(one.kind, ChangeKind::NamespaceChanged);
                one.declaration == next.declaration && declared
            })
        })
    }),
    ("before the message's own mark", Mended, |images| {
        told(images, |_, changes| {
            in_front(changes, |one, next| {
                let own = one.kind == ChangeKind::FieldDeprecated && one.field.is_none();
                one.declaration == next.declaration && own
            })
        })
    }),
    ("a union's before its variants'", Mended, |images| {
        told(images, |_, changes| {
            let mut changes = changes;
            let inside = |one: &Change, next: &Change| {
                is_told(next)
                    && one
                        .declaration
                        .starts_with(&format!("{}::", next.declaration))
            };
            for place in 0..changes.len() {
                let mut at = place;
                while at > 0 && inside(&changes[at - 1], &changes[at]) {
                    changes.swap(at - 1, at);
                    at -= 1;
                }
            }
            changes
        })
    }),
    ("last in the report", Mended, |images| {
        told(images, |_, changes| {
            let (told, others): (Vec<_>, Vec<_>) = changes.into_iter().partition(is_told);
            [others, told].concat()
        })
    }),
    ("first in the report", Mended, |images| {
        told(images, |_, changes| {
            let (told, others): (Vec<_>, Vec<_>) = changes.into_iter().partition(is_told);
            [told, others].concat()
        })
    }),
    ("a variant named as the new one", Mended, |images| {
        told(images, |schemas, changes| {
            named(schemas, changes, |name, n| format!("{name}::{}", n.name))
        })
    }),
    ("a variant's under the union's name", Mended, |images| {
        told(images, |schemas, changes| {
            named(schemas, changes, |name, _| name.to_string())
        })
    }),
    ("reused is Minor", Mended, |images| {
        told(images, |_, changes| {
            each(changes, |c| {
                if c.kind == ChangeKind::TombstoneReused {
                    c.bump = Bump::Minor;
                }
            })
        })
    }),
    ("dropped is Minor", Mended, |images| {
        told(images, |_, changes| {
            each(changes, |c| {
                if c.kind == ChangeKind::TombstoneDropped {
                    c.bump = Bump::Minor;
                }
            })
        })
    }),
    ("dropped is Patch", Mended, |images| {
        told(images, |_, changes| {
            each(changes, |c| {
                if c.kind == ChangeKind::TombstoneDropped {
                    c.bump = Bump::Patch;
                }
            })
        })
    }),
    ("with a field", Mended, |images| {
        told(images, |_, changes| {
            each(changes, |c| c.field = Some(number(c).to_string()))
        })
    }),
    ("with the empty field", Mended, |images| {
        told(images, |_, changes| {
            each(changes, |c| c.field = Some(String::new()))
        })
    }),
    ("counted as widths", Mended, |images| {
        told(images, |_, changes| {
            each(changes, |c| c.kind = ChangeKind::WidthChanged)
        })
    }),
    ("each counted as the other", Mended, |images| {
        told(images, |_, changes| {
            each(changes, |c| {
                c.kind = match c.kind {
                    ChangeKind::TombstoneReused => ChangeKind::TombstoneDropped,
                    _ => ChangeKind::TombstoneReused,
                }
            })
        })
    }),
];
