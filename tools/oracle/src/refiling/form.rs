//! The form of a schema: the same for all copies that are filed anew. Every
//! id is replaced by what it stands for, every list is sorted, and all ids that
//! do not resolve are one.
//!
//! What an id stands for is a class of entries, which starts as all of them and is
//! parted by what an entry holds, how often it is listed, where its ids lead and
//! from where ids lead to it, until that parts no class any more. Two schemas that
//! are no copies of one another then have one form only where entries of one name
//! refer to one another all alike, as in one ring of four and in two rings of two.

use crate::schema::*;

#[derive(Clone, PartialEq, Eq, PartialOrd, Ord, Debug)]
pub struct Form {
    namespace: Vec<String>,
    entries: Vec<Filed>,
    /// How many ids of the declaration list do not resolve.
    unresolvable: usize,
}

/// What a full entry is known by.
#[derive(Clone, PartialEq, Eq, PartialOrd, Ord, Debug)]
struct Filed {
    class: usize,
    text: String,
    listed: usize,
    /// The classes that its ids lead to.
    to: Vec<Option<usize>>,
    /// The classes of entries with an id that leads here, and which of their ids.
    from: Vec<(usize, usize)>,
}

/// Something with its ids taken out of the text, in order.
struct Written {
    text: String,
    ids: Vec<u32>,
}

pub fn form(schema: &Schema) -> Form {
    let entries = schema.registry.iter();
    let written: Vec<Option<Written>> = entries
        .map(|entry| entry.as_ref().map(declaration))
        .collect();
    let mut classes = vec![0; written.len()];
    let mut parted = 1;
    loop {
        let filed = filed(schema, &written, &classes);
        let mut entries: Vec<Filed> = filed.iter().flatten().cloned().collect();
        entries.sort();
        let mut distinct = entries.clone();
        distinct.dedup();
        if distinct.len() <= parted {
            return Form {
                namespace: schema.namespace.clone(),
                entries,
                unresolvable: unresolvable(schema),
            };
        }
        parted = distinct.len();
        let class = |entry: &Filed| distinct.binary_search(entry).unwrap_or_default();
        let filed = filed.iter();
        classes = filed.map(|f| f.as_ref().map_or(0, class)).collect();
    }
}

fn unresolvable(schema: &Schema) -> usize {
    let listed = schema.declarations.iter();
    listed.filter(|id| schema.get(**id).is_none()).count()
}

/// The entries, known by the classes around them.
fn filed(schema: &Schema, written: &[Option<Written>], classes: &[usize]) -> Vec<Option<Filed>> {
    let mut from = vec![Vec::new(); written.len()];
    for (written, class) in written.iter().zip(classes) {
        for (gap, id) in written.iter().flat_map(|w| &w.ids).enumerate() {
            if schema.get(*id).is_some() {
                from[*id as usize].push((*class, gap));
            }
        }
    }
    let ids = &schema.declarations;
    let listed = |id: usize| ids.iter().filter(|listed| **listed as usize == id).count();
    let lead = |id: &u32| schema.get(*id).map(|_| classes[*id as usize]);
    let around = written.iter().zip(from).enumerate();
    around
        .map(|(id, (written, mut from))| {
            let written = written.as_ref()?;
            from.sort();
            Some(Filed {
                class: classes[id],
                text: written.text.clone(),
                listed: listed(id),
                to: written.ids.iter().map(lead).collect(),
                from,
            })
        })
        .collect()
}

impl Written {
    fn of(text: String) -> Written {
        let ids = Vec::new();
        Written { text, ids }
    }

    /// The parts behind it in brackets.
    fn around(mut self, parts: Vec<Written>) -> Written {
        for part in parts {
            self.text += &format!("[{}]", part.text);
            self.ids.extend(part.ids);
        }
        self
    }
}

fn declaration(declaration: &Declaration) -> Written {
    let head = format!("{} {:?}", declaration.kind(), declaration.name);
    match &declaration.body {
        Body::Message(marks, list) => Written::of(format!("{head} {marks:?}")).around(fields(list)),
        Body::Enum(marks, _, list) => Written::of(format!("{head} {marks:?}")).around(items(list)),
        Body::Flags(_, list) => Written::of(head).around(items(list)),
        Body::Union(list) => {
            let variant =
                |v: &Variant| Written::of(format!("{:?}", v.name)).around(fields(&v.fields));
            Written::of(head).around(numbered(list, variant))
        }
        Body::Newtype(inner) => Written::of(head).around(vec![ty(inner)]),
        Body::Config | Body::GenericAlias | Body::Trait | Body::Impl => Written::of(head),
    }
}

/// By number, and those of one number by their text.
fn numbered<T: Numbered>(list: &[T], write: impl Fn(&T) -> Written) -> Vec<Written> {
    let mut all: Vec<(u32, Written)> = list
        .iter()
        .map(|item| (item.ordinal(), write(item)))
        .collect();
    all.sort_by(|one, other| (one.0, &one.1.text).cmp(&(other.0, &other.1.text)));
    let at = |(ordinal, written)| Written::of(format!("@{ordinal}")).around(vec![written]);
    all.into_iter().map(at).collect()
}

fn items(list: &[Item]) -> Vec<Written> {
    numbered(list, |item| Written::of(format!("{:?}", item.name)))
}

fn fields(list: &[Field]) -> Vec<Written> {
    numbered(list, |field| {
        let Field {
            name,
            marks,
            encoding,
            limit,
            ..
        } = field;
        Written::of(format!("{name:?} {marks:?} {encoding:?} {limit:?}"))
            .around(vec![ty(&field.ty)])
    })
}

fn ty(node: &Type) -> Written {
    let label = match node.label {
        Label::Named(id) => Written {
            text: "id".to_string(),
            ids: vec![id],
        },
        _ => Written::of(format!("{:?}", node.label)),
    };
    label.around(node.inner.iter().map(ty).collect())
}
