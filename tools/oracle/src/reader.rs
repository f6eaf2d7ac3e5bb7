//! The image reader: the schema an image holds, or the first of the refusals 1
//! to 10 in document 01's order.

use crate::bodies::read_body;
use crate::cursor::Cursor;
use crate::limits::{ENTRIES, ENTRY_BYTES, FORMATS, HEAD_BYTES, IDS, IMAGE_BYTES, SEGMENTS};
use crate::refusal::{self, Read, Refusal, CONTENTS, CROWDED, LONG, SHORT_HEAD};
use crate::schema::Schema;
use std::ops::Range;

struct Head {
    format: u16,
    entries: u16,
    ids: u16,
    segments: u16,
}

struct Entry {
    offset: usize,
    length: usize,
}

impl Entry {
    fn is_empty(&self) -> bool {
        self.offset == 0 && self.length == 0
    }

    fn part(&self) -> Range<usize> {
        self.offset..self.offset + self.length
    }
}

pub fn read_image(image: &[u8]) -> Read<Schema> {
    if image.len() > IMAGE_BYTES {
        return Err(Refusal::new(LONG, "image", image.len() as u64));
    }
    let mut front = Cursor::new(image, SHORT_HEAD);
    let head = read_head(&mut front)?;
    let contents = read_contents(&mut front, head.entries)?;
    let declarations = read_ids(&mut front, head.ids)?;
    let namespace = (0..head.segments)
        .map(|_| front.name("segment"))
        .collect::<Read<_>>()?;
    judge_contents(&contents, front.at(), image.len())?;
    let registry = (0..)
        .zip(&contents)
        .map(|(id, entry)| match entry.is_empty() {
            true => Ok(None),
            false => read_body(head.format, image, entry.part())
                .map(Some)
                .map_err(|refusal| refusal.of_entry(id)),
        })
        .collect::<Read<_>>()?;
    Ok(Schema {
        format: head.format,
        namespace,
        registry,
        declarations,
    })
}

/// All eight bytes are there before the first of them is judged.
fn read_head(front: &mut Cursor) -> Read<Head> {
    let mut head = Cursor::new(front.take(HEAD_BYTES, "head")?, SHORT_HEAD);
    let format = head.u16("format")?;
    if !FORMATS.contains(&format) {
        return Err(Refusal::new(refusal::FORMAT, "format", u64::from(format)).at(0));
    }
    let mut count = |what, most| {
        let at = head.at();
        match head.u16(what)? {
            count if count > most => Err(Refusal::new(CROWDED, what, u64::from(count)).at(at)),
            count => Ok(count),
        }
    };
    Ok(Head {
        format,
        entries: count("N", ENTRIES)?,
        ids: count("M", IDS)?,
        segments: count("S", SEGMENTS)?,
    })
}

fn read_contents(front: &mut Cursor, entries: u16) -> Read<Vec<Entry>> {
    let bytes = front.take(ENTRY_BYTES * usize::from(entries), "contents")?;
    let mut pairs = Cursor::new(bytes, SHORT_HEAD);
    (0..entries)
        .map(|_| {
            Ok(Entry {
                offset: usize::from(pairs.u16("offset")?),
                length: usize::from(pairs.u16("length")?),
            })
        })
        .collect()
}

fn read_ids(front: &mut Cursor, ids: u16) -> Read<Vec<u32>> {
    let mut list = Cursor::new(front.take(4 * usize::from(ids), "ids")?, SHORT_HEAD);
    (0..ids).map(|_| list.u32("id")).collect()
}

/// The bodies stand in contents order without gaps from the names' end to the
/// image's end. A fault of an entry stands at its pair.
fn judge_contents(contents: &[Entry], names_end: usize, image_end: usize) -> Read<()> {
    let refusal = |what, value: usize| Refusal::new(CONTENTS, what, value as u64);
    let mut end = names_end;
    for (id, entry) in (0..).zip(contents).filter(|(_, entry)| !entry.is_empty()) {
        let at = HEAD_BYTES + ENTRY_BYTES * id;
        let refused = |what, value| Err(refusal(what, value).of_entry(id).at(at));
        if entry.length == 0 {
            return refused("entry of no length", entry.offset);
        }
        if entry.offset > end {
            return refused("gap before entry", entry.offset - end);
        }
        if entry.offset < end {
            return refused("entry too early", end - entry.offset);
        }
        end += entry.length;
        if end > image_end {
            return refused("entry past the end", end - image_end);
        }
    }
    match image_end - end {
        0 => Ok(()),
        left if end == names_end => Err(refusal("left after the names", left).at(end)),
        left => Err(refusal("left after the last body", left).at(end)),
    }
}
