//! From a text to its schema, line by line.

use super::scanner::{Reference, Scanner};
use super::{at, shown_name, Parsed};
use crate::limits::{ENTRIES, FORMATS, IDS, SEGMENTS};
use crate::schema::*;

pub fn parse(text: &str) -> Result<Schema, String> {
    let lines = (1..).zip(text.lines());
    let lines = lines.filter(|(_, line)| !line.trim().is_empty());
    let mut lines = lines.peekable();
    let mut reading = Reading::default();
    if let Some(line) = lines.next_if(|(_, line)| Scanner::new(line).eat_word("format")) {
        reading.line(line, Reading::format)?;
    }
    let end = text.lines().count() + 1;
    let mut front = |word| {
        let missing = || at(end, format!("`{word}` is missing"));
        lines.next().ok_or_else(missing)
    };
    reading.line(front("namespace")?, Reading::namespace)?;
    reading.line(front("declares")?, Reading::declares)?;
    for line in lines {
        reading.line(line, Reading::entry_or_item)?;
    }
    reading.judge_references()?;
    Ok(reading.schema)
}

#[derive(Default)]
struct Reading {
    schema: Schema,
    /// Every reference with its line.
    references: Vec<(usize, Reference)>,
}

impl Reading {
    /// Reads a whole line.
    fn line(
        &mut self,
        (number, line): (usize, &str),
        read: fn(&mut Reading, &mut Scanner) -> Parsed<()>,
    ) -> Result<(), String> {
        let mut scanner = Scanner::new(line);
        read(self, &mut scanner)
            .and_then(|()| scanner.end())
            .map_err(|fault| at(number, fault))?;
        let references = scanner.references.into_iter();
        self.references.extend(references.map(|r| (number, r)));
        Ok(())
    }

    /// In front of all else; a text without it is of the first format.
    fn format(&mut self, line: &mut Scanner) -> Parsed<()> {
        line.eat_word("format");
        let format = line.number()?;
        if !FORMATS.contains(&format) {
            let (first, last) = (FORMATS.start(), FORMATS.end());
            return Err(format!("format {format}, known are {first} to {last}"));
        }
        self.schema.format = format;
        Ok(())
    }

    fn namespace(&mut self, line: &mut Scanner) -> Parsed<()> {
        self.schema.namespace = listed(line, "namespace", SEGMENTS, Scanner::name)?;
        Ok(())
    }

    fn declares(&mut self, line: &mut Scanner) -> Parsed<()> {
        self.schema.declarations = listed(line, "declares", IDS, Scanner::reference)?;
        Ok(())
    }

    fn entry_or_item(&mut self, line: &mut Scanner) -> Parsed<()> {
        if line.eat("@") {
            return self.item(line);
        }
        match line.eat_word("struck") {
            true => self.struck(line),
            false => self.entry(line),
        }
    }

    fn entry(&mut self, line: &mut Scanner) -> Parsed<()> {
        line.expect("#")?;
        let next = self.schema.registry.len();
        if line.number::<usize>()? != next {
            return Err(format!("the next entry is #{next}"));
        }
        if next == usize::from(ENTRIES) {
            return Err(format!("over {ENTRIES} entries"));
        }
        let entry = match line.eat_word("empty") {
            true => None,
            false => Some(declaration(self.schema.format, line)?),
        };
        self.schema.registry.push(entry);
        Ok(())
    }

    fn item(&mut self, line: &mut Scanner) -> Parsed<()> {
        let Some(Some(declaration)) = self.schema.registry.last_mut() else {
            return Err("an item, and no declaration above it".to_string());
        };
        let kind = KIND_NAMES[usize::from(declaration.kind())];
        let (ordinal, name) = (line.number()?, line.name()?);
        let is_field = line.eat(":");
        match &mut declaration.body {
            Body::Message(_, fields) if is_field => fields.push(field(line, ordinal, name)?),
            Body::Union(variants) if is_field => {
                let Some(variant) = variants.last_mut() else {
                    return Err("a field before the first variant".to_string());
                };
                variant.fields.push(field(line, ordinal, name)?);
            }
            Body::Enum(_, _, items) | Body::Flags(_, items) if !is_field => {
                items.push(Item { ordinal, name });
            }
            Body::Union(variants) if !is_field => variants.push(Variant {
                ordinal,
                name,
                fields: Vec::new(),
                tombstones: Vec::new(),
            }),
            _ if is_field => return Err(format!("{kind} has no fields")),
            _ => return Err(format!("{kind} has no items without a type")),
        }
        Ok(())
    }

    /// Tombstones of the variant above, else of the entry.
    fn struck(&mut self, line: &mut Scanner) -> Parsed<()> {
        let format = self.schema.format;
        if !has_tombstones(format) {
            return Err(format!("a `struck`, and format {format} has none"));
        }
        let Some(Some(declaration)) = self.schema.registry.last_mut() else {
            return Err("a `struck`, and no declaration above it".to_string());
        };
        if !declaration.strikes_off() {
            let kind = KIND_NAMES[usize::from(declaration.kind())];
            return Err(format!("{kind} has no tombstones"));
        }
        let tombstones = match &mut declaration.body {
            Body::Union(variants) => variants.last_mut().map(|v| &mut v.tombstones),
            _ => None,
        };
        let tombstones = tombstones.unwrap_or(&mut declaration.tombstones);
        tombstones.push(line.number()?);
        while !line.is_at_end() {
            tombstones.push(line.number()?);
        }
        Ok(())
    }

    /// A reference shows the name that its id has in this text.
    fn judge_references(&self) -> Result<(), String> {
        for (line, reference) in &self.references {
            let name = shown_name(&self.schema, reference.id);
            if reference.shown_name != name {
                let Reference { shown_name, id } = reference;
                return Err(at(
                    *line,
                    format!("{shown_name}#{id} should be {name}#{id}"),
                ));
            }
        }
        Ok(())
    }
}

/// A word and what it lists to the line's end.
fn listed<'a, T>(
    line: &mut Scanner<'a>,
    word: &str,
    most: u16,
    read: fn(&mut Scanner<'a>) -> Parsed<T>,
) -> Parsed<Vec<T>> {
    if !line.eat_word(word) {
        return Err(format!("`{word}` is missing"));
    }
    let mut list = Vec::new();
    while !line.is_at_end() {
        list.push(read(line)?);
    }
    match list.len() {
        count if count > usize::from(most) => Err(format!("{count} listed, at most {most}")),
        _ => Ok(list),
    }
}

fn declaration(format: u16, line: &mut Scanner) -> Parsed<Declaration> {
    let word = line.word();
    let Some(kind) = KIND_NAMES.iter().position(|name| *name == word) else {
        return Err(format!("no kind: {word}"));
    };
    let name = match kind as u8 {
        IMPL => String::new(),
        _ => line.name()?,
    };
    let body = match kind as u8 {
        0 => Body::Message(marks(line), Vec::new()),
        1 => Body::Enum(marks(line), width(format, line)?, Vec::new()),
        2 => {
            let width = width(format, line)?;
            if let Some(bytes) = width.filter(|bytes| !WIRE_BYTES.contains(bytes)) {
                return Err(format!("a flags width of {bytes}, which is 1, 2, 4 or 8"));
            }
            Body::Flags(width, Vec::new())
        }
        3 => Body::Union(Vec::new()),
        4 => {
            line.expect(":")?;
            Body::Newtype(line.ty()?)
        }
        5 => Body::Config,
        GENERIC_ALIAS => Body::GenericAlias,
        7 => Body::Trait,
        _ => Body::Impl,
    };
    Ok(Declaration {
        name,
        body,
        tombstones: Vec::new(),
    })
}

fn marks(line: &mut Scanner) -> Marks {
    Marks {
        deprecated: line.eat_word("deprecated"),
        non_exhaustive: line.eat_word("non_exhaustive"),
    }
}

/// A width stands exactly where the format has one.
fn width(format: u16, line: &mut Scanner) -> Parsed<Width> {
    match (line.eat_word("width"), has_widths(format)) {
        (true, true) => Ok(Some(line.number()?)),
        (false, false) => Ok(None),
        (true, false) => Err(format!("a `width`, and format {format} has none")),
        (false, true) => Err(format!("`width` is missing, which format {format} has")),
    }
}

fn field(line: &mut Scanner, ordinal: u32, name: String) -> Parsed<Field> {
    let ty = line.ty()?;
    let encoding = line.encoding()?;
    let limit = match line.eat_word("limit") {
        true => Some(line.number()?),
        false => None,
    };
    Ok(Field {
        ordinal,
        name,
        marks: marks(line),
        encoding,
        limit,
        ty,
    })
}
