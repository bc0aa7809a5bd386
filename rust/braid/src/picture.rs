//! A picture read back to a tree. docs/FORMAT.md has its grammar; the library draws it.

use std::mem;

use braidhurdle::layout::MOST_RECORDS;
use braidhurdle::{Field, FieldId, Kind, NoType, Type};

use crate::names;

/// What a picture shows.
pub struct Picture {
    pub roots: Vec<Field>,
    /// The line of each column, in slot order, counted from 1.
    pub lines: Vec<usize>,
}

/// What a picture shows, or the line that is none and why. Of more columns than a tree may have one
/// is read, so that the library sees it.
pub fn read(text: &str) -> Result<Picture, String> {
    let (mut roots, mut lines) = (vec![], vec![]);
    // the last column, behind those above it
    let mut open = vec![];
    for (line, number) in text.lines().zip(1..) {
        let line = line.trim_end();
        if line.is_empty() || line.trim_start().starts_with('#') {
            continue;
        }
        if lines.len() > MOST_RECORDS {
            break;
        }
        let at_line = |why: String| format!("line {number}: {why}");
        let (level, field) = column(line).map_err(at_line)?;
        if level > open.len() + 1 {
            return Err(at_line(format!("level {level} stands behind level {}", open.len())));
        }
        close(level, &mut open, &mut roots);
        open.push(field);
        lines.push(number);
    }
    close(1, &mut open, &mut roots);
    Ok(Picture { roots, lines })
}

/// The level and the column of a line.
fn column(line: &str) -> Result<(usize, Field), String> {
    let text = line.trim_start_matches(' ');
    let spaces = line.len() - text.len();
    if text.starts_with('\t') {
        return Err("a level is two spaces, and here is a tab".into());
    }
    if spaces % 2 == 1 {
        return Err(format!("a level is two spaces, and here is an odd number, {spaces}"));
    }
    let (id, rest) = text.split_once(' ').unwrap_or((text, ""));
    let id = id.parse().map_err(|_| format!("{id:?} is no id, and a line begins with one"))?;
    let (name, rest) = names::read(rest.trim_start_matches(' '))?;
    if name.len() > u8::MAX.into() {
        return Err(format!("a name has at most 255 bytes, and this one {}", name.len()));
    }
    let words = rest.trim_start_matches(' ').strip_prefix(':').ok_or("no colon behind the name")?;
    if words.starts_with(|first| first != ' ') {
        return Err("no space behind the colon (a name that has a colon stands in quotes)".into());
    }
    let field = settings(words, Field::primitive(name, 0).id(FieldId(id)))?;
    Ok((spaces / 2 + 1, field))
}

/// The column with its kind and what else is said of it, in any order.
fn settings(words: &str, mut field: Field) -> Result<Field, String> {
    let (mut kind, mut attribute) = (None, None);
    let mut words = words.split(' ').filter(|word| !word.is_empty());
    while let Some(word) = words.next() {
        let twice = match word {
            "primitive" => {
                field.type_code = number("a type code", word, words.next())?;
                kind.replace(Kind::Primitive).is_some()
            }
            "struct" => kind.replace(Kind::Struct).is_some(),
            "list" => kind.replace(Kind::List).is_some(),
            "map" => kind.replace(Kind::Map).is_some(),
            "required" => mem::replace(&mut field.required, true),
            "default" => mem::replace(&mut field.default, true),
            "attribute" => {
                attribute.replace(number("an attribute number", word, words.next())?).is_some()
            }
            _ => {
                let of: Type = word.parse().map_err(|why| no_word(word, why))?;
                field.type_code = of.code();
                kind.replace(Kind::Primitive).is_some()
            }
        };
        if twice {
            return Err(format!(
                "{word} comes too often: a column has one kind, and each word once"
            ));
        }
    }
    field.kind = kind.ok_or("no kind: a type, primitive with a type code, struct, list or map")?;
    field.attribute = attribute.unwrap_or(0);
    Ok(field)
}

/// Why a word has no place in a line.
fn no_word(word: &str, why: NoType) -> String {
    match why {
        NoType::Name => {
            format!("{word:?} is no type, no kind, and not required, default or attribute")
        }
        NoType::Decimal => format!("{word:?} is no type: {why}"),
    }
}

/// The number behind a word.
fn number(what: &str, behind: &str, word: Option<&str>) -> Result<u32, String> {
    let number = "a number below 2^32";
    let word = word.ok_or_else(|| format!("no number: {behind} needs {what}, {number}"))?;
    word.parse().map_err(|_| format!("{word:?} is no number: {behind} needs {what}, {number}"))
}

/// Puts every open column of this level or a lower one into the column above it.
fn close(level: usize, open: &mut Vec<Field>, roots: &mut Vec<Field>) {
    while open.len() >= level {
        let done = open.pop().expect("a level is at least 1");
        open.last_mut().map_or(&mut *roots, |above| &mut above.inside).push(done);
    }
}
