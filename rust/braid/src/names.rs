//! Names as people write them, and files as they are named to people.

use std::path::Path;

use braidhurdle::names::{printed, shown};

/// A file's name for people. It may hold what a terminal would obey.
pub fn file(path: &Path) -> String {
    printed(path.as_os_str().as_encoded_bytes())
}

/// A picture's file for people.
pub fn picture(path: &Path) -> String {
    if path == Path::new("-") { "standard input".into() } else { file(path) }
}

/// The name at the start of a text, as [`shown`] has it, and the text behind it.
pub fn read(text: &str) -> Result<(Vec<u8>, &str), String> {
    if let Some(inside) = text.strip_prefix('"') {
        return unquoted(inside).ok_or(
            "a name in quotes ends with a quote, and has the escapes \\\" \\\\ \\x00".into(),
        );
    }
    if text.is_empty() {
        return Err("no name behind the id".into());
    }
    let (name, rest) = text.split_at(text.find(':').ok_or("no colon behind the name")?);
    let name = name.trim_end_matches(' ');
    match shown(name.as_bytes()) {
        same if same == name => Ok((name.into(), rest)),
        other => Err(format!("this name must be written {other}")),
    }
}

/// The name up to the closing quote, and the text behind that.
fn unquoted(text: &str) -> Option<(Vec<u8>, &str)> {
    let mut name = vec![];
    let mut rest = text;
    loop {
        let (before, behind) = rest.split_at(rest.find(['"', '\\'])?);
        name.extend(before.as_bytes());
        if let Some(rest) = behind.strip_prefix('"') {
            return Some((name, rest));
        }
        let (byte, length) = match behind.as_bytes() {
            [_, byte @ (b'"' | b'\\'), ..] => (*byte, 2),
            [_, b'x', digits @ ..] => (byte_of(digits.first_chunk()?)?, 4),
            _ => return None,
        };
        name.push(byte);
        rest = &behind[length..];
    }
}

/// The byte of two hexadecimal digits.
fn byte_of(digits: &[u8; 2]) -> Option<u8> {
    let digit = |at: usize| char::from(digits[at]).to_digit(16);
    u8::try_from(16 * digit(0)? + digit(1)?).ok()
}
