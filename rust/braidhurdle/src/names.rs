//! Names are bytes. For people they stand as text that reads back to the very bytes.

use alloc::format;
use alloc::string::{String, ToString};
use core::ops::RangeInclusive;

/// A name for people: as it is where it is plain, else in quotes.
///
/// Plain is a name without spaces, colons, quotes and backslashes, in which nothing is escaped.
///
/// ```
/// use braidhurdle::names::shown;
///
/// assert_eq!(shown(b"day"), "day");
/// assert_eq!(shown(b"the day"), "\"the day\"");
/// assert_eq!(shown(b"\x1b[2J"), "\"\\x1b[2J\"");
/// ```
#[must_use]
pub fn shown(name: &[u8]) -> String {
    let quoted = quoted(name);
    let inside = &quoted[1..quoted.len() - 1];
    // every escape is longer than what it stands for
    let plain = inside.len() == name.len() && !inside.is_empty() && !inside.contains([' ', ':']);
    if plain { inside.to_string() } else { quoted }
}

/// A name in quotes. What a terminal would obey, what can't be seen and what is not UTF-8 stands
/// as `\x` and two digits a byte; a quote and a backslash have a backslash before them.
#[must_use]
pub fn quoted(name: &[u8]) -> String {
    format!("\"{}\"", escaped(name, &['"', '\\']))
}

/// A text for people that need not be read back, as the name of a file: only what a terminal would
/// obey, what can't be seen and what is not UTF-8 is escaped.
#[must_use]
pub fn printed(text: &[u8]) -> String {
    escaped(text, &[])
}

fn escaped(name: &[u8], marked: &[char]) -> String {
    let mut text = String::new();
    let escape = |bytes: &[u8], text: &mut String| {
        bytes.iter().for_each(|byte| text.push_str(&format!("\\x{byte:02x}")));
    };
    for chunk in name.utf8_chunks() {
        let mut before = None;
        for character in chunk.valid().chars() {
            let stands = stands(before, character);
            match stands {
                true if marked.contains(&character) => text.extend(['\\', character]),
                true => text.push(character),
                false => escape(character.encode_utf8(&mut [0; 4]).as_bytes(), &mut text),
            }
            before = stands.then_some(character);
        }
        escape(chunk.invalid(), &mut text);
    }
    text
}

/// What a terminal obeys (controls, turns of direction, line ends), what looks like a space and is
/// another, and what can't be seen. The table of docs/FORMAT.md.
const ESCAPED: [RangeInclusive<char>; 22] = [
    '\0'..='\u{1f}',
    '\u{7f}'..='\u{a0}',
    '\u{ad}'..='\u{ad}',
    '\u{34f}'..='\u{34f}',
    '\u{61c}'..='\u{61c}',
    '\u{115f}'..='\u{1160}',
    '\u{1680}'..='\u{1680}',
    '\u{17b4}'..='\u{17b5}',
    '\u{2000}'..='\u{200b}',
    '\u{200e}'..='\u{200f}',
    '\u{2028}'..='\u{202f}',
    '\u{205f}'..='\u{206f}',
    '\u{2800}'..='\u{2800}',
    '\u{3000}'..='\u{3000}',
    '\u{3164}'..='\u{3164}',
    '\u{feff}'..='\u{feff}',
    '\u{ffa0}'..='\u{ffa0}',
    '\u{fff0}'..='\u{fffb}',
    '\u{1bca0}'..='\u{1bca3}',
    '\u{1d173}'..='\u{1d17a}',
    '\u{e0000}'..='\u{e00ff}',
    '\u{e01f0}'..='\u{e0fff}',
];

/// Does a character stand as it is behind the one before it, if that does?
///
/// What joins letters or emoji, or selects a form of them, is seen only behind one of them.
/// Alphabets that are joined begin with U+0600; elsewhere it would hide.
fn stands(before: Option<char>, character: char) -> bool {
    let joins = |c: char| matches!(c, '\u{180e}' | '\u{200c}' | '\u{200d}');
    let selects = |c: char| {
        matches!(c, '\u{180b}'..='\u{180d}' | '\u{180f}' | '\u{fe00}'..='\u{fe0f}')
            || matches!(c, '\u{e0100}'..='\u{e01ef}')
    };
    let behind = |barred: &dyn Fn(char) -> bool| {
        before.is_some_and(|before| before >= '\u{600}' && !barred(before))
    };
    if joins(character) {
        behind(&joins)
    } else if selects(character) {
        behind(&|before| joins(before) || selects(before))
    } else {
        !ESCAPED.iter().any(|range| range.contains(&character))
    }
}
