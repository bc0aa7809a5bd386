//! 01's rules on one record, in words: refusals 3 and 6.

use std::ops::Range;

use braidhurdle::Kind;
use braidhurdle::layout::{RECORD_BYTES, Record};

use crate::outline::Outline;

/// A byte rule that a refused record breaks, with its bytes.
pub fn broken(bytes: &[u8; RECORD_BYTES]) -> (Range<usize>, String) {
    let record = Record::read(bytes);
    let Some(kind) = Kind::from_number(record.kind) else {
        return (9..10, "the kind is 0, 1, 2 or 3".into());
    };
    let has_code = kind == Kind::Primitive || record.type_code == 0;
    let rules = [
        (10..11, record.flags <= 3, "the flags are 0, 1, 2 or 3"),
        (11..12, bytes[11] == 0, "a reserved byte is 0"),
        (14..16, bytes[14..16] == [0, 0], "reserved bytes are 0"),
        (16..20, has_code, "only a primitive has a type code other than 0"),
    ];
    match rules.into_iter().find(|(_, holds, _)| !holds) {
        Some((at, _, rule)) => (at, rule.into()),
        None => (12..14, children(kind, record.children)),
    }
}

/// How many children a column of this kind has, and how many this one has.
fn children(kind: Kind, children: u16) -> String {
    let most = match kind {
        Kind::Primitive => "no child",
        Kind::Struct => "any number of children",
        Kind::List => "one child",
        Kind::Map => "two children, key and value",
    };
    let has = if children == 0 { "none".into() } else { children.to_string() };
    format!("a {kind} has {most}, this one has {has}")
}

/// What an element, key or value must be named.
pub fn label(outline: &Outline, slot: usize) -> String {
    let (which, name) = match (outline.kind_above(slot), outline.0[slot].nth) {
        (Some(Kind::List), _) => ("a list's child", "element"),
        (_, 0) => ("a map's first child", "key"),
        _ => ("a map's second child", "value"),
    };
    format!("{which} is named \"{name}\"")
}

/// A record's kind.
pub fn kind(record: Record) -> String {
    Kind::from_number(record.kind).map_or("column of no kind".into(), |kind| kind.to_string())
}
