//! The conditions on an identifier, in words: refusal 9.

use std::iter::successors;

use braidhurdle::layout::{DOUBLE, FLOAT};
use braidhurdle::{Column, Kind};

use crate::words::told_of;

/// Every condition that a column breaks as an identifier: its own ones, then those of the records
/// above it, the nearest first. All are told, since mending one alone would end in the next.
pub fn broken(columns: &[Column], slot: usize) -> Vec<String> {
    let column = &columns[slot];
    let mut broken = vec![];
    if column.kind != Kind::Primitive {
        broken.push(format!("it is a {}, and no primitive", column.kind));
    }
    if !column.required {
        broken.push("it is optional".into());
    }
    match column.type_code {
        FLOAT => broken.push(format!("it is a float, type code {FLOAT}")),
        DOUBLE => broken.push(format!("it is a double, type code {DOUBLE}")),
        _ => {}
    }
    let up = |column: &&Column| column.parent.map(|(_, above)| &columns[above.0 as usize]);
    broken.extend(successors(up(&column), up).filter_map(holds_none));
    broken
}

/// Why no identifier stands below a record, if that is so.
fn holds_none(above: &Column) -> Option<String> {
    match above.kind {
        Kind::Struct if above.required => None,
        Kind::Struct => Some(format!("{} above it is an optional struct", told_of(above))),
        kind => Some(format!("{} above it is a {kind}", told_of(above))),
    }
}
