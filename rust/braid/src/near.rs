//! A column that may have been meant, where a name finds none.

use std::cmp::min;

use braidhurdle::names::shown;
use braidhurdle::{Column, Tree};

/// Most letters that are taken for a slip of the hand.
const MOST_SLIPS: usize = 2;

/// The column that a path finds where case is forgotten, or else the one whose own name is nearest
/// to the end of the path, as a question; nothing where none is near.
pub fn question(tree: &Tree, path: &[u8]) -> String {
    let ask = |column: Column| format!("; did you mean {}?", shown(&column.full_name()));
    match tree.column_by_folded_name(path) {
        Ok(Some(column)) => ask(column) + " Only `find -i` forgets case",
        _ => nearest(tree, path).map(ask).unwrap_or_default(),
    }
}

fn nearest<'a>(tree: &'a Tree, path: &[u8]) -> Option<Column<'a>> {
    let end = path.rsplit(|byte| *byte == b'.').next()?.to_ascii_lowercase();
    let slips = |column: &Column| slips(&column.name.to_ascii_lowercase(), &end);
    let near = tree
        .columns()
        .ok()?
        .filter(|column| column.name.len().abs_diff(end.len()) <= MOST_SLIPS)
        .min_by_key(slips);
    near.filter(|column| slips(column) <= min(MOST_SLIPS, end.len().saturating_sub(1)))
}

/// How many bytes are left out, put in or changed between two names.
fn slips(one: &[u8], other: &[u8]) -> usize {
    // the slips up to each byte of the other name, for ever more bytes of the one
    let mut row: Vec<usize> = (0..=other.len()).collect();
    for (at, byte) in one.iter().enumerate() {
        let mut corner = at;
        row[0] = at + 1;
        for (to, other) in other.iter().enumerate() {
            let changed = corner + usize::from(byte != other);
            corner = row[to + 1];
            row[to + 1] = min(changed, 1 + min(corner, row[to]));
        }
    }
    row[other.len()]
}
