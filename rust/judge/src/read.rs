//! From bytes to a tree: refusal 3 to refusal 6.

use crate::answer::{DELETIONS, EDITS, Refusal, refuse};
use crate::layout::{
    EditEntry, Entry, LIST, MAP, PRIMITIVE, RELAX, RENAME, Record, STRUCT, WIDEN, edit_entries,
    entries, part, records, within,
};
use crate::limits::LEVELS;
use crate::tree::{Row, Tree};

/// The tree of a record list that passed 2, or its first refusal of 3 to 6. The list
/// number is 0 for a base, 1 for an additions tree.
pub fn read_tree(bytes: &[u8], pool: &[u8], list: u32) -> Result<Tree, Refusal> {
    let records = records(bytes);
    refusal_3(&records, list)?;
    refusal_4(&records, pool, list)?;
    refusal_5(&records, list)?;
    let tree = shaped(&records, pool);
    refusal_6(&tree, list)?;
    Ok(tree)
}

/// The paths of an entry list that passed 2, or its first refusal of 3 and 4. An addition
/// without a path gives none.
pub fn read_paths(bytes: &[u8], pool: &[u8], list: u32) -> Result<Vec<Option<Vec<u8>>>, Refusal> {
    let entries = entries(bytes);
    refusal_3_of_entries(&entries, list)?;
    refusal_4_of_entries(&entries, pool, list)?;
    let path = |e: &Entry| (e.has_path == 1).then(|| part(e.offset, e.length.into(), pool));
    Ok(entries.iter().map(path).collect())
}

/// What an edit asks for (02, 5/13 and 6/13).
#[derive(Clone, Debug, PartialEq, Eq)]
pub struct Edit {
    pub path: Vec<u8>,
    pub change: Change,
}

/// The change of one column.
#[derive(Clone, Debug, PartialEq, Eq)]
pub enum Change {
    /// Another name.
    Rename(Vec<u8>),
    /// No longer required.
    Relax,
    /// Another type, by its code.
    Widen(u32),
}

/// The edits of a list that passed 2, or its first refusal of 3 and 4.
pub fn read_edits(bytes: &[u8], pool: &[u8]) -> Result<Vec<Edit>, Refusal> {
    let entries = edit_entries(bytes);
    refusal_3_of_edits(&entries)?;
    refusal_4_of_edits(&entries, pool)?;
    let change = |e: &EditEntry| match e.what {
        RENAME => Change::Rename(part(e.word_8, e.name_length.into(), pool)),
        RELAX => Change::Relax,
        _ => Change::Widen(e.word_8),
    };
    let edit =
        |e: &EditEntry| Edit { path: part(e.offset, e.length.into(), pool), change: change(e) };
    Ok(entries.iter().map(edit).collect())
}

/// refusal 3: a byte rule of a record is broken.
fn refusal_3(records: &[Record], list: u32) -> Result<(), Refusal> {
    let broken = |r: &Record| {
        let children = match r.kind {
            PRIMITIVE => r.children == 0,
            STRUCT => true,
            LIST => r.children == 1,
            MAP => r.children == 2,
            _ => false,
        };
        let code = r.kind == PRIMITIVE || r.type_code == 0;
        !children || !code || r.flags > 3 || r.byte_11 != 0 || r.bytes_14 != 0
    };
    refuse(3, list, records.iter().position(broken))
}

/// refusal 3 for path entries: a deletion has a path, an addition without one has offset
/// and length 0.
fn refusal_3_of_entries(entries: &[Entry], list: u32) -> Result<(), Refusal> {
    let broken = |e: &Entry| {
        let path = match e.has_path {
            0 => list != DELETIONS && e.offset == 0 && e.length == 0,
            has => has == 1,
        };
        !path || e.byte_7 != 0
    };
    refuse(3, list, entries.iter().position(broken))
}

/// refusal 3 for edits: one that relaxes has no new name, and one that widens has a type code in
/// the place of its offset.
fn refusal_3_of_edits(entries: &[EditEntry]) -> Result<(), Refusal> {
    let broken = |e: &EditEntry| {
        let what = match e.what {
            RENAME => true,
            RELAX => e.word_8 == 0 && e.name_length == 0,
            WIDEN => e.name_length == 0,
            _ => false,
        };
        !what || e.byte_7 != 0 || e.bytes_13 != [0; 3]
    };
    refuse(3, EDITS, entries.iter().position(broken))
}

/// refusal 4: a name has offset + length above its pool's length.
fn refusal_4(records: &[Record], pool: &[u8], list: u32) -> Result<(), Refusal> {
    let outside = |r: &Record| !within(r.offset, r.length.into(), pool);
    refuse(4, list, records.iter().position(outside))
}

/// refusal 4 for path entries.
fn refusal_4_of_entries(entries: &[Entry], pool: &[u8], list: u32) -> Result<(), Refusal> {
    let outside = |e: &Entry| !within(e.offset, e.length.into(), pool);
    refuse(4, list, entries.iter().position(outside))
}

/// refusal 4 for edits: the path, or the new name of one that renames.
fn refusal_4_of_edits(entries: &[EditEntry], pool: &[u8]) -> Result<(), Refusal> {
    let outside = |e: &EditEntry| {
        let path = within(e.offset, e.length.into(), pool);
        let name = e.what != RENAME || within(e.word_8, e.name_length.into(), pool);
        !path || !name
    };
    refuse(4, EDITS, entries.iter().position(outside))
}

/// refusal 5: level 17 is reached (place: the first record that stands there), or counts
/// need records past the end (place: the record count).
fn refusal_5(records: &[Record], list: u32) -> Result<(), Refusal> {
    // for each level above the record, how many children are still to come
    let mut open: Vec<u16> = vec![];
    for (slot, record) in records.iter().enumerate() {
        while open.last() == Some(&0) {
            open.pop();
        }
        if open.len() >= LEVELS {
            return refuse(5, list, Some(slot));
        }
        if let Some(left) = open.last_mut() {
            *left -= 1;
        }
        open.push(record.children);
    }
    refuse(5, list, open.iter().any(|left| *left > 0).then_some(records.len()))
}

/// The rows of records that passed 3 to 5.
fn shaped(records: &[Record], pool: &[u8]) -> Tree {
    let mut tree = Tree::default();
    let mut above: Vec<usize> = vec![];
    for (slot, r) in records.iter().enumerate() {
        let full = |s: &usize| tree.rows[*s].children.len() == usize::from(records[*s].children);
        while above.last().is_some_and(full) {
            above.pop();
        }
        let parent = above.last().copied();
        match parent {
            None => tree.roots.push(slot),
            Some(parent) => tree.rows[parent].children.push(slot),
        }
        tree.rows.push(Row {
            id: r.id,
            name: part(r.offset, r.length.into(), pool),
            kind: r.kind,
            flags: r.flags,
            type_code: r.type_code,
            attribute: r.attribute,
            level: above.len() + 1,
            parent,
            children: vec![],
        });
        above.push(slot);
    }
    tree
}

/// refusal 6: an element, key or value is named otherwise.
fn refusal_6(tree: &Tree, list: u32) -> Result<(), Refusal> {
    let otherwise = |slot: &usize| {
        let Some(parent) = tree.rows[*slot].parent else { return false };
        let above = &tree.rows[parent];
        let name = &tree.rows[*slot].name[..];
        match above.kind {
            LIST => name != b"element",
            MAP if above.children[0] == *slot => name != b"key",
            MAP => name != b"value",
            _ => false,
        }
    };
    refuse(6, list, (0..tree.rows.len()).find(otherwise))
}
