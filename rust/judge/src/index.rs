//! Ids and names of a tree: refusal 7 to refusal 9, look-up, and refusal 21.

use std::collections::{HashMap, HashSet};

use crate::answer::{BASE, IDENTIFIERS, Refusal, refuse};
use crate::layout::{DOUBLE, FLOAT, PRIMITIVE, REQUIRED, STRUCT};
use crate::tree::Tree;

/// refusal 7: an id equals an earlier one.
pub fn refusal_7(tree: &Tree, list: u32) -> Result<(), Refusal> {
    let mut earlier = HashSet::new();
    refuse(7, list, tree.rows.iter().position(|row| !earlier.insert(row.id)))
}

/// refusal 8: a full name equals an earlier one.
pub fn refusal_8(tree: &Tree, list: u32) -> Result<(), Refusal> {
    let mut earlier = HashSet::new();
    let again = |slot: &usize| !earlier.insert(tree.full_name(*slot));
    refuse(8, list, (0..tree.rows.len()).find(again))
}

/// refusal 9: an identifier's id is not in the tree, or its column can't be one (02, 4/13).
pub fn refusal_9(tree: &Tree, identifiers: &[i32]) -> Result<(), Refusal> {
    let fits = |id: &i32| slot_of(tree, *id).is_some_and(|slot| can_identify(tree, slot));
    refuse(9, IDENTIFIERS, identifiers.iter().position(|id| !fits(id)))
}

/// A primitive, required, not float or double, with no list or map above it and every struct
/// above it required.
fn can_identify(tree: &Tree, slot: usize) -> bool {
    let column = &tree.rows[slot];
    let mut above = column.parent;
    while let Some(up) = above {
        let record = &tree.rows[up];
        if record.kind != STRUCT || record.flags & REQUIRED == 0 {
            return false;
        }
        above = record.parent;
    }
    let float = column.type_code == FLOAT || column.type_code == DOUBLE;
    column.kind == PRIMITIVE && column.flags & REQUIRED != 0 && !float
}

/// The slot of an id.
pub fn slot_of(tree: &Tree, id: i32) -> Option<usize> {
    tree.rows.iter().position(|row| row.id == id)
}

/// The full and the short names of a tree, with their slots.
pub struct Names {
    full: HashMap<Vec<u8>, usize>,
    short: HashMap<Vec<u8>, usize>,
}

impl Names {
    /// Of equal short names the first entered stays.
    pub fn of(tree: &Tree) -> Names {
        let full = (0..tree.rows.len()).map(|slot| (tree.full_name(slot), slot)).collect();
        let mut short = HashMap::new();
        for slot in tree.entry_order() {
            short.entry(tree.short_name(slot)).or_insert(slot);
        }
        Names { full, short }
    }

    /// The slot that a name finds: by the full name if one matches, else by the short name.
    pub fn find(&self, name: &[u8]) -> Option<usize> {
        self.full.get(name).or_else(|| self.short.get(name)).copied()
    }
}

/// The slots whose full names, and those whose short names, are the asked one where A to Z equal
/// a to z, and no other byte equals another.
pub fn alike(tree: &Tree, name: &[u8]) -> [Vec<usize>; 2] {
    let slots = 0..tree.rows.len();
    let full = slots.clone().filter(|slot| tree.full_name(*slot).eq_ignore_ascii_case(name));
    let short = slots.filter(|slot| tree.short_name(*slot).eq_ignore_ascii_case(name));
    [full.collect(), short.collect()]
}

/// The slot that a name finds where case is forgotten: by the full names if one matches, else by
/// the short names.
pub fn find_folded(tree: &Tree, name: &[u8]) -> Result<Option<usize>, Refusal> {
    let [full, short] = alike(tree, name);
    let matching = if full.is_empty() { short } else { full };
    refusal_21(&matching)?;
    Ok(matching.first().copied())
}

/// refusal 21: two columns match at the same level. The place is the second one's slot.
fn refusal_21(matching: &[usize]) -> Result<(), Refusal> {
    refuse(21, BASE, matching.get(1).copied())
}
