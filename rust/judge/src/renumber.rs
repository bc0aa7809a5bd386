//! Renumbering in level order.

use crate::answer::{BASE, Changed, Refusal, refuse};
use crate::index::{refusal_9, slot_of};
use crate::layout::{ID_BYTES, STRUCT, ids};
use crate::limits::{Lent, OUT_NAMES, OUT_RECORDS, refusal_1, refusal_2};
use crate::lookup::distinct;
use crate::tree::Tree;
use crate::write::write;

/// The tree with fresh ids from a start on, and the identifiers in the order given.
pub fn renumber(
    records: &[u8],
    pool: &[u8],
    identifiers: &[u8],
    start: i32,
    out_records: &mut [u8],
    out_names: &mut [u8],
    out_identifiers: &mut [u8],
) -> Changed {
    let sizes = [
        (out_records.len(), OUT_RECORDS),
        (out_names.len(), OUT_NAMES),
        (out_identifiers.len(), identifiers.len()),
    ];
    match refusal_1(&sizes).and_then(|()| renumbered(records, pool, identifiers, start)) {
        Err(refusal) => refusal.into(),
        Ok((tree, identifiers)) => {
            for (id, room) in identifiers.iter().zip(out_identifiers.chunks_exact_mut(ID_BYTES)) {
                room.copy_from_slice(&id.to_le_bytes());
            }
            write(&tree, 0, out_records, out_names)
        }
    }
}

fn renumbered(
    records: &[u8],
    pool: &[u8],
    identifiers: &[u8],
    start: i32,
) -> Result<(Tree, Vec<i32>), Refusal> {
    refusal_2(&[Lent::Tree(records), Lent::Pool(pool), Lent::Identifiers(identifiers)])?;
    let mut tree = distinct(records, pool)?;
    let identifiers = ids(identifiers);
    refusal_9(&tree, &identifiers)?;
    refusal_18_of_renumbering(start, tree.rows.len())?;
    let mut fresh = Fresh { next: start, ids: vec![0; tree.rows.len()] };
    fresh.members(&tree, &tree.roots);
    let old = |id: &i32| slot_of(&tree, *id).expect("9 was tested");
    let mapped = identifiers.iter().map(|id| fresh.ids[old(id)]).collect();
    for (row, id) in tree.rows.iter_mut().zip(fresh.ids) {
        row.id = id;
    }
    Ok((tree, mapped))
}

/// refusal 18 in renumbering: start + record count is above 2,147,483,647.
fn refusal_18_of_renumbering(start: i32, records: usize) -> Result<(), Refusal> {
    let above = i64::from(start) + records as i64 > i64::from(i32::MAX);
    refuse(18, BASE, above.then_some(0))
}

/// The next number, and the numbers given so far by slot.
struct Fresh {
    next: i32,
    ids: Vec<i32>,
}

impl Fresh {
    fn give(&mut self, slot: usize) {
        self.ids[slot] = self.next;
        self.next += 1;
    }

    /// Members of one struct get numbers first, in order; then each member's inside.
    fn members(&mut self, tree: &Tree, slots: &[usize]) {
        slots.iter().for_each(|slot| self.give(*slot));
        slots.iter().for_each(|slot| self.inside(tree, *slot));
    }

    /// An element, key or value gets the next number, then its inside.
    fn inside(&mut self, tree: &Tree, slot: usize) {
        let row = &tree.rows[slot];
        if row.kind == STRUCT {
            return self.members(tree, &row.children);
        }
        for child in &row.children {
            self.give(*child);
            self.inside(tree, *child);
        }
    }
}
