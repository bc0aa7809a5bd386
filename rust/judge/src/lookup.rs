//! Look-up by name, with case and without, by id and by many ids, and of the record above.

use crate::answer::{BASE, Found, Refusal, Searched};
use crate::index::{self, Names, refusal_7, refusal_8, slot_of};
use crate::layout::{ID_BYTES, NO_SLOT, ids};
use crate::limits::{Lent, refusal_1, refusal_2};
use crate::read::read_tree;
use crate::tree::Tree;

/// A base that passed 2 to 8, as every operation but an update asks of it.
pub fn base(records: &[u8], pool: &[u8]) -> Result<Tree, Refusal> {
    refusal_2(&[Lent::Tree(records), Lent::Pool(pool)])?;
    distinct(records, pool)
}

/// A base that is known to pass 2, after 3 to 8.
pub fn distinct(records: &[u8], pool: &[u8]) -> Result<Tree, Refusal> {
    let tree = read_tree(records, pool, BASE)?;
    refusal_7(&tree, BASE)?;
    refusal_8(&tree, BASE)?;
    Ok(tree)
}

fn look_up(
    records: &[u8],
    pool: &[u8],
    find: impl Fn(&Tree) -> Result<Option<usize>, Refusal>,
) -> Found {
    let found = base(records, pool).and_then(|tree| {
        let slot = find(&tree)?;
        Ok(slot.map(|slot| (tree.rows[slot].id, slot)))
    });
    found.map_or_else(Found::from, Found::at)
}

/// The id and the slot of the record that a name finds; any bytes are a name.
pub fn find_name(records: &[u8], pool: &[u8], name: &[u8]) -> Found {
    look_up(records, pool, |tree| Ok(Names::of(tree).find(name)))
}

/// The same where case is forgotten (02, 1/13).
pub fn find_folded(records: &[u8], pool: &[u8], name: &[u8]) -> Found {
    look_up(records, pool, |tree| index::find_folded(tree, name))
}

/// The slot of an id; the id is the one asked.
pub fn find_id(records: &[u8], pool: &[u8], id: i32) -> Found {
    look_up(records, pool, |tree| Ok(slot_of(tree, id)))
}

/// The slots of many ids, in their order, and how many of them were found (02, 2/13).
pub fn find_ids(records: &[u8], pool: &[u8], asked: &[u8], out_slots: &mut [u8]) -> Searched {
    let sizes = [(out_slots.len(), asked.len())];
    match refusal_1(&sizes).and_then(|()| slots_of(records, pool, asked)) {
        Err(refusal) => refusal.into(),
        Ok(slots) => {
            for (slot, room) in slots.iter().zip(out_slots.chunks_exact_mut(ID_BYTES)) {
                let number = slot.map_or(NO_SLOT, |slot| slot as u32);
                room.copy_from_slice(&number.to_le_bytes());
            }
            let found = slots.iter().flatten().count() as u32;
            Searched { found, ..Searched::default() }
        }
    }
}

/// What each id finds; the tree is tested where no id is asked for too.
fn slots_of(records: &[u8], pool: &[u8], asked: &[u8]) -> Result<Vec<Option<usize>>, Refusal> {
    refusal_2(&[Lent::Asked(asked)])?;
    let tree = base(records, pool)?;
    Ok(ids(asked).into_iter().map(|id| slot_of(&tree, id)).collect())
}

/// The id and the slot of the record above an id.
pub fn find_parent(records: &[u8], pool: &[u8], id: i32) -> Found {
    look_up(records, pool, |tree| Ok(slot_of(tree, id).and_then(|slot| tree.rows[slot].parent)))
}
