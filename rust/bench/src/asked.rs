//! Updates whose paths are bad to look up, of any base.

use std::cmp::Reverse;
use std::collections::HashMap;

use cases::{Addition, Ask, Case, edited, packed, prim, request, update_by};
use judge::{
    Change, EDIT_BYTES, ENTRY_BYTES, Edit, MOST_EDITS, MOST_RECORDS, Node, PRIMITIVE, RECORD_BYTES,
    STRUCT, Tree,
};

use crate::rows::member;

/// The full name of a slot, or the short one.
pub type Path = fn(&Tree, usize) -> Vec<u8>;

/// Deletions, additions and edits: of each list as many as there may be.
const EACH: usize = MOST_EDITS;
/// The bytes of different paths of a list; all of them stand in one pool.
const PATH_BYTES: usize = 10_000;

/// 64 deletions of primitives, 64 additions to structs and 64 relaxings, all of records as far down
/// as there are, by such names. They come again where a pool has no room for so many.
pub fn asked(base: &[Node], path: Path) -> Case {
    let tree = Tree::of(base);
    let dropped = deepest(&tree, path, |slot| tree.rows[slot].kind == PRIMITIVE);
    let above = deepest(&tree, path, |slot| tree.rows[slot].kind == STRUCT);
    let relaxed = deepest(&tree, path, |slot| !dropped.contains(&slot));
    let relax = |slot: &usize| Edit { path: path(&tree, *slot), change: Change::Relax };
    let edits: Vec<Edit> = each(&relaxed).map(relax).collect();
    let dropped = each(&dropped).map(|slot| path(&tree, *slot)).collect();
    let above = each(&above).map(|slot| path(&tree, *slot)).collect();
    shared(edited(update(base, dropped, above), &edits))
}

/// 64 deletions, of which the last finds nothing: its path is one of the others but for the first
/// byte.
pub fn astray(base: &[Node]) -> Case {
    let tree = Tree::of(base);
    let dropped = deepest(&tree, Tree::full_name, |slot| tree.rows[slot].kind == PRIMITIVE);
    let mut paths: Vec<Vec<u8>> = each(&dropped).map(|slot| tree.full_name(*slot)).collect();
    paths[EACH - 1][0] = b'~';
    shared(update(base, paths, vec![]))
}

/// The same of additions.
pub fn nowhere(base: &[Node]) -> Case {
    let tree = Tree::of(base);
    let above = deepest(&tree, Tree::full_name, |slot| tree.rows[slot].kind == STRUCT);
    let mut paths: Vec<Vec<u8>> = each(&above).map(|slot| tree.full_name(*slot)).collect();
    paths[EACH - 1][0] = b'~';
    shared(update(base, vec![], paths))
}

/// 64 deletions of one member, by its full name.
pub fn again(base: &[Node], slot: usize) -> Case {
    shared(update(base, vec![Tree::of(base).full_name(slot); EACH], vec![]))
}

fn update(base: &[Node], dropped: Vec<Vec<u8>>, above: Vec<Vec<u8>>) -> Case {
    let fresh = |(n, path)| Addition { path: Some(path), column: prim(0, &format!("n{n}")) };
    let added: Vec<Addition> = above.into_iter().enumerate().map(fresh).collect();
    update_by(packed(base), &[], MOST_RECORDS as i32, request(&dropped, &added))
}

/// The members of one kind that are farthest down, with names that are not their other ones where
/// there are such: 64 of them, or as many as a pool has room for.
fn deepest(tree: &Tree, path: Path, is: impl Fn(usize) -> bool) -> Vec<usize> {
    let mut slots: Vec<usize> =
        (0..tree.rows.len()).filter(|slot| member(tree, *slot) && is(*slot)).collect();
    // the sort keeps the order of equal ones, so the last of a level come first
    slots.reverse();
    slots.sort_by_key(|slot| {
        Reverse((path(tree, *slot) != tree.full_name(*slot), tree.rows[*slot].level))
    });
    let mut left = PATH_BYTES;
    let fits = |(n, slot): &(usize, usize)| {
        let bytes = path(tree, *slot).len();
        let fits = *n == 0 || bytes <= left;
        left = left.saturating_sub(bytes);
        fits
    };
    slots.into_iter().take(EACH).enumerate().take_while(fits).map(|(_, slot)| slot).collect()
}

/// 64 of these, again from the front where there are fewer.
fn each(slots: &[usize]) -> impl Iterator<Item = &usize> {
    slots.iter().cycle().take(EACH)
}

/// The same update with each path and name in its pool once.
fn shared(mut case: Case) -> Case {
    let Ask::Update { deletions, additions, added_records, edits, request_pool, .. } =
        &mut case.ask
    else {
        panic!("only an update has a request")
    };
    let pool = std::mem::take(request_pool);
    let mut places = HashMap::new();
    let mut once = |offset: &mut [u8], length: usize| {
        let from = u32::from_le_bytes(offset.try_into().expect("4 bytes")) as usize;
        let bytes = &pool[from..from + length];
        let place = *places.entry(bytes).or_insert_with(|| {
            request_pool.extend_from_slice(bytes);
            request_pool.len() - length
        });
        offset.copy_from_slice(&(place as u32).to_le_bytes());
    };
    for (list, unit) in [(deletions, ENTRY_BYTES), (additions, ENTRY_BYTES), (edits, EDIT_BYTES)] {
        for entry in list.chunks_exact_mut(unit) {
            let length = u16::from_le_bytes([entry[4], entry[5]]).into();
            once(&mut entry[..4], length);
        }
    }
    for record in added_records.chunks_exact_mut(RECORD_BYTES) {
        let length = record[8].into();
        once(&mut record[4..8], length);
    }
    case
}
