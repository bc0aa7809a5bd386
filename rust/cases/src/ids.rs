//! Ids that share their bits: maps that turn the ids of a case, and cases of the look-up of many
//! ids.

use judge::{ID_BYTES, MOST_ASKED, RECORD_BYTES, Tree};

use crate::build::ids_by;
use crate::case::{Ask, Case};
use crate::random::Random;
use crate::shapes::ids_of;
use crate::trees::{Shape, lay, tree};

/// Turns the ids of a case by one map that takes no two of them to one, so that whatever was equal
/// or not stays so. Small ids, counted up, share their low bits afterwards, or differ in one high
/// bit alone.
pub fn turn_ids(random: &mut Random, case: &mut Case) {
    let reversed = random.chance(1, 4);
    let left = match random.below(6) {
        0 if reversed => 0,
        0 => 1 + random.below(31) as u32,
        1 => 31,
        2 => 21,
        3 => 10,
        _ => 22,
    };
    let mask = match random.below(4) {
        0 => random.any_id(),
        1 => i32::MIN,
        _ => 0,
    };
    let turned = |id: i32| {
        let id = if reversed { id.reverse_bits() } else { id };
        id.rotate_left(left) ^ mask
    };
    let each = |list: &mut [u8], unit: usize| {
        for part in list.chunks_exact_mut(unit) {
            let id: [u8; ID_BYTES] = part[..ID_BYTES].try_into().expect("an id's bytes");
            part[..ID_BYTES].copy_from_slice(&turned(i32::from_le_bytes(id)).to_le_bytes());
        }
    };
    each(&mut case.records, RECORD_BYTES);
    match &mut case.ask {
        Ask::Update { identifiers, last_id, added_records, .. } => {
            // the next id that is handed out, which may be one of the tree's; or an identifier's
            // that is handed out again
            let far = |id: i32| i64::from(id) - i64::from(*last_id);
            let given = 1..=(added_records.len() / RECORD_BYTES) as i64;
            let again = ids_of(identifiers).into_iter().find(|id| given.contains(&far(*id)));
            let next = again.unwrap_or(last_id.wrapping_add(1));
            if random.chance(5, 6) {
                let before = next.wrapping_sub(*last_id);
                *last_id = turned(next).wrapping_sub(before);
            }
            each(identifiers, ID_BYTES);
        }
        Ask::Renumber { identifiers: ids, .. }
        | Ask::Prune { selected: ids, .. }
        | Ask::Ids { ids, .. } => each(ids, ID_BYTES),
        Ask::Id(id) | Ask::Parent(id) => *id = turned(*id),
        Ask::Name(_) | Ask::Folded(_) | Ask::List => {}
    }
}

/// A look-up of many ids; in most trees they share their bits.
pub fn many_ids(random: &mut Random, shape: Shape) -> Case {
    let roots = tree(random, shape);
    let base = lay(random, &roots);
    let asked = asked(random, &Tree::of(&roots));
    let mut case = ids_by(base, &asked);
    if let Ask::Ids { out_slots, .. } = &mut case.ask {
        // room beyond what is needed, or a byte too little (1)
        match random.below(12) {
            0 => *out_slots += 1 + random.below(9),
            1 => *out_slots = out_slots.saturating_sub(1),
            _ => {}
        }
    }
    if random.chance(2, 3) {
        turn_ids(random, &mut case);
    }
    case
}

/// Some of the tree's ids or all of them, some twice, and some that it has not; near ones often.
fn asked(random: &mut Random, tree: &Tree) -> Vec<i32> {
    let rows = &tree.rows;
    let mut ids: Vec<i32> = rows.iter().map(|row| row.id).collect();
    if ids.is_empty() {
        ids.push(random.any_id());
    }
    if random.chance(1, 4) {
        ids.rotate_left(random.below(rows.len().max(1)));
        ids.truncate(MOST_ASKED);
        return ids;
    }
    let absent = random.chance(2, 3);
    let one = |random: &mut Random| {
        let id = *random.pick(&ids);
        match random.below(12) {
            0..=2 if absent => id ^ 1 << random.below(32),
            3 if absent => random.any_id(),
            4 if absent => *random.pick(&[-1, 0, 1, i32::MAX, i32::MIN]),
            _ => id,
        }
    };
    (0..random.below(2 * rows.len().min(20) + 2)).map(|_| one(random)).collect()
}
