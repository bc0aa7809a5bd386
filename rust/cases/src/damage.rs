//! Damaged copies of a case.

use judge::{EDIT_BYTES, ENTRY_BYTES, ID_BYTES, RECORD_BYTES};

use crate::case::{Ask, Case};
use crate::random::Random;

/// Every list that a case lends, with the bytes of one of its parts.
pub fn lists(case: &mut Case) -> Vec<(&mut Vec<u8>, usize)> {
    let mut lists = vec![(&mut case.records, RECORD_BYTES), (&mut case.pool, 1)];
    match &mut case.ask {
        Ask::Update {
            identifiers,
            deletions,
            additions,
            added_records,
            request_pool,
            edits,
            ..
        } => {
            lists.extend([
                (identifiers, ID_BYTES),
                (deletions, ENTRY_BYTES),
                (additions, ENTRY_BYTES),
                (added_records, RECORD_BYTES),
                (request_pool, 1),
            ]);
            // last, and where there are any: a list more would change the cases that have none
            if !edits.is_empty() {
                lists.push((edits, EDIT_BYTES));
            }
        }
        Ask::Prune { selected, .. } => lists.push((selected, ID_BYTES)),
        Ask::Renumber { identifiers, .. } => lists.push((identifiers, ID_BYTES)),
        Ask::Name(name) | Ask::Folded(name) => lists.push((name, 1)),
        Ask::Ids { ids, .. } => lists.push((ids, ID_BYTES)),
        Ask::Id(_) | Ask::Parent(_) | Ask::List => {}
    }
    lists
}

/// Damages one list of a case: a bit, a byte, a small number, a cut, a part swapped,
/// repeated or left out.
pub fn damage(random: &mut Random, case: &mut Case) {
    let mut lists = lists(case);
    let at = if random.chance(1, 2) { 0 } else { random.below(lists.len()) };
    let (list, unit) = &mut lists[at];
    let unit = *unit;
    if list.is_empty() {
        list.push(random.next_number() as u8);
        return;
    }
    let byte = random.below(list.len());
    let part = byte / unit;
    let from = part * unit;
    let to = (from + unit).min(list.len());
    match random.below(9) {
        0 | 1 => list[byte] ^= 1 << random.below(8),
        2 => list[byte] = *random.pick(&[0, 1, 2, 3, 4, 254, 255]),
        3 => list[byte] = list[byte].wrapping_add(1),
        4 => list.truncate(byte),
        5 => list.truncate(from),
        6 => {
            let other = random.below(list.len() / unit.min(list.len())) * unit;
            for k in 0..unit {
                if from + k < list.len() && other + k < list.len() {
                    list.swap(from + k, other + k);
                }
            }
        }
        7 => {
            let again = list[from..to].to_vec();
            list.splice(from..from, again);
        }
        _ => {
            list.drain(from..to);
        }
    }
}
