//! A failing case made small.

use judge::{EDIT_BYTES, ENTRY_BYTES, ID_BYTES, RECORD_BYTES};

use crate::case::{Ask, Case};

/// The smallest case that still fails, as far as leaving out single parts leads there.
pub fn shrink(case: &Case, fails: &dyn Fn(&Case) -> bool) -> Case {
    let mut least = case.clone();
    loop {
        match candidates(&least).into_iter().find(|case| fails(case)) {
            Some(case) => least = case,
            None => return least,
        }
    }
}

/// Cases that are smaller by one step: a subtree, an entry, an id or pool bytes less, a
/// field of a record cleared.
fn candidates(case: &Case) -> Vec<Case> {
    let mut smaller = vec![];
    for records in fewer_records(&case.records) {
        smaller.push(Case { records, ..case.clone() });
    }
    smaller.extend(fewer_additions(case));
    for ask in smaller_asks(&case.ask) {
        smaller.push(Case { ask, ..case.clone() });
    }
    for pool in fewer(&case.pool, 1) {
        smaller.push(Case { pool, ..case.clone() });
    }
    for records in cleared(&case.records) {
        smaller.push(Case { records, ..case.clone() });
    }
    smaller
}

fn children(record: &[u8]) -> usize {
    u16::from_le_bytes([record[12], record[13]]).into()
}

/// The bytes of the subtree that starts at a record, as far as the list goes.
fn subtree(records: &[u8], slot: usize) -> usize {
    let (mut end, mut open) = (slot, 1);
    while open > 0 && (end + 1) * RECORD_BYTES <= records.len() {
        open += children(&records[end * RECORD_BYTES..]);
        open -= 1;
        end += 1;
    }
    end
}

/// The slot above a record.
fn above(records: &[u8], slot: usize) -> Option<usize> {
    (0..slot).rev().find(|up| subtree(records, *up) > slot)
}

/// Half the list, or one subtree with its place in the count above.
fn fewer_records(records: &[u8]) -> Vec<Vec<u8>> {
    let count = records.len() / RECORD_BYTES;
    let mut fewer = vec![];
    if count > 8 {
        fewer.push(records[..count / 2 * RECORD_BYTES].to_vec());
        fewer.push(records[count / 2 * RECORD_BYTES..].to_vec());
    }
    for slot in 0..count {
        let end = subtree(records, slot);
        let mut less = records.to_vec();
        if let Some(up) = above(records, slot) {
            let left = (children(&records[up * RECORD_BYTES..]) as u16).saturating_sub(1);
            less[up * RECORD_BYTES + 12..][..2].copy_from_slice(&left.to_le_bytes());
        }
        less.drain(slot * RECORD_BYTES..end * RECORD_BYTES);
        fewer.push(less);
    }
    fewer
}

/// An addition less, with its root tree.
fn fewer_additions(case: &Case) -> Vec<Case> {
    let Ask::Update { additions, added_records, .. } = &case.ask else { return vec![] };
    let mut fewer = vec![];
    let mut root = 0;
    for at in 0..additions.len() / ENTRY_BYTES {
        if root * RECORD_BYTES >= added_records.len() {
            break;
        }
        let end = subtree(added_records, root);
        let mut less = case.clone();
        if let Ask::Update { additions, added_records, .. } = &mut less.ask {
            additions.drain(at * ENTRY_BYTES..(at + 1) * ENTRY_BYTES);
            added_records.drain(root * RECORD_BYTES..end * RECORD_BYTES);
        }
        fewer.push(less);
        root = end;
    }
    fewer
}

/// A list with one part less; long lists also with one half less.
fn fewer(list: &[u8], unit: usize) -> Vec<Vec<u8>> {
    let parts = list.len().div_ceil(unit);
    let mut fewer = vec![];
    if parts > 8 {
        fewer.push(list[..parts / 2 * unit].to_vec());
    }
    // the last part alone where bytes are meant, since all offsets would move
    let from = if unit == 1 { parts.saturating_sub(1) } else { 0 };
    for part in from..parts {
        let mut less = list.to_vec();
        less.drain(part * unit..((part + 1) * unit).min(list.len()));
        fewer.push(less);
    }
    fewer
}

fn smaller_asks(ask: &Ask) -> Vec<Ask> {
    let mut smaller = vec![];
    let mut each = |list: &[u8], unit, set: &dyn Fn(&mut Ask, Vec<u8>)| {
        for less in fewer(list, unit) {
            let mut ask = ask.clone();
            set(&mut ask, less);
            smaller.push(ask);
        }
    };
    match ask {
        Ask::Update {
            identifiers: i,
            version: named,
            deletions: d,
            added_records,
            edits: e,
            request_pool,
            ..
        } => {
            each(i, ID_BYTES, &|ask, less| {
                if let Ask::Update { identifiers, .. } = ask {
                    *identifiers = less;
                }
            });
            each(d, ENTRY_BYTES, &|ask, less| {
                if let Ask::Update { deletions, .. } = ask {
                    *deletions = less;
                }
            });
            each(e, EDIT_BYTES, &|ask, less| {
                if let Ask::Update { edits, .. } = ask {
                    *edits = less;
                }
            });
            each(request_pool, 1, &|ask, less| {
                if let Ask::Update { request_pool, .. } = ask {
                    *request_pool = less;
                }
            });
            if *named != 2 {
                let mut ask = ask.clone();
                if let Ask::Update { version, .. } = &mut ask {
                    *version = 2;
                }
                smaller.push(ask);
            }
            for less in fewer_records(added_records).into_iter().chain(cleared(added_records)) {
                let mut ask = ask.clone();
                if let Ask::Update { added_records, .. } = &mut ask {
                    *added_records = less;
                }
                smaller.push(ask);
            }
        }
        Ask::Prune { selected: s, .. } => each(s, ID_BYTES, &|ask, less| {
            if let Ask::Prune { selected, .. } = ask {
                *selected = less;
            }
        }),
        Ask::Renumber { identifiers: i, .. } => each(i, ID_BYTES, &|ask, less| {
            if let Ask::Renumber { identifiers, .. } = ask {
                *identifiers = less;
            }
        }),
        Ask::Name(name) | Ask::Folded(name) => each(name, 1, &|ask, less| {
            if let Ask::Name(name) | Ask::Folded(name) = ask {
                *name = less;
            }
        }),
        Ask::Ids { ids: i, .. } => each(i, ID_BYTES, &|ask, less| {
            if let Ask::Ids { ids, .. } = ask {
                *ids = less;
            }
        }),
        Ask::Id(_) | Ask::Parent(_) | Ask::List => {}
    }
    smaller
}

/// A record with its attribute, type code, flags or name cleared.
fn cleared(records: &[u8]) -> Vec<Vec<u8>> {
    let mut cleared = vec![];
    for start in (0..records.len() / RECORD_BYTES).map(|slot| slot * RECORD_BYTES) {
        for field in [20..24, 16..20, 10..11, 4..9] {
            let field = start + field.start..start + field.end;
            if records[field.clone()].iter().any(|byte| *byte != 0) {
                let mut less = records.to_vec();
                less[field].fill(0);
                cleared.push(less);
            }
        }
    }
    cleared
}
