//! The safe functions beside document 01's text, on named and on random cases.

use braidhurdle::layout::{NAME_ROOM, RECORD_ROOM};
use braidhurdle::{FieldId, Mode, Refusal, RequestRef, Room, Slot, TreeRef};
use cases::{Answer, Ask, Case, Generator, Sizes, answer, named};

/// Ids as the functions take them; none where the bytes are no whole ids.
fn ids(bytes: &[u8]) -> Option<Vec<FieldId>> {
    let id = |bytes: &[u8]| bytes.try_into().ok().map(|id| FieldId(i32::from_le_bytes(id)));
    bytes.chunks(4).map(id).collect()
}

fn id_bytes(ids: &[FieldId]) -> Vec<u8> {
    ids.iter().flat_map(|id| id.0.to_le_bytes()).collect()
}

/// What the safe functions answer; none where they can't be asked so: no lister, no buffers of
/// another size, no ids that are not whole.
fn safe(case: &Case, room: &mut Room) -> Option<Result<Answer, Refusal>> {
    let tree = TreeRef::new(&case.records, &case.pool);
    let bytes = |tree: TreeRef| (tree.records.to_vec(), tree.pool.to_vec());
    let found = |found: Option<(FieldId, Slot)>| match found {
        Some((id, slot)) => Answer::Found { id: id.0, slot: slot.0 },
        None => Answer::Nothing,
    };
    Some(match &case.ask {
        Ask::Update { out_records, out_names, .. }
        | Ask::Prune { out_records, out_names, .. }
        | Ask::Renumber { out_records, out_names, .. }
            if *out_records < RECORD_ROOM || *out_names < NAME_ROOM =>
        {
            return None;
        }
        Ask::Update { .. } => {
            let call = case.update_call()?;
            let request = RequestRef {
                last_id: FieldId(call.last_id),
                version: call.version,
                identifiers: call.identifiers,
                deletions: call.deletions,
                additions: call.additions,
                added_records: call.added_records,
                edits: call.edits,
                pool: call.request_pool,
            };
            tree.update_in(request, room).map(|updated| {
                let (records, names) = bytes(updated.tree);
                let (last_id, visited) = (updated.last_id.0, updated.visited);
                Answer::Updated { records, names, last_id, visited }
            })
        }
        Ask::Prune { selected, full, .. } => {
            let mode = if *full == 0 { Mode::Plain } else { Mode::Full };
            tree.prune_in(&ids(selected)?, mode, room).map(|tree| {
                let (records, names) = bytes(tree);
                Answer::Pruned { records, names }
            })
        }
        Ask::Renumber { identifiers, out_identifiers, .. }
            if *out_identifiers < identifiers.len() =>
        {
            return None;
        }
        Ask::Renumber { identifiers, start, .. } => {
            tree.renumber_in(FieldId(*start), &ids(identifiers)?, room).map(|renumbered| {
                let (records, names) = bytes(renumbered.tree);
                let identifiers = id_bytes(renumbered.identifiers);
                Answer::Renumbered { records, names, identifiers }
            })
        }
        Ask::Name(name) => tree.find_name(name).map(found),
        Ask::Folded(name) => tree.find_folded(name).map(found),
        Ask::Id(id) => {
            let asked = FieldId(*id);
            tree.find_id(asked).map(|slot| found(slot.map(|slot| (asked, slot))))
        }
        // the safe function's buffer is of slots, not of bytes
        Ask::Ids { out_slots, .. } if !out_slots.is_multiple_of(4) => return None,
        Ask::Ids { ids: asked, out_slots } => {
            let asked = ids(asked)?;
            let mut slots = vec![None; out_slots / 4];
            tree.find_ids_in(&asked, &mut slots).map(|found| {
                let number = |slot: &Option<Slot>| slot.map_or(u32::MAX, |slot| slot.0);
                let slots = slots[..asked.len()].iter().flat_map(|s| number(s).to_le_bytes());
                Answer::Searched { slots: slots.collect(), found: found as u32 }
            })
        }
        Ask::Parent(id) => tree.find_parent(FieldId(*id)).map(found),
        Ask::List => return None,
    })
}

/// Is the safe answer that of the text? Answers whether it could be asked.
fn same(case: &Case, room: &mut Room) -> bool {
    let Some(ours) = safe(case, room) else { return false };
    let ours = ours.unwrap_or_else(|Refusal { number, list, place }| {
        Answer::Refused(judge::Refusal { number, list, place })
    });
    assert_eq!(ours, answer(case), "{case:?}");
    true
}

#[test]
fn every_named_case_has_the_texts_answer() {
    let mut room = Room::boxed();
    let asked = named().iter().filter(|one| same(&one.case, &mut room)).count();
    assert!(asked > 300, "{asked} cases");
}

#[test]
fn random_cases_have_the_texts_answer_in_one_room() {
    let mut room = Room::boxed();
    let generator = Generator { seed: 9, sizes: Sizes::Small };
    let asked = (0..7_000).filter(|n| same(&generator.case(*n), &mut room)).count();
    assert!(asked > 5_000, "{asked} cases");
}
