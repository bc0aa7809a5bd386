//! The look-up of many ids (02, 2/13), beside that of one.

use crate::t::{primitive, t};
use braidhurdle::layout::MOST_ASKED;
use braidhurdle::{FieldId, Refusal, Slot, Tree, TreeRef, c};
use cases::Random;

fn asked(ids: impl IntoIterator<Item = i32>) -> Vec<FieldId> {
    ids.into_iter().map(FieldId).collect()
}

/// The slots of ids, as numbers.
fn slots(tree: &Tree, ids: impl IntoIterator<Item = i32>) -> Result<Vec<Option<u32>>, Refusal> {
    let slots = tree.find_ids(&asked(ids))?;
    Ok(slots.into_iter().map(|slot| slot.map(|slot| slot.0)).collect())
}

fn refused<T>(number: u32, place: u32) -> Result<T, Refusal> {
    Err(Refusal { number, list: 0, place })
}

/// A flat tree of columns of these ids.
fn flat(ids: impl IntoIterator<Item = i32>) -> Tree {
    let column = |id: i32| primitive(id, &id.to_string());
    Tree::build(&ids.into_iter().map(column).collect::<Vec<_>>()).expect("it fits the layout")
}

#[test]
fn each_id_has_its_slot_in_the_order_asked_and_as_often() {
    let found = slots(&t(), [9, 3, 99, 9, 6]);
    assert_eq!(found, Ok(vec![Some(8), Some(6), None, Some(8), Some(4)]));
    assert_eq!(slots(&t(), []), Ok(vec![]));
    assert_eq!(slots(&Tree::default(), [0, -1]), Ok(vec![None, None]));
}

#[test]
fn ids_are_signed_and_any_32_bits_are_one() {
    let ids = [-1, i32::MIN, 0, i32::MAX];
    assert_eq!(slots(&flat(ids), ids), Ok(vec![Some(0), Some(1), Some(2), Some(3)]));
    assert_eq!(slots(&flat([1]), ids), Ok(vec![None; 4]));
}

#[test]
fn ids_that_share_their_low_bits_are_told_apart() {
    for shift in [0, 10, 22] {
        let ids = || (0..1_024).map(move |k: i32| k << shift);
        let found = slots(&flat(ids()), ids());
        assert_eq!(found, Ok((0..1_024).map(Some).collect()), "{shift}");
        assert_eq!(slots(&flat(ids().skip(1)), [0]), Ok(vec![None]), "{shift}");
    }
}

#[test]
fn the_columns_of_ids_are_found_in_one_call() -> Result<(), Refusal> {
    let tree = t();
    let columns = tree.columns_by_ids(&asked([10, 11, 1, 10]))?;
    assert_eq!(columns.len(), 4);
    for (column, slot) in columns.into_iter().zip([Some(9), None, Some(0), Some(9)]) {
        let at_slot = slot.map(|slot| tree.column(Slot(slot))).transpose()?.flatten();
        assert_eq!((column.is_some(), column), (slot.is_some(), at_slot));
    }
    assert_eq!(tree.columns_by_ids(&[]), Ok(vec![]));
    assert_eq!(flat([1, 1]).columns_by_ids(&[]), refused(7, 1));
    Ok(())
}

#[test]
fn slots_behind_the_answer_stay_and_all_of_them_on_a_refusal() {
    let tree = t();
    let old = Some(Slot(77));
    let mut slots = [old; 5];
    assert_eq!(tree.lent().find_ids_in(&asked([7, 11, 7]), &mut slots), Ok(2));
    let found = Some(Slot(5));
    assert_eq!(slots, [found, None, found, old, old]);
    assert_eq!(tree.lent().find_ids_in(&[], &mut slots), Ok(0));
    assert_eq!(flat([1, 1]).lent().find_ids_in(&asked([1, 1]), &mut slots), refused(7, 1));
    assert_eq!(slots, [found, None, found, old, old]);
}

#[test]
fn fewer_slots_than_ids_are_refusal_1_before_all_others() {
    let broken = Tree::new(vec![0; 23], vec![]);
    let no_tree = broken.lent();
    // how many ids, and how many slots: within the limit, at it, and far above it on both sides
    let sizes = [(1, 0), (3, 2), (1_024, 1_023), (1_025, 1_024), (2_000, 1_500), (9_999, 0)];
    for (ids, room) in sizes {
        for tree in [t().lent(), no_tree] {
            let mut slots = vec![Some(Slot(77)); room];
            let found = tree.find_ids_in(&asked((0..ids).map(|_| 7)), &mut slots);
            assert_eq!(found, refused(1, 0), "{ids} {room}");
            assert_eq!(slots, vec![Some(Slot(77)); room], "{ids} {room}");
        }
    }
    assert_eq!(no_tree.find_ids_in(&[], &mut []), refused(2, 0));
}

#[test]
fn ids_are_counted_up_to_their_limit_and_not_one_is_lost() {
    let many = |count: usize| slots(&t(), (0..count).map(|_| 7));
    assert_eq!(many(MOST_ASKED), Ok(vec![Some(5); MOST_ASKED]));
    for count in [MOST_ASKED + 1, MOST_ASKED + 2, 9_999] {
        assert_eq!(many(count), refused(2, 0), "{count}");
    }
    let mut slots = vec![None; 2 * MOST_ASKED];
    let ids = asked([7; MOST_ASKED]);
    assert_eq!(t().lent().find_ids_in(&ids, &mut slots), Ok(MOST_ASKED));
    assert_eq!(slots[MOST_ASKED - 1..=MOST_ASKED], [Some(Slot(5)), None]);
}

#[test]
fn the_tree_is_tested_though_no_id_is_asked_for() {
    assert_eq!(slots(&flat([1, 2, 1]), []), refused(7, 2));
    assert_eq!(Tree::new(vec![0; 23], vec![]).find_ids(&[]), refused(2, 0));
}

#[test]
fn own_buffers_of_bytes_may_have_any_length() {
    let tree = t();
    let find = |ids: &[u8], out: &mut [u8]| c::find_ids(&tree.records, &tree.pool, ids, out);
    let mut out = [0xA5; 6];
    assert_eq!(find(&[7, 0, 0, 0], &mut out), c::Searched { found: 1, ..c::Searched::default() });
    assert_eq!(out, [5, 0, 0, 0, 0xA5, 0xA5]);
    assert_eq!(find(&[7, 0, 0], &mut out).accepted(), refused(2, 0));
    assert_eq!(find(&[7, 0, 0], &mut out[..2]).accepted(), refused(1, 0));
    assert_eq!(out, [5, 0, 0, 0, 0xA5, 0xA5]);
}

/// Ids of the tree, ids beside them, and any 32 bits.
fn random_ids(random: &mut Random, tree: &Tree) -> Vec<FieldId> {
    let own: Vec<i32> = tree.columns().map_or(vec![], |all| all.map(|one| one.id.0).collect());
    let id = |random: &mut Random| match own.is_empty() || random.chance(1, 3) {
        true => random.any_id(),
        false => random.pick(&own).wrapping_add(*random.pick(&[0, 0, 0, 1, -1, 1 << 10, 1 << 31])),
    };
    (0..random.below(12)).map(|_| FieldId(id(random))).collect()
}

#[test]
fn many_ids_are_answered_as_one_by_one() {
    let mut random = Random::new(23);
    let mut met = [0; 3];
    for _ in 0..20_000 {
        let tree = crate::any_bytes::any_tree(&mut random);
        let ids = random_ids(&mut random, &tree);
        let lent: TreeRef = tree.lent();
        let one_by_one: Result<Vec<_>, _> = ids.iter().map(|id| lent.find_id(*id)).collect();
        let many = tree.find_ids(&ids);
        match &many {
            Err(_) => met[0] += 1,
            Ok(slots) => slots.iter().for_each(|slot| met[1 + usize::from(slot.is_some())] += 1),
        }
        // with no id nothing but the tree is tested
        assert_eq!(many, tree.check().and(one_by_one));
    }
    assert!(met.into_iter().all(|count| count > 5_000), "{met:?}");
}
