//! The look-up of many ids, and ids that share their bits (02, 2/13).

use super::*;
use crate::build::the_tree;

pub fn put(all: &mut Cases) {
    in_the_worked_tree(all);
    counts(all);
    refusals(all);
    order(all);
    shared_bits(all);
    deepest(all);
    one_bit(all);
    equal_ids(all);
    other_entries(all);
}

/// Columns at the root with these ids, each with a name of its own.
fn roots(ids: impl IntoIterator<Item = i32>) -> Vec<Node> {
    ids.into_iter().enumerate().map(|(slot, id)| p(id, &format!("{slot:x}"))).collect()
}

/// The multiples of a power of two, from 0 on.
fn multiples(count: i32, bit: u32) -> Vec<i32> {
    (0..count).map(|k| k << bit).collect()
}

/// All slots from 0 on.
fn in_order(count: u32) -> Expected {
    Expected::Slots((0..count).map(Some).collect())
}

fn slots(slots: &[u32]) -> Expected {
    Expected::Slots(slots.iter().map(|slot| Some(*slot)).collect())
}

fn absent(count: usize) -> Expected {
    Expected::Slots(vec![None; count])
}

fn room(case: Case, bytes: usize) -> Case {
    but(case, |case| {
        if let Ask::Ids { out_slots, .. } = &mut case.ask {
            *out_slots = bytes;
        }
    })
}

/// The ids asked for as bytes, and room for so many bytes.
fn raw(base: &[Node], bytes: usize, out_slots: usize) -> Case {
    ask_of(packed(base), Ask::Ids { ids: vec![0; bytes], out_slots })
}

fn in_the_worked_tree(all: &mut Cases) {
    let t = the_tree();
    all.put("2/13: every id, in slot order", asking(&t, &[1, 4, 5, 2, 6, 7, 3, 8, 9, 10]), {
        in_order(10)
    });
    all.put("2/13: slots in the order asked", asking(&t, &[10, 1, 7]), slots(&[9, 0, 5]));
    all.put("2/13: one id", asking(&t, &[8]), slots(&[7]));
    all.put("2/13: an id twice counts twice", asking(&t, &[7, 3, 7]), slots(&[5, 6, 5]));
    let mixed = Expected::Slots(vec![None, Some(5), None, None, Some(0)]);
    all.put("2/13: ids that are not there", asking(&t, &[11, 7, 0, -1, 1]), mixed);
    all.put("2/13: none is there", asking(&t, &[11, -7]), absent(2));
    all.put("2/13: no id", asking(&t, &[]), absent(0));
    all.put("2/13: no id and no record", asking(&[], &[]), absent(0));
    all.put("2/13: no record", asking(&[], &[0, 1]), absent(2));
    let ends = [-1, i32::MIN, 0, i32::MAX, -1_024, 1_023, -2_147_483_647];
    all.put("2/13: negative ids and both ends", asking(&roots(ends), &ends), in_order(7));
    let other = [1, -1_023, 1_024, -2_147_483_646, 2_147_483_646];
    all.put("2/13: others beside them", asking(&roots(ends), &other), absent(5));
    all.put("2/13: room beyond the slots", room(asking(&t, &[7, 99, 2]), 17), {
        Expected::Slots(vec![Some(5), None, Some(3)])
    });
    all.put("2/13: room and no id", room(asking(&t, &[]), 3), absent(0));
}

fn counts(all: &mut Cases) {
    let two = roots([1, 1_023]);
    let many: Vec<i32> = (0..1_024).collect();
    let mut each = vec![None; 1_024];
    (each[1], each[1_023]) = (Some(0), Some(1));
    all.put("2/13: 1,024 ids", asking(&two, &many), Expected::Slots(each));
    all.put("2/13: 1,025 ids", asking(&two, &vec![1; 1_025]), refused(2, 0, 0));
    all.put("2/13: 1,024 ids and a byte", raw(&two, 4_097, 4_100), refused(2, 0, 0));
}

fn refusals(all: &mut Cases) {
    let t = the_tree();
    let two = || asking(&t, &[7, 1]);
    all.put("2/13: 1 by one byte", room(two(), 7), refused(1, 0, 0));
    all.put("2/13: 1 without any room", room(two(), 0), refused(1, 0, 0));
    for bytes in [1, 2, 3, 5, 7] {
        all.put("2/13: 2 for no whole number of ids", raw(&t, bytes, 8), refused(2, 0, 0));
    }
    // with ids and without
    for asked in [&[7, 99][..], &[]] {
        let damaged = |change: fn(&mut Case)| but(asking(&t, asked), change);
        let title = |number: u32| format!("2/13: {number} of the base, {} ids", asked.len());
        let short = damaged(|case| case.records.truncate(239));
        all.put(&title(2), short, refused(2, 0, 0));
        let byte = damaged(|case| case.records[5 * 24 + 14] = 1);
        all.put(&title(3), byte, refused(3, 0, 5));
        let offset = damaged(|case| case.records[6 * 24 + 5] = 1);
        all.put(&title(4), offset, refused(4, 0, 6));
        let count = damaged(|case| case.records[8 * 24 + 12] = 2);
        all.put(&title(5), count, refused(5, 0, 10));
        all.put(&title(5), asking(&[chain(17)], asked), refused(5, 0, 16));
        let label = damaged(|case| case.records[4 * 24 + 8] = 6);
        all.put(&title(6), label, refused(6, 0, 4));
        let again = damaged(|case| case.records[9 * 24] = 4);
        all.put(&title(7), again, refused(7, 0, 9));
        let called = damaged(|case| case.records.copy_within(24 + 4..24 + 9, 2 * 24 + 4));
        all.put(&title(8), called, refused(8, 0, 2));
    }
    let past = asking(&roots(0..1_025), &[]);
    all.put("2/13: 1,025 records", past, refused(2, 0, 0));
    let pool = but(asking(&t, &[]), |case| case.pool.resize(32_769, b'a'));
    all.put("2/13: a pool of 32,769 bytes", pool, refused(2, 0, 0));
}

/// 1 comes first, then 2 of the ids, then what a base can be refused for, in 01's order.
fn order(all: &mut Cases) {
    let t = the_tree();
    all.put("2/13: 1 before 2 of the ids", raw(&t, 3, 2), refused(1, 0, 0));
    all.put("2/13: 1 before 2 of too many ids", raw(&t, 4_100, 4_099), refused(1, 0, 0));
    let base = but(raw(&t, 8, 7), |case| case.records.push(0));
    all.put("2/13: 1 before 2 of the base", base, refused(1, 0, 0));
    let base = but(raw(&t, 4, 3), |case| case.records[11] = 1);
    all.put("2/13: 1 before 3", base, refused(1, 0, 0));
    let base = but(raw(&t, 3, 3), |case| case.records[11] = 1);
    all.put("2/13: 2 of the ids before 3", base, refused(2, 0, 0));
    let base = but(raw(&t, 4_100, 4_100), |case| case.records[9 * 24] = 4);
    all.put("2/13: 2 of too many ids before 7", base, refused(2, 0, 0));
    let one = || asking(&t, &[1]);
    let both = but(one(), |case| {
        case.records[9 * 24 + 11] = 1;
        case.records[7] = 1;
    });
    all.put("2/13: 3 before 4", both, refused(3, 0, 9));
    let both = but(one(), |case| {
        case.records[9 * 24 + 7] = 1;
        case.records[12] = 100;
    });
    all.put("2/13: 4 before 5", both, refused(4, 0, 9));
    let both = but(one(), |case| {
        case.records[4 * 24 + 8] = 6;
        case.records[8 * 24 + 12] = 2;
    });
    all.put("2/13: 5 before 6", both, refused(5, 0, 10));
    let both = but(one(), |case| {
        case.records[8 * 24 + 8] = 4;
        case.records[24] = 1;
    });
    all.put("2/13: 6 before 7", both, refused(6, 0, 8));
    let both = but(one(), |case| {
        case.records[9 * 24] = 4;
        case.records.copy_within(24 + 4..24 + 9, 2 * 24 + 4);
    });
    all.put("2/13: 7 before 8", both, refused(7, 0, 9));
}

/// Ids that one place chosen by their low bits, or by any of their bits, would not tell apart.
fn shared_bits(all: &mut Cases) {
    for bit in [10, 21, 22] {
        let ids = multiples(40, bit);
        let title = format!("2/13: multiples of 2 to the {bit}");
        all.put(&title, asking(&roots(ids.clone()), &ids), in_order(40));
        let beyond: Vec<i32> = (40..60).map(|k| k << bit).collect();
        all.put(&title, asking(&roots(ids.clone()), &beyond), absent(20));
        let beside: Vec<i32> = ids.iter().map(|id| id + 1).collect();
        all.put(&title, asking(&roots(ids), &beside), absent(40));
    }
    let ids = multiples(1_024, 22);
    let back: Vec<i32> = ids.iter().rev().copied().collect();
    let from_the_end = Expected::Slots((0..1_024).rev().map(Some).collect());
    all.put("2/13: all multiples of 2 to the 22", asking(&roots(ids), &back), from_the_end);
    let ids: Vec<i32> = (0..64).map(|k: i32| k.reverse_bits()).collect();
    all.put("2/13: ids read from their last bit", asking(&roots(ids.clone()), &ids), in_order(64));
    let beyond: Vec<i32> = (64..80).map(|k: i32| k.reverse_bits()).collect();
    all.put("2/13: ids read from their last bit", asking(&roots(ids), &beyond), absent(16));
}

/// Ids that share ever more bits from the tenth on, up to all of them.
fn ever_more() -> Vec<i32> {
    (10..32).map(|bit| 1 << bit).chain([0]).collect()
}

fn deepest(all: &mut Cases) {
    let ids = ever_more();
    let title = "2/13: ids that share ever more bits";
    all.put(title, asking(&roots(ids.clone()), &ids), in_order(23));
    let back: Vec<i32> = ids.iter().rev().copied().collect();
    all.put(title, asking(&roots(back.clone()), &back), in_order(23));
    let beside: Vec<i32> = ids.iter().flat_map(|id| [id + 1, id | 512, id | 5 << 20]).collect();
    all.put(title, asking(&roots(ids.clone()), &beside), absent(69));
    let others: Vec<i32> = ids.iter().map(|id| !id).collect();
    all.put(title, asking(&roots(others.clone()), &others), in_order(23));
    all.put(title, asking(&roots(ids), &others), absent(23));
}

fn one_bit(all: &mut Cases) {
    for bit in [0, 9, 10, 11, 21, 22, 30, 31] {
        let title = format!("2/13: ids that differ in bit {bit} alone");
        for id in [0, 77, -1] {
            let (one, other) = (id, id ^ 1 << bit);
            let others = [id ^ 1 << 20, other ^ 1 << 20];
            let asked = [other, others[0], one, others[1]];
            let expected = Expected::Slots(vec![Some(1), None, Some(0), None]);
            all.put(&title, asking(&roots([one, other]), &asked), expected);
            all.put(&title, asking(&roots([one]), &[other]), absent(1));
        }
    }
    let least = roots([i32::MIN]);
    all.put("2/13: the least id", asking(&least, &[i32::MIN, 0]), {
        Expected::Slots(vec![Some(0), None])
    });
}

/// 7 where equal ids stand far apart, among ids that share their bits.
fn equal_ids(all: &mut Cases) {
    let with = |mut ids: Vec<i32>, at: usize, id: i32| {
        ids[at] = id;
        roots(ids)
    };
    let title = "2/13: 7, far behind the first";
    for bit in [10, 22] {
        let base = with(multiples(300, bit), 299, 0);
        all.put(title, asking(&base, &[]), refused(7, 0, 299));
        let base = with(multiples(300, bit), 211, 7 << bit);
        all.put(title, id(&base, 1), refused(7, 0, 211));
    }
    let mut ids = multiples(300, 22);
    (ids[250], ids[249]) = (5 << 22, 6 << 22);
    let title = "2/13: 7, the first place of two";
    all.put(title, asking(&roots(ids.clone()), &[1]), refused(7, 0, 249));
    (ids[0], ids[1]) = (1 << 22, 0);
    all.put(title, asking(&roots(ids), &[1]), refused(7, 0, 249));
    let last = with(multiples(1_024, 22), 1_023, 511 << 22);
    all.put("2/13: 7, the last of 1,024", asking(&last, &[]), refused(7, 0, 1_023));
    for again in [0, 1 << 31, 1 << 10] {
        let ids: Vec<i32> = ever_more().into_iter().chain([again]).collect();
        all.put("2/13: 7, by all bits", asking(&roots(ids), &[0]), refused(7, 0, 23));
    }
    let apart = roots([1 << 31, 1 << 30, 0, 1 << 31]);
    all.put("2/13: 7, the least id twice", asking(&apart, &[]), refused(7, 0, 3));
}

/// The entries that search ids themselves, over ids that share their bits.
fn other_entries(all: &mut Cases) {
    for (what, known) in [("2 to the 22", multiples(30, 22)), ("ever more bits", ever_more())] {
        let title = |entry: &str| format!("2/13: {entry}, ids by {what}");
        let base = roots(known.clone());
        let (one, two, last_slot) = (known[7], known[22], known.len() as u32 - 1);
        let end = known[known.len() - 1];
        all.put(&title("an id"), id(&base, end), Expected::Found(end, last_slot));
        all.put(&title("no id"), id(&base, end ^ 1), Expected::Nothing);
        let nested = [s(known[0], "s", base[1..].to_vec())];
        all.put(&title("a parent"), parent(&nested, end), Expected::Found(known[0], 0));
        all.put(&title("no parent"), parent(&nested, known[0]), Expected::Nothing);
        all.put(&title("pruning"), prune(&base, &[two, one, one ^ 1]), ids(&[one, two]));
        let needed: Vec<Node> = base.iter().cloned().map(required).collect();
        let numbers: Vec<i32> = (5..5 + known.len() as i32).collect();
        let case = renumber(&needed, &[end, one, two, one], 5);
        all.put(&title("renumbering"), case, ids(&numbers));
        let case = renumber(&needed, &[end, one ^ 1], 5);
        all.put(&title("9 of a renumbering"), case, refused(9, 5, 1));
        let mut left = known.clone();
        left.remove(7);
        left.push(3);
        let case = update_of(&needed, &[two, end], 2, &["7"], &[(None, p(0, "n"))]);
        all.put(&title("an update"), case, last(&left, 3));
        let case = update_of(&needed, &[two, one], 2, &["7"], &[]);
        all.put(&title("12 of an update"), case, refused(12, 2, 0));
        let case = update(&base, one.wrapping_sub(1), &["3"], &[(None, p(0, "n"))]);
        all.put(&title("7 of a rebuilt tree"), case, refused(7, 4, last_slot));
        let case = update(&base, one.wrapping_sub(1), &["7"], &[(None, p(0, "n"))]);
        let mut left = known.clone();
        left.remove(7);
        left.push(one);
        all.put(&title("an id handed out again"), case, last(&left, one));
    }
}
