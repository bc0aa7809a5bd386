//! Faults two at a time: the order of 01 decides, wherever they stand.

use super::*;
use crate::build::the_tree;

pub fn put(all: &mut Cases) {
    in_a_base(all);
    in_an_additions_tree(all);
    in_entries(all);
    across_lists(all);
    in_one_addition(all);
    in_two_additions(all);
    in_a_rebuilt_tree(all);
    each_byte_rule(all);
}

/// Three lists; the second and the third can have a fault, at slots 2 and 4 or beneath.
fn lists() -> Vec<Node> {
    ["a", "b", "c"].iter().zip([1, 3, 5]).map(|(n, id)| l(id, n, p(id + 1, "element"))).collect()
}

/// Puts a fault into the list whose root has this slot, and answers its place.
fn break_list(case: &mut Case, slot: usize, fault: u32) -> u32 {
    let record = slot * 24;
    match fault {
        3 => case.records[record + 11] = 1,
        4 => case.records[record + 7] = 1,
        // the element's name is another part of the pool
        6 => {
            case.records[record + 24 + 4] += 1;
            return slot as u32 + 1;
        }
        7 => case.records[record] = case.records[0],
        8 => case.records[record + 4] = case.records[4],
        _ => panic!("no such fault here"),
    }
    slot as u32
}

fn in_a_base(all: &mut Cases) {
    let faults = [3, 4, 6, 7, 8];
    for (at, first) in faults.iter().enumerate() {
        for second in &faults[at + 1..] {
            for (one, two) in [(2, 4), (4, 2)] {
                let mut case = id(&lists(), 1);
                // one byte more, so that a shifted name stays within the pool
                case.pool.push(b'.');
                let place = break_list(&mut case, one, *first);
                break_list(&mut case, two, *second);
                all.put(
                    &format!("{first} and {second} in a base"),
                    case,
                    refused(*first, 0, place),
                );
            }
        }
    }
    for (fault, number) in [(3, 3), (4, 4), (6, 5), (7, 5), (8, 5)] {
        let mut base = lists();
        base.push(s(9, "z", vec![]));
        let mut case = id(&base, 1);
        case.pool.push(b'.');
        case.records[6 * 24 + 12] = 2;
        let place = break_list(&mut case, 2, fault);
        let place = if number == 5 { 7 } else { place };
        all.put(&format!("{fault} and 5 in a base"), case, refused(number, 0, place));
    }
    let case = renumber(&[p(1, "a"), p(1, "b")], &[9], 1);
    all.put("7 and 9 in a base", case, refused(7, 0, 1));
    let case = renumber(&[p(1, "a"), p(2, "a")], &[9], 1);
    all.put("8 and 9 in a base", case, refused(8, 0, 1));
    let case = renumber(&[p(1, "a")], &[9], i32::MAX);
    all.put("9 and 18 of a renumbering", case, refused(9, 5, 0));
}

fn in_an_additions_tree(all: &mut Cases) {
    for (first, second) in [(3, 4), (3, 6), (4, 6)] {
        for (one, two) in [(2, 4), (4, 2)] {
            let columns: Vec<(Option<&str>, Node)> =
                lists().into_iter().map(|l| (None, l)).collect();
            let mut case = update(&[], 0, &[], &columns);
            let mut tree = Case { ask: Ask::List, ..case.clone() };
            tree.records = request_of(&mut case)[2].clone();
            let place = break_list(&mut tree, one, first);
            break_list(&mut tree, two, second);
            *request_of(&mut case)[2] = tree.records;
            request_of(&mut case)[3].push(b'.');
            let title = format!("{first} and {second} in an additions tree");
            all.put(&title, case, refused(first, 1, place));
        }
    }
}

/// Has-path 2 is 3; an offset past the pool is 4.
fn break_entry(entries: &mut [u8], at: usize, fault: u32) {
    match fault {
        3 => entries[at * 8 + 6] = 2,
        _ => entries[at * 8 + 3] = 1,
    }
}

fn in_entries(all: &mut Cases) {
    let t = the_tree();
    let case = || {
        let added = [(Some("node"), p(0, "x")), (Some("node"), p(0, "y"))];
        update(&t, 10, &["node.cost", "visits"], &added)
    };
    for list in [2, 3] {
        for (one, two) in [(0, 1), (1, 0)] {
            let both = but(case(), |case| {
                let entries = &mut request_of(case)[list - 2][..];
                break_entry(entries, one, 3);
                break_entry(entries, two, 4);
            });
            all.put("3 and 4 in entries", both, refused(3, list as u32, one as u32));
        }
        for fault in [3, 4] {
            let single = but(case(), |case| break_entry(request_of(case)[list - 2], 1, fault));
            all.put("one fault in the second entry", single, refused(fault, list as u32, 1));
        }
        let last_byte = but(case(), |case| request_of(case)[list - 2][8 + 7] = 1);
        all.put("3: the last byte of an entry", last_byte, refused(3, list as u32, 1));
    }
    let both = but(case(), |case| {
        break_entry(request_of(case)[0], 1, 4);
        break_entry(request_of(case)[1], 0, 3);
    });
    all.put("4 of a deletion before 3 of an addition", both, refused(4, 2, 1));
}

fn across_lists(all: &mut Cases) {
    let t = the_tree();
    let case = || update(&t, 10, &["node.cost"], &[(Some("node"), p(0, "x"))]);
    let six = |case: &mut Case| case.records[4 * 24 + 8] = 6;
    let both = but(case(), |case| {
        six(case);
        request_of(case)[2][11] = 1;
    });
    all.put("6 of the base before 3 of the additions tree", both, refused(6, 0, 4));
    let both = but(case(), |case| {
        request_of(case)[2][7] = 1;
        break_entry(request_of(case)[0], 0, 3);
    });
    all.put("4 of the additions tree before 3 of a deletion", both, refused(4, 1, 0));
    let seven = |case: &mut Case| case.records[9 * 24] = 9;
    let both = but(case(), |case| {
        seven(case);
        break_entry(request_of(case)[1], 0, 4);
    });
    all.put("4 of an addition before 7 of the base", both, refused(4, 3, 0));
    let both = but(case(), |case| {
        seven(case);
        request_of(case)[1].clear();
    });
    all.put("7 of the base before 10", both, refused(7, 0, 9));
    let nine = update_of(&t, &[77], 10, &["nothing"], &[]);
    let both = but(nine, |case| *request_of(case)[1] = vec![0; 8]);
    all.put("9 of the base before 10", both, refused(9, 5, 0));
    let both = update(&t, 10, &["nothing"], &[(None, p(0, "a.b"))]);
    all.put("11 before 13", both, refused(11, 2, 0));
    let small = but(case(), |case| {
        case.records.push(0);
        if let Ask::Update { out_records, .. } = &mut case.ask {
            *out_records = 0;
        }
    });
    all.put("1 before 2", small, refused(1, 0, 0));
    let both = but(case(), |case| {
        case.records[11] = 1;
        request_of(case)[0].push(0);
    });
    all.put("2 of any list before 3 of the base", both, refused(2, 0, 0));
    let base = [required(p(5, "cost"))];
    let both = update_of(&base, &[5], 5, &["cost"], &[(None, p(0, "a.b"))]);
    all.put("12 before 13", both, refused(12, 2, 0));
}

/// Within one addition the numbers go up.
fn in_one_addition(all: &mut Cases) {
    let t = the_tree();
    let one = |last_id: i32, path: Option<&str>, column: Node| {
        update(&t, last_id, &[], &[(path, column)])
    };
    let most = i32::MAX;
    all.put("13 alone", one(10, None, p(0, "a.b")), refused(13, 3, 0));
    all.put("13 before 14", one(10, None, required(p(0, "a.b"))), refused(13, 3, 0));
    all.put("14 alone", one(10, None, required(p(0, "a"))), refused(14, 3, 0));
    all.put("14 before 15", one(10, Some("no"), required(p(0, "a"))), refused(14, 3, 0));
    all.put("15 alone", one(10, Some("no"), p(0, "a")), refused(15, 3, 0));
    all.put("15 before 18", one(most, Some("no"), p(0, "a")), refused(15, 3, 0));
    all.put("16 alone", one(10, Some("node.cost"), p(0, "a")), refused(16, 3, 0));
    all.put("16 before 18", one(most, Some("node.cost"), p(0, "a")), refused(16, 3, 0));
    all.put("17 before 18", one(most, Some("node"), p(0, "cost")), refused(17, 3, 0));
    all.put("17 at the root before 18", one(most, None, p(0, "node")), refused(17, 3, 0));
    all.put("18 alone", one(most, None, p(0, "a")), refused(18, 3, 0));
}

/// Additions are taken one at a time, so the first that is turned down decides.
fn in_two_additions(all: &mut Cases) {
    let t = the_tree();
    let faulty: [(u32, Option<&str>, Node); 5] = [
        (13, None, p(0, "a.b")),
        (14, None, required(p(0, "a"))),
        (15, Some("no"), p(0, "a")),
        (16, Some("node.cost"), p(0, "a")),
        (17, Some("node"), p(0, "cost")),
    ];
    for (number, path, column) in &faulty {
        for (_, other_path, other) in faulty.iter().filter(|other| other.0 != *number) {
            let added =
                [(None, p(0, "fine")), (*path, column.clone()), (*other_path, other.clone())];
            let case = update(&t, 10, &[], &added);
            all.put("additions one at a time", case, refused(*number, 3, 1));
        }
    }
    let added = [(None, p(0, "u")), (None, p(0, "a.b"))];
    all.put(
        "18 of one addition before 13 of the next",
        update(&t, i32::MAX, &[], &added),
        refused(18, 3, 0),
    );
}

fn in_a_rebuilt_tree(all: &mut Cases) {
    let base = [required(s(1, "s", vec![required(p(9, "i"))])), p(2, "a"), p(3, "b")];
    let two = [(None, p(0, "n")), (None, p(0, "n"))];
    let case = update(&base, 1, &[], &two);
    all.put("7 and 8 in a rebuilt tree", case, refused(7, 4, 4));
    let case = update_of(&base, &[9], 20, &["s"], &two);
    all.put("8 and 9 in a rebuilt tree", case, refused(8, 4, 3));
    let case = update_of(&base, &[9], 1, &["s"], &[(None, p(0, "n"))]);
    all.put("7 and 9 in a rebuilt tree", case, refused(7, 4, 2));
    let case = update(&[p(1, "a.b"), s(2, "a", vec![])], 3, &[], &[(Some("a"), p(0, "b"))]);
    all.put("8 and not 17 beside a dotted root", case, refused(8, 4, 2));
}

/// Every byte rule of a record and of an entry, alone.
fn each_byte_rule(all: &mut Cases) {
    let base = [
        p(1, "a"),
        l(2, "l", p(3, "element")),
        m(4, "m", p(5, "key"), p(6, "value")),
        s(7, "s", vec![]),
    ];
    let rules: [(usize, usize, u8); 14] = [
        (0, 9, 4), // a kind above 3
        (0, 9, 255),
        (0, 10, 4), // another flag
        (0, 10, 128),
        (0, 11, 1),
        (0, 12, 1), // a primitive with a child
        (0, 13, 1),
        (0, 14, 1),
        (0, 15, 1),
        (1, 12, 0), // a list without a child
        (3, 12, 1), // a map with one child
        (3, 12, 3),
        (1, 16, 1), // a type code on a list
        (6, 19, 1), // a type code on a struct
    ];
    for (slot, byte, value) in rules {
        let case = but(id(&base, 1), |case| case.records[slot * 24 + byte] = value);
        all.put("3: a byte rule of a record", case, refused(3, 0, slot as u32));
    }
    for value in [1, 2, 3] {
        let case = but(renumber(&base, &[], 10), |case| case.records[10] = value);
        all.put("the two flags", case, ids(&[10, 11, 14, 12, 15, 16, 13]));
    }
    let case = but(list(&[p(1, "a")]), |case| case.records[16..24].fill(255));
    all.put("any type code and attribute on a primitive", case, Expected::Lines("0 1 - a\n"));
    let case = but(renumber(&base, &[], 1), |case| case.records[7 * 24 - 4..7 * 24].fill(0xEE));
    all.put("an attribute is kept", case, ids(&[1, 2, 5, 3, 6, 7, 4]));
}
