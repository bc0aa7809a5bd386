//! Points where 01's text admits more than one reading, by number, each with the reading taken.

use super::identifiers::keyed;
use super::*;
use crate::build::{entry, the_tree};

pub fn put(all: &mut Cases) {
    sizes(all);
    name_sums(all);
    whole_lists(all);
    lengths(all);
    bytes(all);
    levels(all);
    ids_and_names(all);
    requests(all);
    taken_names(all);
    parents(all);
    numbers(all);
    rebuilding(all);
    written(all);
    look_ups(all);
    ids_and_parents(all);
    names(all);
    pruning(all);
    maps(all);
    lister(all);
}

fn sizes(all: &mut Cases) {
    let identifier_bytes = |given: usize, room: usize| {
        but(renumber(&[], &[], 1), |case| {
            if let Ask::Renumber { identifiers, out_identifiers, .. } = &mut case.ask {
                (*identifiers, *out_identifiers) = (vec![0; given], room);
            }
        })
    };
    let title = "reading 1: 1 comes before no whole number";
    all.put(title, identifier_bytes(3, 2), refused(1, 0, 0));
    all.put(title, identifier_bytes(3, 3), refused(2, 0, 0));
    let buffers = |records: usize, names: usize| {
        but(prune(&[], &[]), |case| {
            if let Ask::Prune { out_records, out_names, .. } = &mut case.ask {
                (*out_records, *out_names) = (records, names);
            }
        })
    };
    let title = "reading 2: a buffer below its size, though the answer is empty";
    all.put(title, buffers(24_575, 32_768), refused(1, 0, 0));
    all.put(title, buffers(24_576, 32_767), refused(1, 0, 0));
    all.put(title, buffers(0, 0), refused(1, 0, 0));
    all.put("reading 2: buffers of exactly their size", buffers(24_576, 32_768), ids(&[]));
}

fn name_sums(all: &mut Cases) {
    let records = |count: usize, kind: u8, offset: u32| {
        but(id(&[], 1), |case| {
            let mut record = [0; 24];
            record[4..8].copy_from_slice(&offset.to_le_bytes());
            (record[8], record[9]) = (255, kind);
            case.records = record.repeat(count);
            case.pool = vec![b'x'; 255];
        })
    };
    let title = "reading 3: the name sum is that of the length bytes, whatever else is broken";
    all.put(title, records(129, 9, u32::MAX), refused(2, 0, 0));
    all.put(title, records(128, 9, u32::MAX), refused(3, 0, 0));
    all.put("reading 4: a shared name counts each time", records(129, 0, 0), refused(2, 0, 0));
    all.put("reading 4: a sum that passes", records(128, 0, 0), refused(7, 0, 1));
    let deep = but(id(&[chain(17)], 1), |case| case.records[16 * 24 + 11] = 1);
    all.put("reading 5: levels are no part of 2", deep, refused(3, 0, 16));
}

fn lengths(all: &mut Cases) {
    let long = but(update(&[], 0, &["a"], &[]), |case| {
        let [deletions, ..] = request_of(case);
        *deletions = entry(0, 40_000, 1).to_vec();
    });
    all.put("reading 7: a path's length has no limit of its own", long, refused(4, 2, 0));
    let name = "a".repeat(33_000);
    all.put(
        "reading 8: a name asked for has no limit",
        super::name(&[p(1, "a")], &name),
        Expected::Nothing,
    );
    all.put("reading 9: the lister refuses too", list(&[p(1, "a"), p(2, "a")]), refused(8, 0, 1));
    let broken = but(id(&the_tree(), 1), |case| case.records[9 * 24 + 11] = 1);
    all.put("reading 10: a fault behind the answer", broken, refused(3, 0, 9));
    all.put(
        "reading 11: 2 says list 0, place 0",
        renumber(&[p(1, "a")], &[1; 65], 1),
        refused(2, 0, 0),
    );
    all.put(
        "reading 11: 64 identifiers pass",
        renumber(&[required(p(1, "a"))], &[1; 64], 7),
        ids(&[7]),
    );
}

fn whole_lists(all: &mut Cases) {
    let title = "reading 6: a list is a whole number of its parts";
    let selected = but(prune(&[p(1, "a")], &[1]), |case| {
        if let Ask::Prune { selected, .. } = &mut case.ask {
            selected.push(0);
        }
    });
    all.put(title, selected, refused(2, 0, 0));
    all.put(title, but(id(&[p(1, "a")], 1), |case| case.records.push(0)), refused(2, 0, 0));
    for at in 0..3 {
        let case = update(&[p(1, "a")], 1, &["a"], &[(None, p(0, "b"))]);
        let case = but(case, |case| request_of(case)[at].push(0));
        all.put(title, case, refused(2, 0, 0));
    }
    let identifiers = but(update(&[p(1, "a")], 1, &[], &[]), |case| {
        if let Ask::Update { identifiers, .. } = &mut case.ask {
            identifiers.extend([1, 0, 0]);
        }
    });
    all.put(title, identifiers, refused(2, 0, 0));
}

fn bytes(all: &mut Cases) {
    let two = but(id(&[p(9, "z"), l(1, "l", p(2, "element")), p(3, "a")], 1), |case| {
        case.records[24 + 12] = 2
    });
    all.put("reading 12: the children of a kind are a byte rule", two, refused(3, 0, 1));
    let title = "reading 13: an addition without a path has offset and length 0";
    for (offset, length) in [(1, 0), (0, 1), (9, 9)] {
        let case = but(update(&[], 0, &[], &[(None, p(0, "b"))]), |case| {
            *request_of(case)[1] = entry(offset, length, 0).to_vec();
        });
        all.put(title, case, refused(3, 3, 0));
    }
    let case = but(update(&[p(1, "")], 1, &[""], &[]), |case| request_of(case)[0][6] = 0);
    all.put("reading 14: a deletion has a path", case, refused(3, 2, 0));
    let title = "reading 15: a path of no bytes is a path";
    all.put(title, update(&[p(1, ""), p(2, "a")], 2, &[""], &[]), last(&[2], 2));
    all.put(title, update(&[p(2, "a")], 2, &[""], &[]), refused(11, 2, 0));
    all.put(title, update(&[p(2, "a")], 2, &[], &[(Some(""), p(0, "b"))]), refused(15, 3, 0));
    let empty = s(1, "", vec![]);
    all.put(title, update(&[empty], 1, &[], &[(Some(""), p(0, "b"))]), last(&[1, 2], 2));
    let free = [
        with_default(l(1, "l", with_default(p(2, "element")))),
        m(3, "m", with_default(p(4, "key")), p(5, "value")),
    ];
    let lines = "0 1 - l\n1 2 1 l.element\n2 3 - m\n3 4 3 m.key\n4 5 3 m.value\n";
    all.put(
        "reading 16: type code 0, an optional key, a list's default",
        list(&free),
        Expected::Lines(lines),
    );
    let at = |offset: u8, length: u8| {
        but(id(&[p(1, "abc")], 1), |case| (case.records[4], case.records[8]) = (offset, length))
    };
    all.put("reading 17: an empty name at the pool's end", at(3, 0), Expected::Found(1, 0));
    all.put("reading 17: an empty name one past the pool's end", at(4, 0), refused(4, 0, 0));
    let wraps = but(id(&[p(1, "a")], 1), |case| case.records[4..8].fill(255));
    all.put("reading 18: offset and length do not wrap", wraps, refused(4, 0, 0));
}

fn levels(all: &mut Cases) {
    all.put(
        "reading 19: the record that stands at level 17",
        id(&[chain(17)], 1),
        refused(5, 0, 16),
    );
    all.put("reading 19: 16 levels", id(&[chain(16)], 16), Expected::Found(16, 15));
    let behind = [p(40, "a"), chain(17), p(41, "b")];
    all.put("reading 19: the slot, not the level", id(&behind, 1), refused(5, 0, 17));
    let asks = |root: Node, slot: usize, children: u8| {
        but(id(&[root], 1), |case| case.records[slot * 24 + 12] = children)
    };
    all.put(
        "reading 20: level 16 asks for a child, and the list ends",
        asks(chain(16), 15, 1),
        refused(5, 0, 16),
    );
    all.put("reading 20: counts need records past the end", asks(chain(2), 1, 1), refused(5, 0, 2));
    let both = but(id(&[chain(17), s(50, "z", vec![])], 1), |case| case.records[17 * 24 + 12] = 3);
    all.put("reading 21: level 17 before short counts", both, refused(5, 0, 16));
    all.put(
        "reading 22: names of elements are bytes",
        id(&[l(1, "l", p(2, "Element"))], 1),
        refused(6, 0, 1),
    );
    let key = m(1, "m", p(2, "value"), p(3, "key"));
    all.put("reading 22: key, then value", id(&[key], 1), refused(6, 0, 1));
    let value = m(1, "m", p(2, "key"), p(3, "key"));
    all.put("reading 22: the value's own slot", id(&[value], 1), refused(6, 0, 2));
    let added = s(0, "n", vec![l(0, "l", p(0, "items"))]);
    all.put(
        "reading 23: 6 in the additions tree",
        update(&[], 0, &[], &[(None, added)]),
        refused(6, 1, 2),
    );
    all.put(
        "reading 23: a root called element",
        update(&[], 0, &[], &[(None, p(0, "element"))]),
        last(&[1], 1),
    );
    let deep = update(&[], 0, &[], &[(None, chain(17))]);
    all.put("a level fault in the additions tree", deep, refused(5, 1, 16));
}

fn ids_and_names(all: &mut Cases) {
    let twice = [s(1, "a", vec![p(2, "x")]), s(3, "a", vec![p(4, "x")])];
    all.put("reading 24: 8 at the lowest slot", id(&twice, 1), refused(8, 0, 2));
    let dotted = [p(1, "a.b"), s(2, "a", vec![p(3, "b")])];
    all.put("reading 26: full names are joined bytes", id(&dotted, 1), refused(8, 0, 2));
    let t = the_tree();
    let under = [(Some("node"), p(0, "x"))];
    all.put(
        "reading 27: 7 of a rebuilt tree at the later slot",
        update(&t, 1, &[], &under),
        refused(7, 4, 4),
    );
    let gone = update_of(&keyed(), &[2, 5], 10, &["node"], &[]);
    all.put("reading 28: 9 of a rebuilt tree has list 5", gone, refused(9, 5, 1));
    let base = [required(s(1, "node", vec![required(p(5, "cost"))])), p(2, "z")];
    let gone = update_of(&base, &[5], 5, &["node"], &[]);
    all.put("9 on a rebuilt tree", gone, refused(9, 5, 0));
    let again = |x: Node| update_of(&base, &[5], 4, &["node"], &[(None, x)]);
    all.put("reading 29: an identifier's id handed out again", again(p(0, "x")), refused(9, 5, 0));
    let fits = required(with_default(p(0, "x")));
    all.put("reading 29: handed out to a column that can be one", again(fits), last(&[2, 5], 5));
    all.put(
        "reading 30: the last id may be below every id",
        update(&t, 3, &[], &[]),
        last(&[1, 4, 5, 2, 6, 7, 3, 8, 9, 10], 3),
    );
    all.put("9 of a base", renumber(&keyed(), &[2, 11, 12], 1), refused(9, 5, 1));
    all.put("7 of a base", id(&[p(1, "a"), p(2, "b"), p(1, "c"), p(2, "d")], 1), refused(7, 0, 2));
}

fn requests(all: &mut Cases) {
    let t = the_tree();
    let shorter =
        but(update(&t, 10, &["nothing"], &[(None, p(0, "b"))]), |case| request_of(case)[1].clear());
    all.put("reading 31: 10 before any deletion", shorter, refused(10, 3, 0));
    let two = s(0, "n", vec![p(0, "x")]);
    all.put(
        "reading 31: roots are counted, not records",
        update(&[], 0, &[], &[(None, two)]),
        last(&[1, 2], 2),
    );
    let longer =
        but(update(&[], 0, &[], &[]), |case| *request_of(case)[1] = entry(0, 0, 0).to_vec());
    all.put("reading 31: an addition without a tree", longer, refused(10, 3, 0));
    let base = [required(p(5, "cost")), p(6, "b")];
    let drop = |paths: &[&str]| update_of(&base, &[5], 10, paths, &[]);
    all.put(
        "reading 32: 12 of the first before 11 of the second",
        drop(&["cost", "nothing"]),
        refused(12, 2, 0),
    );
    all.put(
        "reading 32: 11 of the first before 12 of the second",
        drop(&["nothing", "cost"]),
        refused(11, 2, 0),
    );
    all.put("reading 32: the second of two", drop(&["b", "cost"]), refused(12, 2, 1));
    let node = [required(s(1, "node", vec![required(p(5, "cost"))]))];
    all.put(
        "reading 33: 12 for the found column only",
        update_of(&node, &[5], 5, &["node"], &[]),
        refused(9, 5, 0),
    );
    let inner = s(0, "s", vec![p(0, "a.b"), required(p(0, "c"))]);
    all.put(
        "reading 34: 13 and 14 look at the column alone",
        update(&[], 0, &[], &[(None, inner)]),
        last(&[1, 2, 3], 3),
    );
}

fn taken_names(all: &mut Cases) {
    let t = the_tree();
    let dropped = update(&t, 10, &["node"], &[(Some("node"), p(0, "x"))]);
    all.put("reading 35: a dropped parent is found, and then refused", dropped, refused(22, 3, 0));
    let child = update(&[], 0, &[], &[(None, s(0, "n", vec![])), (Some("n"), p(0, "x"))]);
    all.put("reading 35: an addition is no parent", child, refused(15, 3, 1));
    let twin = update(&[], 0, &[], &[(None, p(0, "n")), (None, p(0, "n"))]);
    all.put("reading 35: an addition takes no name", twin, refused(8, 4, 1));
    let short = update(&t, 10, &[], &[(None, p(0, "day"))]);
    all.put(
        "reading 36: short names take no name at the root",
        short,
        last(&[1, 4, 5, 2, 6, 7, 3, 8, 9, 10, 11], 11),
    );
    let below = update(&t, 10, &["visits"], &[(Some("visits"), p(0, "day"))]);
    all.put("reading 37: beneath a dropped list no name is asked for", below, refused(22, 3, 0));
    let freed = update(&t, 10, &["node"], &[(Some("node"), p(0, "cost"))]);
    all.put("reading 37: beneath a dropped struct no name is asked for", freed, refused(22, 3, 0));
    all.put("17 at the root", update(&t, 10, &[], &[(None, p(0, "parts"))]), refused(17, 3, 0));
    all.put(
        "17 under a parent",
        update(&t, 10, &[], &[(Some("node"), p(0, "cost"))]),
        refused(17, 3, 0),
    );
    let back = update(&t, 10, &["visits"], &[(None, p(0, "visits"))]);
    all.put("a dropped root's name is free", back, last(&[1, 4, 5, 3, 8, 9, 10, 11], 11));
}

fn parents(all: &mut Cases) {
    let base = [
        l(1, "ll", l(2, "element", s(3, "element", vec![]))),
        m(4, "mk", s(5, "key", vec![]), p(6, "value")),
        m(7, "mm", p(8, "key"), m(9, "value", p(10, "key"), s(11, "value", vec![]))),
        p(12, "p"),
    ];
    let under = |path: &str| update(&base, 12, &[], &[(Some(path), p(0, "n"))]);
    for path in ["ll", "mk", "mk.value", "mm", "mm.key", "p"] {
        all.put("reading 38: one step only", under(path), refused(16, 3, 0));
    }
    all.put("reading 38: nothing below a primitive", under("p.x"), refused(15, 3, 0));
    let ll = ids(&[1, 2, 3, 13, 4, 5, 6, 7, 8, 9, 10, 11, 12]);
    all.put("reading 38: the inner list", under("ll.element"), ll.clone());
    all.put("reading 38: the struct itself", under("ll.element.element"), ll);
    let key = ids(&[1, 2, 3, 4, 5, 13, 6, 7, 8, 9, 10, 11, 12]);
    all.put("reading 38: a key struct by its own path", under("mk.key"), key);
    let value = ids(&[1, 2, 3, 4, 5, 6, 7, 8, 9, 10, 11, 13, 12]);
    all.put("reading 38: the inner map", under("mm.value"), value);
}

fn numbers(all: &mut Cases) {
    let a = [p(1, "a")];
    let one = |last_id: i32| update(&a, last_id, &[], &[(None, p(0, "b"))]);
    let most = i32::MAX;
    all.put("reading 39: the largest id may be consumed", one(most - 1), last(&[1, most], most));
    all.put("reading 39: and none above it", one(most), refused(18, 3, 0));
    let added = [(Some("s"), p(0, "x")), (None, p(0, "y")), (None, p(0, "z"))];
    let dropped = update(&[s(1, "s", vec![])], most - 1, &["s"], &added);
    all.put("reading 40: 22 before 18 of a later addition", dropped, refused(22, 3, 0));
    let tree = s(0, "t", vec![p(0, "x"), p(0, "y")]);
    let whole = update(&a, most - 2, &[], &[(None, tree)]);
    all.put("reading 40: 18 counts every record", whole, refused(18, 3, 0));
    all.put(
        "reading 41: renumbering an empty tree from the edge",
        renumber(&[], &[], most),
        ids(&[]),
    );
    all.put("reading 41: one record from the edge", renumber(&a, &[], most), refused(18, 0, 0));
    all.put("reading 41: one record up to the edge", renumber(&a, &[], most - 1), ids(&[most - 1]));
    all.put(
        "reading 42: a start below 0",
        renumber(&[p(1, "a"), p(2, "b")], &[], -1),
        ids(&[-1, 0]),
    );
    all.put("reading 42: a last id below 0", one(-1), last(&[1, 0], 0));
    all.put("reading 42: the least last id", one(i32::MIN), last(&[1, i32::MIN + 1], i32::MIN + 1));
    let gone = update(&[s(1, "s", vec![]), p(9, "k")], 20, &["s"], &[(Some("s"), p(0, "x"))]);
    all.put("reading 43: no id is consumed for what would be nowhere", gone, refused(22, 3, 0));
}

fn rebuilding(all: &mut Cases) {
    let deep = update(
        &[chain(16)],
        16,
        &[],
        &[
            (Some("s.s.s.s.s.s.s.s.s.s.s.s.s.s.s.s"), p(0, "x")),
            (Some("s.s.s.s.s.s.s.s.s.s.s.s.s.s.s.s"), p(0, "x")),
        ],
    );
    all.put("reading 45: 19 before 8 of the rebuilt tree", deep, refused(19, 4, 0));
    let past = update(
        &[chain(16)],
        i32::MAX,
        &[],
        &[(Some("s.s.s.s.s.s.s.s.s.s.s.s.s.s.s.s"), p(0, "x"))],
    );
    all.put("reading 45: 18 before 19", past, refused(18, 3, 0));
    let base = [
        l(1, "l", s(2, "element", vec![p(3, "a"), p(4, "b")])),
        m(5, "m", s(6, "key", vec![p(7, "k")]), s(8, "value", vec![p(9, "v")])),
    ];
    let both = update(&base, 9, &["l.element", "l.a"], &[]);
    all.put(
        "reading 46: a dropped element stays, its dropped member goes",
        both,
        last(&[1, 2, 4, 5, 6, 7, 8, 9], 9),
    );
    let kept = update(&base, 9, &["l.element", "m.key", "m.value"], &[]);
    all.put("reading 46: element, key and value stay", kept, last(&[1, 2, 3, 4, 5, 6, 7, 8, 9], 9));
    let under = update(
        &base,
        9,
        &["l.element", "m.key", "m.value"],
        &[(Some("l"), p(0, "n")), (Some("m.key"), p(0, "n")), (Some("m"), p(0, "n"))],
    );
    all.put(
        "reading 47: additions under a dropped element stay",
        under,
        last(&[1, 2, 3, 4, 10, 5, 6, 7, 11, 8, 9, 12], 12),
    );
}

fn written(all: &mut Cases) {
    all.put(
        "reading 48: an empty name has the running offset",
        renumber(&[p(1, "a"), p(2, ""), p(3, "b")], &[], 1),
        ids(&[1, 2, 3]),
    );
    let shared =
        but(renumber(&[l(1, "l", p(2, "element")), l(3, "k", p(4, "element"))], &[], 1), |case| {
            let first = case.records[24 + 4..24 + 8].to_vec();
            case.records[72 + 4..72 + 8].copy_from_slice(&first);
            case.pool.truncate(9);
        });
    all.put("reading 49: a shared name is copied once for each record", shared, ids(&[1, 3, 2, 4]));
    let refusal = but(prune(&the_tree(), &[2]), |case| {
        if let Ask::Prune { out_records, out_names, .. } = &mut case.ask {
            (*out_records, *out_names) = (25_000, 33_000);
        }
    });
    all.put("reading 50: a refusal leaves larger buffers alone", refusal, refused(20, 0, 3));
    let nothing = update(&the_tree(), 10, &["node", "visits", "parts"], &[]);
    all.put("reading 50: an empty answer writes nothing", nothing, last(&[], 10));
}

fn look_ups(all: &mut Cases) {
    let map = m(3, "m", p(4, "key"), s(5, "value", vec![p(6, "key"), p(7, "value")]));
    let base = [l(1, "l", s(2, "element", vec![map]))];
    all.put(
        "reading 51: a key is entered after the value's inside",
        name(&base, "l.m.key"),
        Expected::Found(6, 5),
    );
    all.put(
        "reading 51: the value after its inside",
        name(&base, "l.m.value"),
        Expected::Found(7, 6),
    );
    all.put(
        "reading 51: the key by its full name",
        name(&base, "l.element.m.key"),
        Expected::Found(4, 3),
    );
    let base =
        [l(1, "b", s(2, "element", vec![l(5, "a", s(3, "element", vec![p(4, "element")]))]))];
    all.put(
        "reading 52: a record is entered after its inside",
        name(&base, "b.a.element"),
        Expected::Found(4, 4),
    );
    let a = l(3, "element", s(4, "element", vec![p(5, "x")]));
    let b = p(6, "element.x");
    let one = [l(1, "l", s(2, "element", vec![a.clone(), b.clone()]))];
    let two = [l(1, "l", s(2, "element", vec![b, a]))];
    all.put(
        "reading 53: among siblings with dots, the first",
        name(&one, "l.element.x"),
        Expected::Found(5, 4),
    );
    all.put(
        "reading 53: and the other way round",
        name(&two, "l.element.x"),
        Expected::Found(6, 2),
    );
    let list = [l(1, "l", s(2, "element", vec![p(3, "x")]))];
    all.put(
        "reading 54: an element keeps its own name",
        name(&list, "l.element"),
        Expected::Found(2, 1),
    );
    all.put("reading 54: the short name of its member", name(&list, "l.x"), Expected::Found(3, 2));
    let same = but(name(&[p(1, "ab"), p(2, "b")], "b"), |case| case.records[24 + 4] = 1);
    all.put("reading 55: equal bytes elsewhere in the pool", same, Expected::Found(2, 1));
}

fn ids_and_parents(all: &mut Cases) {
    let t = the_tree();
    all.put("reading 56: nothing above a root", parent(&t, 1), Expected::Nothing);
    all.put("reading 56: nothing above an unknown id", parent(&t, 11), Expected::Nothing);
    all.put("an unknown id", id(&t, 11), Expected::Nothing);
    let ends = [s(-1, "a", vec![p(0, "x"), s(i32::MIN, "b", vec![p(i32::MAX, "y")])]), p(-2, "z")];
    all.put("reading 57: -1 is no root", parent(&ends, -1), Expected::Nothing);
    all.put("reading 57: -1 is a parent", parent(&ends, 0), Expected::Found(-1, 0));
    all.put(
        "reading 57: the least id is a parent",
        parent(&ends, i32::MAX),
        Expected::Found(i32::MIN, 2),
    );
    all.put(
        "reading 57: the largest id is found",
        id(&ends, i32::MAX),
        Expected::Found(i32::MAX, 3),
    );
    let under = update(&ends, 100, &["a.b"], &[(Some("a"), p(0, "n")), (None, p(0, "n"))]);
    all.put(
        "reading 57: additions under -1 and at the root",
        under,
        last(&[-1, 0, 101, -2, 102], 102),
    );
}

fn names(all: &mut Cases) {
    let hidden = [l(1, "l", s(2, "element", vec![p(3, "x")])), p(5, "l.x")];
    all.put("a full name hides a short one", name(&hidden, "l.x"), Expected::Found(5, 3));
    let empty = [s(1, "", vec![p(2, ""), p(3, "a")]), s(4, "b", vec![p(5, "")])];
    all.put("an empty name", name(&empty, ""), Expected::Found(1, 0));
    all.put("an empty name in an empty name", name(&empty, "."), Expected::Found(2, 1));
    all.put("a member of an empty name", name(&empty, ".a"), Expected::Found(3, 2));
    all.put("an empty member", name(&empty, "b."), Expected::Found(5, 4));
    let key = [m(1, "m", s(2, "key", vec![p(3, "x")]), p(4, "value"))];
    all.put("a key stays in a short name", name(&key, "m.key.x"), Expected::Found(3, 2));
    all.put("a key is not left out", name(&key, "m.x"), Expected::Nothing);
}

fn pruning(all: &mut Cases) {
    let lk = [m(1, "m", l(2, "key", l(3, "element", p(4, "element"))), p(5, "value"))];
    all.put("reading 58: a chosen key is never 20", prune(&lk, &[2]), ids(&[1, 2, 3, 4, 5]));
    all.put("reading 58: 20 inside a key", prune(&lk, &[2, 3]), refused(20, 0, 2));
    all.put("what a key's inside yields is ignored", prune(&lk, &[4]), ids(&[]));
    let two = [m(1, "m", p(2, "key"), s(3, "value", vec![p(4, "x"), p(5, "y")]))];
    all.put("reading 59: key and value chosen", prune(&two, &[2, 3]), ids(&[1, 2, 3]));
    all.put(
        "reading 59: key and value chosen, full",
        prune_full(&two, &[2, 3]),
        ids(&[1, 2, 3, 4, 5]),
    );
    all.put("reading 59: key and a member chosen", prune(&two, &[2, 4]), ids(&[1, 2, 3, 4]));
    let ll = [l(1, "l", l(2, "element", p(3, "element")))];
    all.put("reading 60: 20 is met inside first", prune(&ll, &[1, 2]), refused(20, 0, 1));
    all.put("reading 60: the element alone", prune(&ll, &[2]), refused(20, 0, 1));
    all.put("reading 60: in full mode no 20", prune_full(&ll, &[1, 2]), ids(&[1, 2, 3]));
    all.put("reading 61: a list chosen with its element", prune(&ll, &[1, 3]), refused(20, 0, 0));
    let empty = [s(1, "s", vec![]), p(2, "a"), l(3, "l", s(4, "element", vec![]))];
    all.put("reading 62: an empty struct yields nothing", prune(&empty, &[2]), ids(&[2]));
    all.put("reading 62: in full mode neither", prune_full(&empty, &[2]), ids(&[2]));
    all.put("reading 62: a chosen empty struct", prune(&empty, &[1]), ids(&[1]));
    all.put("reading 62: a chosen empty element", prune(&empty, &[4]), ids(&[3, 4]));
    all.put("reading 63: a key's inside in full mode", prune_full(&lk, &[3]), ids(&[]));
    let wide = [l(1, "l", s(2, "element", vec![p(3, "x"), p(4, "y")]))];
    all.put("reading 64: an element with what it yielded", prune(&wide, &[4]), ids(&[1, 2, 4]));
    let both = [m(1, "m", p(2, "key"), s(3, "value", vec![])), l(4, "l", p(5, "element"))];
    all.put(
        "reading 65: 20 behind the place where Rust panics",
        prune(&both, &[3, 4]),
        refused(20, 0, 3),
    );
}

fn maps(all: &mut Cases) {
    let mm = [
        m(1, "m", l(2, "key", l(3, "element", p(4, "element"))), l(5, "value", p(6, "element"))),
        l(7, "z", p(8, "element")),
    ];
    for (chosen, place) in [(vec![1, 5], 4), (vec![1, 3, 5], 2), (vec![7, 1], 0), (vec![7, 2], 6)] {
        let title = "20: the key's inside, the value's inside and the value, then the map";
        all.put(title, prune(&mm, &chosen), refused(20, 0, place));
    }
    let key = s(2, "key", vec![p(3, "a")]);
    let value = s(4, "value", vec![p(5, "b"), p(6, "c")]);
    let sk = [m(1, "m", key, value)];
    all.put("a key is kept whole", prune(&sk, &[6]), ids(&[1, 2, 3, 4, 6]));
    all.put("a key's member yields nothing", prune(&sk, &[3]), ids(&[]));
    let flat = [m(1, "m", p(2, "key"), p(3, "value"))];
    all.put("a chosen value", prune(&flat, &[3]), ids(&[1, 2, 3]));
    all.put("a chosen map", prune(&flat, &[1, 2]), refused(20, 0, 0));
    all.put("a chosen map, full", prune_full(&flat, &[1]), ids(&[1, 2, 3]));
    all.put("unknown and repeated ids", prune(&flat, &[99, 3, -7, 3]), ids(&[1, 2, 3]));
    let number = but(prune_full(&flat, &[1]), |case| {
        if let Ask::Prune { full, .. } = &mut case.ask {
            *full = 256;
        }
    });
    all.put("any number but 0 is full", number, ids(&[1, 2, 3]));
}

fn lister(all: &mut Cases) {
    all.put("reading 66: an empty tree has no line", list(&[]), Expected::Lines(""));
    all.put(
        "reading 66: names are written as they are",
        list(&[p(1, "a\nb")]),
        Expected::Lines("0 1 - a\nb\n"),
    );
    let short = but(list(&the_tree()), |case| case.records[9 * 24 + 9] = 1);
    let short = but(short, |case| case.records[9 * 24 + 12] = 1);
    all.put("reading 66: refused 5 at 0 10", short, refused(5, 0, 10));
    let signed = [s(-1, "a", vec![p(i32::MIN, "b")])];
    all.put(
        "reading 67: ids are signed",
        list(&signed),
        Expected::Lines("0 -1 - a\n1 -2147483648 -1 a.b\n"),
    );
    let raw = but(list(&[p(1, "xy")]), |case| case.pool = vec![0xFF, 0xFE]);
    all.put(
        "a name that is not UTF-8",
        but(raw, |case| case.ask = Ask::Name(vec![0xFF, 0xFE])),
        Expected::Found(1, 0),
    );
}
