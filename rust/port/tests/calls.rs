//! The frame around the C functions, and the functions on damaged bytes.

use std::sync::atomic::{AtomicUsize, Ordering};

use braidhurdle::c;
use cases::{
    Answer, Ask, ByJudge, Case, Generator, Sizes, answer, ask_of, by_version, decimal, edited,
    hash, ids_by, list_of, lists, map_of, outcome, packed, prim, prune_by, relax, rename,
    renumber_by, strukt, tag, the_tree, update_of, widen, word,
};
use judge::{DATE, DEFAULT, DOUBLE, FLOAT, INT, LONG, Node, REQUIRED, TIMESTAMP_NS};
use port::{Guarded, absent, beside_paper};

#[test]
fn fences_change_no_answer() {
    let guarded = Guarded::new(ByJudge);
    let generator = Generator { seed: 5, sizes: Sizes::Small };
    for n in 0..700 {
        let case = generator.case(n);
        assert_eq!(outcome(&case, &guarded), outcome(&case, &ByJudge), "case {n}");
        assert_eq!(guarded.stray(), None, "case {n}");
    }
}

fn required(mut node: Node) -> Node {
    node.flags |= REQUIRED;
    node
}

/// T with a column that can be an identifier: `node` and `node.button` are required.
fn keyed_t() -> Vec<Node> {
    let mut t = the_tree();
    t[0] = required(strukt(1, "node", vec![required(prim(4, "button")), prim(5, "cost")]));
    t
}

/// Every entry on T: as the base of each, and as the additions tree of an update.
fn asked_of_t() -> Vec<Case> {
    let base = || packed(&the_tree());
    let [node, visits, parts] = the_tree().try_into().expect("T has three roots");
    let under = [strukt(20, "s", vec![prim(21, "m")])];
    let two = [(Some("visits"), prim(0, "hour")), (None, prim(0, "floor"))];
    let edits = [rename("visits.day", "date"), relax("parts"), rename("node", "hour")];
    vec![
        update_of(&keyed_t(), &[4], 10, &["node.cost"], &two),
        edited(update_of(&keyed_t(), &[4], 10, &[], &two[..1]), &edits),
        update_of(&under, &[], 21, &["s.m"], &[(None, node), (Some("s"), visits), (None, parts)]),
        prune_by(base(), &[7, 9], false),
        prune_by(base(), &[2, 4], true),
        renumber_by(packed(&keyed_t()), &[4, 4], 1),
        ask_of(base(), Ask::Name(b"visits.day".to_vec())),
        ask_of(base(), Ask::Folded(b"Visits.DAY".to_vec())),
        ask_of(base(), Ask::Id(7)),
        ids_by(base(), &[7, 11, 10, 7]),
        ask_of(base(), Ask::Parent(7)),
    ]
}

/// A case with one of its lists damaged is answered as 01's text answers it.
fn same_on(case: &Case, what: &str) {
    let word = case.ask.word();
    assert_eq!(beside_paper(case, &Guarded::port()), Ok(true), "{word}: {what}\n{case:?}");
}

/// Where case is forgotten, and a byte can make two columns match: by full names and by short ones.
fn nearly_ambiguous() -> Vec<Case> {
    let members = || vec![prim(3, "Za"), prim(4, "ZB")];
    let by_full = packed(&[strukt(1, "s", members())]);
    let by_short = packed(&[list_of(1, "s", strukt(2, "element", members()))]);
    [by_full, by_short].map(|base| ask_of(base, Ask::Folded(b"S.zb".to_vec()))).into()
}

#[test]
fn one_byte_makes_two_columns_match() {
    for mut case in nearly_ambiguous() {
        let at = case.pool.iter().position(|byte| *byte == b'a').expect("the name Za");
        case.pool[at] = b'b';
        assert_eq!(answer(&case).refusal().map(|refusal| refusal.number), Some(21));
    }
}

/// Ids that share their low bits, and of which a byte can make two equal.
fn nearly_equal() -> Vec<Case> {
    let ids = [1 << 10, 1 << 22, 1 << 31, 3 << 30, 0];
    let base = packed(&ids.map(|id: i32| required(prim(id, &format!("{id}")))));
    vec![ids_by(base.clone(), &ids), ask_of(base.clone(), Ask::Id(0)), renumber_by(base, &[0], 1)]
}

#[test]
fn one_byte_makes_two_ids_equal() {
    for mut case in nearly_equal() {
        // of the fourth id, which is the third then
        case.records[3 * 24 + 3] = 128;
        assert_eq!(answer(&case).refusal().map(|r| (r.number, r.place)), Some((7, 3)));
    }
}

/// An addition beneath a dropped element, which stays, beside a dropped list: a byte can make its
/// parent go.
fn nearly_gone() -> Case {
    let list =
        |id, name| list_of(id, name, strukt(id + 1, "element", vec![strukt(id + 2, "c", vec![])]));
    let added = [(None, prim(0, "x")), (Some("b.c"), prim(0, "x"))];
    update_of(&[list(1, "a"), list(4, "b")], &[], 6, &["a", "b.element"], &added)
}

#[test]
fn one_byte_makes_a_parent_go() {
    // of the first deletion's path, and of the addition's
    for (at, byte) in [(0, b'b'), (10, b'a')] {
        let mut case = nearly_gone();
        let Ask::Update { request_pool, .. } = &mut case.ask else { panic!("an update") };
        request_pool[at] = byte;
        assert_eq!(answer(&case).refusal().map(|r| (r.number, r.place)), Some((22, 1)));
    }
}

/// A dropped member with a dropped one inside, and a dropped element, which stays, with a dropped
/// member below it: a byte can make other records visited.
fn nearly_visited() -> Case {
    let base = [
        strukt(1, "a", vec![strukt(2, "b", vec![prim(3, "c")]), prim(4, "d")]),
        list_of(5, "l", strukt(6, "element", vec![strukt(7, "s", vec![prim(8, "t")])])),
    ];
    let dropped = ["a.b", "a.b.c", "l.s", "l.element"];
    update_of(&base, &[], 8, &dropped, &[(None, strukt(0, "x", vec![prim(0, "y")]))])
}

#[test]
fn one_byte_changes_what_is_visited() {
    let visited = |case: &Case| match answer(case) {
        Answer::Updated { visited, .. } => visited,
        other => panic!("{other:?}"),
    };
    assert_eq!(visited(&nearly_visited()), 8);
    // the length of a path: all of a goes, or all of l
    for (at, count) in [(4, 6), (20, 6)] {
        let mut case = nearly_visited();
        let Ask::Update { deletions, .. } = &mut case.ask else { panic!("an update") };
        deletions[at] = 1;
        assert_eq!(visited(&case), count);
    }
    // a path's last byte: d goes in the place of b, which has an inside
    let mut case = nearly_visited();
    let Ask::Update { request_pool, .. } = &mut case.ask else { panic!("an update") };
    request_pool[2] = b'd';
    assert_eq!(visited(&case), 9);
}

/// Edits of which a byte can break a rule: beside a dropped column and an added one, of a map with a
/// required key, and of an identifier that is required.
fn nearly_edited() -> Case {
    let map = map_of(3, "m", required(prim(4, "key")), required(prim(5, "value")));
    let base = [required(prim(1, "a")), prim(2, "b"), map, required(prim(6, "c"))];
    let case = update_of(&base, &[1], 6, &["b"], &[(None, prim(0, "d"))]);
    edited(case, &[rename("a", "e"), relax("m.value"), rename("c", "b"), relax("c")])
}

#[test]
fn one_byte_breaks_an_edit() {
    // the request pool holds: b, d, a, e, m.value, c, b, c
    let pool = b"bdaem.valuecbc";
    for (at, byte, told) in [
        (2, b'b', (23, 6, 0)),
        (2, b'x', (23, 6, 0)),
        (2, b'c', (24, 6, 2)),
        (3, b'.', (13, 6, 0)),
        (3, b'd', (8, 4, 5)),
        (3, b'm', (8, 4, 1)),
        (11, b'e', (23, 6, 2)),
        (12, b'e', (8, 4, 4)),
        (13, b'a', (9, 5, 0)),
        (13, b'b', (23, 6, 3)),
    ] {
        let mut case = nearly_edited();
        let Ask::Update { request_pool, .. } = &mut case.ask else { panic!("an update") };
        assert_eq!(request_pool, pool);
        request_pool[at] = byte;
        let refusal = answer(&case).refusal().map(|r| (r.number, r.list, r.place));
        assert_eq!(refusal, Some(told), "byte {at}: {byte}");
    }
}

/// Widenings of which a byte can break a rule: of a root that is an identifier, a struct's member, a
/// key, a value and an element, by version 3; one of them is renamed and one relaxed.
fn nearly_widened() -> Case {
    let typed = |code: u32, mut column: Node| {
        column.type_code = code;
        column
    };
    let base = [
        required(typed(INT, prim(1, "a"))),
        strukt(2, "s", vec![typed(FLOAT, prim(3, "b"))]),
        map_of(4, "m", typed(INT, prim(5, "key")), typed(decimal(9, 2), prim(6, "value"))),
        list_of(7, "l", typed(DATE, prim(8, "element"))),
    ];
    let edits = [
        widen("a", LONG),
        widen("s.b", DOUBLE),
        rename("s.b", "c"),
        widen("m.key", LONG),
        widen("m.value", decimal(10, 2)),
        relax("m.value"),
        widen("l.element", TIMESTAMP_NS),
    ];
    by_version(3, edited(update_of(&base, &[1], 8, &[], &[]), &edits))
}

#[test]
fn one_byte_breaks_a_widening() {
    // a byte of the edits, its value, and what is told
    for (at, value, told) in [
        (8, 4, (26, 6, 0)),
        (8, 2, (26, 6, 0)),
        (11, 1, (26, 6, 0)),
        (12, 1, (3, 6, 0)),
        (6, 4, (3, 6, 0)),
        (0, 2, (23, 6, 0)),
        (3, 1, (4, 6, 0)),
        (16 + 8, 5, (26, 6, 1)),
        (4 * 16 + 8, 3, (26, 6, 4)),
        (4 * 16 + 9, 9, (26, 6, 4)),
        (4 * 16 + 9, 39, (26, 6, 4)),
        // a second widening, to 0
        (5 * 16 + 6, 3, (24, 6, 5)),
        (6 * 16 + 8, 6, (26, 6, 6)),
    ] {
        let mut case = nearly_widened();
        let Ask::Update { edits, .. } = &mut case.ask else { panic!("an update") };
        edits[at] = value;
        let refusal = answer(&case).refusal().map(|r| (r.number, r.list, r.place));
        assert_eq!(refusal, Some(told), "byte {at}: {value}");
    }
    let case = by_version(2, nearly_widened());
    assert_eq!(answer(&case).refusal().map(|r| (r.number, r.place)), Some((26, 6)));
}

/// Identifiers of which a byte can break a condition: of a column or of what is above it, in a base
/// and in a rebuilt tree, where an id is given again beneath two structs.
fn nearly_broken() -> Vec<Case> {
    let node = required(strukt(1, "n", vec![required(prim(9, "i"))]));
    let held = required(strukt(2, "s", vec![required(strukt(3, "t", vec![]))]));
    let mut column = required(prim(0, "x"));
    column.flags |= DEFAULT;
    let base = [node, held, required(prim(4, "j"))];
    let again = [(Some("s.t"), column)];
    vec![update_of(&base, &[4, 9], 8, &["n"], &again), renumber_by(packed(&base), &[9, 4], 1)]
}

#[test]
fn one_byte_breaks_a_condition_of_an_identifier() {
    let [update, renumbering] = nearly_broken().try_into().expect("two cases");
    let nine = |case: &Case| answer(case).refusal().map(|r| (r.number, r.list, r.place));
    // a byte of a record, its value, and the place: `s` and `t` stand above the new column alone
    for (slot, byte, value, place) in
        [(2, 10, 0, 1), (3, 10, 2, 1), (4, 10, 0, 0), (4, 16, 5, 0), (4, 9, 1, 0), (0, 10, 0, 1)]
    {
        let mut case = update.clone();
        case.records[slot * 24 + byte] = value;
        assert_eq!(nine(&case), Some((9, 5, place)), "byte {byte} of slot {slot}");
    }
    for (byte, value) in [(10, 2), (16, 5), (16, 6), (9, 1)] {
        let mut case = update.clone();
        let Ask::Update { added_records, .. } = &mut case.ask else { panic!("an update") };
        added_records[byte] = value;
        assert_eq!(nine(&case), Some((9, 5, 1)), "byte {byte} of the new column");
    }
    for (slot, byte, value, place) in [(0, 10, 2, 0), (1, 10, 0, 0), (1, 16, 6, 0), (4, 10, 0, 1)] {
        let mut case = renumbering.clone();
        case.records[slot * 24 + byte] = value;
        assert_eq!(nine(&case), Some((9, 5, place)), "byte {byte} of slot {slot}");
    }
}

/// Each byte of each list through all values, each list cut after each byte, and other versions.
fn damaged_everywhere(case: &Case) {
    for at in 0..lists(&mut case.clone()).len() {
        let damaged = |damage: &dyn Fn(&mut Vec<u8>)| {
            let mut case = case.clone();
            damage(lists(&mut case)[at].0);
            case
        };
        let bytes = lists(&mut case.clone())[at].0.len();
        for byte in 0..bytes {
            for value in 0..=255 {
                let what = format!("byte {byte} of list {at} is {value}");
                same_on(&damaged(&|list| list[byte] = value), &what);
            }
            same_on(&damaged(&|list| list.truncate(byte)), &format!("list {at} ends at {byte}"));
        }
    }
    if let Some(version) = case.update_call().map(|call| call.version) {
        for other in (0..32).map(|bit| version ^ 1 << bit).chain(0..=255) {
            same_on(&by_version(other, case.clone()), &format!("version {other}"));
        }
    }
}

#[test]
fn trees_damaged_in_every_byte_get_the_texts_answer_from_every_entry() {
    if let Some(why) = absent() {
        println!("T was not put to the port: {why}");
        return;
    }
    let nearly =
        [nearly_ambiguous(), nearly_equal(), vec![nearly_gone(), nearly_edited()], nearly_broken()];
    let updates = vec![nearly_widened(), nearly_visited()];
    let cases = [asked_of_t(), nearly.concat(), updates].concat();
    let next = AtomicUsize::new(0);
    let threads = std::thread::available_parallelism().map_or(1, usize::from);
    std::thread::scope(|scope| {
        for _ in 0..threads {
            scope.spawn(|| {
                while let Some(case) = cases.get(next.fetch_add(1, Ordering::Relaxed)) {
                    assert_eq!(answer(case).refusal(), None);
                    same_on(case, "undamaged");
                    damaged_everywhere(case);
                }
            });
        }
    });
}

/// A column of each code to each, by each version: the table, decimals at their edges, and codes
/// beside them.
#[test]
fn every_pair_of_codes_gets_the_texts_answer() {
    if let Some(why) = absent() {
        println!("no pair was put to the port: {why}");
        return;
    }
    let digits = [0, 1, 2, 9, 10, 37, 38, 39, 255];
    let decimals = digits.iter().flat_map(|p| digits.map(|s| decimal(*p, s)));
    let others = [255, 256, 256 + INT, 1 << 15, 1 << 17, (1 << 17) + 2_306, 1 << 24, u32::MAX];
    let codes: Vec<u32> = (0..=12).chain(decimals).chain(others).collect();
    let port = Guarded::port();
    for (old, new) in codes.iter().flat_map(|old| codes.iter().map(move |new| (*old, *new))) {
        let mut base = [prim(1, "a")];
        base[0].type_code = old;
        let case = edited(update_of(&base, &[], 1, &[], &[]), &[widen("a", new)]);
        for version in [2, 3] {
            let case = by_version(version, case.clone());
            assert_eq!(beside_paper(&case, &port), Ok(true), "{old} to {new} by {version}");
        }
    }
}

/// 01's table: the name's offset and length of the record at a slot, and what 4 asks of them.
fn name_by_text(records: &[u8], pool: &[u8], slot: u32) -> c::Name {
    let Some(record) = records.chunks_exact(24).nth(slot as usize) else {
        return c::Name::default();
    };
    let offset = u32::from_le_bytes(record[4..8].try_into().expect("four bytes"));
    let length = u32::from(record[8]);
    if u64::from(offset) + u64::from(length) > pool.len() as u64 {
        return c::Name { refusal: 4, place: slot, ..c::Name::default() };
    }
    c::Name { found: 1, offset, length, ..c::Name::default() }
}

/// Names of so many letters that share a tag, so that the port compares them byte by byte: those
/// that differ at the end, and those that differ at the front.
fn of_one_tag(letters: usize) -> [Vec<Vec<u8>>; 2] {
    let some = |turned: bool| {
        let name = |n| {
            let mut name = [vec![b'0'; letters - 4], word(n, 4)].concat();
            if turned {
                name.reverse();
            }
            name
        };
        let first = tag(hash(&name(0), 0));
        (0..).map(name).filter(|name| tag(hash(name, 0)) == first).take(20).collect()
    };
    [some(false), some(true)]
}

/// Four to seven letters are compared as two words, eight to fifteen as two halves of a block, more
/// in blocks: so many names of one tag are sorted, and each is found, and found to be there twice.
#[test]
fn names_of_one_tag_are_told_apart_whatever_their_length() {
    if let Some(why) = absent() {
        println!("no name was put to the port: {why}");
        return;
    }
    let port = Guarded::port();
    let agree = |case: Case| assert_eq!(beside_paper(&case, &port), Ok(true), "{case:?}");
    for names in (4..=18).flat_map(of_one_tag) {
        let text = |name: &Vec<u8>| String::from_utf8(name.clone()).expect("letters");
        let roots: Vec<Node> = (1..).zip(&names).map(|(id, name)| prim(id, &text(name))).collect();
        for (at, name) in names.iter().enumerate() {
            agree(ask_of(packed(&roots), Ask::Name(name.clone())));
            // beside all others, and as one of them again
            agree(update_of(&roots, &[], 100, &[&text(name)], &[(None, prim(0, "x"))]));
            let twice = [&roots[..], &[prim(99, &text(&names[at]))]].concat();
            agree(ask_of(packed(&twice), Ask::Id(1)));
        }
    }
}

#[test]
fn a_slots_name_is_what_its_record_says_and_no_other_byte_matters() {
    if let Some(why) = absent() {
        println!("T was not put to the port: {why}");
        return;
    }
    let (records, pool) = packed(&the_tree());
    let same = |records: &[u8], pool: &[u8]| {
        for slot in [0, 1, 5, 8, 9, 10, 11, u32::MAX / 24, u32::MAX] {
            let ours = c::found_name(records, pool, slot);
            assert_eq!(ours, name_by_text(records, pool, slot), "slot {slot} of {records:?}");
        }
    };
    for byte in 0..records.len() {
        for value in 0..=255 {
            let mut damaged = records.clone();
            damaged[byte] = value;
            same(&damaged, &pool);
        }
        same(&records[..byte], &pool);
    }
    (0..=pool.len()).for_each(|end| same(&records, &pool[..end]));
}
