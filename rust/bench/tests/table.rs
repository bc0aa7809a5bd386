//! The benchmark times what its table says.

use std::collections::{HashMap, HashSet};

use bench::{
    Beside, FAMILIES, INSIDE, Room, Row, SCHEMAS, SIZES, editing, inside, rows, schema, searches,
    widening, worst_folded, worst_identifiers, worst_ids, worst_names, worst_parents,
};
use cases::{Answer, Ask, ByJudge, Case, answer};
use judge::{Change, Edit, ID_BYTES, LEVELS, Names, RECORD_BYTES, Tree, UpdateCall};

/// Updates with edits, and the same ones without.
fn all_edits() -> impl Iterator<Item = Beside> {
    editing().into_iter().chain(widening())
}

#[test]
fn every_schema_has_exactly_its_records() {
    for (name, _) in SCHEMAS {
        for size in SIZES {
            assert_eq!(Tree::of(&schema(name, size)).rows.len(), size, "{name}");
        }
    }
    let deepest = Tree::of(&schema("levels", 1_024)).rows.iter().map(|row| row.level).max();
    assert_eq!(deepest, Some(LEVELS));
}

#[test]
fn every_row_goes_as_far_as_it_says() {
    let table = SCHEMAS.iter().flat_map(|(name, _)| SIZES.map(|size| rows(name, size)));
    let pairs = worst_ids().into_iter().flatten().chain(worst_folded().into_iter().flatten());
    let worst = pairs.chain(worst_parents()).chain(worst_identifiers());
    let worst = worst.chain(all_edits().chain(worst_names()).flat_map(|beside| beside.rows));
    let inside = INSIDE.iter().flat_map(|name| SIZES.map(|size| inside(name, size)));
    for row in table.flatten().chain(worst).chain(inside.flatten()) {
        let records = row.case.records.len() / RECORD_BYTES;
        let refusal = answer(&row.case).refusal().map_or(0, |r| r.number);
        assert_eq!(refusal, row.refusal, "{records} {}", row.what);
        let called = Room::default().call(&row.case, &ByJudge);
        assert_eq!(called, Some(row.refusal), "{records} {}", row.what);
    }
}

/// What each accepted update of some rows visits.
fn visited(rows: &[Row]) -> Vec<u32> {
    rows.iter().filter_map(|row| Room::default().visited(&row.case, &ByJudge)).collect()
}

/// Where primitives go and come, all of the base and all that is added; a struct's inside only
/// where the struct comes. Edits change nothing of it.
#[test]
fn updates_visit_so_many_records() {
    for size in SIZES {
        let records = size as u32;
        for (name, _) in SCHEMAS {
            assert_eq!(visited(&rows(name, size)), [records + 1, records + 64], "{name}");
        }
        for name in INSIDE {
            assert_eq!(visited(&inside(name, size)), [3, records + 1], "{name}");
        }
    }
    for Beside { of, rows } in all_edits() {
        let visited = visited(&rows);
        assert_eq!(visited, vec![visited[0]; rows.len()], "{of}");
    }
}

/// 64 additions, each with fourteen records above its struct or more.
#[test]
fn additions_far_down_have_many_records_above_them() {
    let [_, deep, refused] = worst_parents().try_into().unwrap_or_else(|_| panic!("three rows"));
    let tree = judge::read_tree(&deep.case.records, &deep.case.pool, judge::BASE).expect("read");
    let Answer::Updated { records, .. } = answer(&deep.case) else { panic!("it is accepted") };
    assert_eq!(records.len(), deep.case.records.len());
    let call = deep.case.update_call().expect("an update");
    let paths = judge::read_paths(call.additions, call.request_pool, judge::ADDITIONS);
    let names = judge::Names::of(&tree);
    let level = |path: &Option<Vec<u8>>| tree.rows[names.find(path.as_ref()?)?].level.into();
    let levels: Vec<Option<usize>> = paths.expect("read").iter().map(level).collect();
    assert_eq!(levels.len(), 64);
    assert!(
        levels.iter().all(|level| level.is_some_and(|level| level >= LEVELS - 2)),
        "{levels:?}"
    );
    let place = answer(&refused.case).refusal().map(|refusal| refusal.place);
    assert_eq!(place, Some(63));
}

/// 64 identifiers, each with fifteen required structs above it; what is refused is the last.
#[test]
fn identifiers_far_down_have_many_records_above_them() {
    for row in worst_identifiers() {
        let Case { records, pool, ask } = &row.case;
        let (Ask::Update { identifiers, .. } | Ask::Renumber { identifiers, .. }) = ask else {
            panic!("{} asks {ask:?}", row.what)
        };
        let tree = judge::read_tree(records, pool, judge::BASE).expect("read");
        assert_eq!(tree.rows.len(), 1_024, "{}", row.what);
        let ids = numbers(identifiers.chunks_exact(ID_BYTES));
        assert!([0, 64].contains(&ids.len()), "{}", row.what);
        for id in ids {
            let found = tree.rows.iter().find(|row| row.id == id as i32).expect("it is there");
            assert_eq!((found.level, found.kind), (LEVELS, judge::PRIMITIVE), "{}", row.what);
        }
        let place = answer(&row.case).refusal().map(|refusal| (refusal.list, refusal.place));
        assert_eq!(place, (row.refusal == 9).then_some((5, 63)), "{}", row.what);
    }
}

/// How many renames, relaxings and widenings each row has. But for them, and for the version and
/// the types of the base, it is the first one. Each edit is of another column, and changes
/// something.
fn edits_of(Beside { of, rows }: &Beside) -> Vec<[usize; 3]> {
    let calls: Vec<UpdateCall> =
        rows.iter().map(|row| row.case.update_call().expect("an update")).collect();
    let tree = judge::read_tree(calls[0].records, calls[0].pool, judge::BASE).expect("read");
    let names = Names::of(&tree);
    assert_eq!(tree.rows.len(), 1_024, "{of}");
    let first = untyped(calls[0].records);
    let counts = calls.iter().map(|call| {
        let edits = judge::read_edits(call.edits, call.request_pool).expect("read");
        let slots = edits.iter().map(|edit| names.find(&edit.path).expect("it is there"));
        let slots: HashSet<usize> = slots.collect();
        assert_eq!(slots.len(), edits.len(), "{of}");
        assert!(slots.iter().all(|slot| tree.rows[*slot].flags & judge::REQUIRED != 0));
        assert!(!of.starts_with("level 16") || slots.iter().all(|s| tree.rows[*s].level == 16));
        assert_eq!(untyped(call.records), first, "{of}");
        let UpdateCall { records, version, request_pool, .. } = calls[0];
        let rest = UpdateCall { records, version, edits: &[], request_pool, ..*call };
        assert_eq!(rest, calls[0], "{of}");
        let count = |is: fn(&Change) -> bool| edits.iter().filter(|e| is(&e.change)).count();
        [
            count(|change| matches!(change, Change::Rename(_))),
            count(|change| *change == Change::Relax),
            count(|change| matches!(change, Change::Widen(_))),
        ]
    });
    counts.collect()
}

/// Records without their type codes.
fn untyped(records: &[u8]) -> Vec<u8> {
    let mut records = records.to_vec();
    records.chunks_exact_mut(RECORD_BYTES).for_each(|record| record[16..20].fill(0));
    records
}

#[test]
fn updates_with_edits_are_those_without_and_64_edits_more() {
    let all = editing();
    assert_eq!(all.len(), 2 * SCHEMAS.len() + 2);
    for editing in all {
        assert_eq!(edits_of(&editing), [[0; 3], [32, 32, 0], [64, 0, 0]], "{}", editing.of);
        let calls = editing.rows.iter().filter_map(|row| row.case.update_call());
        let same = |call: UpdateCall| (call.version, call.records == editing.rows[0].case.records);
        assert!(calls.map(same).all(|same| same == (2, true)), "{}", editing.of);
    }
}

/// All steps of a row are one: from int to long, or from decimal(9, 2) to decimal(38, 2).
#[test]
fn updates_with_widenings_are_those_without_and_64_edits_more() {
    let all = widening();
    // of sixteen levels 64 deletions leave no primitive but the identifier
    assert_eq!(all.len(), 2 * SCHEMAS.len() + 1);
    for editing in all {
        let [same, renamed] = [[0; 3], [64, 0, 0]];
        let (widened, mixed) = ([0, 0, 64], [22, 21, 21]);
        let counts = [same, [32, 32, 0], renamed, widened, mixed, widened, widened];
        assert_eq!(edits_of(&editing), counts, "{}", editing.of);
        let steps: Vec<_> = editing.rows.iter().map(|row| steps(&row.case)).collect();
        let [int, digits] = [(2, 3), (67_842, 75_266)].map(Some);
        let of_2 = [None, None, None, int, int, digits].map(|step| (2, step));
        assert_eq!(steps, [&of_2[..], &[(3, digits)]].concat(), "{}", editing.of);
    }
}

/// The version of an update, and the step of its widenings.
fn steps(case: &Case) -> (u32, Option<(u32, u32)>) {
    let call = case.update_call().expect("an update");
    let tree = judge::read_tree(call.records, call.pool, judge::BASE).expect("read");
    let (names, edits) = (Names::of(&tree), judge::read_edits(call.edits, call.request_pool));
    let step = |edit: &Edit| match edit.change {
        Change::Widen(code) => Some((tree.rows[names.find(&edit.path)?].type_code, code)),
        _ => None,
    };
    let steps: HashSet<_> = edits.expect("read").iter().filter_map(step).collect();
    assert!(steps.len() < 2, "{steps:?}");
    (call.version, steps.into_iter().next())
}

/// The bytes of the own names that a walk over full or short names compares: where the names above
/// match and what is asked ends behind the name or, if there is something inside the record, goes
/// on with a dot.
fn compared(tree: &Tree, name: impl Fn(usize) -> Vec<u8>, asked: &[u8]) -> usize {
    let own = |slot: usize| {
        let (name, own) = (name(slot), tree.rows[slot].name.len());
        let above = asked.get(..name.len())?.get(..name.len() - own)?;
        let inside = !tree.rows[slot].children.is_empty();
        let fits = asked.get(name.len()).is_none_or(|next| inside && *next == b'.');
        (fits && above.eq_ignore_ascii_case(&name[..above.len()])).then_some(own)
    };
    (0..tree.rows.len()).filter_map(own).sum()
}

/// docs/PERFORMANCE.md has these numbers.
#[test]
fn walks_that_forget_case_compare_so_many_bytes() {
    let bytes = worst_folded().map(|[exact, folded]| {
        let found = answer(&exact.case);
        assert_eq!(answer(&folded.case), found, "{}", exact.what);
        let Case { records, pool, ask: Ask::Folded(asked) } = &folded.case else {
            panic!("{} asks {:?}", folded.what, folded.case.ask)
        };
        let tree = judge::read_tree(records, pool, judge::BASE).expect("it is accepted");
        let full = compared(&tree, |slot| tree.full_name(slot), asked);
        let hidden = (0..tree.rows.len()).any(|s| tree.full_name(s).eq_ignore_ascii_case(asked));
        full + if hidden { 0 } else { compared(&tree, |slot| tree.short_name(slot), asked) }
    });
    assert_eq!(bytes, [255, 31_744, 63_488, 30_720, 31_744]);
}

/// The bytes of ids, as numbers.
fn numbers<'a>(ids: impl Iterator<Item = &'a [u8]>) -> Vec<u32> {
    ids.map(|id| u32::from_le_bytes(id.try_into().expect("4 bytes"))).collect()
}

/// The places that a search for an id meets, each by how many bits lead there and by these bits;
/// whatever is met last ends it: the id, or an empty place.
fn way(places: &HashMap<(u32, u32), u32>, id: u32) -> Vec<(u32, u32)> {
    let mut way = vec![];
    for bits in 10..=32 {
        let place = (bits, id & (u32::MAX >> (32 - bits)));
        way.push(place);
        if places.get(&place).is_none_or(|met| *met == id) {
            break;
        }
    }
    way
}

/// docs/PERFORMANCE.md has these numbers: of the slots that are met while the index is built, by
/// the searches, and by one of these at most.
#[test]
fn searches_by_id_meet_so_many_slots() {
    let met = worst_ids().map(|[_, each]| {
        let Case { records, ask: Ask::Ids { ids, .. }, .. } = &each.case else {
            panic!("{} asks {:?}", each.what, each.case.ask)
        };
        let (mut places, mut building) = (HashMap::new(), 0);
        for id in numbers(records.chunks_exact(RECORD_BYTES).map(|record| &record[..ID_BYTES])) {
            let way = way(&places, id);
            building += way.len() - 1;
            places.insert(way[way.len() - 1], id);
        }
        assert_eq!(places.len(), 1_024, "{}", each.what);
        let met = numbers(ids.chunks_exact(ID_BYTES)).into_iter().map(|id| way(&places, id).len());
        let met: Vec<usize> = met.collect();
        [building, met.iter().sum(), *met.iter().max().expect("some are asked for")]
    });
    let [bucket, top, reversed] = [[325, 1_349, 3], [20_305, 21_329, 22], [20_518, 21_542, 23]];
    assert_eq!(met, [bucket, top, reversed, [11_198, 1_024 * 23, 23]]);
}

/// The scan and the text agree on what is there, and so does the search alone, where its archive is
/// there.
#[test]
fn searches_find_what_is_there() {
    for (name, family) in ["flat", "tables"].iter().flat_map(|name| FAMILIES.map(|f| (name, f))) {
        for search in SIZES.into_iter().flat_map(|size| searches(name, family, size)) {
            // which compares the answers
            search.calls(None);
            let found = match answer(&search.case) {
                Answer::Searched { found, .. } => found,
                Answer::Found { .. } => 1,
                Answer::Nothing => 0,
                other => panic!("{name}, {}, {}: {other:?}", family.0, search.what),
            };
            assert_eq!(found, search.found, "{name}, {}, {}", family.0, search.what);
        }
    }
}

#[test]
fn iceberg_does_what_the_table_says() {
    let Ok(iceberg) = oracle::judge() else { return };
    for (name, _) in SCHEMAS {
        for row in rows(name, 100).iter().filter(|row| row.crate_too) {
            let done = !matches!(answer(&row.case), Answer::Refused(_) | Answer::Nothing);
            assert_eq!(iceberg.operate(&row.case), done, "{name} {}", row.what);
        }
    }
    let inside = INSIDE.iter().flat_map(|name| inside(name, 100));
    let beside = all_edits().chain(worst_names()).flat_map(|beside| beside.rows);
    for row in worst_identifiers().into_iter().chain(inside).chain(beside) {
        let Some(case) = row.crate_case() else { continue };
        assert_eq!(iceberg.operate(&case), row.refusal == 0, "{}", row.what);
    }
}
