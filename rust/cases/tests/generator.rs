//! What the generator makes.

use std::collections::{BTreeMap, BTreeSet};

use cases::{
    Answer, Ask, Broken, Case, Generator, OPERATIONS, Of, Sizes, Tally, answer, broken_in, shrink,
};

const SEED: u64 = 1;

fn usual() -> Generator {
    Generator { seed: SEED, sizes: Sizes::Usual }
}

#[test]
fn every_refusal_and_every_accepted_shape_comes_up() {
    let mut tally = Tally::default();
    for n in 0..90_000 {
        let (case, origin) = usual().made(n);
        tally.count(&case, origin, &answer(&case));
    }
    println!("seed {SEED}\n{tally}");
    assert_eq!(tally.missing(), Vec::<String>::new(), "seed {SEED}");
}

/// The run at scale asks for each shape of them; this, that they are no accident.
#[test]
fn names_that_crowd_their_chains_come_up() {
    let mut tally = Tally::default();
    for n in 0..1_800 {
        let (case, origin) = usual().crowded(n);
        tally.count(&case, origin, &answer(&case));
    }
    println!("seed {SEED}\n{tally}");
    let times = |shape: &str, operation: &str| tally.shapes[shape].of(operation);
    for operation in OPERATIONS {
        let accepted = times("tree: names sorted, accepted", operation);
        let least = if operation == "update" { 30 } else { 80 };
        assert!(accepted > least, "{operation}: {accepted} of 200");
        let refused = times("tree: names sorted, 8", operation);
        assert!(refused > 5, "{operation}: {refused} of 200");
    }
    let rebuilt = times("update: base sorted, rebuilt tree sorted, accepted", "update");
    let refused = times("update: names of the rebuilt tree sorted, 8", "update");
    assert!(rebuilt > 30 && refused > 2, "{rebuilt} and {refused} of 200");
    assert!(times("name: sorted, found by the full name", "name") > 40);
    assert!(times("name: sorted, nothing", "name") > 20);
}

#[test]
fn a_seed_makes_the_same_cases_again() {
    for n in 0..500 {
        assert_eq!(usual().case(n), usual().case(n));
        assert_eq!(usual().crowded(n), usual().crowded(n));
    }
    let other = Generator { seed: SEED + 1, sizes: Sizes::Usual };
    assert!((0..50).any(|n| usual().case(n) != other.case(n)));
}

/// The first cases of an operation.
fn of(operation: &str, count: usize) -> impl Iterator<Item = u64> {
    let turn = OPERATIONS.iter().position(|word| *word == operation).expect("an operation");
    (turn as u64..).step_by(OPERATIONS.len()).take(count)
}

/// What the first 4,000 of an operation meet: enough that one in a hundred is told from chance.
fn tally_of(operation: &str) -> Tally {
    let mut tally = Tally::default();
    for n in of(operation, 4_000) {
        let (case, origin) = usual().made(n);
        assert_eq!(case.ask.word(), operation);
        tally.count(&case, origin, &answer(&case));
    }
    tally
}

#[test]
fn equal_short_names_are_common() {
    let tally = tally_of("name");
    let twins = tally.shapes["name: of equal short names the first entered"].sum();
    let cases = tally.cases.sum();
    assert!(twins * 20 > cases, "{twins} of {cases}");
}

/// Where case is forgotten: each outcome at each level.
#[test]
fn names_that_differ_in_case_alone_are_common() {
    let tally = tally_of("folded");
    let cases = tally.cases.sum();
    for shape in [
        "folded: found by the full name in another case",
        "folded: found by a short name in another case",
        "folded: nothing",
        "folded: 21 by full names",
        "folded: 21 by short names",
        "folded: 21 beside an exact match",
    ] {
        let times = tally.shapes[shape].sum();
        assert!(times * 20 > cases, "{shape}: {times} of {cases}");
    }
}

/// An addition beneath what is dropped: refused by a member, accepted by what stays.
#[test]
fn additions_beneath_what_is_dropped_are_common() {
    let tally = tally_of("update");
    let cases = tally.cases.sum();
    for (often, shape) in [
        (40, "update: 22 for the receiving struct itself"),
        (40, "update: 22 for the record above it"),
        (60, "update: 22 for the third above it or a farther one"),
        (40, "update: 22 through a list's element"),
        (80, "update: 22 through a map's key"),
        (60, "update: 22 of an addition between others"),
        (100, "update: a column added farther beneath a dropped element, key or value"),
    ] {
        let times = tally.shapes[shape].sum();
        assert!(times * often > cases, "{shape}: {times} of {cases}");
    }
}

/// Edits that pass, and those that break a rule, one after another.
#[test]
fn edits_are_common() {
    let tally = tally_of("update");
    let cases = tally.cases.sum();
    for (often, shape) in [
        (40, "update: a required column relaxed"),
        (40, "update: a root renamed"),
        (40, "update: a struct's member renamed"),
        (60, "update: edits beside a deletion and an addition"),
        (200, "update: two columns exchange names"),
        (400, "update: renamed to a dropped sibling's name"),
        (200, "update: 8 for a rename onto a sibling"),
        (500, "update: 23 beneath a dropped member"),
        (500, "update: 24 for a second rename"),
        (200, "update: 23, 24, 13 or 26 of the last of several edits"),
    ] {
        let times = tally.shapes[shape].sum();
        assert!(times * often > cases, "{shape}: {times} of {cases}");
    }
    let with = of("update", 4_000).filter(|n| match &usual().case(*n).ask {
        Ask::Update { edits, .. } => !edits.is_empty(),
        _ => false,
    });
    let with = with.count() as u64;
    // a sixth rename and relax, a sixth widen, and some of the others do too
    assert!(with * 3 > cases && with * 2 < cases, "{with} of {cases}");
}

/// Widenings that pass, and those that break a rule, by either version; and what 25 refuses.
#[test]
fn widenings_and_versions_are_common() {
    let tally = tally_of("update");
    let cases = tally.cases.sum();
    for (often, shape) in [
        (20, "update: by version 2"),
        (20, "update: by version 3"),
        (80, "update: int widened to long by version 2"),
        (80, "update: int widened to long by version 3"),
        (120, "update: float widened to double by version 2"),
        (120, "update: a decimal widened by version 3"),
        (400, "update: date widened to timestamp"),
        (400, "update: an element widened"),
        (400, "update: a key widened"),
        (400, "update: a value widened"),
        (400, "update: widened beside a deletion and an addition"),
        (200, "update: 24 for a second widening"),
        (400, "update: 24 for a second widening that is no step"),
        (600, "update: 23 of a widening for what goes"),
        (500, "update: 26 for the code that it has"),
        (200, "update: 26 for another type of the table"),
        (300, "update: 26 of an element, key or value"),
        (200, "update: 25 without edits"),
        (200, "update: 25 with edits"),
        (200, "update: 25, and a deletion, an addition or an edit is refused"),
    ] {
        let times = tally.shapes[shape].sum();
        assert!(times * often > cases, "{shape}: {times} of {cases}");
    }
    for (often, refusal) in [(80, (25, judge::BASE)), (60, (26, judge::EDITS))] {
        let times = tally.refusals[&refusal].sum();
        assert!(times * often > cases, "{refusal:?}: {times} of {cases}");
    }
}

/// What is dropped with an inside and without one, inside another, and beneath what stays.
#[test]
fn visits_that_differ_are_common() {
    let tally = tally_of("update");
    let cases = tally.cases.sum();
    for (often, shape) in [
        (10, "update: every record visited, and no member dropped"),
        (20, "update: every record visited, and a member dropped"),
        (20, "update: the inside of a dropped member not visited"),
        (120, "update: a dropped member inside a dropped one not visited"),
        (40, "update: two dropped members visited"),
        (120, "update: a dropped member visited beneath a dropped element, key or value"),
        (60, "update: the inside of a dropped element visited"),
        (150, "update: the inside of a dropped key visited"),
        (80, "update: the inside of a dropped value visited"),
    ] {
        let times = tally.shapes[shape].sum();
        assert!(times * often > cases, "{shape}: {times} of {cases}");
    }
}

/// 02, 7/13: as many as the answer has and, of what is gone, those that stand beneath nothing that
/// is gone; at most base and additions; and the base where nothing is asked.
#[test]
fn what_is_visited_stays_or_is_the_first_that_goes() {
    let (mut shown, mut fewer) = (0, 0);
    for n in of("update", 12_000) {
        let mut case = usual().case(n);
        let Answer::Updated { records, last_id: after, visited, .. } = answer(&case) else {
            continue;
        };
        let base = judge::read_tree(&case.records, &case.pool, judge::BASE).expect("accepted");
        let Ask::Update { last_id, deletions, additions, added_records, .. } = &mut case.ask else {
            continue;
        };
        let most = base.rows.len() + added_records.len() / 24;
        let id = |r: &[u8]| i32::from_le_bytes([r[0], r[1], r[2], r[3]]);
        let given = |id: &i32| (*last_id..after).contains(&id.wrapping_sub(1));
        let there: Vec<i32> = records.chunks(24).map(id).filter(|id| !given(id)).collect();
        let gone = |slot: usize| !there.contains(&base.rows[slot].id);
        let first = |slot: &usize| gone(*slot) && !base.rows[*slot].parent.is_some_and(gone);
        let first = (0..base.rows.len()).filter(first).count();
        assert_eq!(visited as usize, records.len() / 24 + first, "case {n}");
        assert!(visited as usize <= most, "case {n}");
        (shown, fewer) = (shown + 1, fewer + usize::from((visited as usize) < most));
        [deletions, additions, added_records].into_iter().for_each(Vec::clear);
        if let Answer::Updated { visited, .. } = answer(&case) {
            assert_eq!(visited as usize, base.rows.len(), "case {n}");
        }
    }
    assert!(shown > 3_000 && fewer > 500, "{shown} and {fewer}");
}

/// Where widenings are accepted it does not matter which comes first, and each column that is
/// widened has its new code, by a step of the version; all else is as it is without them.
#[test]
fn widenings_change_type_codes_alone() {
    let mut shown = 0;
    for n in 0..6_000 {
        let case = usual().widenings(n);
        let Answer::Updated { records, .. } = answer(&case) else { continue };
        let mut other = case.clone();
        let Ask::Update { edits, version, .. } = &mut other.ask else { continue };
        let version = *version;
        *edits = edits.chunks(16).rev().flatten().copied().collect();
        assert_eq!(answer(&other), answer(&case), "case {n}");
        let Ask::Update { edits, .. } = &mut other.ask else { continue };
        let widenings = edits.chunks(16).filter(|edit| edit[6] == judge::WIDEN).count();
        *edits = edits.chunks(16).filter(|e| e[6] != judge::WIDEN).flatten().copied().collect();
        let Answer::Updated { records: plain, .. } = answer(&other) else {
            panic!("case {n}: it is accepted without them too")
        };
        assert_eq!(records.len(), plain.len(), "case {n}");
        let mut widened = 0;
        for (one, other) in records.chunks(24).zip(plain.chunks(24)) {
            let rest = |r: &[u8]| [&r[..16], &r[20..]].concat();
            let code = |r: &[u8]| u32::from_le_bytes([r[16], r[17], r[18], r[19]]);
            assert_eq!(rest(one), rest(other), "case {n}");
            if code(one) != code(other) {
                assert!(judge::is_step(version, code(other), code(one)), "case {n}");
                widened += 1;
            }
        }
        assert_eq!(widened, widenings, "case {n}");
        shown += usize::from(widened > 0);
    }
    assert!(shown > 1_000, "{shown} cases");
}

/// Where edits are accepted it does not matter which comes first, and each column that is edited
/// has the name and the flag that it was given; all else is as it is without edits.
#[test]
fn edits_change_names_and_flags_alone() {
    let mut shown = 0;
    for n in 0..6_000 {
        let case = usual().edits(n);
        let Answer::Updated { records, .. } = answer(&case) else { continue };
        let mut other = case.clone();
        let Ask::Update { edits, .. } = &mut other.ask else { continue };
        let turned: Vec<u8> = edits.chunks(16).rev().flatten().copied().collect();
        *edits = turned;
        assert_eq!(answer(&other), answer(&case), "case {n}");
        let Ask::Update { edits, .. } = &mut other.ask else { continue };
        edits.clear();
        // without its edits two columns may meet
        let Answer::Updated { records: plain, .. } = answer(&other) else { continue };
        assert_eq!(records.len(), plain.len(), "case {n}");
        for (one, other) in records.chunks(24).zip(plain.chunks(24)) {
            let rest = |r: &[u8]| [&r[..4], &r[9..10], &r[11..]].concat();
            assert_eq!(rest(one), rest(other), "case {n}");
            assert!(one[10] == other[10] || one[10] == other[10] & !1, "case {n}");
        }
        shown += 1;
    }
    assert!(shown > 2_000, "{shown} cases");
}

/// 02, 3/13: every id that an accepted update consumes is that of one column in its answer.
#[test]
fn nothing_that_is_added_vanishes() {
    let mut shown = 0;
    for n in of("update", 6_000) {
        let case = usual().case(n);
        let Answer::Updated { records, last_id: consumed, .. } = answer(&case) else { continue };
        let Ask::Update { last_id, added_records, .. } = &case.ask else { continue };
        let id = |r: &[u8]| i32::from_le_bytes([r[0], r[1], r[2], r[3]]);
        let given: Vec<i32> = (*last_id..consumed).map(|id| id + 1).collect();
        let mut there: Vec<i32> =
            records.chunks(24).map(id).filter(|id| given.contains(id)).collect();
        there.sort_unstable();
        assert_eq!(there, given, "case {n}");
        assert_eq!(given.len(), added_records.len() / 24, "case {n}");
        shown += usize::from(!given.is_empty());
    }
    assert!(shown > 1_000, "{shown} cases");
}

/// The conditions that an identifier breaks alone, in which tree; how far above is left out.
fn broken_alone(case: &Case) -> Option<(Of, Broken)> {
    match broken_in(case)? {
        (of, _, all) if all.len() == 1 => Some((of, all[0])),
        _ => None,
    }
}

/// 02, 4/13: each condition is broken alone, in each tree, and at each of 15 distances above.
#[test]
fn each_condition_of_an_identifier_is_broken_alone_at_each_distance() {
    let mut met: BTreeMap<Of, BTreeSet<Broken>> = BTreeMap::new();
    for operation in ["update", "renumber"] {
        for n in 0..24_000 {
            let case = usual().identifiers(operation, n);
            let nine = answer(&case).refusal().is_some_and(|refusal| refusal.number == 9);
            if let (true, Some((of, alone))) = (nine, broken_alone(&case)) {
                met.entry(of).or_default().insert(alone);
            }
        }
    }
    let column = [Broken::Absent, Broken::Struct, Broken::List, Broken::Map];
    let column = column.into_iter().chain([Broken::Optional, Broken::Float, Broken::Double]);
    let above = [Broken::UnderList, Broken::UnderKey, Broken::UnderValue, Broken::UnderOptional];
    let above = above.iter().flat_map(|broken| (0..15).map(broken));
    let every: BTreeSet<Broken> = column.chain(above).collect();
    for of in [Of::Base, Of::Rebuilt, Of::Renumbered] {
        let missing: Vec<&Broken> = every.difference(&met[&of]).collect();
        assert!(missing.is_empty(), "{of:?}: never {missing:?}");
    }
}

/// The conditions are written down here once more: where the judge gives 9 one is broken, by the
/// identifier of its place, and by none where it accepts.
#[test]
fn where_9_is_given_a_condition_is_broken() {
    let (mut refused, mut accepted) = (0, 0);
    for operation in ["update", "renumber"] {
        let apart = (0..4_000).map(|n| usual().identifiers(operation, n));
        for case in apart.chain(of(operation, 4_000).map(|n| usual().case(n))) {
            match answer(&case) {
                Answer::Refused(refusal) if refusal.number == 9 => {
                    let place = broken_in(&case).map(|(_, place, _)| place as u32);
                    assert_eq!(place, Some(refusal.place), "{case:?}");
                    refused += 1;
                }
                Answer::Refused(_) => {}
                _ => {
                    assert_eq!(broken_in(&case), None, "{case:?}");
                    accepted += 1;
                }
            }
        }
    }
    assert!(refused > 4_000 && accepted > 4_000, "{refused} and {accepted}");
}

/// Most identifiers pass, so that what comes after 9 is met with them.
#[test]
fn updates_with_identifiers_get_far() {
    let tally = tally_of("update");
    let cases = tally.cases.sum();
    for (often, shape) in [
        (20, "update: with identifiers"),
        (250, "update: an identifier's id given again"),
        (200, "update: the rebuilt tree: 9 for an id that is not there"),
    ] {
        let times = tally.shapes[shape].sum();
        assert!(times * often > cases, "{shape}: {times} of {cases}");
    }
    let twelve = tally.refusals[&(12, judge::DELETIONS)].sum();
    assert!(twelve * 120 > cases, "refusal 12: {twelve} of {cases}");
}

/// Whatever the operation, so that its own search is put to such ids.
#[test]
fn ids_that_share_their_bits_are_common_where_they_are_turned() {
    for operation in OPERATIONS {
        let mut tally = Tally::default();
        for n in of(operation, 1_000) {
            let (case, origin) = usual().turned(n);
            tally.count(&case, origin, &answer(&case));
        }
        let cases = tally.cases.sum();
        for shape in
            ["tree: two ids that share ten low bits", "tree: two ids that share 22 low bits"]
        {
            let times = tally.shapes[shape].of(operation);
            assert!(times * 8 > cases, "{operation}, {shape}: {times} of {cases}");
        }
        let again = tally.refusals[&(7, judge::BASE)].of(operation);
        assert!(again * 40 > cases, "{operation}, refusal 7: {again} of {cases}");
    }
}

/// Ids that were equal stay so, and others apart: the same slots are found, the same places told.
#[test]
fn turned_ids_are_found_where_the_others_were() {
    for n in of("ids", 2_000) {
        assert_eq!(answer(&usual().turned(n).0), answer(&usual().case(n)), "case {n}");
    }
}

#[test]
fn small_cases_stay_small() {
    let small = Generator { seed: SEED, sizes: Sizes::Small };
    let bytes = |case: &Case| case.records.len() + case.pool.len();
    for n in 0..5_000 {
        assert!(bytes(&small.case(n)) < 2_000, "case {n} of seed {SEED}");
    }
}

/// A refusal 8 of a base needs two records of one full name, what stands above them, and no
/// request.
#[test]
fn a_failing_case_is_shrunk() {
    let refused = |case: &Case| {
        answer(case).refusal().is_some_and(|r| (r.number, r.list) == (8, judge::BASE))
    };
    let large = of("update", 30_000)
        .map(|n| usual().case(n))
        .find(|case| case.records.len() > 20 * 24 && refused(case))
        .expect("some case is refused with 8");
    let least = shrink(&large, &refused);
    assert!(least.records.len() <= 4 * 24, "{least:?}");
    let Ask::Update { deletions, additions, added_records, .. } = &least.ask else {
        panic!("still an update")
    };
    assert!(deletions.is_empty() && additions.is_empty() && added_records.is_empty());
}
