//! What the tool works out for words, beside what the library decides.

use std::collections::BTreeSet;
use std::path::Path;

use braidhurdle::layout::{EDIT_BYTES, ENTRY_BYTES, ID_BYTES, RECORD_BYTES};
use braidhurdle::{
    Column, Field, FieldId, Refusal, RefusalKind, Request, RequestRef, Room, Tree, Type, Version,
};
use cases::{Ask, Case, Generator, OPERATIONS, Random, Sizes};
use judge::{UpdateCall, read_edits};

use crate::arguments::Addition;
use crate::changes::{self, Changes};
use crate::edits::{Change, Edit};
use crate::outline::Outline;
use crate::words::{Asked, Given};
use crate::{Fault, identifiers, types};

/// The paths of a list of entries; none for one without.
fn paths(entries: &[u8], pool: &[u8]) -> Option<Vec<Option<Vec<u8>>>> {
    let path = |entry: &[u8]| {
        let offset = u32::from_le_bytes(entry[..4].try_into().ok()?) as usize;
        let length = u16::from_le_bytes(entry[4..6].try_into().ok()?) as usize;
        let path = pool.get(offset..offset + length)?.to_vec();
        Some((entry[6] != 0).then_some(path))
    };
    entries.chunks_exact(ENTRY_BYTES).map(path).collect()
}

/// The added columns; none where the tree has other faults than its ids, which are ignored.
fn fields(records: &[u8], pool: &[u8]) -> Option<Vec<Field>> {
    let mut records = records.to_vec();
    for (record, id) in records.chunks_exact_mut(RECORD_BYTES).zip(0i32..) {
        record[..4].copy_from_slice(&id.to_le_bytes());
    }
    Tree::new(records, pool.to_vec()).fields().ok()
}

/// What is dropped, added and edited.
type Words = (Vec<Vec<u8>>, Vec<Addition<Field>>, Vec<Edit>);

/// What people would say to ask for this; none where the tool can't be told so.
fn said(call: &UpdateCall) -> Option<Words> {
    let dropped: Option<Vec<Vec<u8>>> =
        paths(call.deletions, call.request_pool)?.into_iter().collect();
    let is_whole = |(list, unit): (&[u8], usize)| list.len() % unit == 0;
    let lists = [
        (call.identifiers, ID_BYTES),
        (call.deletions, ENTRY_BYTES),
        (call.additions, ENTRY_BYTES),
        (call.added_records, RECORD_BYTES),
        (call.edits, EDIT_BYTES),
    ];
    if !lists.into_iter().all(is_whole) {
        return None;
    }
    let roots = fields(call.added_records, call.request_pool)?;
    let under = paths(call.additions, call.request_pool)?;
    if roots.len() != under.len() {
        return None;
    }
    let added = roots.into_iter().zip(under).map(|(what, under)| Addition { what, under });
    Some((dropped?, added.collect(), edits(call)?))
}

/// The edits; none where 3 or 4 turns them down.
fn edits(call: &UpdateCall) -> Option<Vec<Edit>> {
    let edit = |judge::Edit { path, change }| match change {
        judge::Change::Rename(name) => Edit { path, change: Change::Rename(name) },
        judge::Change::Relax => Edit { path, change: Change::Relax },
        judge::Change::Widen(code) => Edit { path, change: Change::Widen(code) },
    };
    Some(read_edits(call.edits, call.request_pool).ok()?.into_iter().map(edit).collect())
}

/// The first line of a refusal.
fn first_line(fault: Fault) -> String {
    let Fault::Refused(words) = fault else { panic!("it is a refusal") };
    words.lines().next().expect("a line").into()
}

#[track_caller]
fn well_told(line: &str, refusal: Refusal, case: u64) {
    let Refusal { number, list, place } = refusal;
    let front = format!("refused {number} at {list} {place}: {}: ", refusal.meaning());
    let words = line.strip_prefix(&front).unwrap_or_else(|| panic!("case {case}: {line}"));
    assert!(!words.is_empty(), "case {case}: {line}");
    assert!(!words.starts_with("record "), "case {case} is not told: {line}");
    assert!(
        !words.contains("before it, ") && !words.ends_with("before it "),
        "case {case}: {line}"
    );
}

/// Does a line of an addition say which deletion takes its receiving struct away?
fn goes(line: &str) -> bool {
    let addition = line.contains(": addition ");
    addition && line.contains(", which deletion ") && line.ends_with(" drops")
}

/// Does a line of 9 speak of the tree as given (0), or of the tree after the update, with the
/// deletion that takes the identifier away (1) or the edit that relaxes it (2)?
#[track_caller]
fn of_which(line: &str) -> usize {
    let after = line.contains(": after the update: identifier ");
    let told = [
        line.contains(": base: identifier "),
        after && line.contains(", which deletion "),
        after && line.contains(" relaxes "),
    ];
    assert_eq!(told.iter().filter(|told| **told).count(), 1, "{line}");
    told.iter().position(|told| *told).expect("one of them")
}

/// Does a line of an edit tell why?
fn edit_is_told(line: &str, found: bool, number: u32) -> bool {
    let forbidden = ["is not renamed", "is not relaxed", "is renamed once", "is widened once"];
    let no_step = [" already", "and no primitive", " no step", " alone", "version 3 has this one"];
    line.contains(": edit ")
        && match number {
            23 => found == (line.contains(", which deletion ") && line.ends_with(" drops")),
            24 => forbidden.iter().any(|end| line.ends_with(end)),
            26 => no_step.iter().any(|end| line.ends_with(end)),
            _ => true,
        }
}

#[test]
fn a_tree_that_is_rebuilt_for_words_is_the_librarys_own() {
    let generator = Generator { seed: 141, sizes: Sizes::Usual };
    let (mut same, mut told) = (0, [0; RefusalKind::ALL.len() + 1]);
    let (mut nines, mut of_edits) = ([0; 3], [0; RefusalKind::ALL.len() + 1]);
    let mut room = Room::boxed();
    for n in 0..20_000 {
        let case = generator.case(n);
        let Some((call, (dropped, added, edits))) =
            case.update_call().and_then(|call| Some((call, said(&call)?)))
        else {
            continue;
        };
        let tree = Tree::new(case.records.clone(), case.pool.clone());
        let asked = changes::Asked {
            last_id: FieldId(call.last_id),
            version: call.version,
            dropped: &dropped,
            added: &added,
            edits: &edits,
        };
        let ids: Vec<FieldId> = call
            .identifiers
            .chunks_exact(ID_BYTES)
            .map(|id| FieldId(i32::from_le_bytes(id.try_into().expect("four bytes"))))
            .collect();
        let request = RequestRef {
            last_id: asked.last_id,
            version: call.version,
            identifiers: call.identifiers,
            deletions: call.deletions,
            additions: call.additions,
            added_records: call.added_records,
            edits: call.edits,
            pool: call.request_pool,
        };
        match tree.lent().update_in(request, &mut room) {
            Ok(answer) => {
                let changes = Changes::of(&tree, asked).expect("every path finds its column");
                let rebuilt = Tree::build(&changes.rebuilt()).expect("it fits");
                assert_eq!(rebuilt, answer.tree.to_tree(), "case {n}");
                // what is left, and each that was dropped with no other
                let alone = |slot: &&usize| changes.taken_by(**slot) == Some(**slot);
                let dropped = changes.drops.iter().filter(alone).collect::<BTreeSet<_>>().len();
                let left = rebuilt.records.len() / RECORD_BYTES;
                assert_eq!(answer.visited as usize, left + dropped, "case {n}");
                same += 1;
            }
            Err(refusal) if refusal.number != 1 && refusal.list != 1 => {
                let ask = Asked::Update { asked, request };
                let given =
                    Given { identifiers: &ids, ask, ..Given::new(Path::new("base"), &tree) };
                let line = first_line(given.refused(refusal));
                well_told(&line, refusal, n);
                assert_eq!(refusal.number == 22, goes(&line), "case {n}: {line}");
                told[refusal.number as usize] += 1;
                if refusal.number == 9 {
                    let of_base = tree.check_identifiers(&ids) == Err(refusal);
                    assert_eq!(of_which(&line) == 0, of_base, "case {n}: {line}");
                    nines[of_which(&line)] += 1;
                }
                if refusal.list == 6 {
                    let edit = &edits[refusal.place as usize];
                    let found = tree.find_name(&edit.path).is_ok_and(|found| found.is_some());
                    assert!(edit_is_told(&line, found, refusal.number), "case {n}: {line}");
                    of_edits[refusal.number as usize] += 1;
                }
            }
            Err(_) => {}
        }
    }
    assert!(same > 200, "{same} trees");
    assert!(nines.iter().all(|count| *count > 0), "9 of the base, and after the update: {nines:?}");
    for number in (2..=9).chain(11..=19).chain(22..=26) {
        assert!(told[number] > 0, "refusal {number} was not met: {told:?}");
    }
    for number in [13, 23, 24, 26] {
        assert!(of_edits[number] > 0, "refusal {number} of an edit was not met: {of_edits:?}");
    }
}

#[test]
fn a_damaged_tree_is_told_whatever_its_bytes() {
    let generator = Generator { seed: 142, sizes: Sizes::Usual };
    let mut told = [0; RefusalKind::ALL.len() + 1];
    for n in 0..20_000 {
        let Case { records, pool, .. } = generator.case(n);
        let tree = Tree::new(records, pool);
        let given = Given::new(Path::new("base"), &tree);
        if let Err(refusal) = tree.check() {
            well_told(&first_line(given.refused(refusal)), refusal, n);
            told[refusal.number as usize] += 1;
        }
    }
    for (number, count) in told.iter().enumerate().take(9).skip(2) {
        assert!(*count > 0, "refusal {number} was not met: {told:?}");
    }
}

#[test]
fn columns_that_are_alike_but_for_case_are_those_that_the_library_finds() {
    let generator = Generator { seed: 143, sizes: Sizes::Usual };
    let turn = OPERATIONS.iter().position(|word| *word == "folded").expect("it takes turns");
    let mut met = [[0; 3]; 2];
    for n in (turn as u64..40_000).step_by(OPERATIONS.len()) {
        let Case { records, pool, ask: Ask::Folded(name) } = generator.case(n) else {
            panic!("case {n} asks for something else");
        };
        let tree = Tree::new(records, pool);
        if tree.check().is_err() {
            continue;
        }
        let (full_or_short, alike) = Outline::of(&tree).alike(&name);
        let found = tree.find_folded(&name);
        let slots = found.map(|found| found.map(|(_, slot)| slot.0 as usize));
        match alike[..] {
            [] => assert_eq!(slots, Ok(None), "case {n}"),
            [slot] => assert_eq!(slots, Ok(Some(slot)), "case {n}"),
            [_, second, ..] => {
                let refusal = Refusal { number: 21, list: 0, place: second as u32 };
                assert_eq!(slots, Err(refusal), "case {n}");
                let ask = Asked::Folded { name: &name };
                let given = Given { ask, ..Given::new(Path::new("base"), &tree) };
                well_told(&first_line(given.refused(refusal)), refusal, n);
            }
        }
        met[usize::from(full_or_short == "short")][alike.len().min(2)] += 1;
    }
    let [[_, full, full_twice], [nothing, short, short_twice]] = met;
    for count in [full, full_twice, nothing, short, short_twice] {
        assert!(count > 100, "{met:?}");
    }
}

/// A tree in which most records are required and some primitives have another type code.
fn with_other_flags(random: &mut Random, mut records: Vec<u8>) -> Vec<u8> {
    for record in records.chunks_exact_mut(RECORD_BYTES) {
        record[10] |= u8::from(random.chance(7, 8));
        if record[9] == 0 && random.chance(1, 4) {
            record[16..20].copy_from_slice(&random.pick(&[0u32, 4, 5, 6, 7]).to_le_bytes());
        }
    }
    records
}

#[test]
fn conditions_on_identifiers_that_are_told_are_those_that_the_library_asks() {
    let generator = Generator { seed: 144, sizes: Sizes::Usual };
    let told = [
        "and no primitive",
        "it is optional",
        "a float",
        "a double",
        "above it is an optional struct",
        "above it is a list",
        "above it is a map",
    ];
    let (mut accepted, mut alone) = (0, [0; 7]);
    for n in 0..4_000 {
        let Case { records, pool, .. } = generator.case(n);
        let tree = Tree::new(with_other_flags(&mut Random::nth(145, n), records), pool);
        let Ok(columns) = tree.columns() else { continue };
        let columns: Vec<Column> = columns.collect();
        for (slot, column) in columns.iter().enumerate() {
            let broken = identifiers::broken(&columns, slot);
            let verdict = match broken[..] {
                [] => Ok(()),
                _ => Err(Refusal { number: 9, list: 5, place: 0 }),
            };
            assert_eq!(tree.check_identifiers(&[column.id]), verdict, "case {n}: {broken:?}");
            accepted += usize::from(broken.is_empty());
            if let [words] = &broken[..] {
                let which = told.iter().position(|end| words.contains(end));
                alone[which.unwrap_or_else(|| panic!("case {n}: {words}"))] += 1;
            }
        }
    }
    assert!(accepted > 100 && alone.iter().all(|count| *count > 20), "{accepted}, {alone:?}");
}

/// Codes of every kind: all that are no decimals, decimals at their edges, and codes beside them.
fn codes() -> impl Iterator<Item = u32> {
    let digits = [(1, 0), (1, 1), (9, 2), (10, 2), (10, 3), (37, 2), (38, 2), (38, 38)];
    let none = [(0, 0), (39, 2), (2, 3)];
    let decimals = digits.into_iter().chain(none).map(|(p, s)| 65_536 + 256 * p + s);
    (0..=12).chain(decimals).chain([77, 65_535, u32::MAX])
}

#[test]
fn steps_that_are_told_are_those_that_the_library_takes() {
    let widened = |version: Version, old: u32, new: u32| {
        let tree = Tree::build(&[Field::primitive("a", old)]).expect("it fits");
        let request = Request::new(FieldId(0)).version(version).widen("a", new).expect("it fits");
        tree.update(&request).map(|answer| answer.tree.to_string())
    };
    let (mut taken, mut later) = (0, 0);
    for old in codes() {
        for new in codes() {
            for version in [Version::V2, Version::V3] {
                let answer = widened(version, old, new);
                let steps = Type::of_code(old).map(|of| of.steps(version).collect::<Vec<_>>());
                let is_step = steps.is_some_and(|to| to.iter().any(|to| to.code() == new));
                assert_eq!(answer.is_ok(), is_step, "{version}: {old} to {new}");
                taken += usize::from(is_step);
                if let Err(refusal) = answer {
                    assert_eq!(refusal, Refusal { number: 26, list: 6, place: 0 });
                    let words = types::no_step(version, old, new);
                    let by_3 = widened(Version::V3, old, new).is_ok();
                    assert_eq!(words.ends_with("; version 3 has this one"), by_3, "{words}");
                    later += usize::from(by_3);
                }
            }
        }
    }
    assert!(taken > 10 && later == 2, "{taken} steps, {later} in version 3 alone");
}
