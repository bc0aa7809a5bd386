//! The comparison finds what is wrong with a port.

use std::cmp::Ordering;
use std::collections::{HashMap, HashSet};
use std::iter;

use cases::{
    Ask, Broken, ByJudge, Case, Generator, Of, Operations, Sizes, broken_in, budget_left, named,
    outcome, read_line,
};
use compare::{Run, iceberg, replay};
use judge::{
    Change, Changed, DATE, DOUBLE, EDIT_BYTES, ENTRY_BYTES, Edit, FLOAT, Found, ID_BYTES, INT,
    LONG, NO_SLOT, Names, PRIMITIVE, RECORD_BYTES, RELAX, REQUIRED, Row, STRING, Searched,
    TIMESTAMP, TIMESTAMP_NS, Tree, UpdateCall, VERSIONS, WIDEN, decimal, is_step,
};
use port::{Guarded, beside_paper};

/// The second judge with its answers changed a little.
struct Altered {
    updated: Updated,
    renumbered: Renumbered,
    changed: fn(Changed, &mut [u8], &mut [u8]) -> Changed,
    found: fn(Found) -> Found,
    folded: Folded,
    ids: Ids,
}

/// An update.
type Updated = fn(&UpdateCall, &mut [u8], &mut [u8]) -> Changed;

/// A renumbering: of records and pool, with identifiers, from a start.
type Renumbered = fn([&[u8]; 3], i32, [&mut [u8]; 3]) -> Changed;

/// A look-up that forgets case.
type Folded = fn(&[u8], &[u8], &[u8]) -> Found;

/// A look-up of many ids.
type Ids = fn(&[u8], &[u8], &[u8], &mut [u8]) -> Searched;

impl Operations for Altered {
    fn update(&self, call: &UpdateCall, r: &mut [u8], n: &mut [u8]) -> Changed {
        let answer = (self.updated)(call, r, n);
        (self.changed)(answer, r, n)
    }
    fn prune(
        &self,
        records: &[u8],
        pool: &[u8],
        selected: &[u8],
        full: u32,
        r: &mut [u8],
        n: &mut [u8],
    ) -> Changed {
        let answer = ByJudge.prune(records, pool, selected, full, r, n);
        (self.changed)(answer, r, n)
    }
    fn renumber(
        &self,
        records: &[u8],
        pool: &[u8],
        identifiers: &[u8],
        start: i32,
        r: &mut [u8],
        n: &mut [u8],
        i: &mut [u8],
    ) -> Changed {
        let answer = (self.renumbered)([records, pool, identifiers], start, [r, n, i]);
        (self.changed)(answer, r, n)
    }
    fn find_name(&self, records: &[u8], pool: &[u8], name: &[u8]) -> Found {
        (self.found)(ByJudge.find_name(records, pool, name))
    }
    fn find_folded(&self, records: &[u8], pool: &[u8], name: &[u8]) -> Found {
        (self.found)((self.folded)(records, pool, name))
    }
    fn find_id(&self, records: &[u8], pool: &[u8], id: i32) -> Found {
        (self.found)(ByJudge.find_id(records, pool, id))
    }
    fn find_ids(&self, records: &[u8], pool: &[u8], ids: &[u8], s: &mut [u8]) -> Searched {
        (self.ids)(records, pool, ids, s)
    }
    fn find_parent(&self, records: &[u8], pool: &[u8], id: i32) -> Found {
        (self.found)(ByJudge.find_parent(records, pool, id))
    }
}

fn renumbered([records, pool, ids]: [&[u8]; 3], start: i32, [r, n, i]: [&mut [u8]; 3]) -> Changed {
    judge::renumber(records, pool, ids, start, r, n, i)
}

fn right() -> Altered {
    Altered {
        updated: judge::update,
        renumbered,
        changed: |answer, _, _| answer,
        found: |answer| answer,
        folded: judge::find_folded,
        ids: judge::find_ids,
    }
}

/// How many of the named cases a port fails.
fn failures(port: Altered) -> usize {
    let guarded = Guarded::new(port);
    named().iter().filter(|one| beside_paper(&one.case, &guarded).is_err()).count()
}

#[test]
fn a_right_port_passes() {
    assert_eq!(failures(right()), 0);
    let guarded = Guarded::new(right());
    let generator = Generator { seed: 3, sizes: Sizes::Usual };
    for n in 0..2_000 {
        let case = generator.case(n);
        assert_eq!(beside_paper(&case, &guarded), Ok(case.ask != Ask::List), "case {n}");
    }
}

#[test]
fn a_wrong_last_id_is_found() {
    let changed = |answer: Changed, _: &mut [u8], _: &mut [u8]| Changed {
        last_id: if answer.refusal == 0 { answer.last_id ^ 1 } else { 0 },
        ..answer
    };
    assert!(failures(Altered { changed, ..right() }) > 50);
}

#[test]
fn a_wrong_place_is_found() {
    let changed = |answer: Changed, _: &mut [u8], _: &mut [u8]| Changed {
        place: answer.place + u32::from(answer.refusal >= 7),
        ..answer
    };
    assert!(failures(Altered { changed, ..right() }) >= 10);
}

#[test]
fn a_byte_beyond_the_answer_is_found() {
    let changed = |answer: Changed, _: &mut [u8], names: &mut [u8]| {
        if let Some(last) = names.last_mut() {
            *last ^= 1;
        }
        answer
    };
    assert!(failures(Altered { changed, ..right() }) > 100);
}

#[test]
fn a_byte_written_on_a_refusal_is_found() {
    let changed = |answer: Changed, records: &mut [u8], _: &mut [u8]| {
        if answer.refusal == 20 {
            records[0] ^= 1;
        }
        answer
    };
    assert!(failures(Altered { changed, ..right() }) > 5);
}

#[test]
fn a_wrong_slot_is_found() {
    let found = |answer: Found| Found { slot: answer.slot + answer.found, ..answer };
    assert!(failures(Altered { found, ..right() }) > 20);
}

#[test]
fn a_slot_where_nothing_is_found_is_found() {
    let found = |answer: Found| Found { slot: 1 - answer.found.min(1), ..answer };
    assert!(failures(Altered { found, ..right() }) > 5);
}

/// Of the addition at a place: the record that its path finds, and those above it; and what the
/// deletions find. For requests that pass 11 and 15.
fn path_and_dropped(call: &UpdateCall, place: usize) -> (Vec<usize>, Vec<usize>, Tree) {
    let tree = judge::read_tree(call.records, call.pool, judge::BASE).expect("it was read");
    let names = Names::of(&tree);
    let found = |path: &Option<Vec<u8>>| path.as_ref().and_then(|path| names.find(path));
    let paths = |entries, list| judge::read_paths(entries, call.request_pool, list).expect("read");
    let dropped = paths(call.deletions, judge::DELETIONS).iter().filter_map(found).collect();
    let parent = found(&paths(call.additions, judge::ADDITIONS)[place]);
    let path = std::iter::successors(parent, |slot| tree.rows[*slot].parent).collect();
    (path, dropped, tree)
}

/// The addition that a refusal speaks of, or the first that has a path.
fn place_of(call: &UpdateCall, answer: Changed) -> usize {
    let has_path = |entry: &[u8]| entry[6] == 1;
    let first = call.additions.chunks_exact(8).position(has_path).unwrap_or(0);
    if answer.refusal == 0 { first } else { answer.place as usize }
}

/// 22 in the place of an answer, if what is dropped above the addition's parent says so.
fn refused_22_if(
    call: &UpdateCall,
    answer: Changed,
    wrong: fn(&[usize], &[usize], &Tree) -> bool,
) -> Changed {
    if call.additions.is_empty() {
        return answer;
    }
    let place = place_of(call, answer);
    let (path, dropped, tree) = path_and_dropped(call, place);
    match wrong(&path, &dropped, &tree) {
        true => judge::Refusal::new(22, judge::ADDITIONS, place).into(),
        false => answer,
    }
}

/// 01's answer where the text gives 22, if it is of this number.
fn before_22(call: &UpdateCall, r: &mut [u8], n: &mut [u8], number: u32) -> Changed {
    let answer = judge::update(call, r, n);
    let (mut other_r, mut other_n) = (r.to_vec(), n.to_vec());
    let before = judge::update_before_22(call, &mut other_r, &mut other_n);
    if answer.refusal != 22 || before.refusal != number {
        return answer;
    }
    r.copy_from_slice(&other_r);
    n.copy_from_slice(&other_n);
    before
}

#[test]
fn wrong_ways_to_refuse_a_dropped_parent_are_found() {
    let wrong: [(&str, Updated); 9] = [
        ("it is never refused", judge::update_before_22),
        ("what would be nowhere is accepted", |call, r, n| before_22(call, r, n, 0)),
        ("17 comes before 22", |call, r, n| before_22(call, r, n, 17)),
        ("18 comes before 22", |call, r, n| before_22(call, r, n, 18)),
        ("9 comes before 22", |call, r, n| before_22(call, r, n, 9)),
        ("22 comes before 16", |call, r, n| match judge::update(call, r, n) {
            answer if answer.refusal == 16 => refused_22_if(call, answer, |path, dropped, tree| {
                path.iter().any(|slot| dropped.contains(slot) && is_member(tree, *slot))
            }),
            answer => answer,
        }),
        ("a dropped element, key or value above refuses", |call, r, n| {
            let (mut other_r, mut other_n) = (r.to_vec(), n.to_vec());
            let answer = judge::update(call, &mut other_r, &mut other_n);
            let held = |path: &[usize], dropped: &[usize], tree: &Tree| {
                path.iter().any(|slot| dropped.contains(slot) && !is_member(tree, *slot))
            };
            let answer = match answer.refusal {
                0 => refused_22_if(call, answer, held),
                _ => answer,
            };
            if answer.refusal == 0 {
                r.copy_from_slice(&other_r);
                n.copy_from_slice(&other_n);
            }
            answer
        }),
        ("only the receiving struct is asked", |call, r, n| {
            let answer = judge::update(call, r, n);
            if answer.refusal != 22 {
                return answer;
            }
            let (path, dropped, _) = path_and_dropped(call, answer.place as usize);
            if dropped.contains(&path[0]) { answer } else { judge::update_before_22(call, r, n) }
        }),
        ("the place is the deletion's", |call, r, n| {
            let answer = judge::update(call, r, n);
            let list = if answer.refusal == 22 { judge::DELETIONS } else { answer.list };
            Changed { list, ..answer }
        }),
    ];
    for (what, updated) in wrong {
        assert!(failures(Altered { updated, ..right() }) > 0, "{what}");
    }
}

/// Edits, each with the slot that its path finds.
type Edits = Vec<(Option<usize>, Edit)>;

/// The base of a call, and its edits; none where 2 to 6 refuse.
fn edits_of(call: &UpdateCall) -> Option<(Tree, Edits)> {
    let tree = judge::read_tree(call.records, call.pool, judge::BASE).ok()?;
    let names = Names::of(&tree);
    let edits = judge::read_edits(call.edits, call.request_pool).ok()?;
    let found = |edit: Edit| (names.find(&edit.path), edit);
    let edits = edits.into_iter().map(found).collect();
    Some((tree, edits))
}

/// The edit at a place, with the row that it finds.
fn edit_at(call: &UpdateCall, place: usize) -> (Option<Row>, Edit) {
    let (tree, edits) = edits_of(call).expect("4 comes before");
    let (slot, edit) = edits[place].clone();
    (slot.map(|slot| tree.rows[slot].clone()), edit)
}

fn renames(edit: &Edit) -> bool {
    matches!(edit.change, Change::Rename(_))
}

fn widens(edit: &Edit) -> bool {
    matches!(edit.change, Change::Widen(_))
}

/// The place of an earlier edit of the same column that does this.
fn done_before(call: &UpdateCall, place: usize, does: fn(&Edit) -> bool) -> Option<usize> {
    let (_, edits) = edits_of(call)?;
    let is = |(slot, edit): &(Option<usize>, Edit)| *slot == edits[place].0 && does(edit);
    edits[..place].iter().position(is)
}

/// The place of an earlier edit that renames the same column.
fn renamed_before(call: &UpdateCall, place: usize) -> Option<usize> {
    done_before(call, place, renames)
}

/// The place of an earlier edit that widens the column that this one widens.
fn widened_before(call: &UpdateCall, place: usize) -> Option<usize> {
    widens(&edit_at(call, place).1).then(|| done_before(call, place, widens)).flatten()
}

fn is_key(call: &UpdateCall, slot: usize) -> bool {
    let tree = judge::read_tree(call.records, call.pool, judge::BASE).expect("it was read");
    let above = tree.rows[slot].parent.map(|above| &tree.rows[above]);
    above.is_some_and(|above| above.kind == judge::MAP && above.children[0] == slot)
}

fn has_dot(edit: &Edit) -> bool {
    matches!(&edit.change, Change::Rename(name) if name.contains(&b'.'))
}

fn with_edits(call: &UpdateCall, edits: &[u8], r: &mut [u8], n: &mut [u8]) -> Changed {
    judge::update(&UpdateCall { edits, ..*call }, r, n)
}

fn without(edits: &[u8], place: usize) -> Vec<u8> {
    [&edits[..place * EDIT_BYTES], &edits[(place + 1) * EDIT_BYTES..]].concat()
}

/// Every refused edit that a rule passes over is left out.
fn passing(
    call: &UpdateCall,
    r: &mut [u8],
    n: &mut [u8],
    over: fn(&UpdateCall, u32, usize) -> bool,
) -> Changed {
    let answer = judge::update(call, r, n);
    let place = answer.place as usize;
    let decided = answer.list == judge::EDITS && answer.refusal > 4;
    if !decided || !over(call, answer.refusal, place) {
        return answer;
    }
    passing(&UpdateCall { edits: &without(call.edits, place), ..*call }, r, n, over)
}

/// The answer to another call where the rule says so of both answers.
fn instead(
    call: &UpdateCall,
    other: &UpdateCall,
    (r, n): (&mut [u8], &mut [u8]),
    rule: fn(Changed, Changed) -> bool,
) -> Changed {
    let (mut other_r, mut other_n) = (r.to_vec(), n.to_vec());
    let (was, is) = (judge::update(call, r, n), judge::update(other, &mut other_r, &mut other_n));
    if !rule(was, is) {
        return was;
    }
    r.copy_from_slice(&other_r);
    n.copy_from_slice(&other_n);
    is
}

/// A rule that is none, and that the edit of a slot breaks.
type Wrong = fn(&UpdateCall, usize, &Edit) -> bool;

/// The refusal of an edit where an accepted one breaks a rule that is none.
fn refused_edit_if(
    call: &UpdateCall,
    r: &mut [u8],
    n: &mut [u8],
    (number, wrong): (u32, Wrong),
) -> Changed {
    let (mut other_r, mut other_n) = (r.to_vec(), n.to_vec());
    let answer = judge::update(call, &mut other_r, &mut other_n);
    if answer.refusal != 0 {
        return answer;
    }
    let (_, edits) = edits_of(call).expect("it was accepted");
    let is = |(slot, edit): &(Option<usize>, Edit)| wrong(call, slot.expect("found"), edit);
    match edits.iter().position(is) {
        Some(place) => judge::Refusal::new(number, judge::EDITS, place).into(),
        None => {
            r.copy_from_slice(&other_r);
            n.copy_from_slice(&other_n);
            answer
        }
    }
}

/// The flags of each relaxed column of an answer, told otherwise.
fn relaxed_by(call: &UpdateCall, r: &mut [u8], n: &mut [u8], other: fn(u8, u8) -> u8) -> Changed {
    let answer = judge::update(call, r, n);
    if answer.refusal == 0 {
        let (tree, edits) = edits_of(call).expect("it was accepted");
        for (slot, _) in edits.iter().filter(|(_, edit)| edit.change == Change::Relax) {
            let row = &tree.rows[slot.expect("it was accepted")];
            let is = |record: &&mut [u8]| record[..4] == row.id.to_le_bytes();
            let records = r.chunks_exact_mut(RECORD_BYTES).take(answer.records as usize);
            records.filter(is).for_each(|record| record[10] = other(row.flags, record[10]));
        }
    }
    answer
}

/// The base with the edits made, as if they came first: records and pool.
fn edited_first(call: &UpdateCall) -> Option<(Vec<u8>, Vec<u8>)> {
    let (_, edits) = edits_of(call)?;
    let (mut records, mut pool) = (call.records.to_vec(), call.pool.to_vec());
    for (slot, edit) in edits {
        let record = &mut records[slot? * RECORD_BYTES..];
        match edit.change {
            Change::Relax => record[10] &= !REQUIRED,
            Change::Widen(code) => record[16..20].copy_from_slice(&code.to_le_bytes()),
            Change::Rename(name) => {
                record[4..8].copy_from_slice(&(pool.len() as u32).to_le_bytes());
                record[8] = name.len() as u8;
                pool.extend(name);
            }
        }
    }
    Some((records, pool))
}

/// The answer where edits come first, if the rule says so of both answers.
fn edits_first(
    call: &UpdateCall,
    r: &mut [u8],
    n: &mut [u8],
    rule: fn(Changed, Changed) -> bool,
) -> Changed {
    match edited_first(call) {
        Some((records, pool)) => {
            let first = UpdateCall { records: &records, pool: &pool, edits: &[], ..*call };
            instead(call, &first, (r, n), rule)
        }
        None => judge::update(call, r, n),
    }
}

/// Each edit looks in the tree that the one before it left; for updates of edits alone.
fn one_by_one(call: &UpdateCall, r: &mut [u8], n: &mut [u8]) -> Changed {
    let alone = call.deletions.is_empty() && call.additions.is_empty();
    let whole = judge::update(call, r, n);
    if !alone || (1..=10).contains(&whole.refusal) || call.edits.is_empty() {
        return whole;
    }
    let (mut records, mut pool) = (call.records.to_vec(), call.pool.to_vec());
    let mut answer = whole;
    for (place, edit) in call.edits.chunks_exact(EDIT_BYTES).enumerate() {
        let one = UpdateCall { records: &records, pool: &pool, edits: edit, ..*call };
        answer = judge::update(&one, r, n);
        if answer.refusal != 0 {
            let places = answer.list == judge::EDITS;
            let place = if places { place as u32 } else { answer.place };
            return Changed { place, ..answer };
        }
        records = r[..answer.records as usize * RECORD_BYTES].to_vec();
        pool = n[..answer.names as usize].to_vec();
    }
    answer
}

/// What is asked with no edits, no additions, or no deletions.
fn no_edits<'a>(call: &UpdateCall<'a>) -> UpdateCall<'a> {
    UpdateCall { edits: &[], ..*call }
}

fn no_additions<'a>(call: &UpdateCall<'a>) -> UpdateCall<'a> {
    UpdateCall { additions: &[], added_records: &[], ..*call }
}

/// The edits with some of their bytes changed where 2, 3 or 4 refuses them.
fn mended(
    call: &UpdateCall,
    r: &mut [u8],
    n: &mut [u8],
    (number, mend): (u32, fn(&mut Vec<u8>)),
) -> Changed {
    let answer = judge::update(call, r, n);
    if answer.refusal != number || ![judge::BASE, judge::EDITS].contains(&answer.list) {
        return answer;
    }
    let mut edits = call.edits.to_vec();
    mend(&mut edits);
    with_edits(call, &edits, r, n)
}

fn of_an_edit(answer: Changed) -> bool {
    answer.refusal != 0 && answer.list == judge::EDITS
}

/// 02, 5/13: which edits are refused, and with what.
#[test]
fn edits_that_are_wrongly_let_through_are_found() {
    let wrong: [(&str, Updated); 16] = [
        ("what is not there is passed over", |c, r, n| passing(c, r, n, |_, no, _| no == 23)),
        ("what is gone is passed over", |c, r, n| {
            passing(c, r, n, |c, no, at| no == 23 && edit_at(c, at).0.is_some())
        }),
        ("what stands beneath a dropped member is passed over", |c, r, n| {
            passing(c, r, n, |c, no, at| {
                let (tree, edits) = edits_of(c).expect("4 comes before");
                let dropped = judge::read_paths(c.deletions, c.request_pool, 2).expect("read");
                let names = Names::of(&tree);
                let found: Vec<_> = dropped.iter().flatten().map(|path| names.find(path)).collect();
                no == 23 && edits[at].0.is_some() && !found.contains(&edits[at].0)
            })
        }),
        ("24 is passed over", |c, r, n| passing(c, r, n, |_, no, _| no == 24)),
        ("the first rename stays", |c, r, n| {
            passing(c, r, n, |c, no, at| no == 24 && renamed_before(c, at).is_some())
        }),
        ("the second rename wins", |c, r, n| {
            let answer = judge::update(c, r, n);
            let again = answer.refusal == 24;
            match again.then(|| renamed_before(c, answer.place as usize)).flatten() {
                Some(first) => with_edits(c, &without(c.edits, first), r, n),
                None => answer,
            }
        }),
        ("the same name again is no rename", |c, r, n| {
            passing(c, r, n, |c, no, at| {
                let first = renamed_before(c, at).map(|first| edit_at(c, first).1.change);
                no == 24 && first == Some(edit_at(c, at).1.change)
            })
        }),
        ("the present name is no rename", |c, r, n| {
            passing(c, r, n, |c, no, at| {
                let (row, edit) = edit_at(c, at);
                let first = renamed_before(c, at);
                let own = |change: &Change| matches!(change, Change::Rename(name) if row.as_ref().is_some_and(|r| r.name == *name));
                no == 24 && first.is_some() && own(&edit.change)
            })
        }),
        ("an optional key is relaxed", |c, r, n| {
            passing(c, r, n, |c, no, at| {
                let (row, edit) = edit_at(c, at);
                no == 24
                    && edit.change == Change::Relax
                    && row.is_some_and(|row| row.flags & 1 == 0)
            })
        }),
        ("a key is relaxed", |c, r, n| {
            let answer = judge::update(c, r, n);
            let relaxes = |at: usize| edit_at(c, at).1.change == Change::Relax;
            if answer.refusal != 24 || !relaxes(answer.place as usize) {
                return answer;
            }
            let (_, edits) = edits_of(c).expect("4 comes before");
            let slot = edits[answer.place as usize].0.expect("23 comes before");
            let mut records = c.records.to_vec();
            records[slot * RECORD_BYTES + 10] &= !REQUIRED;
            let edits = without(c.edits, answer.place as usize);
            judge::update(&UpdateCall { records: &records, edits: &edits, ..*c }, r, n)
        }),
        ("a rename of an element, key or value is passed over", |c, r, n| {
            passing(c, r, n, |c, no, at| {
                no == 24 && renames(&edit_at(c, at).1) && renamed_before(c, at).is_none()
            })
        }),
        ("a dot is passed over", |c, r, n| passing(c, r, n, |_, no, _| no == 13)),
        ("9 is not asked of what edits leave", |c, r, n| {
            let free = UpdateCall { identifiers: &[], ..*c };
            let edited = !c.edits.is_empty();
            match judge::update(&no_edits(c), &mut r.to_vec(), &mut n.to_vec()).refusal {
                0 if edited => instead(c, &free, (r, n), |was, _| was.refusal == 9),
                _ => judge::update(c, r, n),
            }
        }),
        ("65 edits are 64", |c, r, n| {
            mended(c, r, n, (2, |edits| edits.truncate(64 * EDIT_BYTES)))
        }),
        ("edits need not be whole", |c, r, n| {
            mended(c, r, n, (2, |edits| edits.truncate(edits.len() / EDIT_BYTES * EDIT_BYTES)))
        }),
        ("19 is not asked of what edits leave", |c, r, n| {
            instead(c, &no_edits(c), (r, n), |was, is| was.refusal == 19 && is.refusal == 0)
        }),
    ];
    for (what, updated) in wrong {
        assert!(failures(Altered { updated, ..right() }) > 0, "{what}");
    }
}

/// Too strict a rule for edits, or one byte that is not asked.
#[test]
fn edits_that_are_wrongly_read_or_refused_are_found() {
    let wrong: [(&str, Updated); 12] = [
        ("a value is not relaxed", |c, r, n| {
            refused_edit_if(
                c,
                r,
                n,
                (24, |c, slot, edit| {
                    edit.change == Change::Relax
                        && edit.path.ends_with(b"value")
                        && !is_key(c, slot)
                }),
            )
        }),
        ("an element is not relaxed", |c, r, n| {
            refused_edit_if(
                c,
                r,
                n,
                (24, |_, _, edit| edit.change == Change::Relax && edit.path.ends_with(b".element")),
            )
        }),
        ("what is optional is not relaxed", |c, r, n| {
            refused_edit_if(
                c,
                r,
                n,
                (24, |c, slot, edit| {
                    let flags = c.records[slot * RECORD_BYTES + 10];
                    edit.change == Change::Relax && flags & REQUIRED == 0
                }),
            )
        }),
        ("an empty name is refused", |c, r, n| {
            refused_edit_if(c, r, n, (13, |_, _, edit| edit.change == Change::Rename(vec![])))
        }),
        ("what is dropped and stays is gone", |c, r, n| {
            refused_edit_if(
                c,
                r,
                n,
                (23, |c, slot, _| {
                    let (tree, _) = edits_of(c).expect("it was accepted");
                    let dropped = judge::read_paths(c.deletions, c.request_pool, 2).expect("read");
                    let names = Names::of(&tree);
                    let found: Vec<_> =
                        dropped.iter().flatten().map(|path| names.find(path)).collect();
                    let up = std::iter::successors(Some(slot), |slot| tree.rows[*slot].parent);
                    up.into_iter().any(|slot| found.contains(&Some(slot)))
                }),
            )
        }),
        ("an identifier is not renamed", |c, r, n| {
            refused_edit_if(
                c,
                r,
                n,
                (24, |c, slot, edit| {
                    let id = &c.records[slot * RECORD_BYTES..][..4];
                    renames(edit) && c.identifiers.chunks_exact(4).any(|one| one == id)
                }),
            )
        }),
        ("3 does not ask byte 7", |c, r, n| {
            mended(c, r, n, (3, |edits| edits.chunks_exact_mut(EDIT_BYTES).for_each(|e| e[7] = 0)))
        }),
        ("3 does not ask the last bytes", |c, r, n| {
            mended(
                c,
                r,
                n,
                (3, |edits| {
                    edits.chunks_exact_mut(EDIT_BYTES).for_each(|e| e[13..].fill(0));
                }),
            )
        }),
        ("3 does not ask for a new name of one that relaxes", |c, r, n| {
            mended(
                c,
                r,
                n,
                (3, |edits| {
                    let relaxes = edits.chunks_exact_mut(EDIT_BYTES).filter(|e| e[6] == RELAX);
                    relaxes.for_each(|e| e[8..13].fill(0));
                }),
            )
        }),
        ("any other number relaxes", |c, r, n| {
            mended(
                c,
                r,
                n,
                (3, |edits| {
                    let others = edits.chunks_exact_mut(EDIT_BYTES).filter(|e| e[6] > RELAX);
                    others.for_each(|e| {
                        e[6] = RELAX;
                        e[8..13].fill(0);
                    });
                }),
            )
        }),
        ("4 does not ask the new name", |c, r, n| {
            mended(
                c,
                r,
                n,
                (4, |edits| {
                    edits.chunks_exact_mut(EDIT_BYTES).for_each(|e| e[8..13].fill(0));
                }),
            )
        }),
        ("4 asks the length alone", |c, r, n| {
            mended(
                c,
                r,
                n,
                (4, |edits| {
                    edits.chunks_exact_mut(EDIT_BYTES).for_each(|e| {
                        e[..4].fill(0);
                        e[8..12].fill(0);
                    });
                }),
            )
        }),
    ];
    for (what, updated) in wrong {
        assert!(failures(Altered { updated, ..right() }) > 0, "{what}");
    }
}

/// What accepted edits change, and where they stand among the rest.
#[test]
fn edits_that_are_wrongly_made_or_in_another_order_are_found() {
    let wrong: [(&str, Updated); 19] = [
        ("relaxing clears the default", |c, r, n| relaxed_by(c, r, n, |_, is| is & 1)),
        ("relaxing clears both flags", |c, r, n| relaxed_by(c, r, n, |_, _| 0)),
        ("relaxing does nothing", |c, r, n| relaxed_by(c, r, n, |was, _| was)),
        ("relaxing turns the flag", |c, r, n| relaxed_by(c, r, n, |was, _| was ^ REQUIRED)),
        ("edits are never made", |c, r, n| {
            instead(c, &no_edits(c), (r, n), |was, is| was.refusal == 0 && is.refusal == 0)
        }),
        ("only the first edit is made", |c, r, n| {
            let first = UpdateCall { edits: c.edits.get(..EDIT_BYTES).unwrap_or(c.edits), ..*c };
            instead(c, &first, (r, n), |was, is| was.refusal == 0 && is.refusal == 0)
        }),
        ("the old name's length stays", |c, r, n| {
            let mut edits = c.edits.to_vec();
            for (edit, (slot, of)) in
                edits.chunks_exact_mut(EDIT_BYTES).zip(edits_of(c).map_or(vec![], |(_, all)| all))
            {
                if let (Some(slot), Change::Rename(_)) = (slot, of.change) {
                    edit[12] = c.records[slot * RECORD_BYTES + 8];
                }
            }
            let other = UpdateCall { edits: &edits, ..*c };
            instead(c, &other, (r, n), |was, is| was.refusal == 0 && is.refusal == 0)
        }),
        ("a path looks in what the edit before it left", one_by_one),
        ("a rename frees a name for an addition", |c, r, n| {
            edits_first(c, r, n, |was, _| was.refusal == 17)
        }),
        ("a rename takes a name from an addition", |c, r, n| {
            edits_first(c, r, n, |was, is| was.refusal == 8 && is.refusal == 17)
        }),
        ("edits come before the deletions", |c, r, n| {
            edits_first(c, r, n, |was, is| was.refusal == 0 && is.refusal == 11)
        }),
        ("edits come before the additions", |c, r, n| {
            let rule = |was: Changed, is: Changed| was.list == judge::ADDITIONS && of_an_edit(is);
            instead(c, &no_additions(c), (r, n), rule)
        }),
        ("19 comes before the edits", |c, r, n| {
            instead(c, &no_edits(c), (r, n), |was, is| of_an_edit(was) && is.refusal == 19)
        }),
        ("the rebuilt tree comes before the edits", |c, r, n| {
            let rule = |was: Changed, is: Changed| of_an_edit(was) && is.list == judge::REBUILT;
            instead(c, &no_edits(c), (r, n), rule)
        }),
        ("3 and 4 of edits come behind the base", |c, r, n| {
            let rule = |was: Changed, is: Changed| {
                of_an_edit(was) && was.refusal < 5 && (7..=9).contains(&is.refusal)
            };
            instead(c, &no_edits(c), (r, n), rule)
        }),
        ("24 comes before 23", |c, r, n| {
            let all = UpdateCall { deletions: &[], ..no_additions(c) };
            let rule = |was: Changed, is: Changed| {
                was.refusal == 23 && is.refusal == 24 && was.place == is.place
            };
            instead(c, &all, (r, n), rule)
        }),
        ("13 comes before 23 and 24", |c, r, n| match judge::update(c, r, n) {
            answer
                if of_an_edit(answer)
                    && answer.refusal > 22
                    && has_dot(&edit_at(c, answer.place as usize).1) =>
            {
                Changed { refusal: 13, ..answer }
            }
            answer => answer,
        }),
        ("13 of an edit has list 3", |c, r, n| match judge::update(c, r, n) {
            answer if answer.refusal == 13 => Changed { list: judge::ADDITIONS, ..answer },
            answer => answer,
        }),
        ("the place is the first edit", |c, r, n| match judge::update(c, r, n) {
            answer if of_an_edit(answer) => Changed { place: 0, ..answer },
            answer => answer,
        }),
    ];
    for (what, updated) in wrong {
        assert!(failures(Altered { updated, ..right() }) > 0, "{what}");
    }
}

/// The code of the column that an edit finds, if it is a primitive, and the code that it is to get.
fn codes_at(call: &UpdateCall, place: usize) -> Option<(u32, u32)> {
    match edit_at(call, place) {
        (Some(row), Edit { change: Change::Widen(code), .. }) if row.kind == PRIMITIVE => {
            Some((row.type_code, code))
        }
        _ => None,
    }
}

/// Is an edit a widening that no step allows?
fn is_no_step(call: &UpdateCall, place: usize) -> bool {
    let step = |(old, new)| is_step(call.version, old, new);
    widens(&edit_at(call, place).1) && !codes_at(call, place).is_some_and(step)
}

/// Writes a type code into the record of an id, as far as an answer goes.
fn put_code(answer: Changed, r: &mut [u8], id: i32, code: u32) {
    let is = |record: &&mut [u8]| record[..4] == id.to_le_bytes();
    let records = r.chunks_exact_mut(RECORD_BYTES).take(answer.records as usize);
    records.filter(is).for_each(|record| record[16..20].copy_from_slice(&code.to_le_bytes()));
}

/// A wrong table: does a version allow that an old code becomes a new one?
type Table = fn(u32, u32, u32) -> bool;

/// An update by a wrong table. The judge is asked for a step that it has where the table allows
/// more, and the code put in its place; and for none where the table allows less.
fn by_table(call: &UpdateCall, r: &mut [u8], n: &mut [u8], allowed: Table) -> Changed {
    let Some((tree, found)) = edits_of(call) else { return judge::update(call, r, n) };
    let (mut records, mut edits) = (call.records.to_vec(), call.edits.to_vec());
    let (mut seen, mut given) = (vec![], vec![]);
    for (bytes, (slot, edit)) in edits.chunks_exact_mut(EDIT_BYTES).zip(found) {
        let (Some(slot), Change::Widen(new)) = (slot, edit.change) else { continue };
        let row = &tree.rows[slot];
        // a second one is 24, whatever its codes
        if row.kind != PRIMITIVE || seen.contains(&slot) {
            continue;
        }
        seen.push(slot);
        let old = row.type_code;
        match (allowed(call.version, old, new), is_step(call.version, old, new)) {
            (true, false) => {
                // 9 asks of the base whether it is a float
                let float = old == FLOAT || old == DOUBLE;
                let [from, to] = if float { [FLOAT, DOUBLE] } else { [INT, LONG] };
                records[slot * RECORD_BYTES + 16..][..4].copy_from_slice(&from.to_le_bytes());
                bytes[8..12].copy_from_slice(&to.to_le_bytes());
                given.push((row.id, new));
            }
            (false, true) => bytes[8..12].fill(0),
            _ => {}
        }
    }
    let answer = judge::update(&UpdateCall { records: &records, edits: &edits, ..*call }, r, n);
    if answer.refusal == 0 {
        given.into_iter().for_each(|(id, code)| put_code(answer, r, id, code));
    }
    answer
}

/// 02, 6/13: the table of steps, and the rule for decimals.
#[test]
fn wrong_tables_of_steps_are_found() {
    // what captures a table is no plain function, so each table makes one of its own
    macro_rules! found {
        ($($what:literal, $table:expr;)*) => {$(
            let updated: Updated = |call, r, n| by_table(call, r, n, $table);
            assert!(failures(Altered { updated, ..right() }) > 0, "{}", $what);
        )*};
    }
    let updated: Updated = |call, r, n| by_table(call, r, n, is_step);
    assert_eq!(failures(Altered { updated, ..right() }), 0, "the right table");
    found!(
        "int to long is turned round", |v, old, new| match (old, new) {
            (INT, LONG) | (LONG, INT) => is_step(v, new, old),
            _ => is_step(v, old, new),
        };
        "float to double is turned round", |v, old, new| match (old, new) {
            (FLOAT, DOUBLE) | (DOUBLE, FLOAT) => is_step(v, new, old),
            _ => is_step(v, old, new),
        };
        "date to timestamp is turned round", |v, old, new| match (old, new) {
            (DATE, TIMESTAMP) | (TIMESTAMP, DATE) => is_step(v, new, old),
            _ => is_step(v, old, new),
        };
        "date to timestamp_ns is turned round", |v, old, new| match (old, new) {
            (DATE, TIMESTAMP_NS) | (TIMESTAMP_NS, DATE) => is_step(v, new, old),
            _ => is_step(v, old, new),
        };
        "decimals are turned round", |v, old, new| match decimal(old) {
            Some(_) => is_step(v, new, old),
            None => is_step(v, old, new),
        };
        "steps lead back too", |v, old, new| is_step(v, old, new) || is_step(v, new, old);
        "no int in version 2", |v, old, new| is_step(v, old, new) && (v, old) != (2, INT);
        "no float in version 2", |v, old, new| is_step(v, old, new) && (v, old) != (2, FLOAT);
        "no int in version 3", |v, old, new| is_step(v, old, new) && (v, old) != (3, INT);
        "no float in version 3", |v, old, new| is_step(v, old, new) && (v, old) != (3, FLOAT);
        "no decimal in version 2", |v, old, new| {
            is_step(v, old, new) && (v == 3 || decimal(old).is_none())
        };
        "no decimal in version 3", |v, old, new| {
            is_step(v, old, new) && (v == 2 || decimal(old).is_none())
        };
        "no timestamp", |v, old, new| is_step(v, old, new) && new != TIMESTAMP;
        "no timestamp_ns", |v, old, new| is_step(v, old, new) && new != TIMESTAMP_NS;
        "version 3's steps in version 2", |_, old, new| is_step(3, old, new);
        "version 3's first step in version 2", |v, old, new| {
            is_step(v, old, new) || is_step(3, old, new) && new == TIMESTAMP
        };
        "version 3's second step in version 2", |v, old, new| {
            is_step(v, old, new) || is_step(3, old, new) && new == TIMESTAMP_NS
        };
        "version 2's steps are missing in 3", |v, old, new| {
            is_step(v, old, new) && (v == 2 || !is_step(2, old, new))
        };
        "version 3 has those of 2 alone", |_, old, new| is_step(2, old, new);
        "the versions are exchanged", |v, old, new| is_step(v ^ 1, old, new);
        "to the same code", |v, old, new| old == new || is_step(v, old, new);
        "an int to the same code", |v, old, new| (old, new) == (INT, INT) || is_step(v, old, new);
        "a decimal to the same code", |v, old, new| {
            old == new && decimal(old).is_some() || is_step(v, old, new)
        };
        "to any higher code", |_, old, new| old < new;
        "to any higher code of the table", |v, old, new| {
            is_step(v, old, new) || old > 0 && old < new && new <= STRING
        };
        "int to double", |v, old, new| (old, new) == (INT, DOUBLE) || is_step(v, old, new);
        "long to double", |v, old, new| (old, new) == (LONG, DOUBLE) || is_step(v, old, new);
        "int to date", |v, old, new| (old, new) == (INT, DATE) || is_step(v, old, new);
        "timestamp to timestamp_ns", |v, old, new| {
            (old, new) == (TIMESTAMP, TIMESTAMP_NS) || is_step(v, old, new)
        };
        "anything to string", |v, old, new| new == STRING || is_step(v, old, new);
        "int to a decimal", |v, old, new| {
            old == INT && decimal(new).is_some() || is_step(v, old, new)
        };
        "from a code outside the table", |v, old, new| {
            (old == 0 || old > STRING && decimal(old).is_none()) || is_step(v, old, new)
        };
        "to a code outside the table", |v, old, new| {
            (new == 0 || new > STRING && decimal(new).is_none()) || is_step(v, old, new)
        };
        "the lowest byte of a code", |v, old, new| {
            let low = |code: u32| if code < 65_536 { code & 255 } else { code };
            is_step(v, low(old), low(new))
        };
        "24 bits of a code", |v, old, new| is_step(v, old << 8 >> 8, new << 8 >> 8);
        "31 bits of a code", |v, old, new| is_step(v, old << 1 >> 1, new << 1 >> 1);
        "17 bits of a code", |v, old, new| is_step(v, old % 131_072, new % 131_072);
    );
}

/// What a code would be as a decimal, whether there is such a one.
fn digits(code: u32) -> Option<(u32, u32)> {
    (65_536..131_072).contains(&code).then(|| (code / 256 - 256, code % 256))
}

/// A wrong rule for decimals, by precision and scale.
fn by_digits(old: u32, new: u32, rule: fn(u32, u32, u32, u32) -> bool) -> bool {
    match (digits(old), digits(new)) {
        (Some((p, s)), Some((q, t))) => rule(p, s, q, t),
        _ => false,
    }
}

#[test]
fn wrong_rules_for_decimals_are_found() {
    macro_rules! found {
        ($($what:literal, $rule:expr;)*) => {$(
            let updated: Updated = |call, r, n| {
                by_table(call, r, n, |v, old, new| match decimal(old).or(digits(old)) {
                    Some(_) => by_digits(old, new, $rule),
                    None => is_step(v, old, new),
                })
            };
            assert!(failures(Altered { updated, ..right() }) > 0, "{}", $what);
        )*};
    }
    fn known(precision: u32, scale: u32) -> bool {
        (1..=38).contains(&precision) && scale <= precision
    }
    found!(
        "a higher scale", |p, s, q, t| known(p, s) && known(q, t) && p < q && s <= t;
        "a lower scale", |p, s, q, t| known(p, s) && known(q, t) && p < q && s >= t;
        "any scale", |p, s, q, t| known(p, s) && known(q, t) && p < q;
        "a higher scale of an equal precision", |p, s, q, t| {
            known(p, s) && known(q, t) && (p < q && s == t || p == q && s < t)
        };
        "an equal precision", |p, s, q, t| known(p, s) && known(q, t) && p <= q && s == t;
        "a lower precision", |p, s, q, t| known(p, s) && known(q, t) && p != q && s == t;
        "digits before the point that do not fall", |p, s, q, t| {
            known(p, s) && known(q, t) && q + s > p + t
        };
        "one digit more", |p, s, q, t| known(p, s) && known(q, t) && p + 1 == q && s == t;
        "38 alone", |p, s, q, t| known(p, s) && q == 38 && p < q && s == t;
        "never 38", |p, s, q, t| known(p, s) && known(q, t) && q < 38 && p < q && s == t;
        "never from 1", |p, s, q, t| known(p, s) && known(q, t) && p > 1 && p < q && s == t;
        "never of scale 0", |p, s, q, t| known(p, s) && known(q, t) && s > 0 && p < q && s == t;
        "never of a scale that is the precision", |p, s, q, t| {
            known(p, s) && known(q, t) && s < p && p < q && s == t
        };
        "the new precision is not asked", |p, s, q, t| known(p, s) && p < q && s == t;
        "the new precision may be 39", |p, s, q, t| known(p, s) && q < 40 && p < q && s == t;
        "the old code is not asked", |p, s, q, t| known(q, t) && p < q && s == t;
        "the old precision may be 0", |p, s, q, t| {
            (p == 0 && s == 0 || known(p, s)) && known(q, t) && p < q && s == t
        };
        "the old scale is not asked", |p, s, q, t| {
            (1..=38).contains(&p) && known(q, t) && p < q && s == t
        };
        "neither code is asked", |p, s, q, t| p < q && s == t;
    );
}

/// The same request by version 2, which is known.
fn by_2<'a>(call: &UpdateCall<'a>) -> UpdateCall<'a> {
    UpdateCall { version: 2, ..*call }
}

fn some_widens(call: &UpdateCall) -> bool {
    call.edits.chunks_exact(EDIT_BYTES).any(|edit| edit[6] == WIDEN)
}

/// The answer by version 2 where the version is unknown and the rule says so of that answer.
fn after_25(call: &UpdateCall, r: &mut [u8], n: &mut [u8], first: fn(Changed) -> bool) -> Changed {
    let known = by_2(call);
    let (mut other_r, mut other_n) = (r.to_vec(), n.to_vec());
    let is = judge::update(&known, &mut other_r, &mut other_n);
    match judge::update(call, r, n) {
        answer if answer.refusal == 25 && is.refusal != 0 && first(is) => is,
        answer => answer,
    }
}

fn refusal_of_version(call: &UpdateCall, answer: Changed, before: u32) -> Changed {
    match answer.refusal == before && !VERSIONS.contains(&call.version) {
        true => judge::Refusal::new(25, judge::BASE, 0).into(),
        false => answer,
    }
}

/// 02, 6/13: which versions are known, and where that is asked.
#[test]
fn wrong_ways_to_ask_for_the_version_are_found() {
    let wrong: [(&str, Updated); 21] = [
        ("it is never asked", |c, r, n| judge::update(&by_2(c), r, n)),
        ("only where a widening is asked for", |c, r, n| match some_widens(c) {
            true => judge::update(c, r, n),
            false => judge::update(&by_2(c), r, n),
        }),
        ("only where there are edits", |c, r, n| match c.edits.is_empty() {
            false => judge::update(c, r, n),
            true => judge::update(&by_2(c), r, n),
        }),
        ("only where there are none", |c, r, n| match c.edits.is_empty() {
            true => judge::update(c, r, n),
            false if c.version == 3 => judge::update(c, r, n),
            false => judge::update(&by_2(c), r, n),
        }),
        ("any from 2 on", |c, r, n| {
            judge::update(&UpdateCall { version: c.version.min(3), ..*c }, r, n)
        }),
        ("any up to 3", |c, r, n| {
            judge::update(&UpdateCall { version: c.version.max(2), ..*c }, r, n)
        }),
        ("0 is 2", |c, r, n| {
            let version = if c.version == 0 { 2 } else { c.version };
            judge::update(&UpdateCall { version, ..*c }, r, n)
        }),
        ("1 is 2", |c, r, n| {
            let version = if c.version == 1 { 2 } else { c.version };
            judge::update(&UpdateCall { version, ..*c }, r, n)
        }),
        ("4 is 3", |c, r, n| {
            let version = if c.version == 4 { 3 } else { c.version };
            judge::update(&UpdateCall { version, ..*c }, r, n)
        }),
        ("its lowest byte", |c, r, n| {
            judge::update(&UpdateCall { version: c.version & 255, ..*c }, r, n)
        }),
        ("all but its highest bit", |c, r, n| {
            judge::update(&UpdateCall { version: c.version & !(1 << 31), ..*c }, r, n)
        }),
        ("3 is unknown", |c, r, n| {
            let version = if c.version == 3 { 0 } else { c.version };
            judge::update(&UpdateCall { version, ..*c }, r, n)
        }),
        ("2 is unknown", |c, r, n| {
            let version = if c.version == 2 { 0 } else { c.version };
            judge::update(&UpdateCall { version, ..*c }, r, n)
        }),
        ("25 comes behind 3 of the base", |c, r, n| {
            after_25(c, r, n, |is| is.refusal == 3 && is.list == judge::BASE)
        }),
        ("25 comes behind 3 to 6 of every list", |c, r, n| {
            after_25(c, r, n, |is| (3..=6).contains(&is.refusal))
        }),
        ("25 comes behind 7 to 9 of the base", |c, r, n| {
            after_25(c, r, n, |is| is.refusal < 9 && is.list == judge::BASE)
        }),
        ("25 comes with the edits", |c, r, n| {
            after_25(c, r, n, |is| is.list != judge::EDITS && is.list != judge::REBUILT)
        }),
        ("25 comes with the steps", |c, r, n| after_25(c, r, n, |is| is.refusal != 26)),
        ("25 comes before 2", |c, r, n| refusal_of_version(c, judge::update(c, r, n), 2)),
        ("25 comes before 1", |c, r, n| refusal_of_version(c, judge::update(c, r, n), 1)),
        ("25 has list 6", |c, r, n| match judge::update(c, r, n) {
            answer if answer.refusal == 25 => Changed { list: judge::EDITS, ..answer },
            answer => answer,
        }),
    ];
    for (what, updated) in wrong {
        assert!(failures(Altered { updated, ..right() }) > 0, "{what}");
    }
}

/// A column that is widened.
struct Widened {
    id: i32,
    old: u32,
    new: u32,
}

/// The codes that accepted widenings leave, told otherwise: of all of them the one at a place.
fn widened_by(
    call: &UpdateCall,
    r: &mut [u8],
    n: &mut [u8],
    other: fn(&[Widened], usize) -> u32,
) -> Changed {
    let answer = judge::update(call, r, n);
    if answer.refusal == 0 {
        let (tree, edits) = edits_of(call).expect("it was accepted");
        let column = |(slot, edit): &(Option<usize>, Edit)| match edit.change {
            Change::Widen(new) => {
                let row = &tree.rows[slot.expect("it was accepted")];
                Some(Widened { id: row.id, old: row.type_code, new })
            }
            _ => None,
        };
        let all: Vec<Widened> = edits.iter().filter_map(column).collect();
        for (at, widened) in all.iter().enumerate() {
            put_code(answer, r, widened.id, other(&all, at));
        }
    }
    answer
}

/// 02, 6/13: which widenings are refused besides, and what the accepted ones write.
#[test]
fn widenings_that_are_wrongly_refused_or_made_are_found() {
    let wrong: [(&str, Updated); 28] = [
        ("of two widenings the first stays", |c, r, n| {
            passing(c, r, n, |c, no, at| no == 24 && widened_before(c, at).is_some())
        }),
        ("of two widenings the second wins", |c, r, n| {
            let answer = judge::update(c, r, n);
            let again = answer.refusal == 24;
            match again.then(|| widened_before(c, answer.place as usize)).flatten() {
                Some(first) => with_edits(c, &without(c.edits, first), r, n),
                None => answer,
            }
        }),
        ("the same code again is no widening", |c, r, n| {
            passing(c, r, n, |c, no, at| {
                let first = widened_before(c, at).map(|first| edit_at(c, first).1.change);
                no == 24 && first == Some(edit_at(c, at).1.change)
            })
        }),
        ("a second widening steps from the first", |c, r, n| {
            passing(c, r, n, |c, no, at| {
                let first = widened_before(c, at).and_then(|first| codes_at(c, first));
                let second = codes_at(c, at);
                let codes = first.zip(second);
                no == 24 && codes.is_some_and(|((_, from), (_, to))| is_step(c.version, from, to))
            })
        }),
        ("26 comes before 24", |c, r, n| match judge::update(c, r, n) {
            answer if answer.refusal == 24 && is_no_step(c, answer.place as usize) => {
                Changed { refusal: 26, ..answer }
            }
            answer => answer,
        }),
        ("26 comes before 23", |c, r, n| match judge::update(c, r, n) {
            answer if answer.refusal == 23 && is_no_step(c, answer.place as usize) => {
                Changed { refusal: 26, ..answer }
            }
            answer => answer,
        }),
        ("26 comes before 23 of what goes", |c, r, n| match judge::update(c, r, n) {
            answer if answer.refusal == 23 => {
                let place = answer.place as usize;
                let found = edit_at(c, place).0.is_some();
                let refusal = if found && is_no_step(c, place) { 26 } else { 23 };
                Changed { refusal, ..answer }
            }
            answer => answer,
        }),
        ("26 comes behind the other edits", |c, r, n| {
            let (mut other_r, mut other_n) = (r.to_vec(), n.to_vec());
            let later = passing(c, &mut other_r, &mut other_n, |_, no, _| no == 26);
            match judge::update(c, r, n) {
                // one that was left out stood before it
                answer if answer.refusal == 26 && of_an_edit(later) => {
                    Changed { place: later.place + 1, ..later }
                }
                answer => answer,
            }
        }),
        ("26 comes behind the rebuilt tree", |c, r, n| {
            let rule = |was: Changed, is: Changed| was.refusal == 26 && is.list == judge::REBUILT;
            instead(c, &no_edits(c), (r, n), rule)
        }),
        ("26 comes before the additions", |c, r, n| {
            let rule = |was: Changed, is: Changed| was.list == judge::ADDITIONS && is.refusal == 26;
            instead(c, &no_additions(c), (r, n), rule)
        }),
        ("26 has list 0", |c, r, n| match judge::update(c, r, n) {
            answer if answer.refusal == 26 => Changed { list: judge::BASE, ..answer },
            answer => answer,
        }),
        ("the place of 26 is the slot", |c, r, n| match judge::update(c, r, n) {
            answer if answer.refusal == 26 => {
                let (_, edits) = edits_of(c).expect("26 comes after 4");
                let slot = edits[answer.place as usize].0.expect("26 comes after 23");
                Changed { place: slot as u32, ..answer }
            }
            answer => answer,
        }),
        ("a struct passes", |c, r, n| {
            passing(c, r, n, |c, no, at| {
                no == 26 && edit_at(c, at).0.is_some_and(|row| row.kind == judge::STRUCT)
            })
        }),
        ("a list passes", |c, r, n| {
            passing(c, r, n, |c, no, at| {
                no == 26 && edit_at(c, at).0.is_some_and(|row| row.kind == judge::LIST)
            })
        }),
        ("a map passes", |c, r, n| {
            passing(c, r, n, |c, no, at| {
                no == 26 && edit_at(c, at).0.is_some_and(|row| row.kind == judge::MAP)
            })
        }),
        ("what is no primitive is 24", |c, r, n| match judge::update(c, r, n) {
            answer if answer.refusal == 26 => {
                let kind = edit_at(c, answer.place as usize).0.map(|row| row.kind);
                let refusal = if kind == Some(PRIMITIVE) { 26 } else { 24 };
                Changed { refusal, ..answer }
            }
            answer => answer,
        }),
        ("an element is not widened", |c, r, n| {
            refused_edit_if(
                c,
                r,
                n,
                (24, |_, _, edit| widens(edit) && edit.path.ends_with(b".element")),
            )
        }),
        ("a key is not widened", |c, r, n| {
            refused_edit_if(c, r, n, (24, |c, slot, edit| widens(edit) && is_key(c, slot)))
        }),
        ("a value is not widened", |c, r, n| {
            refused_edit_if(
                c,
                r,
                n,
                (24, |_, _, edit| widens(edit) && edit.path.ends_with(b".value")),
            )
        }),
        ("what is renamed is not widened", |c, r, n| {
            refused_edit_if(
                c,
                r,
                n,
                (24, |c, slot, edit| {
                    let (_, edits) = edits_of(c).expect("it was accepted");
                    widens(edit) && edits.iter().any(|(at, e)| *at == Some(slot) && renames(e))
                }),
            )
        }),
        ("what is relaxed is not widened", |c, r, n| {
            refused_edit_if(
                c,
                r,
                n,
                (24, |c, slot, edit| {
                    let (_, edits) = edits_of(c).expect("it was accepted");
                    let relaxes = |edit: &Edit| edit.change == Change::Relax;
                    widens(edit) && edits.iter().any(|(at, e)| *at == Some(slot) && relaxes(e))
                }),
            )
        }),
        ("an identifier is not widened", |c, r, n| {
            refused_edit_if(
                c,
                r,
                n,
                (24, |c, slot, edit| {
                    let id = &c.records[slot * RECORD_BYTES..][..4];
                    widens(edit) && c.identifiers.chunks_exact(4).any(|one| one == id)
                }),
            )
        }),
        ("a float that is widened may be an identifier", |c, r, n| {
            let free = UpdateCall { identifiers: &[], ..*c };
            match some_widens(c) {
                true => instead(c, &free, (r, n), |was, _| was.refusal == 9),
                false => judge::update(c, r, n),
            }
        }),
        ("no code is written", |c, r, n| widened_by(c, r, n, |all, at| all[at].old)),
        ("the code of the first is written", |c, r, n| widened_by(c, r, n, |all, _| all[0].new)),
        ("the code of the last is written", |c, r, n| {
            widened_by(c, r, n, |all, _| all[all.len() - 1].new)
        }),
        ("a byte of the code is written", |c, r, n| {
            widened_by(c, r, n, |all, at| all[at].old & !255 | all[at].new & 255)
        }),
        ("two bytes of the code are written", |c, r, n| {
            widened_by(c, r, n, |all, at| all[at].new & 65_535)
        }),
    ];
    for (what, updated) in wrong {
        assert!(failures(Altered { updated, ..right() }) > 0, "{what}");
    }
}

/// The same with each edit that widens changed in its bytes before anything is asked.
fn with_widenings(
    call: &UpdateCall,
    r: &mut [u8],
    n: &mut [u8],
    change: fn(&mut [u8], &UpdateCall),
) -> Changed {
    let mut edits = call.edits.to_vec();
    let widenings = edits.chunks_exact_mut(EDIT_BYTES).filter(|edit| edit[6] == WIDEN);
    widenings.for_each(|edit| change(edit, call));
    with_edits(call, &edits, r, n)
}

fn code_in(edit: &[u8]) -> u32 {
    u32::from_le_bytes(edit[8..12].try_into().expect("four bytes"))
}

/// 02, 6/13: the bytes of an edit that widens.
#[test]
fn widenings_that_are_wrongly_read_are_found() {
    let wrong: [(&str, Updated); 9] = [
        ("3 is a broken byte", |c, r, n| with_widenings(c, r, n, |edit, _| edit[6] = 0)),
        ("a code outside the table is a broken byte", |c, r, n| {
            with_widenings(c, r, n, |edit, _| {
                let code = code_in(edit);
                if code == 0 || code > STRING && decimal(code).is_none() {
                    edit[6] = 0;
                }
            })
        }),
        ("code 0 is a broken byte", |c, r, n| {
            with_widenings(c, r, n, |edit, _| {
                if code_in(edit) == 0 {
                    edit[6] = 0;
                }
            })
        }),
        ("4 asks the code as an offset", |c, r, n| {
            with_widenings(c, r, n, |edit, call| {
                if code_in(edit) as usize > call.request_pool.len() {
                    edit[..4].fill(255);
                }
            })
        }),
        ("4 does not ask the path", |c, r, n| {
            mended(
                c,
                r,
                n,
                (4, |edits| {
                    let widenings = edits.chunks_exact_mut(EDIT_BYTES).filter(|e| e[6] == WIDEN);
                    widenings.for_each(|e| e[..6].fill(0));
                }),
            )
        }),
        ("3 does not ask for a new name's length", |c, r, n| {
            with_widenings(c, r, n, |edit, _| edit[12] = 0)
        }),
        ("3 does not ask byte 7", |c, r, n| with_widenings(c, r, n, |edit, _| edit[7] = 0)),
        ("3 does not ask the last bytes", |c, r, n| {
            with_widenings(c, r, n, |edit, _| edit[13..].fill(0))
        }),
        ("any higher number widens", |c, r, n| {
            mended(
                c,
                r,
                n,
                (3, |edits| {
                    let others = edits.chunks_exact_mut(EDIT_BYTES).filter(|e| e[6] > WIDEN);
                    others.for_each(|e| (e[6], e[12]) = (WIDEN, 0));
                }),
            )
        }),
    ];
    for (what, updated) in wrong {
        assert!(failures(Altered { updated, ..right() }) > 0, "{what}");
    }
}

/// What an accepted update visits is told from.
struct Visits {
    tree: Tree,
    /// The slots that the deletions find, one for each of them.
    deleted: Vec<usize>,
    /// Added columns, and their records.
    columns: usize,
    added: usize,
    edits: usize,
    /// The records of the answer.
    answered: usize,
    /// The ids of the answer.
    ids: HashSet<i32>,
    /// The right number.
    right: usize,
}

impl Visits {
    fn is_deleted(&self, slot: usize) -> bool {
        self.deleted.contains(&slot)
    }

    fn goes(&self, slot: usize) -> bool {
        self.is_deleted(slot) && is_member(&self.tree, slot)
    }

    /// The records above a slot.
    fn above(&self, slot: usize) -> impl Iterator<Item = usize> {
        std::iter::successors(self.tree.rows[slot].parent, |up| self.tree.rows[*up].parent)
    }

    /// Is a slot one that goes, with none above it that does?
    fn goes_first(&self, slot: usize) -> bool {
        self.goes(slot) && !self.above(slot).any(|up| self.goes(up))
    }

    /// How many slots of the base are such.
    fn slots(&self, such: impl Fn(usize) -> bool) -> usize {
        (0..self.tree.rows.len()).filter(|slot| such(*slot)).count()
    }
}

/// An accepted update with another number of visited records.
fn visited_by(
    call: &UpdateCall,
    r: &mut [u8],
    n: &mut [u8],
    other: fn(&Visits) -> usize,
) -> Changed {
    let answer = judge::update(call, r, n);
    if answer.refusal != 0 {
        return answer;
    }
    let tree = judge::read_tree(call.records, call.pool, judge::BASE).expect("it was accepted");
    let names = Names::of(&tree);
    let paths = judge::read_paths(call.deletions, call.request_pool, judge::DELETIONS);
    let deleted = paths.expect("accepted").iter().flatten().filter_map(|p| names.find(p)).collect();
    let answered = answer.records as usize;
    let id = |r: &[u8]| i32::from_le_bytes([r[0], r[1], r[2], r[3]]);
    let visits = Visits {
        tree,
        deleted,
        columns: call.additions.len() / ENTRY_BYTES,
        added: call.added_records.len() / RECORD_BYTES,
        edits: call.edits.len() / EDIT_BYTES,
        answered,
        ids: r.chunks_exact(RECORD_BYTES).take(answered).map(id).collect(),
        right: answer.visited as usize,
    };
    Changed { visited: other(&visits) as u32, ..answer }
}

/// The answer with a number where none belongs.
fn refused_with_a_number(
    call: &UpdateCall,
    r: &mut [u8],
    n: &mut [u8],
    of: fn(Changed) -> bool,
) -> Changed {
    let answer = judge::update(call, r, n);
    let visited = (call.records.len() / RECORD_BYTES) as u32;
    if of(answer) { Changed { visited, ..answer } } else { answer }
}

/// 02, 7/13: what counts, what does not, and where there is no number.
#[test]
fn wrong_numbers_of_visited_records_are_found() {
    let wrong: [(&str, Updated); 27] = [
        ("none", |c, r, n| visited_by(c, r, n, |_| 0)),
        ("the base's records", |c, r, n| visited_by(c, r, n, |v| v.tree.rows.len())),
        ("the answer's records, so that what goes does not count", |c, r, n| {
            visited_by(c, r, n, |v| v.answered)
        }),
        ("all, so that the inside of what goes counts", |c, r, n| {
            visited_by(c, r, n, |v| v.tree.rows.len() + v.added)
        }),
        ("the members of what goes count", |c, r, n| {
            visited_by(c, r, n, |v| {
                let right_above = |up: usize| v.goes_first(up);
                v.right + v.slots(|slot| v.above(slot).next().is_some_and(right_above))
            })
        }),
        ("what is right above alone is asked", |c, r, n| {
            visited_by(c, r, n, |v| {
                v.added + v.slots(|slot| !v.above(slot).next().is_some_and(|up| v.goes(up)))
            })
        }),
        ("only roots are asked", |c, r, n| {
            visited_by(c, r, n, |v| {
                let root = |up: usize| v.goes(up) && v.tree.rows[up].parent.is_none();
                v.added + v.slots(|slot| !v.above(slot).any(root))
            })
        }),
        ("only members of structs are asked", |c, r, n| {
            visited_by(c, r, n, |v| {
                let member = |up: usize| v.goes(up) && v.tree.rows[up].parent.is_some();
                v.added + v.slots(|slot| !v.above(slot).any(member))
            })
        }),
        ("a primitive that goes does not count", |c, r, n| {
            visited_by(c, r, n, |v| {
                let primitive = |slot: usize| v.tree.rows[slot].kind == PRIMITIVE;
                v.right - v.slots(|slot| v.goes_first(slot) && primitive(slot))
            })
        }),
        ("what goes counts within what goes too", |c, r, n| {
            visited_by(c, r, n, |v| v.answered + v.slots(|slot| v.goes(slot)))
        }),
        ("each deletion counts", |c, r, n| visited_by(c, r, n, |v| v.answered + v.deleted.len())),
        ("each deletion of what goes counts", |c, r, n| {
            visited_by(c, r, n, |v| {
                v.answered + v.deleted.iter().filter(|slot| v.goes_first(**slot)).count()
            })
        }),
        ("a dropped element, key or value is taken for one that goes", |c, r, n| {
            visited_by(c, r, n, |v| {
                v.added + v.slots(|slot| !v.above(slot).any(|up| v.is_deleted(up)))
            })
        }),
        ("a dropped element, key or value counts twice", |c, r, n| {
            visited_by(c, r, n, |v| v.right + v.slots(|slot| v.is_deleted(slot) && !v.goes(slot)))
        }),
        ("what a dropped element, key or value is in does not go", |c, r, n| {
            visited_by(c, r, n, |v| {
                let held = |up: usize| v.is_deleted(up) && !v.goes(up);
                let goes = |up: usize| v.goes(up) && !v.above(up).any(held);
                v.added + v.slots(|slot| !v.above(slot).any(goes))
            })
        }),
        ("a list or map that goes leaves its inside", |c, r, n| {
            visited_by(c, r, n, |v| {
                let goes = |up: usize| v.goes(up) && v.tree.rows[up].kind == judge::STRUCT;
                v.added + v.slots(|slot| !v.above(slot).any(goes))
            })
        }),
        ("additions count twice", |c, r, n| visited_by(c, r, n, |v| v.right + v.added)),
        ("additions do not count", |c, r, n| visited_by(c, r, n, |v| v.right - v.added)),
        ("of an added tree its root alone counts", |c, r, n| {
            visited_by(c, r, n, |v| v.right - v.added + v.columns)
        }),
        ("each id counts once", |c, r, n| {
            visited_by(c, r, n, |v| {
                let again = |slot: usize| v.ids.contains(&v.tree.rows[slot].id);
                v.right - v.slots(|slot| v.goes_first(slot) && again(slot))
            })
        }),
        ("edits count", |c, r, n| visited_by(c, r, n, |v| v.right + v.edits)),
        ("1,024 at most", |c, r, n| visited_by(c, r, n, |v| v.right.min(1_024))),
        ("one byte", |c, r, n| visited_by(c, r, n, |v| v.right & 255)),
        ("ten bits", |c, r, n| visited_by(c, r, n, |v| v.right & 1_023)),
        ("a refusal has a number", |c, r, n| refused_with_a_number(c, r, n, |a| a.refusal > 0)),
        ("a rebuilt tree that is refused has a number", |c, r, n| {
            refused_with_a_number(c, r, n, |a| a.refusal > 0 && a.list == judge::REBUILT)
        }),
        ("a refused edit has a number", |c, r, n| refused_with_a_number(c, r, n, of_an_edit)),
    ];
    for (what, updated) in wrong {
        assert!(failures(Altered { updated, ..right() }) > 0, "{what}");
    }
}

/// Pruning and renumbering report 0.
#[test]
fn a_number_of_visited_records_elsewhere_is_found() {
    let renumbered: Renumbered = |lent, start, out| {
        let answer = renumbered(lent, start, out);
        Changed { visited: answer.records, ..answer }
    };
    let renumberings = failures(Altered { renumbered, ..right() });
    // an update without a last id may be among them
    let changed = |answer: Changed, _: &mut [u8], _: &mut [u8]| Changed {
        visited: if answer.last_id == 0 { answer.records } else { answer.visited },
        ..answer
    };
    let all = failures(Altered { changed, ..right() });
    assert!(renumberings > 20 && all > renumberings + 20, "{renumberings} of {all}");
}

/// A wrong rule for identifiers: which of the conditions are passed over, in which tree.
type Over = fn(Of, Broken) -> bool;

/// Without the identifier that is refused, if all that it breaks is passed over.
fn passed_over(case: &Case, identifiers: &[u8], over: Over) -> Option<Vec<u8>> {
    let (of, place, all) = broken_in(case)?;
    let mut others = identifiers.to_vec();
    others.drain(place * ID_BYTES..(place + 1) * ID_BYTES);
    all.iter().all(|broken| over(of, *broken)).then_some(others)
}

fn updated_over(call: &UpdateCall, r: &mut [u8], n: &mut [u8], over: Over) -> Changed {
    let answer = judge::update(call, r, n);
    let [records, pool, identifiers, deletions, additions, added_records, edits, request_pool] =
        call.lists().map(<[u8]>::to_vec);
    let (last_id, version) = (call.last_id, call.version);
    let (out_records, out_names) = (r.len(), n.len());
    let ask = Ask::Update {
        identifiers,
        last_id,
        version,
        deletions,
        additions,
        added_records,
        edits,
        request_pool,
        out_records,
        out_names,
    };
    let case = Case { records, pool, ask };
    match passed_over(&case, call.identifiers, over) {
        Some(others) if answer.refusal == 9 => {
            updated_over(&UpdateCall { identifiers: &others, ..*call }, r, n, over)
        }
        _ => answer,
    }
}

fn renumbered_over(
    [records, pool, identifiers]: [&[u8]; 3],
    start: i32,
    [r, n, i]: [&mut [u8]; 3],
    over: Over,
) -> Changed {
    let answer = judge::renumber(records, pool, identifiers, start, r, n, i);
    let (out_records, out_names, out_identifiers) = (r.len(), n.len(), i.len());
    let identifiers = identifiers.to_vec();
    let ask = Ask::Renumber { identifiers, start, out_records, out_names, out_identifiers };
    let case = Case { records: records.to_vec(), pool: pool.to_vec(), ask };
    let Ask::Renumber { identifiers, .. } = &case.ask else { return answer };
    match passed_over(&case, identifiers, over) {
        Some(others) if answer.refusal == 9 => {
            renumbered_over([records, pool, &others], start, [r, n, i], over)
        }
        _ => answer,
    }
}

/// 02, 4/13: each condition passed over, near, far, or in one of the trees alone.
#[test]
fn identifiers_that_are_wrongly_let_through_are_found() {
    // what captures a rule is no plain function, so each rule makes two of its own
    macro_rules! found {
        ($($what:literal, $over:expr;)*) => {$(
            let updated: Updated = |call, r, n| updated_over(call, r, n, $over);
            let renumbered: Renumbered =
                |lent, start, out| renumbered_over(lent, start, out, $over);
            let rebuilt = $what.contains("rebuilt");
            let renumbering = $what.contains("renumbering");
            let fails = failures(Altered { updated, ..right() });
            assert!(fails > 0 || renumbering, "an update: {}", $what);
            let fails = failures(Altered { renumbered, ..right() });
            assert!(fails > 0 || rebuilt, "a renumbering: {}", $what);
        )*};
    }
    found!(
        "only the id is asked for", |_, broken| broken != Broken::Absent;
        "the id alone is not asked for", |_, broken| broken == Broken::Absent;
        "a list above", |_, broken| matches!(broken, Broken::UnderList(_));
        "a list farther above", |_, broken| matches!(broken, Broken::UnderList(1..));
        "an element", |_, broken| broken == Broken::UnderList(0);
        "a key", |_, broken| broken == Broken::UnderKey(0);
        "a value", |_, broken| broken == Broken::UnderValue(0);
        "a key farther above", |_, broken| matches!(broken, Broken::UnderKey(1..));
        "a value farther above", |_, broken| matches!(broken, Broken::UnderValue(1..));
        "an optional struct above", |_, broken| matches!(broken, Broken::UnderOptional(_));
        "an optional struct two levels above", |_, broken| {
            matches!(broken, Broken::UnderOptional(1..))
        };
        "the first of 16 levels", |_, broken| broken == Broken::UnderOptional(14);
        "a float", |_, broken| broken == Broken::Float;
        "a double", |_, broken| broken == Broken::Double;
        "an optional column", |_, broken| broken == Broken::Optional;
        "a struct", |_, broken| broken == Broken::Struct;
        "a list", |_, broken| broken == Broken::List;
        "a map", |_, broken| broken == Broken::Map;
        "a rebuilt tree", |of, _| of == Of::Rebuilt;
        "a rebuilt tree: what the column is", |of, broken| {
            of == Of::Rebuilt && broken != Broken::Absent
        };
        "a rebuilt tree: what is above", |of, broken| {
            of == Of::Rebuilt && matches!(broken, Broken::UnderOptional(_) | Broken::UnderList(_))
        };
        "a rebuilt tree: a float", |of, broken| of == Of::Rebuilt && broken == Broken::Float;
        "a base, where the rebuilt tree is asked", |of, _| of == Of::Base;
        "a base of a renumbering", |of, _| of == Of::Renumbered;
    );
}

/// Too strict a rule: an identifier that is refused though it passes.
fn refused_if(
    [records, pool, identifiers]: [&[u8]; 3],
    answer: Changed,
    wrong: fn(&Row) -> bool,
) -> Changed {
    let Ok(tree) = judge::read_tree(records, pool, judge::BASE) else { return answer };
    let refused = |id: &[u8]| {
        let id = i32::from_le_bytes(id.try_into().expect("four bytes"));
        tree.rows.iter().any(|row| row.id == id && wrong(row))
    };
    match identifiers.chunks_exact(ID_BYTES).position(refused) {
        Some(place) if answer.refusal == 0 => {
            judge::Refusal::new(9, judge::IDENTIFIERS, place).into()
        }
        _ => answer,
    }
}

#[test]
fn identifiers_that_are_wrongly_refused_are_found() {
    macro_rules! found {
        ($($what:literal, $wrong:expr;)*) => {$(
            let updated: Updated = |call, r, n| {
                let lent = [call.records, call.pool, call.identifiers];
                refused_if(lent, judge::update(call, r, n), $wrong)
            };
            let renumbering: Renumbered =
                |lent, start, out| refused_if(lent, renumbered(lent, start, out), $wrong);
            assert!(failures(Altered { updated, ..right() }) > 0, "an update: {}", $what);
            let altered = Altered { renumbered: renumbering, ..right() };
            assert!(failures(altered) > 0, "a renumbering: {}", $what);
        )*};
    }
    found!(
        "a code outside the table", |row| row.type_code == 0 || row.type_code > 9;
        "a code whose lowest byte is 5", |row| row.type_code & 255 == 5;
        "a code whose second byte is 5", |row| row.type_code >> 8 & 255 == 5;
        "a code whose highest byte is 5", |row| row.type_code >> 24 == 5;
        "an initial default", |row| row.flags & judge::DEFAULT != 0;
        "level 16", |row| row.level == 16;
        "any struct above", |row| row.parent.is_some();
        "a negative id", |row| row.id < 0;
        "a column that is called key", |row| row.name == b"key";
    );
}

/// Is a record a root or a struct's member?
fn is_member(tree: &Tree, slot: usize) -> bool {
    tree.rows[slot].parent.is_none_or(|above| tree.rows[above].kind == judge::STRUCT)
}

/// Which columns match by full and by short names, in a base that was accepted.
fn alike(records: &[u8], pool: &[u8], name: &[u8]) -> [Vec<usize>; 2] {
    let tree = judge::read_tree(records, pool, judge::BASE).expect("it was accepted");
    judge::alike(&tree, name)
}

/// The bytes with some of them turned as capital letters are.
fn turned(bytes: &[u8], turn: fn(u8) -> bool) -> Vec<u8> {
    bytes.iter().map(|byte| if turn(*byte) { byte | 32 } else { *byte }).collect()
}

#[test]
fn wrong_ways_to_forget_case_are_found() {
    let wrong: [(&str, Folded); 8] = [
        ("case is kept", judge::find_name),
        ("the asked name alone folds", |r, p, n| judge::find_name(r, p, &n.to_ascii_lowercase())),
        ("an exact match wins", |r, p, n| match judge::find_name(r, p, n) {
            exact if exact.found == 1 => exact,
            _ => judge::find_folded(r, p, n),
        }),
        ("the place is the first one's", |r, p, n| match judge::find_folded(r, p, n) {
            Found { refusal: 21, list, .. } => {
                let [full, short] = alike(r, p, n);
                let place = full.first().or(short.first()).map_or(0, |slot| *slot as u32);
                Found { refusal: 21, list, place, ..Found::default() }
            }
            answer => answer,
        }),
        ("of equal short names the first entered is taken", |r, p, n| {
            match judge::find_folded(r, p, n) {
                Found { refusal: 21, .. } => judge::find_name(r, p, n),
                answer => answer,
            }
        }),
        ("full and short names are one level", |r, p, n| match judge::find_folded(r, p, n) {
            answer @ Found { found: 1, .. } => {
                let [full, short] = alike(r, p, n);
                let other = short.iter().find(|slot| !full.is_empty() && !full.contains(slot));
                other.map_or(answer, |slot| judge::Refusal::new(21, 0, *slot).into())
            }
            answer => answer,
        }),
        ("bytes beside the letters fold", |r, p, n| {
            let beside = |byte: u8| byte == b'@' || byte == b'[';
            judge::find_folded(r, &turned(p, beside), &turned(n, beside))
        }),
        ("bytes above 127 fold", |r, p, n| {
            let above = |byte: u8| byte > 127;
            judge::find_folded(r, &turned(p, above), &turned(n, above))
        }),
    ];
    for (what, folded) in wrong {
        assert!(failures(Altered { folded, ..right() }) > 0, "{what}");
    }
}

/// A look-up of many ids in which each slot that was told is told otherwise.
fn slots_by(
    (records, pool, ids, out): (&[u8], &[u8], &[u8], &mut [u8]),
    other: fn(u32) -> u32,
) -> Searched {
    let answer = judge::find_ids(records, pool, ids, out);
    if answer.refusal == 0 {
        for bytes in out[..ids.len()].chunks_exact_mut(ID_BYTES) {
            let slot = u32::from_le_bytes(bytes.try_into().expect("four bytes"));
            bytes.copy_from_slice(&other(slot).to_le_bytes());
        }
    }
    answer
}

/// Does no id stand twice where only some bits of an id are looked at?
fn apart(records: &[u8], bits: i32) -> bool {
    let id = |r: &[u8]| i32::from_le_bytes([r[0], r[1], r[2], r[3]]) & bits;
    let ids: Vec<i32> = records.chunks_exact(RECORD_BYTES).map(id).collect();
    (1..ids.len()).all(|at| !ids[..at].contains(&ids[at]))
}

#[test]
fn wrong_ways_to_look_up_many_ids_are_found() {
    let wrong: [(&str, Ids); 10] = [
        ("0 stands for none", |r, p, i, s| {
            slots_by((r, p, i, s), |slot| if slot == NO_SLOT { 0 } else { slot })
        }),
        ("none stands for the last slot", |r, p, i, s| {
            slots_by((r, p, i, s), |slot| if slot == 1_023 { NO_SLOT } else { slot })
        }),
        ("a slot is one byte", |r, p, i, s| {
            slots_by((r, p, i, s), |slot| if slot == NO_SLOT { slot } else { slot & 255 })
        }),
        ("all that are asked for are counted", |r, p, i, s| {
            let answer = judge::find_ids(r, p, i, s);
            let asked = if answer.refusal == 0 { i.len() / ID_BYTES } else { 0 };
            Searched { found: asked as u32, ..answer }
        }),
        ("the whole buffer is written", |r, p, i, s| {
            let answer = judge::find_ids(r, p, i, s);
            if answer.refusal == 0 {
                s[i.len()..].fill(255);
            }
            answer
        }),
        ("slots are written before the tree is refused", |r, p, i, s| {
            let answer = judge::find_ids(r, p, i, s);
            if answer.refusal > 2 {
                s[..i.len()].fill(255);
            }
            answer
        }),
        ("2 comes before 1", |r, p, i, s| {
            let past = i.len() > 4 * 1_024 || !i.len().is_multiple_of(4);
            let answer = judge::find_ids(r, p, i, s);
            if past { judge::Refusal::new(2, 0, 0).into() } else { answer }
        }),
        ("the tree is not tested where no id is asked for", |r, p, i, s| match i {
            [] => Searched::default(),
            _ => judge::find_ids(r, p, i, s),
        }),
        ("the lowest ten bits alone are looked at", |r, p, i, s| {
            let answer = judge::find_ids(r, p, i, s);
            let again = answer.refusal == 0 && !apart(r, 1_023);
            if again { judge::Refusal::new(7, 0, 1).into() } else { answer }
        }),
        ("the highest bit is not looked at", |r, p, i, s| {
            let answer = judge::find_ids(r, p, i, s);
            let again = answer.refusal == 0 && !apart(r, i32::MAX);
            if again { judge::Refusal::new(7, 0, 1).into() } else { answer }
        }),
    ];
    for (what, ids) in wrong {
        assert!(failures(Altered { ids, ..right() }) > 0, "{what}");
    }
}

/// Where the names of a tree are sorted, 8 is told at the slot that a rule gives, or not at all.
fn sorted_by(
    call: &UpdateCall,
    r: &mut [u8],
    n: &mut [u8],
    rule: fn(&Tree) -> Option<usize>,
) -> Changed {
    let (mut other_r, mut other_n) = (r.to_vec(), n.to_vec());
    let answer = judge::update(call, &mut other_r, &mut other_n);
    if ![0, 8].contains(&answer.refusal) {
        return answer;
    }
    let base = judge::read_tree(call.records, call.pool, judge::BASE).expect("8 comes after 6");
    let rebuilt = call.rebuilt().ok().map(|tree| (judge::REBUILT, tree));
    for (list, tree) in [(judge::BASE, base)].into_iter().chain(rebuilt) {
        if budget_left(&tree).is_some() {
            continue;
        }
        if let Some(slot) = rule(&tree) {
            return judge::Refusal::new(8, list, slot).into();
        }
        if (answer.refusal, answer.list) == (8, list) {
            return Changed::default();
        }
    }
    r.copy_from_slice(&other_r);
    n.copy_from_slice(&other_n);
    answer
}

/// The slots that are the same as an earlier one, each with that.
fn again(tree: &Tree, same: fn(&Tree, usize, usize) -> bool) -> Vec<(usize, usize)> {
    let earlier = |slot: usize| (0..slot).find(|other| same(tree, slot, *other));
    (0..tree.rows.len()).filter_map(|slot| Some((slot, earlier(slot)?))).collect()
}

fn same_name(tree: &Tree, one: usize, other: usize) -> bool {
    tree.full_name(one) == tree.full_name(other)
}

fn same_length(tree: &Tree, one: usize, other: usize) -> bool {
    tree.full_name(one).len() == tree.full_name(other).len()
}

fn same_own(tree: &Tree, one: usize, other: usize) -> bool {
    tree.rows[one].name == tree.rows[other].name
}

/// From the ends up to where either own name begins.
fn same_to_the_first_cut(tree: &Tree, one: usize, other: usize) -> bool {
    let own = |slot: usize| tree.rows[slot].name.len();
    let part = own(one).min(own(other));
    let end = |name: Vec<u8>| name[name.len() - part..].to_vec();
    same_length(tree, one, other) && end(tree.full_name(one)) == end(tree.full_name(other))
}

/// The first slot whose name a sorted row has already, sought by halves as the port does, where
/// comparisons are remembered: for a slot how a record above another name stands to as much of the
/// slot's. The rule says whether that is believed of a record.
fn remembering(tree: &Tree, believed: fn(&Tree, usize, usize) -> bool) -> Option<usize> {
    let names: Vec<Vec<u8>> = (0..tree.rows.len()).map(|slot| tree.full_name(slot)).collect();
    let path = |slot: usize| iter::successors(Some(slot), |slot| tree.rows[*slot].parent);
    let mut kept = HashMap::new();
    let mut order = |met: usize, slot: usize| {
        let [a, b] = [met, slot].map(|slot| &names[slot]);
        let order = a.len().cmp(&b.len()).then_with(|| a.iter().rev().cmp(b.iter().rev()));
        let above = path(slot).skip(1).map(|up| (up, names[up].len()));
        for (up, rest) in
            above.take_while(|(_, rest)| a.len() == b.len() && a[*rest..] == b[*rest..])
        {
            let place = path(met).take_while(|at| names[*at].len() >= rest).last();
            match kept.insert(place, (up, order)) {
                Some((of, told)) if believed(tree, of, up) => return told,
                _ => {}
            }
        }
        order
    };
    let mut row: Vec<usize> = vec![];
    for slot in 0..names.len() {
        let (mut low, mut high) = (0, row.len());
        while low < high {
            let half = (low + high) / 2;
            match order(row[half], slot) {
                Ordering::Less => low = half + 1,
                Ordering::Greater => high = half,
                Ordering::Equal => return Some(slot),
            }
        }
        row.insert(low, slot);
    }
    None
}

/// Every one is right but where names crowd their chains.
#[test]
fn wrong_ways_to_sort_names_are_found() {
    macro_rules! found {
        ($($what:literal, $rule:expr;)*) => {$(
            let updated: Updated = |call, r, n| sorted_by(call, r, n, $rule);
            let fails = failures(Altered { updated, ..right() });
            assert_eq!(fails > 0, !$what.contains("right"), "{}: {fails}", $what);
        )*};
    }
    found!(
        "the right way", |tree| again(tree, same_name).first().map(|(slot, _)| *slot);
        "of two names that stand twice the later is told",
        |tree| again(tree, same_name).last().map(|(slot, _)| *slot);
        "of two equal names the earlier is told",
        |tree| again(tree, same_name).first().map(|(_, earlier)| *earlier);
        "names are equal where they are up to the first cut",
        |tree| again(tree, same_to_the_first_cut).first().map(|(slot, _)| *slot);
        "names that are cut otherwise differ",
        |tree| again(tree, |tree, one, other| {
            same_own(tree, one, other) && same_name(tree, one, other)
        }).first().map(|(slot, _)| *slot);
        "names of one hash and one length are equal",
        |tree| again(tree, same_length).first().map(|(slot, _)| *slot);
        "the last slot is not asked for",
        |tree| {
            let slot = again(tree, same_name).first()?.0;
            (slot + 1 < tree.rows.len()).then_some(slot)
        };
        "no two names are equal", |_| None;
        "the right way, remembering",
        |tree| remembering(tree, |_, of, up| of == up);
        "what is remembered of any record is believed",
        |tree| remembering(tree, |_, _, _| true);
        "what is remembered of the record above is believed",
        |tree| remembering(tree, |tree, of, up| of == up || tree.rows[up].parent == Some(of));
        "what is remembered of a record inside is believed",
        |tree| remembering(tree, |tree, of, up| of == up || tree.rows[of].parent == Some(up));
    );
}

/// A port that is right but on trees of more than eleven records, where a slot is one too high.
/// The run stops at the lowest such case, whatever the threads; its line is the case, and the
/// shrunk line is the least case that still fails.
#[test]
fn a_run_shows_the_first_failing_case_whole_and_shrunk() {
    let wrong =
        || Altered { found: |f| Found { slot: f.slot + u32::from(f.slot > 10), ..f }, ..right() };
    let generator = Generator { seed: 3, sizes: Sizes::Usual };
    let failure = |threads| {
        let run = Run { threads, ..Run::new(generator, 0, 50_000) };
        run.report_by(iceberg(), || Some(wrong())).expect_err("a wrong slot is seen")
    };
    let (one, three) = (failure(1), failure(3));
    assert_eq!((one.number, &one.shrunk), (three.number, &three.shrunk));
    let fails = |n: &u64| beside_paper(&generator.case(*n), &Guarded::new(wrong())).is_err();
    assert_eq!((0..50_000).find(fails), Some(one.number));

    let shown = one.to_string();
    assert!(shown.contains(&format!("seed 3, case {}", one.number)), "{shown}");
    let whole = read_line(&one.line).expect("a line of the recorded format");
    assert_eq!(whole.case, generator.case(one.number));
    let least = read_line(&one.shrunk).expect("a line of the recorded format");
    assert!(beside_paper(&least.case, &Guarded::new(wrong())).is_err());
    assert_ne!(outcome(&least.case, &wrong()), outcome(&least.case, &ByJudge));
    // the lines replay: nobody else parts on them
    let lines = format!("{}\n{}\n", one.line, one.shrunk);
    assert_eq!(replay(&lines, iceberg()), Ok(2));
    // twelve records, and the inside of some map that can't be left out
    assert!((12..=16).contains(&(least.case.records.len() / RECORD_BYTES)), "{}", one.shrunk);
}
