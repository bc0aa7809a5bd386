//! The shapes of a case and its answer, which a run should meet.

use judge::{
    DEFAULT, ENTRY_BYTES, ID_BYTES, LEVELS, LIST, MAP, MOST_ADDITIONS, MOST_ASKED, MOST_DELETIONS,
    MOST_IDENTIFIERS, MOST_RECORDS, MOST_SELECTED, NAME_SUM, Names, POOL_BYTES, RECORD_BYTES,
    REQUIRED, Refusal, STRUCT, Tree, Unwrap, alike, read_tree,
};

use crate::broken::{SHAPES_OF_9, nine_shapes};
use crate::case::{Answer, Ask, Case};
use crate::edited::{SHAPES_OF_EDITS, edit_refused_shapes, edit_shapes};
use crate::trees::{held, path_up, receiver};
use crate::visited::{SHAPES_OF_VISITS, visit_shapes};
use crate::widened::{SHAPES_OF_WIDENINGS, version_shapes};

/// Every shape: those of 9, of edits, of widenings and of visits are last.
pub fn all_shapes() -> impl Iterator<Item = &'static str> {
    let more = SHAPES_OF_9.as_flattened().iter().chain(SHAPES_OF_EDITS).chain(SHAPES_OF_WIDENINGS);
    SHAPES.iter().chain(more).chain(SHAPES_OF_VISITS).copied()
}

/// The shapes. Those of a tree can come up in every operation, the others in the one named.
const SHAPES: &[&str] = &[
    "update: accepted",
    "update: by version 2",
    "update: by version 3",
    "update: a member dropped",
    "update: a column added at the root",
    "update: a column added under a struct",
    "update: a column added under a list",
    "update: a column added under a map",
    "update: a column added under a key",
    "update: a column added to a dropped element that stays",
    "update: a column added to a dropped key that stays",
    "update: a column added to a dropped value that stays",
    "update: a column added farther beneath a dropped element, key or value",
    "update: a column added to a struct that loses a member",
    "update: an element, key or value dropped stays",
    "update: found by a short name",
    "update: an id handed out again",
    "update: with identifiers",
    "update: an identifier 15 levels beneath a root",
    "update: an identifier's id given again",
    "update: an identifier's id given again beneath a struct",
    "update: an identifier twice",
    "update: a column dropped twice",
    "update: the last id consumed is the largest",
    "update: a required column with a default",
    "update: an empty tree",
    "update: 64 identifiers",
    "update: 64 deletions",
    "update: 64 additions",
    "update: an additions tree of 1,024 records",
    "update: a request pool of 32,768 bytes",
    "update: 2 for identifiers",
    "update: 2 for deletions",
    "update: 2 for additions",
    "update: 2 for the additions tree",
    "update: 2 for the request pool",
    "update: 5 for level 17 of the additions tree",
    "update: 5 for counts past the end of the additions tree",
    "update: 16 beneath a dropped member",
    "update: 17 beneath a dropped element, key or value",
    "update: 22 for the receiving struct itself",
    "update: 22 for the record above it",
    "update: 22 for the second above it",
    "update: 22 for the third above it or a farther one",
    "update: 22 for the first of 16 levels",
    "update: 22 for a root",
    "update: 22 for a struct's member",
    "update: 22 through a list's element",
    "update: 22 through a map's key",
    "update: 22 through a map's value",
    "update: 22, and an element, key or value above is dropped too",
    "update: 22 of the only addition",
    "update: 22 of the first of several additions",
    "update: 22 of an addition between others",
    "update: 22 of the last of several additions",
    "update: 22, and the name is taken",
    "update: 22, and no ids are left",
    "prune: all is kept",
    "prune: a part is kept",
    "prune: an empty tree",
    "prune: full mode",
    "prune: not in full mode",
    "prune: an id chosen twice",
    "prune: 1,024 ids chosen",
    "prune: 2 for the ids chosen",
    "prune: an empty struct is left",
    "prune: Rust panics at the root",
    "prune: Rust panics at a map's value",
    "prune: a key keeps the map",
    "prune: 20 at a field",
    "prune: 20 at an element",
    "prune: 20 at a value",
    "renumber: accepted",
    "renumber: with identifiers",
    "renumber: an identifier 15 levels beneath a root",
    "renumber: an identifier twice",
    "renumber: 64 identifiers",
    "renumber: 2 for identifiers",
    "renumber: up to the edge",
    "name: found by the full name",
    "name: found by a short name",
    "name: of equal short names the first entered",
    "name: a full name hides a short one",
    "name: nothing",
    "name: the empty name",
    "id: found",
    "id: nothing",
    "parent: found",
    "parent: nothing above a root",
    "parent: unknown id",
    "list: accepted",
    "folded: found by the full name as it is",
    "folded: found by the full name in another case",
    "folded: found by a short name in another case",
    "folded: found under a list's element by a short name",
    "folded: found under a map's value by a short name",
    "folded: found by A for a and by Z for z",
    "folded: found by more than 255 bytes",
    "folded: a full name hides two short ones",
    "folded: nothing",
    "folded: nothing, a byte beside the letters does not fold",
    "folded: nothing, a byte above 127 does not fold",
    "folded: nothing, the name is longer than any pool",
    "folded: the empty name",
    "folded: 21 by full names",
    "folded: 21 by full names across dots",
    "folded: 21 by short names",
    "folded: 21 by short names under a list's element",
    "folded: 21 by short names under a map's value",
    "folded: 21 by equal short names",
    "folded: 21 by equal short names without letters",
    "folded: 21 beside an exact match",
    "folded: 21 by three columns",
    "ids: all found",
    "ids: some found and some not",
    "ids: none found",
    "ids: no id",
    "ids: an id twice",
    "ids: a negative id",
    "ids: 1,024 ids",
    "ids: 1,024 records, the last found",
    "ids: an id that differs from a found one in one bit is not found",
    "ids: eight columns or more share ten low bits",
    "ids: eight columns or more share 22 low bits",
    "ids: room beyond the slots",
    "ids: 1 by one byte",
    "ids: 2 for the ids asked for",
    "ids: 2 for ids that are not whole",
    "tree: 16 levels",
    "tree: 1,024 records",
    "tree: more than 900 records",
    "tree: a pool of 32,768 bytes",
    "tree: 32,768 as the sum of name lengths",
    "tree: no record",
    "tree: a struct key",
    "tree: a list or map key",
    "tree: a list in a list",
    "tree: a map in a map",
    "tree: a dot in a name",
    "tree: an empty name",
    "tree: a name of 255 bytes",
    "tree: a name that is not UTF-8",
    "tree: a member named element, key or value",
    "tree: the least and the largest id",
    "tree: a negative id",
    "tree: id -1",
    "tree: two ids that share ten low bits",
    "tree: two ids that share 22 low bits",
    "tree: names that share pool bytes",
    "tree: 2 for the records",
    "tree: 2 for the pool",
    "tree: 2 for the sum of name lengths",
    "tree: 2 for a list that is not whole",
    "tree: 5 for level 17",
    "tree: 5 for counts past the end",
];

/// The shapes of a case and its answer.
pub fn shapes_of(case: &Case, answer: &Answer) -> Vec<&'static str> {
    let mut shapes = vec![];
    let mut met = |shape, is: bool| {
        if is {
            shapes.push(shape);
        }
    };
    if let Some(refusal) = answer.refusal() {
        refused_shapes(case, refusal, &mut met);
        edit_refused_shapes(case, refusal, &mut met);
        return shapes;
    }
    let tree = read_tree(&case.records, &case.pool, 0).expect("an accepted base is read");
    tree_shapes(case, &tree, &mut met);
    match &case.ask {
        Ask::Update { .. } => {
            update_shapes(case, &tree, answer, &mut met);
            edit_shapes(case, &tree, answer, &mut met);
        }
        Ask::Prune { .. } => prune_shapes(case, &tree, answer, &mut met),
        Ask::Renumber { identifiers, start, .. } => {
            met("renumber: accepted", true);
            met("renumber: with identifiers", !identifiers.is_empty());
            let deepest = deepest(&tree, identifiers) == LEVELS;
            met("renumber: an identifier 15 levels beneath a root", deepest);
            met("renumber: an identifier twice", twice(identifiers.chunks(4)));
            met("renumber: 64 identifiers", identifiers.len() == MOST_IDENTIFIERS * ID_BYTES);
            let last = i64::from(*start) + tree.rows.len() as i64;
            met("renumber: up to the edge", last == i64::from(i32::MAX));
        }
        Ask::Name(name) => name_shapes(&tree, name, answer, &mut met),
        Ask::Folded(name) => folded_shapes(&tree, name, answer, &mut met),
        Ask::Id(_) => {
            met("id: found", *answer != Answer::Nothing);
            met("id: nothing", *answer == Answer::Nothing);
        }
        Ask::Ids { ids, out_slots } => ids_shapes(&tree, ids, *out_slots, answer, &mut met),
        Ask::Parent(id) => {
            let known = tree.rows.iter().any(|row| row.id == *id);
            met("parent: found", *answer != Answer::Nothing);
            met("parent: nothing above a root", *answer == Answer::Nothing && known);
            met("parent: unknown id", !known);
        }
        Ask::List => met("list: accepted", true),
    }
    shapes
}

/// The level of the deepest identifier; 0 if there is none.
fn deepest(tree: &Tree, identifiers: &[u8]) -> usize {
    let ids = ids_of(identifiers);
    let levels = tree.rows.iter().filter(|row| ids.contains(&row.id)).map(|row| row.level);
    levels.max().unwrap_or(0)
}

/// Does anything stand in a row twice?
fn twice<T: PartialEq>(row: impl Iterator<Item = T>) -> bool {
    let row: Vec<T> = row.collect();
    row.iter().enumerate().any(|(at, one)| row[..at].contains(one))
}

/// The sum of the length bytes.
pub fn name_sum(records: &[u8]) -> usize {
    records.chunks_exact(RECORD_BYTES).map(|record| usize::from(record[8])).sum()
}

/// Which limits a case passes, so that it is refused with 2.
fn limit_shapes(case: &Case, met: &mut impl FnMut(&'static str, bool)) {
    let past = |list: &[u8], unit: usize, most: usize| list.len() > most * unit;
    let grown = |records: &[u8]| past(records, RECORD_BYTES, MOST_RECORDS);
    met("tree: 2 for the records", grown(&case.records));
    met("tree: 2 for the pool", case.pool.len() > POOL_BYTES);
    met("tree: 2 for the sum of name lengths", name_sum(&case.records) > NAME_SUM);
    met("tree: 2 for a list that is not whole", !case.records.len().is_multiple_of(RECORD_BYTES));
    match &case.ask {
        Ask::Update { identifiers, deletions, additions, added_records, request_pool, .. } => {
            met("update: 2 for identifiers", past(identifiers, ID_BYTES, MOST_IDENTIFIERS));
            met("update: 2 for deletions", past(deletions, ENTRY_BYTES, MOST_DELETIONS));
            met("update: 2 for additions", past(additions, ENTRY_BYTES, MOST_ADDITIONS));
            met("update: 2 for the additions tree", grown(added_records));
            met("update: 2 for the request pool", request_pool.len() > POOL_BYTES);
        }
        Ask::Prune { selected, .. } => {
            met("prune: 2 for the ids chosen", past(selected, ID_BYTES, MOST_SELECTED));
        }
        Ask::Renumber { identifiers, .. } => {
            met("renumber: 2 for identifiers", past(identifiers, ID_BYTES, MOST_IDENTIFIERS));
        }
        Ask::Ids { ids, .. } => {
            met("ids: 2 for the ids asked for", past(ids, ID_BYTES, MOST_ASKED));
            met("ids: 2 for ids that are not whole", !ids.len().is_multiple_of(ID_BYTES));
        }
        _ => {}
    }
}

/// Of refusals with more than one ground, which it was.
fn refused_shapes(case: &Case, refusal: Refusal, met: &mut impl FnMut(&'static str, bool)) {
    let past = |records: &[u8]| refusal.place as usize == records.len() / RECORD_BYTES;
    match (&case.ask, refusal.number, refusal.list) {
        (Ask::Ids { ids, out_slots }, 1, _) => {
            met("ids: 1 by one byte", out_slots + 1 == ids.len())
        }
        (_, 2, _) => limit_shapes(case, met),
        (_, 5, judge::BASE) => {
            met("tree: 5 for level 17", !past(&case.records));
            met("tree: 5 for counts past the end", past(&case.records));
        }
        (Ask::Update { added_records, .. }, 5, _) => {
            met("update: 5 for level 17 of the additions tree", !past(added_records));
            met("update: 5 for counts past the end of the additions tree", past(added_records));
        }
        (_, 9, _) => nine_shapes(case, met),
        (_, 25, _) => version_shapes(case, met),
        (Ask::Update { .. }, 16 | 17 | 22, _) => {
            let tree = read_tree(&case.records, &case.pool, 0).expect("16 comes after 6");
            addition_refused_shapes(case, &tree, refusal, met);
        }
        (Ask::Prune { .. }, 20, _) => {
            let tree = read_tree(&case.records, &case.pool, 0).expect("20 comes after 6");
            let above = tree.rows[refusal.place as usize].parent.map(|up| tree.rows[up].kind);
            met("prune: 20 at a field", above.is_none_or(|kind| kind == STRUCT));
            met("prune: 20 at an element", above == Some(LIST));
            met("prune: 20 at a value", above == Some(MAP));
        }
        (Ask::Folded(name), 21, _) => {
            let tree = read_tree(&case.records, &case.pool, 0).expect("21 comes after 8");
            ambiguous_shapes(&tree, name, met);
        }
        _ => {}
    }
}

fn tree_shapes(case: &Case, tree: &Tree, met: &mut impl FnMut(&'static str, bool)) {
    let rows = &tree.rows;
    let any = |of: &dyn Fn(&judge::Row) -> bool| rows.iter().any(of);
    let child = |row: &judge::Row, at: usize| rows[row.children[at]].kind;
    met("tree: 16 levels", any(&|row| row.level == LEVELS));
    met("tree: 1,024 records", rows.len() == MOST_RECORDS);
    met("tree: more than 900 records", rows.len() > 900);
    met("tree: no record", rows.is_empty());
    met("tree: a pool of 32,768 bytes", case.pool.len() == POOL_BYTES);
    met("tree: 32,768 as the sum of name lengths", name_sum(&case.records) == NAME_SUM);
    met("tree: a struct key", any(&|row| row.kind == MAP && child(row, 0) == STRUCT));
    met("tree: a list or map key", any(&|row| row.kind == MAP && child(row, 0) >= LIST));
    met("tree: a list in a list", any(&|row| row.kind == LIST && child(row, 0) == LIST));
    met("tree: a map in a map", any(&|row| row.kind == MAP && child(row, 1) == MAP));
    met("tree: a dot in a name", any(&|row| row.name.contains(&b'.')));
    met("tree: an empty name", any(&|row| row.name.is_empty()));
    met("tree: a name of 255 bytes", any(&|row| row.name.len() == 255));
    met("tree: a name that is not UTF-8", any(&|row| str::from_utf8(&row.name).is_err()));
    met(
        "tree: a member named element, key or value",
        any(&|row| {
            let member = row.parent.is_none_or(|p| rows[p].kind == STRUCT);
            member && [&b"element"[..], b"key", b"value"].contains(&&row.name[..])
        }),
    );
    met(
        "tree: the least and the largest id",
        any(&|row| row.id == i32::MIN) && any(&|row| row.id == i32::MAX),
    );
    met("tree: a negative id", any(&|row| row.id < 0));
    met("tree: id -1", any(&|row| row.id == -1));
    met("tree: two ids that share ten low bits", sharing(tree, 10) > 1);
    met("tree: two ids that share 22 low bits", sharing(tree, 22) > 1);
    met("tree: names that share pool bytes", name_sum(&case.records) > case.pool.len());
}

/// How many ids, at most, have the same low bits, so many of them.
fn sharing(tree: &Tree, bits: u32) -> usize {
    let mut low: Vec<i32> = tree.rows.iter().map(|row| row.id << (32 - bits)).collect();
    low.sort_unstable();
    low.chunk_by(|one, other| one == other).map(<[i32]>::len).max().unwrap_or(0)
}

fn ids_shapes(
    tree: &Tree,
    asked: &[u8],
    room: usize,
    answer: &Answer,
    met: &mut impl FnMut(&'static str, bool),
) {
    let Answer::Searched { slots, found } = answer else { return };
    let (asked, found) = (ids_of(asked), *found as usize);
    let slots: Vec<usize> = ids_of(slots).iter().map(|slot| *slot as u32 as usize).collect();
    let there = |at: &usize| slots[*at] < tree.rows.len();
    let one_bit = |at: &usize| {
        let id = asked[*at];
        !there(at) && tree.rows.iter().any(|row| (row.id ^ id).count_ones() == 1)
    };
    met("ids: no id", asked.is_empty());
    met("ids: all found", !asked.is_empty() && found == asked.len());
    met("ids: some found and some not", 0 < found && found < asked.len());
    met("ids: none found", !asked.is_empty() && found == 0);
    met("ids: an id twice", twice(asked.iter()));
    met("ids: a negative id", (0..asked.len()).any(|at| asked[at] < 0 && there(&at)));
    met("ids: 1,024 ids", asked.len() == MOST_ASKED);
    met("ids: 1,024 records, the last found", slots.contains(&(MOST_RECORDS - 1)));
    met(
        "ids: an id that differs from a found one in one bit is not found",
        (0..asked.len()).any(|at| one_bit(&at)),
    );
    met("ids: eight columns or more share ten low bits", found > 0 && sharing(tree, 10) >= 8);
    met("ids: eight columns or more share 22 low bits", found > 0 && sharing(tree, 22) >= 8);
    met("ids: room beyond the slots", room > asked.len() * ID_BYTES);
}

/// The ids of a list of records.
pub fn ids_in(records: &[u8]) -> Vec<i32> {
    let id = |r: &[u8]| i32::from_le_bytes([r[0], r[1], r[2], r[3]]);
    records.chunks_exact(RECORD_BYTES).map(id).collect()
}

/// The ids of a list of ids.
pub fn ids_of(bytes: &[u8]) -> Vec<i32> {
    bytes.chunks_exact(4).map(|b| i32::from_le_bytes([b[0], b[1], b[2], b[3]])).collect()
}

fn paths(entries: &[u8], pool: &[u8]) -> Vec<Option<Vec<u8>>> {
    let path = |e: &[u8]| {
        let offset = u32::from_le_bytes([e[0], e[1], e[2], e[3]]) as usize;
        let length = u16::from_le_bytes([e[4], e[5]]) as usize;
        (e[6] == 1).then(|| pool[offset..offset + length].to_vec())
    };
    entries.chunks_exact(8).map(path).collect()
}

fn update_shapes(
    case: &Case,
    tree: &Tree,
    answer: &Answer,
    met: &mut impl FnMut(&'static str, bool),
) {
    let Ask::Update {
        identifiers,
        last_id,
        version,
        deletions,
        additions,
        added_records,
        request_pool,
        ..
    } = &case.ask
    else {
        return;
    };
    let Answer::Updated { records, names, last_id: consumed, visited } = answer else { return };
    let (before, after) = (ids_in(&case.records), ids_in(records));
    met("update: accepted", true);
    met("update: by version 2", *version == 2);
    met("update: by version 3", *version == 3);
    met("update: with identifiers", !identifiers.is_empty());
    let deepest = deepest(tree, identifiers) == LEVELS;
    met("update: an identifier 15 levels beneath a root", deepest);
    met("update: an identifier twice", twice(identifiers.chunks(4)));
    met("update: 64 identifiers", identifiers.len() == MOST_IDENTIFIERS * ID_BYTES);
    met("update: 64 deletions", deletions.len() == MOST_DELETIONS * ENTRY_BYTES);
    met("update: 64 additions", additions.len() == MOST_ADDITIONS * ENTRY_BYTES);
    let most = MOST_RECORDS * RECORD_BYTES;
    met("update: an additions tree of 1,024 records", added_records.len() == most);
    met("update: a request pool of 32,768 bytes", request_pool.len() == POOL_BYTES);
    met("update: an empty tree", after.is_empty());
    let given = i64::from(*last_id) + 1..=i64::from(*consumed);
    let fresh = |id: &i32| given.contains(&i64::from(*id));
    met("update: an id handed out again", before.iter().any(fresh));
    let again: Vec<i32> = ids_of(identifiers).into_iter().filter(fresh).collect();
    met("update: an identifier's id given again", !again.is_empty());
    let after_tree = read_tree(records, names, judge::REBUILT).expect("an answer is read");
    let nested = |row: &judge::Row| row.level > 1 && again.contains(&row.id);
    met(
        "update: an identifier's id given again beneath a struct",
        after_tree.rows.iter().any(nested),
    );
    met(
        "update: the last id consumed is the largest",
        *consumed == i32::MAX && *last_id < i32::MAX,
    );
    let both = REQUIRED | DEFAULT;
    met(
        "update: a required column with a default",
        added_records.chunks(24).any(|r| r[10] == both),
    );
    let called = Names::of(tree);
    let found = |path: &[u8]| called.find(path).expect("an accepted path finds a record");
    deletion_shapes(case, tree, &found, &after, met);
    addition_shapes(case, tree, &found, met);
    let dropped = paths(deletions, request_pool);
    let dropped: Vec<usize> = dropped.iter().flatten().map(|path| found(path)).collect();
    let added = added_records.len() / RECORD_BYTES;
    visit_shapes(tree, &dropped, added, *visited as usize, met);
}

fn deletion_shapes(
    case: &Case,
    tree: &Tree,
    found: &impl Fn(&[u8]) -> usize,
    after: &[i32],
    met: &mut impl FnMut(&'static str, bool),
) {
    let Ask::Update { deletions, request_pool, .. } = &case.ask else { return };
    let paths: Vec<Vec<u8>> = paths(deletions, request_pool).into_iter().flatten().collect();
    met("update: a column dropped twice", twice(paths.iter().map(|path| found(path))));
    for path in paths {
        let slot = found(&path);
        let stays = after.contains(&tree.rows[slot].id);
        met("update: an element, key or value dropped stays", held(tree, slot) && stays);
        met("update: a member dropped", !held(tree, slot));
        met("update: found by a short name", tree.full_name(slot) != path);
    }
}

fn addition_shapes(
    case: &Case,
    tree: &Tree,
    found: &impl Fn(&[u8]) -> usize,
    met: &mut impl FnMut(&'static str, bool),
) {
    let Ask::Update { deletions, additions, request_pool, .. } = &case.ask else { return };
    let dropped: Vec<usize> =
        paths(deletions, request_pool).iter().flatten().map(|path| found(path)).collect();
    for path in paths(additions, request_pool) {
        let Some(path) = path else {
            met("update: a column added at the root", true);
            continue;
        };
        let slot = found(&path);
        let row = &tree.rows[slot];
        let above = row.parent.map(|p| tree.rows[p].kind);
        met("update: a column added under a struct", row.kind == STRUCT);
        met("update: a column added under a list", row.kind == LIST);
        met("update: a column added under a map", row.kind == MAP);
        met("update: a column added under a key", above == Some(MAP) && row.name == b"key");
        let up = path_up(tree, receiver(tree, slot).expect("it was accepted"));
        let to = |name: &str| {
            let is = held(tree, up[0]) && tree.rows[up[0]].name == name.as_bytes();
            is && dropped.contains(&up[0])
        };
        met("update: a column added to a dropped element that stays", to("element"));
        met("update: a column added to a dropped key that stays", to("key"));
        met("update: a column added to a dropped value that stays", to("value"));
        met(
            "update: a column added farther beneath a dropped element, key or value",
            up[1..].iter().any(|slot| dropped.contains(slot)),
        );
        let members = &tree.rows[up[0]].children;
        met(
            "update: a column added to a struct that loses a member",
            members.iter().any(|slot| dropped.contains(slot)),
        );
    }
}

/// Of an addition that is refused by its parent or its name: what is dropped above it.
fn addition_refused_shapes(
    case: &Case,
    tree: &Tree,
    refusal: Refusal,
    met: &mut impl FnMut(&'static str, bool),
) {
    let Ask::Update { deletions, additions, request_pool, .. } = &case.ask else { return };
    let names = Names::of(tree);
    let found = |path: &Vec<u8>| names.find(path).expect("11 and 15 come before");
    let Some(path) = &paths(additions, request_pool)[refusal.place as usize] else { return };
    let dropped: Vec<usize> = paths(deletions, request_pool).iter().flatten().map(found).collect();
    let parent = found(path);
    let up = path_up(tree, receiver(tree, parent).unwrap_or(parent));
    let stays = up.iter().any(|slot| held(tree, *slot) && dropped.contains(slot));
    let goes = up.iter().position(|slot| !held(tree, *slot) && dropped.contains(slot));
    match (refusal.number, goes) {
        (16, goes) => met("update: 16 beneath a dropped member", goes.is_some()),
        (17, _) => met("update: 17 beneath a dropped element, key or value", stays),
        (_, Some(far)) => {
            dropped_parent_shapes(tree, &up, far, met);
            met("update: 22, and an element, key or value above is dropped too", stays);
            beside_22_shapes(case, tree, (refusal.place as usize, up[0], &dropped), met);
        }
        _ => {}
    }
}

/// Of 22: which record above the receiving struct is the nearest that goes.
fn dropped_parent_shapes(
    tree: &Tree,
    up: &[usize],
    far: usize,
    met: &mut impl FnMut(&'static str, bool),
) {
    met("update: 22 for the receiving struct itself", far == 0);
    met("update: 22 for the record above it", far == 1);
    met("update: 22 for the second above it", far == 2);
    met("update: 22 for the third above it or a farther one", far > 2);
    met("update: 22 for the first of 16 levels", far == LEVELS - 1);
    met("update: 22 for a root", far == up.len() - 1);
    met("update: 22 for a struct's member", far < up.len() - 1);
    let through = |name: &str| {
        let is = |slot: &usize| held(tree, *slot) && tree.rows[*slot].name == name.as_bytes();
        up[..far].iter().any(is)
    };
    met("update: 22 through a list's element", through("element"));
    met("update: 22 through a map's key", through("key"));
    met("update: 22 through a map's value", through("value"));
}

/// Of 22: where the addition stands, and what later refusals it would meet.
fn beside_22_shapes(
    case: &Case,
    tree: &Tree,
    (place, receiver, dropped): (usize, usize, &[usize]),
    met: &mut impl FnMut(&'static str, bool),
) {
    let Ask::Update { added_records, request_pool, last_id, .. } = &case.ask else { return };
    let added = read_tree(added_records, request_pool, 1).expect("22 comes after 6");
    let count = added.roots.len();
    met("update: 22 of the only addition", count == 1);
    met("update: 22 of the first of several additions", count > 1 && place == 0);
    met("update: 22 of an addition between others", 0 < place && place + 1 < count);
    met("update: 22 of the last of several additions", count > 1 && place + 1 == count);
    let name = &added.rows[added.roots[place]].name;
    let has = |slot: &usize| tree.rows[*slot].name == *name && !dropped.contains(slot);
    let taken = !dropped.contains(&receiver) && tree.rows[receiver].children.iter().any(has);
    met("update: 22, and the name is taken", taken);
    let records = added.roots.get(place + 1).copied().unwrap_or(added.rows.len());
    let last = i64::from(*last_id) + records as i64;
    met("update: 22, and no ids are left", last > i64::from(i32::MAX));
}

fn prune_shapes(
    case: &Case,
    tree: &Tree,
    answer: &Answer,
    met: &mut impl FnMut(&'static str, bool),
) {
    let Ask::Prune { selected, full, .. } = &case.ask else { return };
    let records = answer.records().expect("accepted");
    let kept = records.len() / RECORD_BYTES;
    met("prune: all is kept", kept == tree.rows.len() && kept > 0);
    met("prune: a part is kept", kept > 0 && kept < tree.rows.len());
    met("prune: an empty tree", kept == 0);
    met("prune: full mode", *full != 0 && kept > 0);
    met("prune: not in full mode", *full == 0 && kept > 0);
    met("prune: an id chosen twice", twice(selected.chunks(4)));
    met("prune: 1,024 ids chosen", selected.len() == MOST_SELECTED * ID_BYTES);
    let panics = judge::prune_where_rust_panics(&case.records, &case.pool, selected, *full);
    met("prune: Rust panics at the root", panics == Some(Unwrap::Root));
    met("prune: Rust panics at a map's value", panics == Some(Unwrap::Value));
    let empty = |r: &[u8]| r[9] == STRUCT && r[12] == 0 && r[13] == 0;
    let filled = |id: i32| tree.rows.iter().any(|row| row.id == id && !row.children.is_empty());
    let mut emptied = records.chunks(RECORD_BYTES).filter(|r| empty(r));
    met("prune: an empty struct is left", emptied.any(|r| filled(ids_in(r)[0])));
    let chosen = ids_of(selected);
    let key = |row: &judge::Row| row.kind == MAP && chosen.contains(&tree.rows[row.children[0]].id);
    met("prune: a key keeps the map", *full == 0 && tree.rows.iter().any(key) && kept > 0);
}

fn name_shapes(
    tree: &Tree,
    name: &[u8],
    answer: &Answer,
    met: &mut impl FnMut(&'static str, bool),
) {
    let slots = 0..tree.rows.len();
    let full = slots.clone().any(|slot| tree.full_name(slot) == name);
    let short = slots.filter(|slot| tree.short_name(*slot) == name).count();
    let own = slots_with_both(tree, name);
    met("name: found by the full name", full);
    met("name: found by a short name", !full && short > 0);
    met("name: of equal short names the first entered", !full && short > 1);
    met("name: a full name hides a short one", full && short > own);
    met("name: nothing", *answer == Answer::Nothing);
    met("name: the empty name", name.is_empty() && *answer != Answer::Nothing);
}

/// How many records have a name both as full and as short name.
fn slots_with_both(tree: &Tree, name: &[u8]) -> usize {
    let both = |slot: &usize| tree.full_name(*slot) == name && tree.short_name(*slot) == name;
    (0..tree.rows.len()).filter(both).count()
}

/// Does a short name leave out a struct that is a list's element, or a map's value?
fn leaves_out(tree: &Tree, slot: usize, kind: u8) -> bool {
    let above = |slot: &usize| tree.rows[*slot].parent;
    let left_out = |slot: usize| {
        let parent = above(&slot).map(|parent| &tree.rows[parent]);
        let inside = parent.is_some_and(|p| p.kind == kind && p.children.last() == Some(&slot));
        inside && tree.rows[slot].kind == STRUCT
    };
    std::iter::successors(above(&slot), above).any(left_out)
}

fn folded_shapes(
    tree: &Tree,
    name: &[u8],
    answer: &Answer,
    met: &mut impl FnMut(&'static str, bool),
) {
    let Answer::Found { slot, .. } = answer else {
        return unfolded_shapes(tree, name, met);
    };
    let slot = *slot as usize;
    let [full, short] = alike(tree, name);
    let by_full = full.contains(&slot);
    let called = if by_full { tree.full_name(slot) } else { tree.short_name(slot) };
    let other = name.iter().zip(&called).filter(|(asked, has)| asked != has);
    let other: Vec<u8> = other.map(|(asked, _)| *asked).collect();
    let turned = |letters: &[u8]| other.iter().any(|byte| letters.contains(byte));
    met("folded: found by the full name as it is", by_full && other.is_empty());
    met("folded: found by the full name in another case", by_full && !other.is_empty());
    met("folded: found by a short name in another case", !by_full && !other.is_empty());
    let short_of = |kind: u8| !by_full && leaves_out(tree, slot, kind);
    met("folded: found under a list's element by a short name", short_of(LIST));
    met("folded: found under a map's value by a short name", short_of(MAP));
    met("folded: found by A for a and by Z for z", turned(b"Aa") && turned(b"Zz"));
    met("folded: found by more than 255 bytes", name.len() > 255);
    let hidden = short.iter().filter(|hidden| **hidden != slot).count();
    met("folded: a full name hides two short ones", by_full && hidden > 1);
    met("folded: the empty name", name.is_empty());
}

/// Where nothing is found: what would have been, if other bytes than letters folded.
fn unfolded_shapes(tree: &Tree, name: &[u8], met: &mut impl FnMut(&'static str, bool)) {
    let mut other = vec![];
    for slot in 0..tree.rows.len() {
        for called in [tree.full_name(slot), tree.short_name(slot)] {
            let near = called.len() == name.len();
            if near && called.iter().zip(name).all(|(has, asked)| (has ^ asked) & !32 == 0) {
                let unlike = called.iter().zip(name).filter(|(has, asked)| has != asked);
                other.extend(unlike.map(|(has, _)| *has));
            }
        }
    }
    met("folded: nothing", true);
    let beside = other.iter().any(|byte| b"@[`{".contains(byte));
    met("folded: nothing, a byte beside the letters does not fold", beside);
    met("folded: nothing, a byte above 127 does not fold", other.iter().any(|byte| *byte > 127));
    met("folded: nothing, the name is longer than any pool", name.len() > POOL_BYTES);
}

fn ambiguous_shapes(tree: &Tree, name: &[u8], met: &mut impl FnMut(&'static str, bool)) {
    let [full, short] = alike(tree, name);
    let by_full = !full.is_empty();
    let matching = if by_full { full } else { short };
    let called = |slot: &usize| match by_full {
        true => tree.full_name(*slot),
        false => tree.short_name(*slot),
    };
    let names: Vec<Vec<u8>> = matching.iter().map(called).collect();
    let across = matching.iter().any(|slot| tree.rows[*slot].level != tree.rows[matching[0]].level);
    met("folded: 21 by full names", by_full);
    met("folded: 21 by full names across dots", by_full && across);
    met("folded: 21 by short names", !by_full);
    let short_of = |kind: u8| !by_full && matching.iter().all(|at| leaves_out(tree, *at, kind));
    met("folded: 21 by short names under a list's element", short_of(LIST));
    met("folded: 21 by short names under a map's value", short_of(MAP));
    let equal = twice(names.iter());
    let letters = name.iter().any(u8::is_ascii_alphabetic);
    met("folded: 21 by equal short names", equal);
    met("folded: 21 by equal short names without letters", equal && !letters);
    let exact = names.iter().filter(|called| *called == name).count();
    met("folded: 21 beside an exact match", exact == 1);
    met("folded: 21 by three columns", matching.len() > 2);
}
