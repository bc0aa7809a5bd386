//! The cases that have a name, each with the answer that it must have. All but the longest, and
//! those of names that crowd their chains, stand in the recorded list.

mod crowded;
mod dropped;
mod edits;
mod faults;
mod folded;
mod found;
mod identifiers;
mod ids;
mod limits;
mod readings;
mod visited;
mod widenings;
mod worked;

use judge::{DEFAULT, NO_SLOT, Node, REQUIRED, Refusal, read_tree};

use crate::build::{
    ask_of, ids_by, list_of, map_of, packed, prim, prune_by, renumber_by, strukt, update_of,
};
use crate::case::{Answer, Ask, Case};

/// A case with a title, and what must come of it.
#[derive(Clone, Debug)]
pub struct Named {
    pub title: String,
    pub case: Case,
    pub expected: Expected,
    /// Does it stand in the recorded list? A line of thousands of records is too long for it; and
    /// names that crowd their chains say nothing of the text that others don't.
    pub listed: bool,
}

/// What must come of a case.
#[derive(Clone, Debug, PartialEq, Eq)]
pub enum Expected {
    /// Number, list and place.
    Refused(u32, u32, u32),
    /// Accepted, with these ids in slot order.
    Ids(Vec<i32>),
    /// Accepted, with these ids and this last id.
    Last(Vec<i32>, i32),
    /// Accepted, with these ids and so many records visited.
    Visited(Vec<i32>, u32),
    /// Accepted, with these ids, names and flags in slot order.
    Columns(Vec<(i32, String, u8)>),
    /// Accepted, with these ids, names, flags and type codes in slot order.
    Typed(Vec<(i32, String, u8, u32)>),
    /// Accepted, with so many records.
    Count(usize),
    /// Id and slot.
    Found(i32, u32),
    Nothing,
    /// The slot of each id that was asked for, or none; and as many were found.
    Slots(Vec<Option<u32>>),
    /// The lister's lines.
    Lines(&'static str),
}

impl Expected {
    /// Does an answer meet this?
    pub fn met_by(&self, answer: &Answer) -> bool {
        let ids = |records: &[u8]| -> Vec<i32> {
            let id = |r: &[u8]| i32::from_le_bytes([r[0], r[1], r[2], r[3]]);
            records.chunks_exact(judge::RECORD_BYTES).map(id).collect()
        };
        match (self, answer) {
            (Expected::Refused(number, list, place), Answer::Refused(r)) => {
                *r == Refusal { number: *number, list: *list, place: *place }
            }
            (Expected::Ids(want), answer) => answer.records().map(ids).as_ref() == Some(want),
            (Expected::Last(want, last), Answer::Updated { records, last_id, .. }) => {
                ids(records) == *want && last_id == last
            }
            (Expected::Visited(want, count), Answer::Updated { records, visited, .. }) => {
                ids(records) == *want && visited == count
            }
            (Expected::Columns(want), Answer::Updated { records, names, .. }) => {
                let tree = read_tree(records, names, judge::REBUILT).expect("an answer is read");
                let shown = |row: &judge::Row| (row.id, row.name.clone(), row.flags);
                let want = want.iter().map(|(id, name, flags)| (*id, name.clone().into(), *flags));
                tree.rows.iter().map(shown).eq(want)
            }
            (Expected::Typed(want), Answer::Updated { records, names, .. }) => {
                let tree = read_tree(records, names, judge::REBUILT).expect("an answer is read");
                let shown = |row: &judge::Row| {
                    let name = String::from_utf8_lossy(&row.name).into_owned();
                    (row.id, name, row.flags, row.type_code)
                };
                tree.rows.iter().map(shown).eq(want.iter().cloned())
            }
            (Expected::Count(want), answer) => {
                answer.records().map(|records| records.len() / 24) == Some(*want)
            }
            (Expected::Found(id, slot), Answer::Found { id: i, slot: s }) => (id, slot) == (i, s),
            (Expected::Nothing, Answer::Nothing) => true,
            (Expected::Slots(want), Answer::Searched { slots, found }) => {
                let number = |slot: &Option<u32>| slot.unwrap_or(NO_SLOT).to_le_bytes();
                let bytes: Vec<u8> = want.iter().flat_map(number).collect();
                *slots == bytes && *found as usize == want.iter().flatten().count()
            }
            (Expected::Lines(lines), Answer::Listed(text)) => lines.as_bytes() == text,
            _ => false,
        }
    }
}

/// Every named case: the worked tree, the readings, the limits, faults two at a time, what
/// iceberg's own code decided, the look-up that forgets case, that of many ids, additions beneath
/// what is dropped, the columns that can be identifiers, edits, widenings, what is visited, and
/// names that crowd their chains.
pub fn named() -> Vec<Named> {
    let mut all = Cases(vec![]);
    worked::put(&mut all);
    readings::put(&mut all);
    limits::put(&mut all);
    faults::put(&mut all);
    found::put(&mut all);
    folded::put(&mut all);
    ids::put(&mut all);
    dropped::put(&mut all);
    identifiers::put(&mut all);
    edits::put(&mut all);
    widenings::put(&mut all);
    visited::put(&mut all);
    crowded::put(&mut all);
    all.0
}

/// The cases so far.
struct Cases(Vec<Named>);

impl Cases {
    fn put(&mut self, title: &str, case: Case, expected: Expected) {
        self.0.push(Named { title: title.into(), case, expected, listed: true });
    }

    /// A case that stands beside the recorded list.
    fn put_beside(&mut self, title: &str, case: Case, expected: Expected) {
        self.0.push(Named { title: title.into(), case, expected, listed: false });
    }
}

// ---- short words for what the lists hold ----

fn refused(number: u32, list: u32, place: u32) -> Expected {
    Expected::Refused(number, list, place)
}

fn ids(ids: &[i32]) -> Expected {
    Expected::Ids(ids.to_vec())
}

fn last(ids: &[i32], last_id: i32) -> Expected {
    Expected::Last(ids.to_vec(), last_id)
}

fn p(id: i32, name: &str) -> Node {
    prim(id, name)
}

fn s(id: i32, name: &str, members: Vec<Node>) -> Node {
    strukt(id, name, members)
}

fn l(id: i32, name: &str, element: Node) -> Node {
    list_of(id, name, element)
}

fn m(id: i32, name: &str, key: Node, value: Node) -> Node {
    map_of(id, name, key, value)
}

fn required(mut node: Node) -> Node {
    node.flags |= REQUIRED;
    node
}

fn with_default(mut node: Node) -> Node {
    node.flags |= DEFAULT;
    node
}

fn of_type(code: u32, mut column: Node) -> Node {
    column.type_code = code;
    column
}

/// An update without identifiers.
fn update(base: &[Node], last_id: i32, drop: &[&str], add: &[(Option<&str>, Node)]) -> Case {
    update_of(base, &[], last_id, drop, add)
}

fn prune(base: &[Node], selected: &[i32]) -> Case {
    prune_by(packed(base), selected, false)
}

fn prune_full(base: &[Node], selected: &[i32]) -> Case {
    prune_by(packed(base), selected, true)
}

fn renumber(base: &[Node], identifiers: &[i32], start: i32) -> Case {
    renumber_by(packed(base), identifiers, start)
}

fn name(base: &[Node], name: &str) -> Case {
    ask_of(packed(base), Ask::Name(name.as_bytes().to_vec()))
}

fn folding(base: &[Node], name: &str) -> Case {
    ask_of(packed(base), Ask::Folded(name.as_bytes().to_vec()))
}

fn asking(base: &[Node], asked: &[i32]) -> Case {
    ids_by(packed(base), asked)
}

fn id(base: &[Node], id: i32) -> Case {
    ask_of(packed(base), Ask::Id(id))
}

fn parent(base: &[Node], id: i32) -> Case {
    ask_of(packed(base), Ask::Parent(id))
}

fn list(base: &[Node]) -> Case {
    ask_of(packed(base), Ask::List)
}

/// A case with some bytes changed.
fn but(mut case: Case, change: impl FnOnce(&mut Case)) -> Case {
    change(&mut case);
    case
}

/// The request of an update: deletions, additions, added records, request pool.
fn request_of(case: &mut Case) -> [&mut Vec<u8>; 4] {
    match &mut case.ask {
        Ask::Update { deletions, additions, added_records, request_pool, .. } => {
            [deletions, additions, added_records, request_pool]
        }
        _ => panic!("the case is no update"),
    }
}

fn edits_of(case: &mut Case) -> &mut Vec<u8> {
    match &mut case.ask {
        Ask::Update { edits, .. } => edits,
        _ => panic!("the case is no update"),
    }
}

/// A chain of structs named `s`, one to a level, with ids from 1 at the root.
fn chain(levels: i32) -> Node {
    (1..levels).rev().fold(s(levels, "s", vec![]), |inside, id| s(id, "s", vec![inside]))
}
