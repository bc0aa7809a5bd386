//! What is timed on a schema.

use cases::{Addition, Ask, Case, ids_by, list_of, packed, prim, request, update_of};
use judge::{Node, OUT_NAMES, OUT_RECORDS, PRIMITIVE, Tree};

use crate::schemas::schema;

/// A case with the operation's word and what is done.
#[derive(Clone)]
pub struct Row {
    pub what: &'static str,
    pub case: Case,
    /// 0 where the case is accepted, else the refusal up to which the work goes.
    pub refusal: u32,
    /// Can the crate be asked for the same work?
    pub crate_too: bool,
}

impl Row {
    /// What the crate is asked for, which has no edits.
    pub fn crate_case(&self) -> Option<Case> {
        let mut case = self.crate_too.then(|| self.case.clone())?;
        if let Ask::Update { edits, .. } = &mut case.ask {
            edits.clear();
        }
        Some(case)
    }
}

/// Rows that are told together: how long each takes beside the first.
pub struct Beside {
    pub of: String,
    pub rows: Vec<Row>,
}

/// The rows of a schema of so many records.
pub fn rows(name: &str, records: usize) -> Vec<Row> {
    let base = schema(name, records);
    let tree = Tree::of(&base);
    let primitives = primitives(&tree);
    let ids: Vec<i32> = primitives.iter().step_by(2).map(|slot| tree.rows[*slot].id).collect();
    let every: Vec<i32> = tree.rows.iter().map(|row| row.id).collect();
    let last = records - 1;
    let asked = tree.full_name(last);
    // no name of a schema has a capital letter
    let other_case = asked.to_ascii_uppercase();
    vec![
        row("update, 1 deletion and 1 addition", update(&base, &tree, &primitives, 1)),
        row("update, 64 deletions and 64 additions", update(&base, &tree, &primitives, 64)),
        row("prune, half the primitives", prune(&base, &ids)),
        row("renumber", renumber(&base)),
        row("look-up by name", ask(&base, Ask::Name(asked))),
        row("look-up that forgets case", ask(&base, Ask::Folded(other_case))),
        row("look-up by id", ask(&base, Ask::Id(tree.rows[last].id))),
        row("look-up of every id", ids_by(packed(&base), &every)),
        row("look-up of the record above", ask(&base, Ask::Parent(deep(&tree)))),
        Row { refusal: 6, crate_too: false, ..row("1 to 6 alone", up_to_6(name, records)) },
        Row { refusal: 11, ..row("1 to 9 and one look-up", up_to_11(&base)) },
    ]
}

/// A case that is accepted, and that the crate can be asked for.
pub fn row(what: &'static str, case: Case) -> Row {
    Row { what, case, refusal: 0, crate_too: true }
}

/// The slots of the primitives that a deletion takes out, but for the first, the identifier.
pub fn primitives(tree: &Tree) -> Vec<usize> {
    let goes = |slot: &usize| tree.rows[*slot].kind == PRIMITIVE && member(tree, *slot);
    (1..tree.rows.len()).filter(goes).collect()
}

/// Is a record a root or a struct's member, so that a deletion takes it out?
pub fn member(tree: &Tree, slot: usize) -> bool {
    tree.rows[slot].parent.is_none_or(|up| tree.rows[up].kind == judge::STRUCT)
}

fn ask(base: &[Node], ask: Ask) -> Case {
    let (records, pool) = packed(base);
    Case { records, pool, ask }
}

/// The last id that has a record above it, or the last id.
fn deep(tree: &Tree) -> i32 {
    let nested = tree.rows.iter().rev().find(|row| row.parent.is_some());
    nested.or(tree.rows.last()).map_or(0, |row| row.id)
}

/// Deletions spread over the primitives, again from the front where there are too few.
pub fn update(base: &[Node], tree: &Tree, primitives: &[usize], count: usize) -> Case {
    let spread = (primitives.len() / count).max(1);
    let slot = |n: usize| primitives[n * spread % primitives.len()];
    let deletions: Vec<Vec<u8>> = (0..count).map(|n| tree.full_name(slot(n))).collect();
    let addition = |n: usize| Addition { path: None, column: prim(0, &format!("fresh_{n}")) };
    let added: Vec<Addition> = (0..count).map(addition).collect();
    let mut case = update_of(base, &[1], base_last(tree), &[], &[]);
    if let Ask::Update { deletions: d, additions, added_records, request_pool, .. } = &mut case.ask
    {
        [*d, *additions, *added_records, *request_pool] = request(&deletions, &added);
    }
    case
}

pub fn base_last(tree: &Tree) -> i32 {
    tree.rows.len() as i32
}

fn prune(base: &[Node], ids: &[i32]) -> Case {
    let selected = ids.iter().flat_map(|id| id.to_le_bytes()).collect();
    let (out_records, out_names) = (OUT_RECORDS, OUT_NAMES);
    ask(base, Ask::Prune { selected, full: 0, out_records, out_names })
}

fn renumber(base: &[Node]) -> Case {
    let (out_records, out_names) = (OUT_RECORDS, OUT_NAMES);
    let identifiers = 1i32.to_le_bytes().to_vec();
    ask(base, Ask::Renumber { identifiers, start: 1, out_records, out_names, out_identifiers: 4 })
}

/// The last record of the base is an element that is named otherwise.
fn up_to_6(name: &str, records: usize) -> Case {
    let mut base = schema(name, records - 2);
    base.push(list_of(-1, "last", prim(-2, "Element")));
    ask(&base, Ask::Id(1))
}

/// One identifier, and one deletion that finds nothing.
fn up_to_11(base: &[Node]) -> Case {
    update_of(base, &[1], 5_000, &["no such column"], &[])
}
