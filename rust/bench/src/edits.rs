//! Updates with edits, beside the same update without them.

use cases::{Case, by_version, decimal, edited, prim, strukt, update_of};
use judge::{
    Change, Edit, INT, LEVELS, LONG, MOST_EDITS, MOST_RECORDS, Node, PRIMITIVE, RECORD_BYTES, Tree,
};

use crate::rows::{Beside, Row, base_last, member, primitives, row, update};
use crate::schemas::{SCHEMAS, numbered, required, schema};

/// The update without edits, which the crate can be asked for too, and those with them.
fn beside(of: Editable, with: Vec<(&'static str, Case)>) -> Beside {
    let with = with.into_iter().map(|(what, case)| Row { crate_too: false, ..row(what, case) });
    let without = [row("without edits", of.case)];
    Beside { of: of.what, rows: without.into_iter().chain(with).collect() }
}

/// 64 edits beside 64 deletions and 64 additions, and alone, of each schema; and what is built to
/// be bad for them. All records are required.
pub fn editing() -> Vec<Beside> {
    let with = |of: Editable| {
        let renamed = of.renamed();
        beside(of, renamed)
    };
    editable(|_, _| true).map(with).collect()
}

/// The same where 64 primitives stay, of which each is edited, and widenings of them beside it. A
/// decimal's step is in no row of the table of steps, so all rows are asked for it.
pub fn widening() -> Vec<Beside> {
    let with = |of: Editable| {
        let (ints, decimals) = (of.typed(INT), of.typed(decimal(9, 2)));
        let in_turn = |n: usize| match n % 3 {
            0 => ints.new_name(n),
            1 => Change::Relax,
            _ => Change::Widen(LONG),
        };
        let more_digits = decimals.with(|_| Change::Widen(decimal(38, 2)));
        let mut rows = ints.renamed();
        rows.extend([
            ("64 widenings, int to long", ints.with(|_| Change::Widen(LONG))),
            ("22 renames, 21 relaxings, 21 widenings", ints.with(in_turn)),
            ("64 widenings of decimals, version 2", more_digits.clone()),
            ("64 widenings of decimals, version 3", by_version(3, more_digits)),
        ]);
        beside(ints, rows)
    };
    let primitive = |tree: &Tree, slot: usize| tree.rows[slot].kind == PRIMITIVE;
    editable(primitive).filter(|of| of.paths.len() == MOST_EDITS).map(with).collect()
}

/// An update, and the paths of columns that it leaves; new names have so many bytes at least.
struct Editable {
    what: String,
    case: Case,
    paths: Vec<Vec<u8>>,
    bytes: usize,
}

impl Editable {
    /// The update with an edit of each column.
    fn with(&self, change: impl Fn(usize) -> Change) -> Case {
        let edit = |(n, path): (usize, &Vec<u8>)| Edit { path: path.clone(), change: change(n) };
        let edits: Vec<Edit> = self.paths.iter().enumerate().map(edit).collect();
        edited(self.case.clone(), &edits)
    }

    /// Half renames and half relaxings, in turn, and renames alone.
    fn renamed(&self) -> Vec<(&'static str, Case)> {
        let in_turn = |n: usize| if n % 2 == 1 { Change::Relax } else { self.new_name(n) };
        vec![
            ("32 renames, 32 relaxings", self.with(in_turn)),
            ("64 renames", self.with(|n| self.new_name(n))),
        ]
    }

    fn new_name(&self, n: usize) -> Change {
        let named = format!("named_{n}");
        let fill = "x".repeat(self.bytes.saturating_sub(named.len()));
        Change::Rename((named + &fill).into())
    }

    /// The same with every primitive of the base of one type.
    fn typed(&self, code: u32) -> Editable {
        let mut case = self.case.clone();
        for record in case.records.chunks_exact_mut(RECORD_BYTES).filter(|r| r[9] == PRIMITIVE) {
            record[16..20].copy_from_slice(&code.to_le_bytes());
        }
        Editable { what: self.what.clone(), case, paths: self.paths.clone(), bytes: self.bytes }
    }
}

/// The updates that are edited, each with 64 columns of which this holds, from all over, or with as
/// many as stay.
fn editable(picked: fn(&Tree, usize) -> bool) -> impl Iterator<Item = Editable> {
    let of_schema = move |(name, _): &(&str, &str)| {
        let base = required(schema(name, MOST_RECORDS));
        let tree = Tree::of(&base);
        let full = update(&base, &tree, &primitives(&tree), MOST_EDITS);
        let nothing = update_of(&base, &[1], base_last(&tree), &[], &[]);
        [(full, "64 deletions and 64 additions"), (nothing, "nothing else")].map(
            |(case, beside)| {
                let mut slots = staying(&tree, &case);
                slots.retain(|slot| picked(&tree, *slot));
                let paths = spread(&slots).map(|slot| tree.full_name(slot)).collect();
                Editable { what: format!("{name}, beside {beside}"), case, paths, bytes: 0 }
            },
        )
    };
    // whose columns are primitives
    let bad = [far_down(), by_short_names()];
    SCHEMAS.iter().flat_map(of_schema).chain(bad)
}

/// The slots of members that an update leaves, but for the identifier, which is the first.
fn staying(tree: &Tree, case: &Case) -> Vec<usize> {
    let call = case.update_call().expect("an update");
    let dropped = judge::read_paths(call.deletions, call.request_pool, judge::DELETIONS);
    let dropped = dropped.expect("it is accepted");
    // a primitive is dropped, so nothing goes with it
    let stays =
        |slot: &usize| member(tree, *slot) && !dropped.contains(&Some(tree.full_name(*slot)));
    (1..tree.rows.len()).filter(stays).collect()
}

/// 64 of them, from all over, or as many as there are.
fn spread(slots: &[usize]) -> impl Iterator<Item = usize> {
    let count = slots.len().min(MOST_EDITS);
    (0..count).map(move |n| slots[n * slots.len() / count])
}

/// Edits of 64 columns at level 16, by paths as long as a pool holds of them.
fn far_down() -> Editable {
    let (bytes, new) = (29, 33);
    let long = |name: String| format!("{name}{}", "x".repeat(bytes - name.len()));
    let leaf = |at: usize| prim(0, &long(format!("leaf_{at}")));
    let chain = |at: usize| {
        // the first chain has two of them
        let leaves = if at == 0 { vec![leaf(0), leaf(1)] } else { vec![leaf(0)] };
        let inner = |inside, _| vec![strukt(0, &long("inner".into()), inside)];
        strukt(0, &long(format!("chain_{at}")), (2..LEVELS).fold(leaves, inner))
    };
    let mut roots: Vec<Node> = (0..MOST_EDITS - 1).map(chain).collect();
    let left = MOST_RECORDS - Tree::of(&roots).rows.len();
    roots.extend((0..left).map(|n| prim(0, &format!("floor_{n}"))));
    let base = numbered(required(roots));
    let tree = Tree::of(&base);
    let deep = (0..MOST_RECORDS).filter(|slot| tree.rows[*slot].level == LEVELS);
    let paths = deep.map(|slot| tree.full_name(slot)).collect();
    let case = update_of(&base, &[], MOST_RECORDS as i32, &[], &[]);
    Editable { what: "level 16, paths of 479 bytes".into(), case, paths, bytes: new }
}

/// Edits of columns that are found by their short names alone, for each of which all full names are
/// asked first, and then all short ones up to it.
fn by_short_names() -> Editable {
    let base = required(schema("tables", MOST_RECORDS));
    let tree = Tree::of(&base);
    let short =
        |slot: &usize| member(&tree, *slot) && tree.short_name(*slot) != tree.full_name(*slot);
    let slots: Vec<usize> = (0..MOST_RECORDS).filter(short).collect();
    let last = &slots[slots.len() - MOST_EDITS..];
    let paths = last.iter().map(|slot| tree.short_name(*slot)).collect();
    let case = update_of(&base, &[1], MOST_RECORDS as i32, &[], &[]);
    Editable { what: "tables, by the last short names".into(), case, paths, bytes: 0 }
}
