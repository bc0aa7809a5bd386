//! Trees that are built to be bad for the look-up that forgets case. It walks over the records, and
//! compares a record's own name where the names above it match and what is asked ends behind it or,
//! if the record has members, goes on with a dot. So here names fold alike, or nearly so, and most
//! stand before a dot.

use cases::{Ask, ask_of, list_of, packed, prim, strukt};
use judge::{LEVELS, MOST_RECORDS, Node, Tree};

use crate::rows::{Row, row};
use crate::schemas::numbered;

/// The n-th of the names of so many letters that differ in case alone.
fn cased(n: usize, letters: usize, between: &str) -> String {
    let letter = |at: usize| if at < 10 && n >> at & 1 == 1 { "X" } else { "x" };
    (0..letters).map(letter).collect::<Vec<&str>>().join(between)
}

/// The n-th of the names of so many bytes that differ in a number alone, before their last byte:
/// names are compared from there, then whole.
fn counted(n: usize, bytes: usize) -> String {
    format!("{}{n:03}x", cased(0, bytes - 4, ""))
}

/// Bytes are compared sixteen at a step, and those that are left one by one: names of this length
/// take longest.
const LONG: usize = 31;
/// All of them one by one: the worst beside the exact look-up.
const SHORT: usize = 15;

/// Roots that each fold to a front of the last one's name, up to a dot in it.
fn fronts() -> Vec<Node> {
    let front = |n| prim(0, &cased(n, LONG.div_ceil(2), "."));
    let longest = prim(0, &cased(0, 128, "."));
    numbered((1..MOST_RECORDS).map(front).chain([longest]).collect())
}

/// Chains of all levels. Their roots differ in case, the names below not at all, the last ones in
/// a number.
fn chains(bytes: usize) -> Vec<Node> {
    let inner = |inside, _| strukt(0, &cased(0, bytes, ""), vec![inside]);
    let chain = |n| {
        let below = (2..LEVELS).fold(prim(0, &counted(n, bytes)), inner);
        strukt(0, &cased(n, bytes, ""), vec![below])
    };
    numbered((0..MOST_RECORDS / LEVELS).map(chain).collect())
}

/// Lists that differ in case, of structs whose members differ in a number.
fn lists() -> Vec<Node> {
    let list = |n| {
        let members = (0..30).map(|m| prim(0, &counted(30 * n + m, LONG))).collect();
        list_of(0, &cased(n, LONG, ""), strukt(0, "element", members))
    };
    numbered((0..32).map(list).collect())
}

/// The worst cases that are known: the exact look-up, and the same asked in another case.
pub fn worst_folded() -> [[Row; 2]; 5] {
    let full = |tree: &Tree| tree.full_name(tree.rows.len() - 1);
    let short = |tree: &Tree| tree.short_name(tree.rows.len() - 1);
    // in the place of a digit: all is compared, and nothing is found
    let wrong = |tree: &Tree| {
        let mut name = full(tree);
        let digit = name.len() - 2;
        name[digit] = b'?';
        name
    };
    [
        pair("1,024 roots, each a front of the last", &fronts(), full),
        pair("64 chains of 16 levels", &chains(LONG), full),
        pair("64 chains of 16 levels, nothing found", &chains(LONG), wrong),
        pair("64 chains of shorter names, nothing found", &chains(SHORT), wrong),
        pair("32 lists, a short name", &lists(), short),
    ]
}

fn pair(what: &'static str, base: &[Node], name: impl Fn(&Tree) -> Vec<u8>) -> [Row; 2] {
    let name = name(&Tree::of(base));
    let folded = Ask::Folded(name.to_ascii_uppercase());
    [(what, Ask::Name(name)), ("the same, case forgotten", folded)]
        .map(|(what, ask)| row(what, ask_of(packed(base), ask)))
}
