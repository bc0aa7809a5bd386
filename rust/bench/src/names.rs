//! Trees that are built to be bad for the index of full names. Names of one hash make long chains;
//! where these are given up names are sorted by their bytes from the end. So the worst ones end
//! alike, go through many records, and are cut into own names at unequal places.

use cases::{Ask, Case, ask_of, list_of, packed, prim, strukt, update_of};
use judge::{LEVELS, MOST_ADDITIONS, MOST_RECORDS, Node, STRUCT, Tree};

use crate::asked::{asked, astray, nowhere};
use crate::hashes::{WORDS, names_of_one_chain, word};
use crate::rows::{Beside, Row, row};
use crate::schemas::{numbered, schema};

/// The levels of a chain of structs, which leave one for leaves.
const DEEP: usize = LEVELS - 1;

/// A tree, and what it is.
pub type Bad = (&'static str, Vec<Node>);

/// A word made longer, to so many bytes.
fn long(word: &str, bytes: usize) -> String {
    format!("{word}{}", "x".repeat(bytes - word.len()))
}

/// A tree of these root names.
fn roots(names: impl IntoIterator<Item = String>) -> Vec<Node> {
    numbered(names.into_iter().map(|name| prim(0, &name)).collect())
}

/// Words in falling order: each stands before all earlier ones by its bytes from the end.
fn falling() -> Vec<String> {
    let mut words = WORDS.to_vec();
    words.sort_by_cached_key(|word| word.bytes().rev().collect::<Vec<u8>>());
    words.reverse();
    words
}

/// So many records: chains of structs of these own names, from the root down, under each the same
/// leaves, as many as there may be, and of others none: there the last own name is a leaf's. Short
/// root names fill the rest.
fn chains(records: usize, of: &[Vec<String>], leaf: Option<&dyn Fn(usize) -> String>) -> Vec<Node> {
    let leaves = records / of.len() - of[0].len();
    let chain = |names: &Vec<String>| {
        let (last, above) = names.split_last().expect("a chain has names");
        let last = leaf.map_or(prim(0, last), |leaf| {
            strukt(0, last, (0..leaves).map(|n| prim(0, &leaf(n))).collect())
        });
        above.iter().rev().fold(last, |inside, name| strukt(0, name, vec![inside]))
    };
    let mut roots: Vec<Node> = of.iter().map(chain).collect();
    let left = records - Tree::of(&roots).rows.len();
    roots.extend((0..left).map(|n| prim(0, &word(n, 2))));
    numbered(roots)
}

/// Chains of structs of these own names, and below each the same structs with one leaf in each: so
/// no two leaves have one record above them.
fn apart(records: usize, of: &[Vec<String>]) -> Vec<Node> {
    let structs = (records / of.len() - of[0].len()) / 2;
    let mut roots = chains(records, of, Some(&|n| word(n, 2)));
    for root in &mut roots {
        let mut last = root;
        while last.inside.len() == 1 {
            last = &mut last.inside[0];
        }
        last.inside.truncate(structs);
        for node in &mut last.inside {
            *node = Node { kind: STRUCT, inside: vec![prim(0, "x")], ..node.clone() };
        }
    }
    numbered(roots)
}

/// So many chains of as many levels as there may be, and before them roots that have such full
/// names in one piece, of each level from the third on. What is remembered is of a slot, and each
/// of these roots has but one: so chains are compared with them all the way up.
fn whole(records: usize, count: usize) -> Vec<Node> {
    let of = even(&WORDS, LEVELS, 8);
    let (chained, others) = of.split_at(count);
    let pieces =
        others.iter().flat_map(|names| (3..=LEVELS).map(|levels| names[..levels].join(".")));
    let whole = roots(pieces.take(records - count * LEVELS));
    numbered([whole, chains(count * LEVELS, chained, None)].concat())
}

/// The own names of chains whose full names differ in the first word alone; each has so many bytes.
fn even(words: &[String], levels: usize, bytes: usize) -> Vec<Vec<String>> {
    let names = |word: &String| {
        let below = (1..levels).map(|_| long("", bytes));
        [long(word, bytes)].into_iter().chain(below).collect()
    };
    words.iter().map(names).collect()
}

/// The same of pieces with dots between them, which are cut into own names in so many ways, no two
/// of them at one place. One of so many pieces is long, the others are short. Where two such names
/// are compared, own names begin in one of them or in the other at nearly thirty places.
fn uneven(words: &[String], ways: usize, [one, others]: [usize; 2]) -> Vec<Vec<String>> {
    let piece = |n: usize| long("", if n.is_multiple_of(ways) { one } else { others });
    let names = |(n, word): (usize, &String)| {
        let mut pieces: Vec<String> = (0..=(DEEP - 1) * ways).map(piece).collect();
        pieces[0] = long(word, one.max(word.len()));
        let (root, below) = pieces.split_at(1 + n % ways);
        [root].into_iter().chain(below.chunks(ways)).map(|own| own.join(".")).collect()
    };
    words.iter().enumerate().map(names).collect()
}

/// Trees of root names alone.
pub fn bad_roots() -> Vec<Bad> {
    let front = |word: &String| long(word, 32);
    let end = |word: &String| format!("{}{word}", "x".repeat(24));
    let one_chain = names_of_one_chain(MOST_RECORDS, |word| long(word, 32));
    vec![
        ("1,024 root names of one hash", roots(WORDS.iter().map(end))),
        ("the same, different at the front", roots(WORDS.iter().map(front))),
        ("the same, each before all earlier ones", roots(falling().iter().map(front))),
        ("1,024 root names of one chain, 64 tags", roots(one_chain)),
    ]
}

/// Trees of structs, of so many records. The first three are not updated.
pub fn bad_structs(records: usize) -> Vec<Bad> {
    let evenly = |count: usize, bytes: usize| even(&WORDS[..count], DEEP, bytes);
    let higher = |count: usize, bytes: usize| even(&WORDS[..count], DEEP - 1, bytes);
    let unevenly =
        |count: usize, ways: usize, bytes: [usize; 2]| uneven(&WORDS[..count], ways, bytes);
    let named = |of: Vec<Vec<String>>, bytes: usize| {
        chains(records, &of, Some(&|n| long(&WORDS[n], bytes)))
    };
    let short = |of: Vec<Vec<String>>| chains(records, &of, Some(&|n| word(n, 2)));
    vec![
        ("2 chains of names of 255 bytes", named(evenly(2, 255), 25)),
        ("4 chains of names of 250 bytes", named(evenly(4, 250), 16)),
        ("16 chains of names of 125 bytes", short(evenly(16, 125))),
        ("8 chains of names of 255 bytes", short(evenly(8, 255))),
        ("32 chains of names of 15 bytes", named(evenly(32, 15), 15)),
        ("32 structs, names of 32 bytes in them", named(even(&WORDS[..32], 1, 8), 32)),
        ("8 chains of long names, cut in 8 ways", short(unevenly(8, 8, [241, 1]))),
        ("8 chains of long names, a struct a leaf", apart(records, &higher(8, 255))),
        ("32 chains of short names, a struct a leaf", apart(records, &higher(32, 15))),
        ("24 chains of short names, cut in 3 ways", named(unevenly(24, 3, [15; 2]), 15)),
        ("64 chains of 15 levels, one leaf each", chains(records, &evenly(64, 31), None)),
        ("50 chains behind roots of whole full names", whole(records, 50)),
        // so few names of one hash that the chains of the index are not given up
        (
            "14 chains cut in 14 ways, one leaf each",
            chains(records, &unevenly(14, 14, [10; 2]), None),
        ),
    ]
}

/// Lists of structs of structs, so that members have short names; each list and each member has the
/// name of its number.
fn lists(name: impl Fn(usize) -> String) -> Vec<Node> {
    let list = |n| {
        let members = (0..27).map(|m| prim(0, &name(m))).collect();
        list_of(0, &name(n), strukt(0, "element", vec![strukt(0, "inner", members)]))
    };
    numbered((0..32).map(list).collect())
}

/// A list far down whose members are found by short names, with nothing but fronts of that name
/// before it: the walk over short names compares all of them.
fn fronts() -> Vec<Node> {
    let (pieces, levels, members) = (47, 13, 300);
    let name = |pieces: usize| vec!["x"; pieces].join(".");
    let members = (0..members).map(|n| prim(0, &word(n, 2))).collect();
    let list = list_of(0, &name(pieces), strukt(0, "element", vec![strukt(0, "inner", members)]));
    let row = |last| (1..pieces).map(|n| prim(0, &name(n))).chain([last]).collect::<Vec<Node>>();
    numbered((1..levels).fold(row(list), |inside, _| row(strukt(0, &name(pieces), inside))))
}

/// The worst cases that are known for names, each with the operation that is timed, behind the same
/// operation on an ordinary tree.
pub fn worst_names() -> Vec<Beside> {
    // with room for what is added
    let fewer = MOST_RECORDS - MOST_ADDITIONS;
    let visits = ("names as they are given", lists(|n| format!("visits_{n}")));
    let by_walk = [
        ("names of one hash", lists(|n| long(&WORDS[n], 31))),
        ("fronts of what is asked before it", fronts()),
    ];
    let [flat, levels] = ["flat", "levels"].map(|name| (name, schema(name, MOST_RECORDS)));
    let (structs, smaller) = (bad_structs(MOST_RECORDS), bad_structs(fewer));
    let [updated, smaller] = [&structs[3..], &smaller[3..]];
    let small_levels = ("levels", schema("levels", fewer));
    let look_up = |base: &[Node]| ask_of(packed(base), Ask::Id(1));
    let by_full = |base: &[Node]| asked(base, Tree::full_name);
    let by_short = |base: &[Node]| asked(base, Tree::short_name);
    let refused = |refusal, all: Beside| {
        let row = |row| Row { refusal, ..row };
        Beside { rows: all.rows.into_iter().map(row).collect(), ..all }
    };
    vec![
        beside("look-up by id, of roots", &flat, &bad_roots(), look_up),
        beside("look-up by id, of structs", &levels, &structs, look_up),
        beside("update, 1 deletion and 1 addition", &levels, updated, one_of_each),
        beside("update, 64 of each, by full names", &small_levels, smaller, by_full),
        beside("update of lists, 64 of each, by short names", &visits, &by_walk, by_short),
        refused(11, beside("64 deletions, the last refused (11)", &levels, updated, astray)),
        refused(15, beside("64 additions, the last refused (15)", &levels, updated, nowhere)),
    ]
}

/// A deletion of the last record by its full name, and an addition.
fn one_of_each(base: &[Node]) -> Case {
    let last = Tree::of(base).full_name(MOST_RECORDS - 1);
    let gone = str::from_utf8(&last).expect("letters");
    update_of(base, &[], MOST_RECORDS as i32, &[gone], &[(None, prim(0, "fresh"))])
}

/// An operation on an ordinary tree, and on bad ones.
fn beside(of: &str, ordinary: &Bad, bad: &[Bad], case: impl Fn(&[Node]) -> Case) -> Beside {
    let rows = [ordinary].into_iter().chain(bad).map(|(what, base)| row(what, case(base)));
    Beside { of: of.into(), rows: rows.collect() }
}
