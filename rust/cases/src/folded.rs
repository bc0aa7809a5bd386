//! Cases of the look-up that forgets case: names that differ in case alone, beside each other,
//! across dots and as short names, and questions after them.

use std::collections::{BTreeMap, BTreeSet};

use judge::{LIST, MAP, MOST_RECORDS, Node, POOL_BYTES, STRUCT, Tree};

use crate::build::{ask_of, list_of, prim, strukt};
use crate::case::{Ask, Case};
use crate::random::Random;
use crate::trees::{Shape, each, finished, grown, lay, name};

/// Records that are called like others, beside those that a tree has by its shape.
const MORE: usize = 3;

/// Names at the ends of the letters and beside them, and letters that are none of the 26.
const EDGES: &[&[u8]] = &[
    b"A",
    b"Z",
    b"a",
    b"z",
    b"AZaz",
    b"@",
    b"[",
    b"`",
    b"{",
    b"@AZ[",
    b"`az{",
    "\u{c9}".as_bytes(),
    "\u{e9}".as_bytes(),
    b"k",
    "\u{212a}".as_bytes(), // the crate's lower case of it is k
];

/// A look-up that forgets case.
pub fn folded(random: &mut Random, shape: Shape) -> Case {
    let within = Shape { records: shape.records.min(MOST_RECORDS - MORE), ..shape };
    let mut roots = grown(random, within);
    crowd(random, &mut roots);
    let roots = finished(random, shape, roots);
    let base = lay(random, &roots);
    let asked = asked(random, &Tree::of(&roots), shape.records > 5);
    ask_of(base, Ask::Folded(asked))
}

/// Gives members names that are alike but for case, or at the edges of the letters.
fn crowd(random: &mut Random, roots: &mut Vec<Node>) {
    if random.chance(1, 16) {
        roots.push(without_letters(random));
    }
    let edges = random.chance(1, 3);
    let mut more = MORE;
    let mut members = |siblings: &mut Vec<Node>| {
        for node in siblings.iter_mut() {
            if edges && random.chance(1, 3) {
                node.name = random.pick(EDGES).to_vec();
            }
        }
        if !siblings.is_empty() && random.chance(1, 2) {
            put_alike(random, siblings, &mut more);
        }
    };
    members(roots);
    each(roots, &mut |node| {
        if node.kind == STRUCT {
            members(&mut node.inside);
        }
    });
}

/// Two columns whose short names are equal and have no letter.
fn without_letters(random: &mut Random) -> Node {
    let inner = list_of(0, "2", strukt(0, "element", vec![prim(0, "3")]));
    let mut members = vec![inner, prim(0, "2.3")];
    if random.chance(1, 2) {
        members.reverse();
    }
    list_of(0, "1", strukt(0, "element", members))
}

/// One of the siblings, or one more, is called like another or like what stands inside it, but
/// for case.
fn put_alike(random: &mut Random, siblings: &mut Vec<Node>, more: &mut usize) {
    let like = random.below(siblings.len());
    let path = path_within(random, &siblings[like]);
    let path = turned(random, path);
    if path.len() > 255 {
        return;
    }
    let at = random.below(siblings.len());
    if *more > 0 && (at == like || random.chance(1, 2)) {
        *more -= 1;
        siblings.insert(at, prim(0, ""));
    }
    siblings[at].name = path;
}

/// The name of a record, or that name and a path on from there, as a full or a short name has it.
fn path_within(random: &mut Random, node: &Node) -> Vec<u8> {
    let mut path = node.name.clone();
    let mut at = node;
    while !at.inside.is_empty() && random.chance(1, 2) {
        let which = random.below(at.inside.len());
        let below = &at.inside[which];
        let value = at.kind == LIST || at.kind == MAP && which == 1;
        let left_out = value && below.kind == STRUCT && !below.inside.is_empty();
        at = below;
        if left_out && random.chance(2, 3) {
            at = random.pick(&below.inside);
        }
        path = [&path[..], b".", &at.name].concat();
    }
    path
}

/// The name with some of its letters in the other case, one at least if it has any.
fn turned(random: &mut Random, mut name: Vec<u8>) -> Vec<u8> {
    let letters: Vec<usize> =
        (0..name.len()).filter(|at| name[*at].is_ascii_alphabetic()).collect();
    if letters.is_empty() {
        return name;
    }
    let sure = *random.pick(&letters);
    for at in letters {
        if at == sure || random.chance(1, 2) {
            name[at] ^= 32;
        }
    }
    name
}

/// The full and short names that two columns have where case is forgotten.
fn crowded(tree: &Tree) -> Vec<Vec<u8>> {
    if tree.rows.len() > 100 {
        return vec![];
    }
    let slots = 0..tree.rows.len();
    let names: Vec<(Vec<u8>, usize)> = slots
        .flat_map(|slot| [(tree.full_name(slot), slot), (tree.short_name(slot), slot)])
        .collect();
    let mut called: BTreeMap<Vec<u8>, BTreeSet<usize>> = BTreeMap::new();
    for (name, slot) in &names {
        called.entry(name.to_ascii_lowercase()).or_default().insert(*slot);
    }
    let twice = |name: &[u8]| called[&name.to_ascii_lowercase()].len() > 1;
    names.into_iter().map(|(name, _)| name).filter(|name| twice(name)).collect()
}

/// A name to look up: one of the tree's in any case, or a near miss; now and then a long one.
fn asked(random: &mut Random, tree: &Tree, long: bool) -> Vec<u8> {
    if tree.rows.is_empty() {
        return name(random);
    }
    let crowded = crowded(tree);
    let all: Vec<usize> = (0..tree.rows.len()).collect();
    let shortened = |slot: &usize| tree.short_name(*slot) != tree.full_name(*slot);
    let shortened: Vec<usize> = all.iter().copied().filter(shortened).collect();
    let path = match random.below(5) {
        0 | 1 if !crowded.is_empty() => random.pick(&crowded).clone(),
        2 | 3 if !shortened.is_empty() => tree.short_name(*random.pick(&shortened)),
        _ => tree.full_name(*random.pick(&all)),
    };
    let path = match random.below(6) {
        0 => path,
        1 => path.to_ascii_lowercase(),
        2 => path.to_ascii_uppercase(),
        _ => turned(random, path),
    };
    near(random, path, long)
}

/// The name, or one that is nearly it.
fn near(random: &mut Random, mut path: Vec<u8>, long: bool) -> Vec<u8> {
    match random.below(30) {
        0 => path = [path, b".".to_vec(), name(random)].concat(),
        1 => path = name(random),
        // the last character whole, so that the path stays UTF-8
        2 => while path.pop().is_some_and(|byte| byte & 0xC0 == 0x80) {},
        3 => path = vec![],
        // letters of all languages, which only the crate folds
        4 | 5 => {
            let upper = random.chance(1, 2);
            if let Ok(text) = str::from_utf8(&path) {
                path = if upper { text.to_uppercase() } else { text.to_lowercase() }.into_bytes();
            }
        }
        // the bit that tells a from A, in a byte that is no letter if there is one
        6 | 7 if !path.is_empty() => {
            let other = |at: &usize| !path[*at].is_ascii_alphabetic() && path[*at] != b'.';
            let others: Vec<usize> = (0..path.len()).filter(other).collect();
            let at =
                if others.is_empty() { random.below(path.len()) } else { *random.pick(&others) };
            path[at] ^= 32;
        }
        8 if long && random.chance(1, 4) => path.resize(POOL_BYTES + 1 + random.below(9), b'A'),
        _ => {}
    }
    path
}
