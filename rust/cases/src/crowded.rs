//! Cases whose full names crowd their chains: names are made of words of one hash, so that the port
//! spends its budget and sorts them. Random names never do.

use judge::{
    Change, Edit, LEVELS, LIST, MAP, MOST_ADDITIONS, MOST_DELETIONS, MOST_RECORDS, Node, PRIMITIVE,
    Tree,
};

use crate::build::{
    Addition, ask_of, edited, ids_by, list_of, map_of, prim, prune_by, renumber_by, request,
    strukt, update_by,
};
use crate::case::{Ask, Case};
use crate::edits::with_edits;
use crate::generate::last_id;
use crate::hash::WORDS;
use crate::random::Random;
use crate::trees::{each, give_ids, held, identifiers, lay, parents, size};

fn text(name: &[u8]) -> &str {
    str::from_utf8(name).expect("letters")
}

/// How the names of a tree are made.
struct Names {
    /// Roots alone; chains of structs with the same leaves; words cut anywhere; or each of these.
    style: usize,
    /// So many roots that have an inside.
    roots: usize,
    /// The structs between such a root and its leaves.
    between: Vec<Vec<u8>>,
    /// What stands before or behind the words of a leaf.
    filler: Vec<u8>,
    before: bool,
    /// Are there lists and maps?
    nested: bool,
}

impl Names {
    fn of(random: &mut Random, most: usize) -> Names {
        let filler = *random.pick(if most > 250 { &[0, 0, 1, 8] } else { &[0, 1, 16, 40] });
        let between = vec![b'x'; *random.pick(&[0, 1, 8, 60])];
        let nested = random.chance(1, 2);
        // lists and maps need levels too
        let levels = if nested { LEVELS / 2 } else { LEVELS };
        Names {
            style: random.below(4),
            roots: 2 + random.below(7),
            between: vec![between; random.below(levels - 2)],
            filler: vec![b'x'; filler],
            before: random.chance(1, 2),
            nested,
        }
    }

    /// The own name of a leaf: two words, and the filler.
    fn leaf(&self, random: &mut Random) -> Vec<u8> {
        let words = [random.pick(&WORDS).clone(), random.pick(&WORDS).clone()].concat();
        match self.before {
            true => [self.filler.clone(), words].concat(),
            false => [words, self.filler.clone()].concat(),
        }
    }

    /// The own names from a root to a leaf. What starts with one word is cut at the same places,
    /// so that names differ wherever their words do.
    fn path(&self, random: &mut Random) -> Vec<Vec<u8>> {
        let root = random.below(self.roots);
        match if self.style < 3 { self.style } else { random.below(3) } {
            0 => vec![self.leaf(random)],
            1 => {
                let first = [&WORDS[root][..], &WORDS[63]].concat();
                [vec![first], self.between.clone(), vec![self.leaf(random)]].concat()
            }
            _ => {
                let mut path = vec![WORDS[root].clone()];
                for at in 0..3 {
                    let word = match at {
                        2 => self.leaf(random),
                        _ => random.pick(&WORDS[..4]).clone(),
                    };
                    match root >> at & 1 {
                        0 => path.push(word),
                        _ => path.last_mut().expect("a root").extend([b".", &word[..]].concat()),
                    }
                }
                path
            }
        }
    }
}

/// What a record that is not the last of its path is.
fn above(random: &mut Random, name: &str, nested: bool) -> Node {
    match random.below(if nested { 8 } else { 1 }) {
        6 => list_of(0, name, strukt(0, "element", vec![])),
        7 => map_of(0, name, prim(0, "key"), strukt(0, "value", vec![])),
        _ => strukt(0, name, vec![]),
    }
}

/// The members of a struct, or of the struct that is a list's element or a map's value.
fn members(node: &mut Node) -> &mut Vec<Node> {
    match node.kind {
        LIST => &mut node.inside[0].inside,
        MAP => &mut node.inside[1].inside,
        _ => &mut node.inside,
    }
}

/// Puts a path into a tree; what is there of it stays.
fn plant(random: &mut Random, siblings: &mut Vec<Node>, path: &[Vec<u8>], nested: bool) {
    let Some((name, rest)) = path.split_first() else { return };
    let at = siblings.iter().position(|node| node.name == *name).unwrap_or_else(|| {
        let node = match rest {
            [] => prim(0, text(name)),
            _ => above(random, text(name), nested),
        };
        let at = random.below(siblings.len() + 1);
        siblings.insert(at, node);
        at
    });
    if siblings[at].kind != PRIMITIVE {
        plant(random, members(&mut siblings[at]), rest, nested);
    }
}

/// A tree without ids, and how its names are made.
fn grown(random: &mut Random, operation: &str) -> (Vec<Node>, Names) {
    let most = match random.below(48) {
        // what is added may be the most
        _ if operation == "update" && random.chance(1, 6) => 10 + random.below(16),
        0 => MOST_RECORDS - random.below(100),
        1 => 500,
        2..6 => 250,
        6..14 => 10 + random.below(16),
        _ => 60 + random.below(60),
    };
    let names = Names::of(random, most);
    let mut roots = vec![];
    for _ in 0..2 * most {
        let path = names.path(random);
        // a path may need so many
        if roots.iter().map(size).sum::<usize>() + path.len() + 16 > most.max(40) {
            break;
        }
        plant(random, &mut roots, &path, names.nested);
    }
    if random.chance(1, 6) {
        roots.insert(random.below(roots.len() + 1), prim(0, ""));
    }
    if random.chance(1, 6) {
        (0..1 + random.below(3)).for_each(|_| repeat(random, &mut roots));
    }
    (roots, names)
}

/// One more record whose full name another one has: beside it, or as a root, cut otherwise.
fn repeat(random: &mut Random, roots: &mut Vec<Node>) {
    let tree = Tree::of(roots);
    let slot = random.below(tree.rows.len());
    let (row, full) = (&tree.rows[slot], tree.full_name(slot));
    let mut put = |siblings: &mut Vec<Node>, name: &[u8]| {
        let last = random.chance(1, 3);
        let at = if last { siblings.len() } else { random.below(siblings.len() + 1) };
        siblings.insert(at, prim(0, text(name)));
    };
    match row.parent {
        Some(above) if slot.is_multiple_of(2) && !held(&tree, slot) => {
            let mut at = 0;
            each(roots, &mut |node| {
                if at == above {
                    put(&mut node.inside, &row.name);
                }
                at += 1;
            });
        }
        _ if full.len() < 256 => put(roots, &full),
        _ => {}
    }
}

/// The name of some record, often of the first or the last; or one that is nearly it.
fn asked(random: &mut Random, tree: &Tree, names: &Names) -> Vec<u8> {
    let last = tree.rows.len() - 1;
    let slot = [0, last, random.below(last + 1)][random.below(3)];
    let mut name = tree.full_name(slot);
    if random.chance(1, 4) {
        let others = (0..last + 1).map(|slot| tree.short_name(slot));
        let other = |(slot, short): &(usize, Vec<u8>)| tree.full_name(*slot) != *short;
        let others: Vec<(usize, Vec<u8>)> = others.enumerate().filter(other).collect();
        if !others.is_empty() {
            name = random.pick(&others).1.clone();
        }
    }
    let at = random.below(name.len().max(1));
    match random.below(20) {
        0 if !name.is_empty() => name[at] ^= 1,
        1 if !name.is_empty() => name[0] ^= 1,
        2 => name.push(b'x'),
        3 => name.insert(0, b'x'),
        4 => _ = name.pop(),
        5 if !name.is_empty() => name[at] = b'.',
        6 => {
            if let Some(dot) = name.iter().position(|byte| *byte == b'.') {
                name[dot] = b'x';
            }
        }
        7 => name = names.path(random).join(&b'.'),
        8 => name = vec![],
        _ => {}
    }
    name
}

/// A case of an operation.
pub fn crowded(random: &mut Random, operation: &str) -> Case {
    let (mut roots, names) = grown(random, operation);
    if operation == "update" {
        return update(random, roots, &names);
    }
    give_ids(random, &mut roots);
    let ids = if operation == "renumber" { identifiers(random, &mut roots) } else { vec![] };
    let laid = lay(random, &roots);
    let tree = Tree::of(&roots);
    let some: Vec<i32> = tree.rows.iter().map(|row| row.id).collect();
    let some: Vec<i32> = some.into_iter().filter(|_| random.chance(1, 4)).collect();
    let id = random.pick(&tree.rows).id;
    match operation {
        "prune" => prune_by(laid, &some, random.chance(1, 3)),
        "renumber" => renumber_by(laid, &ids, *random.pick(&[1, 0, -1, 1_000])),
        "name" => ask_of(laid, Ask::Name(asked(random, &tree, &names))),
        "folded" => ask_of(laid, Ask::Folded(asked(random, &tree, &names))),
        "id" => ask_of(laid, Ask::Id(id)),
        "ids" => ids_by(laid, &some),
        "parent" => ask_of(laid, Ask::Parent(id)),
        _ => ask_of(laid, Ask::List),
    }
}

/// A column to add, and a root more whose full name it will have, cut otherwise.
fn meeting(random: &mut Random, roots: &mut Vec<Node>, names: &Names) -> Option<Addition> {
    let tree = Tree::of(roots);
    let fit = parents(&tree);
    if fit.is_empty() {
        return None;
    }
    let path = tree.full_name(*random.pick(&fit));
    let name = names.leaf(random);
    let taken = [&path[..], &name].join(&b'.');
    if taken.len() > 255 {
        return None;
    }
    roots.insert(random.below(roots.len() + 1), prim(0, text(&taken)));
    Some(Addition { path: Some(path), column: prim(0, text(&name)) })
}

fn update(random: &mut Random, mut roots: Vec<Node>, names: &Names) -> Case {
    let mut added = vec![];
    if random.chance(1, 6) {
        added.extend(meeting(random, &mut roots, names));
    }
    give_ids(random, &mut roots);
    let ids = identifiers(random, &mut roots);
    let tree = Tree::of(&roots);
    let mut dropped = vec![];
    for _ in 0..*random.pick(&[0, 0, 1, 2, 8, MOST_DELETIONS]) {
        let slot = random.below(tree.rows.len());
        let path = match random.below(200) {
            0 => asked(random, &tree, names),
            _ => tree.full_name(slot),
        };
        if !ids.contains(&tree.rows[slot].id) {
            dropped.push(path);
        }
    }
    let fit = parents(&tree);
    for _ in 0..*random.pick(&[0, 1, 2, 8, MOST_ADDITIONS - 1]) {
        let mut column = prim(0, text(&names.leaf(random)));
        if random.chance(1, 40) {
            // one that may be there, or may have gone
            column.name = random.pick(&tree.rows).name.clone();
        }
        let path = match random.chance(1, 2) && !fit.is_empty() {
            true => Some(tree.full_name(*random.pick(&fit))),
            false => None,
        };
        added.push(Addition { path, column });
    }
    let last_id = last_id(random, &tree, added.len());
    let laid = lay(random, &roots);
    let case = update_by(laid, &ids, last_id, request(&dropped, &added));
    let case = edited(case, &renames(random, &tree, names));
    if random.chance(1, 8) { with_edits(random, case, 2, false) } else { case }
}

/// Renames of members, mostly to names that no other has.
fn renames(random: &mut Random, tree: &Tree, names: &Names) -> Vec<Edit> {
    let mut edits = vec![];
    for _ in 0..*random.pick(&[0, 0, 0, 1, 2, 16]) {
        let slot = random.below(tree.rows.len());
        let name = match random.below(20) {
            0 => random.pick(&tree.rows).name.clone(),
            _ => names.leaf(random),
        };
        if !held(tree, slot) {
            edits.push(Edit { path: tree.full_name(slot), change: Change::Rename(name) });
        }
    }
    edits
}
