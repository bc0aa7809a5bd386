//! Random trees.

use std::collections::HashSet;

use judge::{DEFAULT, LEVELS, LIST, MAP, Node, PRIMITIVE, REQUIRED, STRUCT, Tree};

use crate::build::{at_the_end, laid_out, list_of, map_of, prim, strukt};
use crate::random::Random;

/// Names that meet each other in many ways.
const NAMES: &[&str] = &[
    "a",
    "a",
    "b",
    "b",
    "c",
    "d",
    "A",
    "",
    "element",
    "key",
    "value",
    "element",
    "key",
    "value",
    "a.b",
    "b.a",
    "a.",
    ".a",
    ".",
    "..",
    "element.a",
    "value.b",
    "key.a",
    "a.element",
    "a.key",
    "b.value",
    "node",
    "cost",
    "x y",
    "é",
    "\n",
];

/// A name; one in two hundred has 255 bytes.
pub fn name(random: &mut Random) -> Vec<u8> {
    match random.below(200) {
        0 => vec![b'a' + random.below(3) as u8; 255],
        _ => random.pick(NAMES).as_bytes().to_vec(),
    }
}

/// What a random tree looks like.
#[derive(Clone, Copy, Debug)]
pub struct Shape {
    /// Most records.
    pub records: usize,
    /// Most levels.
    pub levels: usize,
    /// Are ids and full names to differ?
    pub distinct: bool,
}

/// A random tree.
pub fn tree(random: &mut Random, shape: Shape) -> Vec<Node> {
    let roots = grown(random, shape);
    finished(random, shape, roots)
}

/// A tree of these names, with ids; where ids and full names are to differ they do.
pub fn finished(random: &mut Random, shape: Shape, mut roots: Vec<Node>) -> Vec<Node> {
    give_ids(random, &mut roots);
    if shape.distinct || random.chance(1, 2) {
        part_names(&mut roots);
    }
    if !shape.distinct && random.chance(2, 3) {
        repeat_an_id(random, &mut roots);
    }
    if random.chance(1, 25) {
        break_utf8(random, &mut roots);
    }
    roots
}

/// The records of a random tree, without ids; full names may stand twice.
pub fn grown(random: &mut Random, shape: Shape) -> Vec<Node> {
    let mut left = match random.below(20) {
        0 => random.below(3),
        1 => shape.records,
        _ if shape.records > 900 => 901 + random.below(shape.records - 900),
        _ => 1 + random.below(shape.records),
    };
    let mut roots = vec![];
    // small trees have them less often, since they need six records
    let out_of = if shape.records < 10 { 8 } else { 2 };
    if random.chance(1, out_of) && shape.levels >= 6 {
        roots.push(twins(random));
    } else if random.chance(1, 6) && shape.records >= 2 * LEVELS {
        let levels = 1 + random.below(shape.levels);
        roots.push(chain(random, levels));
    }
    left = left.saturating_sub(roots.iter().map(size).sum());
    let nesting = random.below(4);
    while left > 0 {
        let levels = 1 + random.below(shape.levels);
        roots.push(column(random, None, levels, &mut left, nesting));
    }
    if random.chance(1, 2) {
        roots.reverse();
    }
    roots
}

/// The records of a node.
pub fn size(node: &Node) -> usize {
    1 + node.inside.iter().map(size).sum::<usize>()
}

/// A primitive with random flags, type code and attribute.
pub fn leaf(random: &mut Random, fixed: Option<&str>) -> Node {
    let default = if random.chance(1, 4) { DEFAULT } else { 0 };
    Node {
        id: 0,
        name: fixed.map_or_else(|| name(random), |f| f.as_bytes().to_vec()),
        kind: PRIMITIVE,
        flags: random.below(2) as u8 | default,
        type_code: *random.pick(&[0, 1, 2, 9, 255, 65_536, 67_842, u32::MAX]),
        attribute: *random.pick(&[0, 0, 0, 1, 2, 1_000, u32::MAX]),
        inside: vec![],
    }
}

/// A column of at most so many levels, from the records that are left. Nesting goes from 0
/// (mostly primitives) to 3 (whenever it can).
pub fn column(
    random: &mut Random,
    fixed: Option<&str>,
    levels: usize,
    left: &mut usize,
    nesting: usize,
) -> Node {
    *left -= 1;
    let mut node = leaf(random, fixed);
    let kind = match random.below(8) {
        k if k >= 2 + 2 * nesting => PRIMITIVE,
        _ => *random.pick(&[STRUCT, STRUCT, LIST, MAP]),
    };
    node.kind = match kind {
        LIST if levels < 2 || *left < 1 => PRIMITIVE,
        MAP if levels < 2 || *left < 2 => PRIMITIVE,
        kind => kind,
    };
    if node.kind != PRIMITIVE {
        node.type_code = 0;
    }
    match node.kind {
        STRUCT if levels > 1 => {
            let members = (*random.pick(&[0, 1, 1, 2, 2, 3, 4, 6])).min(*left);
            for _ in 0..members {
                if *left > 0 {
                    node.inside.push(column(random, None, levels - 1, left, nesting));
                }
            }
        }
        LIST => node.inside.push(column(random, Some("element"), levels - 1, left, nesting)),
        MAP => node.inside = key_and_value(random, levels - 1, left, nesting),
        _ => {}
    }
    node
}

/// A map's inside; one record is kept for the value.
fn key_and_value(
    random: &mut Random,
    levels: usize,
    left: &mut usize,
    nesting: usize,
) -> Vec<Node> {
    let most = (*left - 1).min(1 + random.below(*left));
    let mut part = most;
    let key = column(random, Some("key"), levels, &mut part, nesting);
    *left -= most - part;
    let value = column(random, Some("value"), levels, left, nesting);
    vec![key, value]
}

/// One record to a level, with a map's other half beside it.
pub fn chain(random: &mut Random, levels: usize) -> Node {
    let mut node = leaf(random, None);
    for _ in 1..levels {
        let mut above = leaf(random, None);
        above.type_code = 0;
        above.kind = *random.pick(&[STRUCT, STRUCT, LIST, MAP]);
        above.inside = match above.kind {
            LIST => vec![named(node, "element")],
            MAP => {
                let other = leaf(random, None);
                let (key, value) = if random.chance(1, 3) { (node, other) } else { (other, node) };
                vec![named(key, "key"), named(value, "value")]
            }
            _ => vec![node],
        };
        node = above;
    }
    node
}

fn named(mut node: Node, name: &str) -> Node {
    node.name = name.as_bytes().to_vec();
    node
}

/// A list or map of structs in which two columns have one short name that no full name
/// hides, so that the order of entry decides.
pub fn twins(random: &mut Random) -> Node {
    let m = ["m", "a", "element", "value"][random.below(4)];
    let inner = match random.below(6) {
        0 => map_of(0, m, prim(0, "key"), strukt(0, "value", vec![prim(0, "key")])),
        1 => map_of(0, m, prim(0, "key"), strukt(0, "value", vec![prim(0, "value")])),
        2 => list_of(0, m, strukt(0, "element", vec![prim(0, "element")])),
        3 => map_of(
            0,
            m,
            list_of(0, "key", strukt(0, "element", vec![prim(0, "x")])),
            strukt(0, "value", vec![prim(0, "key.x")]),
        ),
        4 => list_of(0, m, strukt(0, "element", vec![list_of(0, "element", prim(0, "element"))])),
        _ => list_of(0, "element", strukt(0, "element", vec![prim(0, "x")])),
    };
    let mut members = vec![inner];
    if random.chance(1, 2) {
        members.push(prim(0, "element.x"));
    }
    if random.chance(1, 2) {
        members.reverse();
    }
    match random.below(3) {
        0 => map_of(0, "l", prim(0, "key"), strukt(0, "value", members)),
        _ => list_of(0, "l", strukt(0, "element", members)),
    }
}

/// Gives every record another id: counted up, shuffled, around 0, at the ends, or any.
pub fn give_ids(random: &mut Random, roots: &mut [Node]) {
    let count: usize = roots.iter().map(size).sum();
    let mut order: Vec<i32> = (1..=count as i32).collect();
    let style = random.below(5);
    if style == 1 {
        for at in (1..count).rev() {
            order.swap(at, random.below(at + 1));
        }
    }
    let mut used = HashSet::new();
    let mut at = 0;
    let mut fresh = || loop {
        let id = match style {
            0 | 1 => {
                at += 1;
                order[at - 1]
            }
            2 => random.below(2 * count + 4) as i32 - count as i32 - 2,
            3 if random.chance(1, 4) => {
                *random.pick(&[-1, 0, 1, i32::MAX, i32::MIN, i32::MAX - 1, -2, 1_000])
            }
            3 => random.below(4 * count) as i32 - count as i32,
            _ => random.any_id(),
        };
        if used.insert(id) {
            return id;
        }
    };
    each(roots, &mut |node| node.id = fresh());
}

/// Calls for every node in preorder.
pub fn each(roots: &mut [Node], call: &mut impl FnMut(&mut Node)) {
    for node in roots {
        call(node);
        each(&mut node.inside, call);
    }
}

fn repeat_an_id(random: &mut Random, roots: &mut [Node]) {
    let mut ids = vec![];
    each(roots, &mut |node| ids.push(node.id));
    if ids.is_empty() {
        return;
    }
    let (from, to) = (*random.pick(&ids), random.below(ids.len()));
    let mut slot = 0;
    each(roots, &mut |node| {
        if slot == to {
            node.id = from;
        }
        slot += 1;
    });
}

/// Puts a byte that no UTF-8 text has into some member's name.
fn break_utf8(random: &mut Random, roots: &mut [Node]) {
    if roots.is_empty() {
        return;
    }
    let root = random.below(roots.len());
    if roots[root].name.len() < 255 {
        roots[root].name.push(0xFF);
    }
}

/// Renames members until no full name stands twice.
pub fn part_names(roots: &mut [Node]) {
    let mut number = 0;
    while !parted(roots, true, None, &mut HashSet::new(), &mut number).is_ok_and(|again| !again) {}
}

/// Ok(true) where a rename calls for another round; Err where an element, key or value
/// meets an earlier name, so that a member above must be renamed.
fn parted(
    nodes: &mut [Node],
    members: bool,
    above: Option<&[u8]>,
    seen: &mut HashSet<Vec<u8>>,
    number: &mut usize,
) -> Result<bool, ()> {
    let full = |node: &Node| match above {
        None => node.name.clone(),
        Some(above) => [above, b".", &node.name[..]].concat(),
    };
    for node in nodes {
        let mut name = full(node);
        if seen.contains(&name) {
            if !members {
                return Err(());
            }
            fresh_name(node, number);
            name = full(node);
        }
        seen.insert(name.clone());
        match parted(&mut node.inside, node.kind == STRUCT, Some(&name), seen, number) {
            Ok(false) => {}
            Ok(true) => return Ok(true),
            Err(()) if members => {
                fresh_name(node, number);
                return Ok(true);
            }
            Err(()) => return Err(()),
        }
    }
    Ok(false)
}

fn fresh_name(node: &mut Node, number: &mut usize) {
    *number += 1;
    node.name = format!("n{number}").into_bytes();
}

/// The struct that takes what is added under a record, if the record leads to one.
pub fn receiver(tree: &Tree, slot: usize) -> Option<usize> {
    let row = &tree.rows[slot];
    let at = match row.kind {
        LIST => row.children[0],
        MAP => row.children[1],
        _ => slot,
    };
    (tree.rows[at].kind == STRUCT).then_some(at)
}

/// The records that lead to a struct.
pub fn parents(tree: &Tree) -> Vec<usize> {
    (0..tree.rows.len()).filter(|slot| receiver(tree, *slot).is_some()).collect()
}

/// Is a record an element, a key or a value, which a deletion does not take out?
pub fn held(tree: &Tree, slot: usize) -> bool {
    tree.rows[slot].parent.is_some_and(|above| tree.rows[above].kind >= LIST)
}

/// A record and those above it, up to the root.
pub fn path_up(tree: &Tree, slot: usize) -> Vec<usize> {
    std::iter::successors(Some(slot), |slot| tree.rows[*slot].parent).collect()
}

/// Records and pool, with the names packed, shared, or behind other bytes.
pub fn lay(random: &mut Random, roots: &[Node]) -> (Vec<u8>, Vec<u8>) {
    let mut pool = vec![];
    if random.chance(1, 4) {
        pool.extend_from_slice(&b"element.key.value"[random.below(18)..]);
    }
    let shared = random.chance(1, 3);
    let records = laid_out(roots, &mut pool, &mut |pool, name| {
        let mut parts = pool.windows(name.len().max(1));
        let there = if shared { parts.position(|part| part == name) } else { None };
        there.unwrap_or_else(|| at_the_end(pool, name))
    });
    if random.chance(1, 8) {
        pool.extend_from_slice(b"unused");
    }
    (records, pool)
}

/// Identifiers that iceberg's builder accepts: it makes the columns and the structs above
/// them required. Some stand twice.
pub fn identifiers(random: &mut Random, roots: &mut [Node]) -> Vec<i32> {
    let mut ids = vec![];
    if random.chance(1, 2) {
        make_identifiers(random, roots, &mut ids);
        ids.truncate(60);
        if !ids.is_empty() && random.chance(1, 4) {
            let again = *random.pick(&ids);
            ids.push(again);
        }
        if random.chance(1, 2) {
            ids.reverse();
        }
    }
    ids
}

fn make_identifiers(random: &mut Random, nodes: &mut [Node], ids: &mut Vec<i32>) -> bool {
    let mut any = false;
    for node in nodes {
        let taken = match node.kind {
            PRIMITIVE if random.chance(1, 6) => {
                ids.push(node.id);
                true
            }
            STRUCT => make_identifiers(random, &mut node.inside, ids),
            _ => false,
        };
        if taken {
            node.flags |= REQUIRED;
            any = true;
        }
    }
    any
}

/// A tree of so many records and at most so many levels, with distinct ids and names.
pub fn sized(random: &mut Random, records: usize, levels: usize) -> Vec<Node> {
    let mut roots = vec![];
    let mut left = records;
    while left > 0 {
        let most = left.min(40);
        let mut part = most;
        let mut root = column(random, None, levels, &mut part, 2);
        root.name = format!("column_{}", roots.len()).into_bytes();
        left -= most - part;
        roots.push(root);
    }
    give_ids(random, &mut roots);
    part_names(&mut roots);
    roots
}
