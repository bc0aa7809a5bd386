//! Updates that add beneath what they drop (02, 3/13): a dropped member at each distance above the
//! receiving struct, dropped elements, keys and values between, more additions around.

use judge::{LEVELS, LIST, Node, PRIMITIVE, STRUCT, Tree};

use crate::build::{Addition, request, update_by};
use crate::case::Case;
use crate::generate::{fresh, last_id, made_tame};
use crate::random::Random;
use crate::trees::{
    Shape, chain, each, finished, grown, identifiers, lay, parents, path_up, receiver, size,
};

/// An update with an addition that has dropped records above it, as a rule.
pub fn dropped_parent(random: &mut Random, shape: Shape) -> Case {
    let mut base = base(random, shape);
    let ids = if random.chance(1, 4) { identifiers(random, &mut base) } else { vec![] };
    let rows = Tree::of(&base);
    let parents = parents(&rows);
    let deepest = parents.iter().copied().max_by_key(|slot| rows.rows[*slot].level);
    let parent = deepest.map(|deepest| match random.chance(1, 3) {
        true => deepest,
        false => *random.pick(&parents),
    });
    let dropped = parent.map_or(vec![], |parent| dropped(random, &rows, parent));
    let mut deletions: Vec<Vec<u8>> = dropped.iter().map(|slot| rows.full_name(*slot)).collect();
    if !rows.rows.is_empty() && random.chance(1, 4) {
        deletions.push(rows.short_name(random.below(rows.rows.len())));
    }
    let added = added(random, &rows, parent, &dropped);
    let last_id = last_id(random, &rows, added.iter().map(|a| size(&a.column)).sum());
    update_by(lay(random, &base), &ids, last_id, request(&deletions, &added))
}

/// A chain of levels or any tree, with structs at many of its ends.
fn base(random: &mut Random, shape: Shape) -> Vec<Node> {
    let levels = match shape.records > 5 && random.chance(1, 4) {
        true => LEVELS,
        false => 2 + random.below(shape.records.min(LEVELS - 1)),
    };
    let mut roots = match random.chance(1, 2) {
        true => vec![chain(random, levels)],
        false => grown(random, shape),
    };
    each(&mut roots, &mut |node| {
        if node.kind == PRIMITIVE && random.chance(1, 2) {
            (node.kind, node.type_code) = (STRUCT, 0);
        }
    });
    finished(random, Shape { distinct: true, ..shape }, roots)
}

/// What is dropped: of the receiving struct and the records above it a member, which goes,
/// elements, keys and values, which stay, or both; or a record that is none of them.
fn dropped(random: &mut Random, rows: &Tree, parent: usize) -> Vec<usize> {
    let path = path_up(rows, receiver(rows, parent).expect("it leads to a struct"));
    let held = |slot: &usize| rows.rows[*slot].parent.is_some_and(|p| rows.rows[p].kind >= LIST);
    let (stay, go): (Vec<usize>, Vec<usize>) = path.iter().partition(|slot| held(slot));
    let which = random.below(8);
    let mut dropped = match which {
        // a root is a member, so there is one
        0 | 1 => vec![go[go.len() - 1]],
        2..=5 => vec![*random.pick(&go)],
        6 => vec![],
        _ => (0..rows.rows.len()).filter(|slot| !path.contains(slot)).take(1).collect(),
    };
    if (4..=6).contains(&which) {
        dropped.extend(stay.into_iter().filter(|_| random.chance(2, 3)));
    }
    dropped
}

/// Up to four additions; one of them, the first, the last or one between, is under the parent.
fn added(
    random: &mut Random,
    rows: &Tree,
    parent: Option<usize>,
    dropped: &[usize],
) -> Vec<Addition> {
    let count = 1 + random.below(4);
    let at = random.below(count);
    let mut added = vec![];
    for place in 0..count {
        let mut column = fresh(random, 3);
        if !random.chance(1, 16) {
            made_tame(random, &mut column);
        }
        let slot = match parent {
            Some(parent) if place == at => {
                under(random, rows, parent, &mut column);
                Some(leading_nowhere(random, rows, dropped).unwrap_or(parent))
            }
            Some(_) if random.chance(1, 4) => Some(*random.pick(&parents(rows))),
            _ => None,
        };
        let by_full = random.chance(1, 2);
        let named = |slot| if by_full { rows.full_name(slot) } else { rows.short_name(slot) };
        added.push(Addition { path: slot.map(named), column });
    }
    added
}

/// Now and then the column is called like a member of the struct that receives it (17).
fn under(random: &mut Random, rows: &Tree, parent: usize, column: &mut Node) {
    let receiver = receiver(rows, parent).expect("it leads to a struct");
    let members = &rows.rows[receiver].children;
    if !members.is_empty() && random.chance(1, 2) {
        let name = &rows.rows[*random.pick(members)].name;
        if !name.contains(&b'.') {
            column.name = name.clone();
        }
    }
}

/// Now and then a primitive beneath what is dropped is the parent (16).
fn leading_nowhere(random: &mut Random, rows: &Tree, dropped: &[usize]) -> Option<usize> {
    let beneath = |slot: &usize| path_up(rows, *slot).iter().any(|slot| dropped.contains(slot));
    let primitive = |slot: &usize| rows.rows[*slot].kind == PRIMITIVE;
    if !random.chance(1, 8) {
        return None;
    }
    (0..rows.rows.len()).find(|slot| primitive(slot) && beneath(slot))
}
