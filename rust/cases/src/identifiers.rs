//! Updates and renumberings whose identifiers break a condition (02, 4/13): each alone, at each
//! distance above, in the base and in the rebuilt tree; and such as pass. In a rebuilt tree the
//! identifier's id is given to another column, since what was there can't change.

use judge::{
    DOUBLE, FLOAT, ID_BYTES, LEVELS, LIST, MAP, Node, PRIMITIVE, RECORD_BYTES, REQUIRED, STRUCT,
    Tree,
};

use crate::broken::Broken;
use crate::build::{Addition, list_of, map_of, prim, renumber_by, request, strukt, update_by};
use crate::case::{Ask, Case};
use crate::generate::{added, deletions, fresh, last_id, made_tame};
use crate::random::Random;
use crate::shapes::ids_of;
use crate::trees::{Shape, each, finished, grown, lay, leaf, name, path_up, size};

/// Marks of records until ids are given: a column that is to be an identifier, one that is to be
/// dropped with a struct above it, and the struct that receives a column. Others have 0.
const IDENTIFIER: i32 = 1;
const DROPPED: i32 = 2;
const RECEIVER: i32 = 3;

/// Records that are left for what is added to a large tree.
const ADDED: usize = 40;

/// A renumbering with identifiers.
pub fn renumbering(random: &mut Random, shape: Shape) -> Case {
    let breaks = random.chance(3, 4);
    let (base, ids) = with_identifiers(random, shape, breaks);
    let start = if random.chance(1, 4) { random.any_id() } else { 1 };
    renumber_by(lay(random, &base), &ids, start)
}

/// An update with identifiers: 9 is about the base, about the rebuilt tree, or is passed.
pub fn updating(random: &mut Random, shape: Shape) -> Case {
    let which = random.below(8);
    if which < 3 {
        return given_again(random, shape);
    }
    let (base, ids) = with_identifiers(random, shape, which < 5);
    let rows = Tree::of(&base);
    let tame = random.chance(1, 2);
    let deletions = deletions(random, &rows, &ids, tame, 2);
    let added = added(random, &rows, true, 2);
    let last_id = last_id(random, &rows, added.iter().map(|a| size(&a.column)).sum());
    update_by(lay(random, &base), &ids, last_id, request(&deletions, &added))
}

/// A base, and identifiers of which one breaks a condition, or none.
fn with_identifiers(random: &mut Random, shape: Shape, breaks: bool) -> (Vec<Node>, Vec<i32>) {
    let count = 1 + random.below(3);
    let at = random.below(count);
    let mut absent = 0;
    let mut roots = vec![];
    for place in 0..count {
        let here = breaks && (place == at || random.chance(1, 8));
        let (wrong, above) = chosen(random, shape, here);
        match wrong {
            Some(Broken::Absent) => absent += 1,
            wrong => roots.push(line(random, IDENTIFIER, above, wrong)),
        }
    }
    let (base, slots) = based(random, shape, roots);
    let mut ids = ids_at(&base, &slots[0]);
    for _ in 0..absent {
        let at = random.below(ids.len() + 1);
        ids.insert(at, random.any_id());
    }
    if random.chance(1, 2) {
        ids.reverse();
    }
    if !ids.is_empty() && random.chance(1, 6) {
        let again = *random.pick(&ids);
        ids.push(again);
    }
    (base, ids)
}

/// An update that drops an identifier with a struct above it. Its id is given to another column,
/// which mostly breaks a condition; or to none.
fn given_again(random: &mut Random, shape: Shape) -> Case {
    let breaks = random.chance(7, 8);
    let (wrong, above) = chosen(random, shape, breaks);
    let high = 1 + height(random, shape).min(LEVELS - 2);
    let mut roots = vec![line(random, DROPPED, high, None)];
    if random.chance(1, 2) {
        let high = random.below(3);
        roots.push(line(random, IDENTIFIER, high, None));
    }
    let (mut new, receiving) = parted(random, above, wrong);
    roots.extend(receiving);
    let (mut base, [others, dropped, receiver]) = based(random, shape, roots);
    let id = apart(random, &base);
    put_id(&mut base, dropped[0], id);
    let rows = Tree::of(&base);
    let mut ids = ids_at(&base, &others);
    ids.insert(random.below(ids.len() + 1), id);
    let structs = &path_up(&rows, dropped[0])[1..];
    let dropped = rows.full_name(*random.pick(structs));
    made_tame(random, &mut new);
    let mut before = slot_of_mark(&new);
    let mut added = vec![];
    if random.chance(1, 3) {
        let mut first = fresh(random, 3);
        made_tame(random, &mut first);
        before += size(&first);
        added.push(Addition { path: None, column: first });
    }
    let path = receiver.first().map(|slot| rows.full_name(*slot));
    added.push(Addition { path, column: new });
    let last_id = match wrong {
        Some(Broken::Absent) => id + random.below(2) as i32 * 100,
        _ => id - 1 - before as i32,
    };
    update_by(lay(random, &base), &ids, last_id, request(&[dropped], &added))
}

/// A column with so many records above it, in two: one part is to be added, and the others, if
/// there are any, are to receive it.
fn parted(random: &mut Random, above: usize, wrong: Option<Broken>) -> (Node, Option<Node>) {
    // only a struct receives
    let receives = |cut: &usize| match wrong {
        Some(Broken::UnderList(at) | Broken::UnderKey(at) | Broken::UnderValue(at)) => at != *cut,
        _ => true,
    };
    let cuts: Vec<usize> = (0..=above).filter(receives).collect();
    let cut = match random.below(4) {
        0 => cuts[0],
        1 => above,
        _ => *random.pick(&cuts),
    };
    let column = bottom(random, IDENTIFIER, above, wrong);
    let new = raised(random, column, 0..cut, wrong);
    if cut == above {
        return (new, None);
    }
    let mut receiver = strukt(RECEIVER, "", vec![]);
    receiver.name = name(random);
    if random.chance(1, 2) {
        receiver.inside.push(sibling(random));
    }
    if wrong != Some(Broken::UnderOptional(cut)) {
        receiver.flags |= REQUIRED;
    }
    (new, Some(raised(random, receiver, cut + 1..above, wrong)))
}

/// Which of the records of a column is marked, in preorder.
fn slot_of_mark(column: &Node) -> usize {
    let rows = Tree::of(std::slice::from_ref(column)).rows;
    rows.iter().position(|row| row.id == IDENTIFIER).expect("one is marked")
}

fn put_id(roots: &mut [Node], at: usize, id: i32) {
    let mut slot = 0;
    each(roots, &mut |node| {
        if slot == at {
            node.id = id;
        }
        slot += 1;
    });
}

/// An id that is far from all others, so that those beside it can be given.
fn apart(random: &mut Random, base: &[Node]) -> i32 {
    let rows = Tree::of(base).rows;
    let top = rows.iter().map(|row| row.id).max().unwrap_or(0);
    if top < 1_000 && random.chance(1, 2) {
        return top + 200;
    }
    let far = |id: &i32| rows.iter().all(|row| row.id.abs_diff(*id) > 200);
    loop {
        let id = random.any_id() / 2;
        if far(&id) {
            return id;
        }
    }
}

/// How many records are above a column: few, as many as there can be, or any number.
fn height(random: &mut Random, shape: Shape) -> usize {
    let most = if shape.records > 5 { LEVELS - 1 } else { 3 };
    match random.below(4) {
        0 => random.below(4),
        1 => most,
        _ => random.below(most + 1),
    }
}

/// A condition to break, and how many records are above the column.
fn chosen(random: &mut Random, shape: Shape, breaks: bool) -> (Option<Broken>, usize) {
    let mut above = height(random, shape);
    // most large trees are to be accepted
    if !breaks || shape.records > 900 && random.chance(2, 3) {
        return (None, above);
    }
    let which = random.below(16);
    if which > 7 {
        above = above.max(1 + random.below(2));
    }
    let far = match random.below(4) {
        0 => 0,
        1 => 1,
        2 => above,
        _ => random.below(above + 1),
    };
    let far = far.min(above.saturating_sub(1));
    let wrong = match which {
        0 => Broken::Absent,
        1 => Broken::Struct,
        2 => Broken::List,
        3 => Broken::Map,
        4 => Broken::Optional,
        5 | 6 => Broken::Float,
        7 => Broken::Double,
        8 | 9 => Broken::UnderList(far),
        10 | 11 => Broken::UnderKey(far),
        12 | 13 => Broken::UnderValue(far),
        _ => Broken::UnderOptional(far),
    };
    // what is inside a list or map needs a level too
    let inside = matches!(wrong, Broken::List | Broken::Map);
    (Some(wrong), if inside { above.min(LEVELS - 2) } else { above })
}

/// A column with so many records above it, which fit an identifier but for one condition.
fn line(random: &mut Random, mark: i32, above: usize, wrong: Option<Broken>) -> Node {
    let column = bottom(random, mark, above, wrong);
    raised(random, column, 0..above, wrong)
}

fn required(mut node: Node) -> Node {
    node.flags |= REQUIRED;
    node
}

fn renamed(mut node: Node, name: &str) -> Node {
    node.name = name.as_bytes().to_vec();
    node
}

/// A column that can be an identifier, but for one condition.
fn bottom(random: &mut Random, mark: i32, above: usize, wrong: Option<Broken>) -> Node {
    let mut column = required(leaf(random, None));
    column.id = mark;
    match wrong {
        Some(Broken::Struct) => {
            (column.kind, column.type_code) = (STRUCT, 0);
            if above < LEVELS - 1 && random.chance(1, 2) {
                column.inside.push(required(leaf(random, None)));
            }
        }
        Some(Broken::List) => {
            (column.kind, column.type_code) = (LIST, 0);
            column.inside.push(required(leaf(random, Some("element"))));
        }
        Some(Broken::Map) => {
            (column.kind, column.type_code) = (MAP, 0);
            column.inside = ["key", "value"].map(|n| required(leaf(random, Some(n)))).into();
        }
        Some(Broken::Optional) => column.flags &= !REQUIRED,
        Some(Broken::Float) => column.type_code = FLOAT,
        Some(Broken::Double) => column.type_code = DOUBLE,
        _ => {}
    }
    // now and then one condition more
    if wrong.is_some() && random.chance(1, 10) {
        column.flags &= !REQUIRED;
    }
    column
}

/// The column with records above it: required structs, but for the one at which a condition breaks.
fn raised(
    random: &mut Random,
    column: Node,
    distances: std::ops::Range<usize>,
    wrong: Option<Broken>,
) -> Node {
    let few = distances.len() > 3;
    distances.fold(column, |node, far| {
        let mut up = match wrong {
            Some(Broken::UnderList(at)) if at == far => list_of(0, "", renamed(node, "element")),
            Some(Broken::UnderKey(at)) if at == far => {
                map_of(0, "", renamed(node, "key"), prim(0, "value"))
            }
            Some(Broken::UnderValue(at)) if at == far => {
                map_of(0, "", prim(0, "key"), renamed(node, "value"))
            }
            _ => {
                let mut members = vec![node];
                if random.chance(1, if few { 6 } else { 2 }) {
                    let at = random.below(2);
                    members.insert(at, sibling(random));
                }
                strukt(0, "", members)
            }
        };
        up.name = name(random);
        if wrong != Some(Broken::UnderOptional(far)) {
            up.flags |= REQUIRED;
        }
        up
    })
}

/// A column of any type beside others; floats and doubles are common.
fn sibling(random: &mut Random) -> Node {
    let mut column = leaf(random, None);
    if random.chance(1, 3) {
        column.type_code = *random.pick(&[FLOAT, DOUBLE]);
    }
    column
}

fn siblings(random: &mut Random, shape: Shape) -> Vec<Node> {
    let most = if shape.records > 5 { 3 } else { 1 };
    (0..random.below(most + 1)).map(|_| sibling(random)).collect()
}

/// These roots with others beside them, with ids; and the slots of each mark.
fn based(random: &mut Random, shape: Shape, mut roots: Vec<Node>) -> (Vec<Node>, [Vec<usize>; 3]) {
    for column in siblings(random, shape) {
        let at = random.below(roots.len() + 1);
        roots.insert(at, column);
    }
    if shape.records > 900 {
        let records = shape.records - roots.iter().map(size).sum::<usize>() - ADDED;
        roots.extend(grown(random, Shape { records, ..shape }));
    }
    if random.chance(1, 2) {
        roots.reverse();
    }
    let rows = Tree::of(&roots).rows;
    let marked = |mark: i32| (0..rows.len()).filter(|slot| rows[*slot].id == mark).collect();
    let slots = [IDENTIFIER, DROPPED, RECEIVER].map(marked);
    (finished(random, Shape { distinct: true, ..shape }, roots), slots)
}

fn ids_at(roots: &[Node], slots: &[usize]) -> Vec<i32> {
    let rows = Tree::of(roots).rows;
    slots.iter().map(|slot| rows[*slot].id).collect()
}

/// Makes some of the primitives of a case float or double; no identifier of it.
pub fn give_floats(random: &mut Random, case: &mut Case) {
    let ids = match &case.ask {
        Ask::Update { identifiers, .. } | Ask::Renumber { identifiers, .. } => ids_of(identifiers),
        _ => vec![],
    };
    let mut give = |records: &mut [u8], but: &[i32]| {
        for record in records.chunks_exact_mut(RECORD_BYTES) {
            let id: [u8; ID_BYTES] = record[..ID_BYTES].try_into().expect("an id's bytes");
            let one = record[9] == PRIMITIVE && !but.contains(&i32::from_le_bytes(id));
            if one && random.chance(1, 6) {
                let code = *random.pick(&[FLOAT, DOUBLE]);
                record[16..20].copy_from_slice(&code.to_le_bytes());
            }
        }
    };
    give(&mut case.records, &ids);
    if let Ask::Update { added_records, .. } = &mut case.ask {
        give(added_records, &[]);
    }
}
