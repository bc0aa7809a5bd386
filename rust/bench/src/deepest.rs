//! Cases whose walks go deep.

use std::iter::successors;

use cases::{
    Ask, Case, Generator, Sizes, ask_of, ids_by, list_of, map_of, packed, prim, prune_by,
    renumber_by, strukt, update_of,
};
use judge::{LEVELS, LIST, MAP, MOST_RECORDS, Node, PRIMITIVE, STRUCT, Tree};

use crate::edits::{editing, widening};
use crate::names::worst_names;
use crate::rows::rows;
use crate::schemas::{SCHEMAS, numbered, required};
use crate::worst::{worst_identifiers, worst_ids};

/// Cases whose walks go as deep as they can, in trees as large as they can be: the table's own,
/// sixteen levels of each kind, ids and names that are bad to search, edits, and random ones.
pub fn deepest() -> impl Iterator<Item = Case> {
    let table = SCHEMAS.iter().flat_map(|(name, _)| rows(name, MOST_RECORDS));
    let nested = [STRUCT, LIST, MAP, KEY].into_iter().flat_map(|kind| asked_of(&nested(kind)));
    let random = Generator { seed: 1, sizes: Sizes::Usual };
    let crowded = (0..450).map(move |n| random.crowded(n).0);
    let random = (0..4_000).map(move |n| random.case(n)).chain(crowded);
    let random = random.filter(|case| case.ask != Ask::List);
    let ids = worst_ids().into_iter().flatten().chain(worst_identifiers());
    let beside = editing().into_iter().chain(widening()).chain(worst_names());
    let beside = beside.flat_map(|beside| beside.rows);
    table.chain(ids).chain(beside).map(|row| row.case).chain(nested).chain(random)
}

/// A map whose key is nested.
const KEY: u8 = 4;

/// Sixteen levels of one kind, and so many roots beside them that these levels fit in again. All is
/// required: so the deepest record of structs is an identifier, and else a root.
fn nested(kind: u8) -> Vec<Node> {
    let named = |mut node: Node, name: &str| {
        node.name = name.as_bytes().to_vec();
        node
    };
    let above = |inside: Node, _| match kind {
        LIST => list_of(0, "n", named(inside, "element")),
        MAP => map_of(0, "n", prim(0, "key"), named(inside, "value")),
        KEY => map_of(0, "n", named(inside, "key"), prim(0, "value")),
        _ => strukt(0, "n", vec![inside]),
    };
    let mut roots = vec![(1..LEVELS).fold(prim(0, "n"), above)];
    let left = MOST_RECORDS - 2 * Tree::of(&roots).rows.len();
    roots.extend((0..left).map(|n| prim(0, &format!("column_{n}"))));
    numbered(required(roots))
}

/// The deepest record that can be an identifier, in a tree in which all is required: one below
/// structs alone. Of those at one level the last, which no deletion takes away.
fn identifier(tree: &Tree) -> i32 {
    let below_structs = |slot: usize| {
        successors(tree.rows[slot].parent, |up| tree.rows[*up].parent)
            .all(|up| tree.rows[up].kind == STRUCT)
    };
    let identifies = |slot: &usize| tree.rows[*slot].kind == PRIMITIVE && below_structs(*slot);
    let slots = (0..tree.rows.len()).filter(identifies);
    tree.rows[slots.max_by_key(|slot| tree.rows[*slot].level).expect("a root at least")].id
}

/// Every entry on a base: all is chosen, the deepest record is sought, and in an update 64 roots
/// go and 64 come, one of them with all levels.
fn asked_of(base: &[Node]) -> Vec<Case> {
    let tree = Tree::of(base);
    let level = |slot: &usize| tree.rows[*slot].level;
    let deepest = (0..tree.rows.len()).max_by_key(level).expect("it has records");
    let id = tree.rows[deepest].id;
    let name = tree.full_name(deepest);
    // not found, so that every walk goes down to the deepest record
    let beyond = [&name[..], b"."].concat();
    let ids: Vec<i32> = tree.rows.iter().map(|row| row.id).collect();
    let gone: Vec<String> = (0..64).map(|n| format!("column_{n}")).collect();
    let gone: Vec<&str> = gone.iter().map(String::as_str).collect();
    let added: Vec<(Option<&str>, Node)> = (0..64)
        .map(|n| match n {
            0 => (None, strukt(0, "whole", base[0].inside.clone())),
            _ => (None, prim(0, &format!("fresh_{n}"))),
        })
        .collect();
    let identifier = identifier(&tree);
    vec![
        update_of(base, &[identifier], MOST_RECORDS as i32, &gone, &added),
        prune_by(packed(base), &ids, true),
        prune_by(packed(base), &[id], false),
        renumber_by(packed(base), &[identifier], 1),
        ask_of(packed(base), Ask::Folded(name.to_ascii_uppercase())),
        ask_of(packed(base), Ask::Folded(beyond.to_ascii_uppercase())),
        ask_of(packed(base), Ask::Name(name)),
        ask_of(packed(base), Ask::Name(beyond)),
        ask_of(packed(base), Ask::Id(id)),
        ids_by(packed(base), &ids),
        ask_of(packed(base), Ask::Parent(id)),
    ]
}

#[cfg(test)]
mod tests {
    use cases::answer;

    use super::*;

    /// One that is refused with 9 would go nowhere near as deep.
    #[test]
    fn updates_and_renumberings_of_sixteen_levels_are_accepted() {
        for kind in [STRUCT, LIST, MAP, KEY] {
            let cases = asked_of(&nested(kind));
            let named =
                |case: &&Case| matches!(case.ask, Ask::Update { .. } | Ask::Renumber { .. });
            let refusals: Vec<_> =
                cases.iter().filter(named).map(|c| answer(c).refusal()).collect();
            assert_eq!(refusals, [None; 2], "kind {kind}");
        }
    }
}
