//! The shapes of cases whose full names crowd their chains: where the port sorts them, by a model
//! of its budget.

use judge::{BASE, REBUILT, Tree, read_tree};

use crate::case::{Answer, Ask, Case};
use crate::hash::budget_left;

/// They start with the operation's word, as all shapes do. A run of crowded cases should meet each.
pub static SHAPES_OF_SORTED: &[&str] = &[
    "tree: names in chains, less than 1,000 of the budget left",
    "tree: names sorted, accepted",
    "tree: names sorted, 8",
    "tree: names sorted, 8 by another cut",
    "tree: names sorted, 8 at the last slot",
    "tree: names sorted, 8, and a later name stands twice too",
    "update: base sorted, rebuilt tree sorted, accepted",
    "update: base sorted, rebuilt tree in chains, accepted",
    "update: base in chains, rebuilt tree sorted, accepted",
    "update: names of the rebuilt tree sorted, 8",
    "update: names of the rebuilt tree sorted, 8 by another cut",
    "update: names of the base sorted, refused by 11, 15 or 23: it finds nothing",
    "name: sorted, found by the full name",
    "name: sorted, found at the last slot",
    "name: sorted, found by a short name",
    "name: sorted, nothing",
    "name: sorted, nothing where a name has the length of the one that is asked for",
];

/// The shapes of a case and its answer.
pub fn sorted_shapes(case: &Case, answer: &Answer) -> Vec<&'static str> {
    let mut shapes = vec![];
    let mut met = |shape, is: bool| {
        if is {
            shapes.push(shape);
        }
    };
    let Ok(base) = read_tree(&case.records, &case.pool, BASE) else { return shapes };
    let left = budget_left(&base);
    let sorted = left.is_none();
    let refusal = answer.refusal().map(|refusal| (refusal.number, refusal.list));
    let close = refusal.is_none() && left.is_some_and(|left| left < 1_000);
    met("tree: names in chains, less than 1,000 of the budget left", close);
    met("tree: names sorted, accepted", sorted && refusal.is_none());
    if sorted && refusal == Some((8, BASE)) {
        let again = Again::of(&base);
        met("tree: names sorted, 8", true);
        met("tree: names sorted, 8 by another cut", again.cut);
        met("tree: names sorted, 8 at the last slot", again.slots == [base.rows.len() - 1]);
        met("tree: names sorted, 8, and a later name stands twice too", again.slots.len() > 1);
    }
    if let Some(call) = case.update_call()
        && let Ok(rebuilt) = call.rebuilt()
    {
        let rebuilt_sorted = budget_left(&rebuilt).is_none();
        if refusal.is_none() {
            met("update: base sorted, rebuilt tree sorted, accepted", sorted && rebuilt_sorted);
            met("update: base sorted, rebuilt tree in chains, accepted", sorted && !rebuilt_sorted);
            met("update: base in chains, rebuilt tree sorted, accepted", !sorted && rebuilt_sorted);
        }
        if rebuilt_sorted && refusal == Some((8, REBUILT)) {
            met("update: names of the rebuilt tree sorted, 8", true);
            let cut = Again::of(&rebuilt).cut;
            met("update: names of the rebuilt tree sorted, 8 by another cut", cut);
        }
    }
    met(
        "update: names of the base sorted, refused by 11, 15 or 23: it finds nothing",
        sorted && refusal.is_some_and(|(number, _)| [11, 15, 23].contains(&number)),
    );
    if let Ask::Name(name) = &case.ask
        && sorted
    {
        name_shapes(&base, name, answer, &mut met);
    }
    shapes
}

fn name_shapes(
    tree: &Tree,
    name: &[u8],
    answer: &Answer,
    met: &mut impl FnMut(&'static str, bool),
) {
    if let Answer::Found { slot, .. } = answer {
        let slot = *slot as usize;
        let full = tree.full_name(slot) == name;
        met("name: sorted, found by the full name", full);
        met("name: sorted, found at the last slot", full && slot + 1 == tree.rows.len());
        met("name: sorted, found by a short name", !full);
    }
    if *answer == Answer::Nothing {
        let near = (0..tree.rows.len()).any(|slot| tree.full_name(slot).len() == name.len());
        met("name: sorted, nothing", true);
        met("name: sorted, nothing where a name has the length of the one that is asked for", near);
    }
}

/// The slots whose full names an earlier slot has, and whether the first has another own name than
/// the slot that it equals.
struct Again {
    slots: Vec<usize>,
    cut: bool,
}

impl Again {
    fn of(tree: &Tree) -> Again {
        let full: Vec<Vec<u8>> = (0..tree.rows.len()).map(|slot| tree.full_name(slot)).collect();
        let earlier = |slot: usize| full[..slot].iter().position(|name| *name == full[slot]);
        let slots: Vec<usize> =
            (0..tree.rows.len()).filter(|slot| earlier(*slot).is_some()).collect();
        let other = |slot: &usize| {
            let equal = earlier(*slot).expect("it has an earlier one");
            tree.rows[equal].name != tree.rows[*slot].name
        };
        Again { cut: slots.first().is_some_and(other), slots }
    }
}
