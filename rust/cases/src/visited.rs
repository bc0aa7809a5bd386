//! The shapes of what an accepted update visits (02, 7/13).

use judge::{MOST_DELETIONS, MOST_RECORDS, Tree};

use crate::trees::{held, path_up};

/// They start with the operation's word, as all shapes do.
pub static SHAPES_OF_VISITS: &[&str] = &[
    "update: no record visited",
    "update: every record visited, and no member dropped",
    "update: every record visited, and a member dropped",
    "update: the inside of a dropped member not visited",
    "update: a dropped member inside a dropped one not visited",
    "update: two dropped members visited",
    "update: a dropped member visited beneath a dropped element, key or value",
    "update: the inside of a dropped element visited",
    "update: the inside of a dropped key visited",
    "update: the inside of a dropped value visited",
    "update: more than 1,024 records visited",
    "update: 1,088 records visited, the most",
];

/// Of an accepted update, by what it drops and how many records it adds.
pub fn visit_shapes(
    tree: &Tree,
    dropped: &[usize],
    added: usize,
    visited: usize,
    met: &mut impl FnMut(&'static str, bool),
) {
    let goes = |slot: &usize| dropped.contains(slot) && !held(tree, *slot);
    let inside_one = |slot: usize| path_up(tree, slot)[1..].iter().any(goes);
    let members: Vec<usize> = (0..tree.rows.len()).filter(goes).collect();
    let first: Vec<usize> = members.iter().copied().filter(|slot| !inside_one(*slot)).collect();
    let every = visited == tree.rows.len() + added;
    met("update: no record visited", visited == 0);
    met("update: every record visited, and no member dropped", every && members.is_empty());
    met("update: every record visited, and a member dropped", every && !members.is_empty());
    met("update: the inside of a dropped member not visited", !every);
    met("update: a dropped member inside a dropped one not visited", first.len() < members.len());
    met("update: two dropped members visited", first.len() > 1);
    let stays = |slot: &usize| dropped.contains(slot) && held(tree, *slot);
    met(
        "update: a dropped member visited beneath a dropped element, key or value",
        first.iter().any(|slot| path_up(tree, *slot).iter().any(stays)),
    );
    let open = |name: &str| {
        let is = |slot: &usize| stays(slot) && tree.rows[*slot].name == name.as_bytes();
        let filled = |slot: &usize| !tree.rows[*slot].children.is_empty();
        dropped.iter().any(|slot| is(slot) && filled(slot) && !inside_one(*slot))
    };
    met("update: the inside of a dropped element visited", open("element"));
    met("update: the inside of a dropped key visited", open("key"));
    met("update: the inside of a dropped value visited", open("value"));
    met("update: more than 1,024 records visited", visited > MOST_RECORDS);
    // those of the answer, and a dropped one for each deletion
    met("update: 1,088 records visited, the most", visited == MOST_RECORDS + MOST_DELETIONS);
}
