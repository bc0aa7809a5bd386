//! The shapes of edits (02, 5/13), of accepted updates and of refused ones. Those of widenings
//! stand by themselves.

use judge::{
    Change, DEFAULT, EDIT_BYTES, Edit, LIST, MAP, MOST_EDITS, NAME_SUM, Names, RELAX, RENAME,
    REQUIRED, Refusal, Tree, WIDEN, read_edits, read_paths, read_tree,
};

use crate::broken::base_breaks_9;
use crate::case::{Answer, Ask, Case, answer};
use crate::shapes::{ids_of, name_sum};
use crate::trees::{held, path_up, receiver};
use crate::widened::{
    float_shapes, no_step_shapes, widen_shapes, widened_pair_shapes, widening_byte_shapes,
};

/// They start with the operation's word, as all shapes do.
pub static SHAPES_OF_EDITS: &[&str] = &[
    "update: a root renamed",
    "update: a struct's member renamed",
    "update: a struct, list or map renamed",
    "update: a struct renamed that receives a column",
    "update: an identifier renamed",
    "update: edited by a short name",
    "update: renamed to the name it has",
    "update: renamed to an empty name",
    "update: renamed to a name of 255 bytes",
    "update: renamed to a dropped sibling's name",
    "update: renamed to a name that another rename frees",
    "update: two columns exchange names",
    "update: a required column relaxed",
    "update: a required column with a default relaxed",
    "update: an optional column relaxed",
    "update: a struct, list or map relaxed",
    "update: an element relaxed",
    "update: a value relaxed",
    "update: renamed, then relaxed",
    "update: relaxed, then renamed",
    "update: relaxed twice",
    "update: a dropped element or value relaxed",
    "update: edited beneath a dropped element, key or value",
    "update: edits beside a deletion and an addition",
    "update: 64 edits",
    "update: 64 deletions, 64 additions and 64 edits of more than 900 records",
    "update: 32,768 as the sum of name lengths by a rename",
    "update: 2 for edits",
    "update: 2 for edits that are not whole",
    "update: 3 for what an edit does",
    "update: 3 for byte 7 of an edit",
    "update: 3 for a new name of one that relaxes",
    "update: 3 for the last bytes of an edit",
    "update: 4 for the path of an edit",
    "update: 4 for a new name",
    "update: 23 for a path that finds nothing",
    "update: 23 for a dropped member",
    "update: 23 beneath a dropped member",
    "update: 23 for what is added",
    "update: 23 for a name that an earlier edit gives",
    "update: 23 of an element, key or value, which can't be renamed",
    "update: 24 for a rename of an element",
    "update: 24 for a rename of a key",
    "update: 24 for a rename of a value",
    "update: 24 for the relaxing of a required key",
    "update: 24 for the relaxing of an optional key",
    "update: 24 for a second rename",
    "update: 24 for a second rename to the same name",
    "update: 24, and a dot in the name",
    "update: 23, 24, 13 or 26 of the only edit",
    "update: 23, 24, 13 or 26 of the first of several edits",
    "update: 23, 24, 13 or 26 of an edit between others",
    "update: 23, 24, 13 or 26 of the last of several edits",
    "update: 8 for a rename onto a sibling",
    "update: 8 for a rename onto an added column",
    "update: 9 for an identifier that is relaxed",
    "update: 9 for a struct above an identifier that is relaxed",
    "update: 19 for a rename",
];

/// What a request with edits speaks of. Its base and its lists passed 3 to 6.
pub struct Request {
    pub tree: Tree,
    pub version: u32,
    pub edits: Vec<Edit>,
    /// The slot that each edit finds.
    pub found: Vec<Option<usize>>,
    pub dropped: Vec<usize>,
    /// Each added column's receiving struct, none for the root, and its name.
    added: Vec<(Option<usize>, Vec<u8>)>,
}

impl Request {
    pub fn of(case: &Case) -> Option<Request> {
        let call = case.update_call()?;
        let tree = read_tree(call.records, call.pool, judge::BASE).ok()?;
        let names = Names::of(&tree);
        let edits = read_edits(call.edits, call.request_pool).ok()?;
        let paths = |list: &[u8], of: u32| read_paths(list, call.request_pool, of).ok();
        let find = |path: &Vec<u8>| names.find(path);
        let deletions = paths(call.deletions, judge::DELETIONS)?;
        let dropped = deletions.iter().flatten().filter_map(find).collect();
        let found = edits.iter().map(|edit| names.find(&edit.path)).collect();
        let new = read_tree(call.added_records, call.request_pool, judge::ADDED).ok()?;
        let under = paths(call.additions, judge::ADDITIONS)?;
        let to =
            |path: &Option<Vec<u8>>| path.as_ref().and_then(find).and_then(|s| receiver(&tree, s));
        let own = |root: &usize| new.rows[*root].name.clone();
        let added = under.iter().map(to).zip(new.roots.iter().map(own)).collect();
        Some(Request { version: call.version, edits, found, dropped, added, tree })
    }

    /// Is the record dropped as a member, or does it stand beneath one that is?
    fn goes(&self, slot: usize) -> bool {
        let is = |slot: &usize| !held(&self.tree, *slot) && self.dropped.contains(slot);
        path_up(&self.tree, slot).iter().any(is)
    }

    /// The edits that find a column, with its slot.
    pub fn each(&self) -> impl Iterator<Item = (usize, &Change)> {
        let edits = self.found.iter().zip(&self.edits);
        edits.filter_map(|(slot, edit)| Some(((*slot)?, &edit.change)))
    }

    /// Calls for each two edits of one column, in their order.
    pub fn pairs(&self, call: &mut impl FnMut(&Change, &Change)) {
        let each: Vec<(usize, &Change)> = self.each().collect();
        for (at, (slot, one)) in each.iter().enumerate() {
            let later = each[at + 1..].iter().filter(|(other, _)| other == slot);
            later.for_each(|(_, other)| call(one, other));
        }
    }

    /// The name that a column has afterwards.
    fn name_after(&self, slot: usize) -> &[u8] {
        let new = self.each().find_map(|(at, change)| match change {
            Change::Rename(name) if at == slot => Some(name),
            _ => None,
        });
        new.unwrap_or(&self.tree.rows[slot].name)
    }

    fn siblings(&self, slot: usize) -> &[usize] {
        match self.tree.rows[slot].parent {
            None => &self.tree.roots,
            Some(above) => &self.tree.rows[above].children,
        }
    }

    pub fn is_child(&self, slot: usize, kind: u8, at: usize) -> bool {
        let above = self.tree.rows[slot].parent.map(|above| &self.tree.rows[above]);
        above.is_some_and(|above| above.kind == kind && above.children[at] == slot)
    }
}

/// The shapes of an accepted update with edits.
pub fn edit_shapes(
    case: &Case,
    tree: &Tree,
    answer: &Answer,
    met: &mut impl FnMut(&'static str, bool),
) {
    let Ask::Update { identifiers, deletions, additions, edits, .. } = &case.ask else { return };
    let (Some(records), false) = (answer.records(), edits.is_empty()) else { return };
    let request = Request::of(case).expect("an accepted request is read");
    let ids = ids_of(identifiers);
    let full = edits.len() == MOST_EDITS * EDIT_BYTES;
    met("update: 64 edits", full);
    let all = full && deletions.len() == 64 * 8 && additions.len() == 64 * 8;
    met(
        "update: 64 deletions, 64 additions and 64 edits of more than 900 records",
        all && tree.rows.len() > 900,
    );
    let sum = name_sum(records) == NAME_SUM && name_sum(&case.records) < NAME_SUM;
    met("update: 32,768 as the sum of name lengths by a rename", sum && additions.is_empty());
    let both = !deletions.is_empty() && !additions.is_empty();
    met("update: edits beside a deletion and an addition", both);
    for (slot, edit) in request.found.iter().zip(&request.edits) {
        let slot = slot.expect("an accepted edit finds a column");
        met("update: edited by a short name", tree.full_name(slot) != edit.path);
        let stays = |slot: &usize| request.dropped.contains(slot);
        let beneath = path_up(tree, slot)[1..].iter().any(stays);
        met("update: edited beneath a dropped element, key or value", beneath);
        match &edit.change {
            Change::Rename(name) => {
                rename_shapes(&request, slot, name, met);
                met("update: an identifier renamed", ids.contains(&tree.rows[slot].id));
            }
            Change::Relax => {
                relax_shapes(&request, slot, met);
                met("update: a dropped element or value relaxed", stays(&slot));
            }
            Change::Widen(code) => {
                widen_shapes(&request, slot, *code, met);
                met("update: a dropped element, key or value widened", stays(&slot));
                met("update: widened beneath a dropped element, key or value", beneath);
                met("update: widened beside a deletion and an addition", both);
                met("update: widened by a short name", tree.full_name(slot) != edit.path);
                met("update: an identifier widened", ids.contains(&tree.rows[slot].id));
            }
        }
    }
    pair_shapes(&request, met);
    widened_pair_shapes(&request, met);
}

fn rename_shapes(
    request: &Request,
    slot: usize,
    name: &[u8],
    met: &mut impl FnMut(&'static str, bool),
) {
    let row = &request.tree.rows[slot];
    met("update: a root renamed", row.parent.is_none());
    met("update: a struct's member renamed", row.parent.is_some());
    met("update: a struct, list or map renamed", row.kind != judge::PRIMITIVE);
    let receives = request.added.iter().any(|(to, _)| *to == Some(slot));
    met("update: a struct renamed that receives a column", receives);
    met("update: renamed to the name it has", row.name == name);
    met("update: renamed to an empty name", name.is_empty());
    met("update: renamed to a name of 255 bytes", name.len() == 255);
    let had = |s: &&usize| **s != slot && request.tree.rows[**s].name == name;
    if let Some(other) = request.siblings(slot).iter().find(had) {
        let exchange = request.name_after(*other) == row.name;
        met("update: renamed to a dropped sibling's name", request.goes(*other));
        met("update: two columns exchange names", !request.goes(*other) && exchange);
        let freed = !request.goes(*other) && !exchange;
        met("update: renamed to a name that another rename frees", freed);
    }
}

fn relax_shapes(request: &Request, slot: usize, met: &mut impl FnMut(&'static str, bool)) {
    let row = &request.tree.rows[slot];
    let required = row.flags & REQUIRED != 0;
    met("update: a required column relaxed", required);
    met("update: a required column with a default relaxed", row.flags == REQUIRED | DEFAULT);
    met("update: an optional column relaxed", !required);
    met("update: a struct, list or map relaxed", required && row.kind != judge::PRIMITIVE);
    met("update: an element relaxed", required && request.is_child(slot, LIST, 0));
    met("update: a value relaxed", required && request.is_child(slot, MAP, 1));
}

/// Two edits of one column.
fn pair_shapes(request: &Request, met: &mut impl FnMut(&'static str, bool)) {
    request.pairs(&mut |one, other| {
        use Change::{Relax, Rename};
        met("update: renamed, then relaxed", matches!((one, other), (Rename(_), Relax)));
        met("update: relaxed, then renamed", matches!((one, other), (Relax, Rename(_))));
        met("update: relaxed twice", matches!((one, other), (Relax, Relax)));
    });
}

/// The shapes of a refused update with edits.
pub fn edit_refused_shapes(
    case: &Case,
    refusal: Refusal,
    met: &mut impl FnMut(&'static str, bool),
) {
    let Ask::Update { edits, .. } = &case.ask else { return };
    if edits.is_empty() {
        return;
    }
    if refusal.number == 2 {
        met("update: 2 for edits", edits.len() > MOST_EDITS * EDIT_BYTES);
        met("update: 2 for edits that are not whole", !edits.len().is_multiple_of(EDIT_BYTES));
    }
    match (refusal.number, refusal.list) {
        (3 | 4, judge::EDITS) => byte_shapes(case, refusal, met),
        (_, judge::EDITS) => decided_shapes(case, refusal, met),
        (8, judge::REBUILT) => meeting_shapes(case, met),
        (9, _) if base_breaks_9(case) => float_shapes(case, refusal, met),
        (9, _) => identifier_shapes(case, refusal, met),
        (19, _) => {
            let mut without = case.clone();
            if let Ask::Update { edits, .. } = &mut without.ask {
                edits.clear();
            }
            let passes = answer(&without).refusal().is_none_or(|other| other.number != 19);
            met("update: 19 for a rename", passes);
        }
        _ => {}
    }
}

/// Of 3 and 4: which byte, or which part.
fn byte_shapes(case: &Case, refusal: Refusal, met: &mut impl FnMut(&'static str, bool)) {
    let Ask::Update { edits, request_pool, .. } = &case.ask else { return };
    let edit = &edits[refusal.place as usize * EDIT_BYTES..][..EDIT_BYTES];
    if edit[6] == WIDEN {
        widening_byte_shapes(edit, refusal.number, met);
    }
    if refusal.number == 3 {
        met("update: 3 for what an edit does", ![RENAME, RELAX, WIDEN].contains(&edit[6]));
        met("update: 3 for byte 7 of an edit", edit[7] != 0);
        let named = edit[6] == RELAX && edit[8..13] != [0; 5];
        met("update: 3 for a new name of one that relaxes", named);
        met("update: 3 for the last bytes of an edit", edit[13..] != [0; 3]);
        return;
    }
    let word = |at: usize| u32::from_le_bytes(edit[at..at + 4].try_into().expect("four bytes"));
    let past = |offset: u32, length: u16| {
        u64::from(offset) + u64::from(length) > request_pool.len() as u64
    };
    let path = past(word(0), u16::from_le_bytes([edit[4], edit[5]]));
    met("update: 4 for the path of an edit", path);
    met("update: 4 for a new name", !path && past(word(8), edit[12].into()));
}

/// Of 23, 24, 13 and 26.
fn decided_shapes(case: &Case, refusal: Refusal, met: &mut impl FnMut(&'static str, bool)) {
    let request = Request::of(case).expect("23 comes after 4");
    let (place, count) = (refusal.place as usize, request.edits.len());
    met("update: 23, 24, 13 or 26 of the only edit", count == 1);
    met("update: 23, 24, 13 or 26 of the first of several edits", count > 1 && place == 0);
    met("update: 23, 24, 13 or 26 of an edit between others", 0 < place && place + 1 < count);
    met("update: 23, 24, 13 or 26 of the last of several edits", count > 1 && place + 1 == count);
    let Edit { path, change } = &request.edits[place];
    if let Change::Widen(code) = change {
        no_step_shapes(&request, refusal, *code, met);
    }
    let slot = match (refusal.number, request.found[place]) {
        (23, None) => {
            met("update: 23 for a path that finds nothing", true);
            let added = |(to, name): &(Option<usize>, Vec<u8>)| to.is_none() && name == path;
            met("update: 23 for what is added", request.added.iter().any(added));
            let gives = |edit: &Edit| edit.change == Change::Rename(path.clone());
            let earlier = request.edits[..place].iter().any(gives);
            met("update: 23 for a name that an earlier edit gives", earlier);
            return;
        }
        (_, slot) => slot.expect("24 comes after 23"),
    };
    let renames = matches!(change, Change::Rename(_));
    if refusal.number == 23 {
        let itself = !held(&request.tree, slot) && request.dropped.contains(&slot);
        met("update: 23 for a dropped member", itself);
        met("update: 23 beneath a dropped member", !itself);
        met(
            "update: 23 of an element, key or value, which can't be renamed",
            renames && held(&request.tree, slot),
        );
    }
    if refusal.number == 24 {
        forbidden_shapes(&request, place, slot, met);
    }
}

/// Of 24.
fn forbidden_shapes(
    request: &Request,
    place: usize,
    slot: usize,
    met: &mut impl FnMut(&'static str, bool),
) {
    let key = request.is_child(slot, MAP, 0);
    match &request.edits[place].change {
        Change::Relax => {
            let required = request.tree.rows[slot].flags & REQUIRED != 0;
            met("update: 24 for the relaxing of a required key", key && required);
            met("update: 24 for the relaxing of an optional key", key && !required);
        }
        Change::Rename(name) => {
            met("update: 24 for a rename of an element", request.is_child(slot, LIST, 0));
            met("update: 24 for a rename of a key", key);
            met("update: 24 for a rename of a value", request.is_child(slot, MAP, 1));
            let second = !held(&request.tree, slot);
            met("update: 24 for a second rename", second);
            let same = request.name_after(slot) == name;
            met("update: 24 for a second rename to the same name", second && same);
            met("update: 24, and a dot in the name", name.contains(&b'.'));
        }
        Change::Widen(_) => {}
    }
}

/// Of 8: with what the renamed columns meet.
fn meeting_shapes(case: &Case, met: &mut impl FnMut(&'static str, bool)) {
    let request = Request::of(case).expect("8 comes after 4");
    for (slot, change) in request.each() {
        let Change::Rename(name) = change else { continue };
        let meets = |s: &usize| *s != slot && !request.goes(*s) && request.name_after(*s) == name;
        met("update: 8 for a rename onto a sibling", request.siblings(slot).iter().any(meets));
        let parent = request.tree.rows[slot].parent;
        let added = request.added.iter().any(|(to, new)| *to == parent && new == name);
        met("update: 8 for a rename onto an added column", added);
    }
}

/// Of 9: what is relaxed of the identifier, and of the structs above it.
fn identifier_shapes(case: &Case, refusal: Refusal, met: &mut impl FnMut(&'static str, bool)) {
    let Ask::Update { identifiers, .. } = &case.ask else { return };
    let request = Request::of(case).expect("9 comes after 4");
    let id = ids_of(identifiers)[refusal.place as usize];
    let Some(slot) = request.tree.rows.iter().position(|row| row.id == id) else { return };
    let relaxed: Vec<usize> = request
        .each()
        .filter(|(_, change)| **change == Change::Relax)
        .map(|(slot, _)| slot)
        .collect();
    met("update: 9 for an identifier that is relaxed", relaxed.contains(&slot));
    let above = path_up(&request.tree, slot)[1..].iter().any(|up| relaxed.contains(up));
    met("update: 9 for a struct above an identifier that is relaxed", above);
}
