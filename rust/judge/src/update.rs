//! Deleting, adding and editing columns: refusal 10 to refusal 19, and refusal 22 to refusal 26.

use std::collections::{HashMap, HashSet};

use crate::answer::{ADDED, ADDITIONS, BASE, Changed, DELETIONS, EDITS, REBUILT, Refusal, refuse};
use crate::index::{Names, refusal_7, refusal_8, refusal_9};
use crate::layout::{DEFAULT, LIST, MAP, PRIMITIVE, REQUIRED, STRUCT, ids};
use crate::limits::{
    LEVELS, Lent, MOST_RECORDS, NAME_SUM, OUT_NAMES, OUT_RECORDS, refusal_1, refusal_2,
};
use crate::promotions::{VERSIONS, is_step};
use crate::read::{Change, Edit, read_edits, read_paths, read_tree};
use crate::tree::{Node, Tree};
use crate::write::write;

/// What an update is lent to read, in the order of the C function. Whoever passes an update on
/// passes this value, so that an argument more is a field more here.
#[derive(Clone, Copy, Debug, PartialEq, Eq)]
pub struct UpdateCall<'a> {
    pub records: &'a [u8],
    pub pool: &'a [u8],
    pub identifiers: &'a [u8],
    pub last_id: i32,
    /// The format version whose steps widen types (02, 6/13).
    pub version: u32,
    pub deletions: &'a [u8],
    pub additions: &'a [u8],
    pub added_records: &'a [u8],
    pub edits: &'a [u8],
    pub request_pool: &'a [u8],
}

/// What becomes of an addition beneath a dropped member.
#[derive(Clone, Copy, PartialEq, Eq)]
enum Beneath {
    /// It vanishes, and its ids stay consumed: 01.
    Vanishes,
    /// It is refused: 02, 3/13.
    Refused,
}

/// The tree after the deletions, additions and edits, the last id consumed, and how many records
/// were visited.
pub fn update(call: &UpdateCall, out_records: &mut [u8], out_names: &mut [u8]) -> Changed {
    update_by(Beneath::Refused, call, out_records, out_names)
}

/// The same as it was before 3/13, which is what Rust does: without 22.
pub fn update_before_22(
    call: &UpdateCall,
    out_records: &mut [u8],
    out_names: &mut [u8],
) -> Changed {
    update_by(Beneath::Vanishes, call, out_records, out_names)
}

fn update_by(
    beneath: Beneath,
    call: &UpdateCall,
    out_records: &mut [u8],
    out_names: &mut [u8],
) -> Changed {
    let sizes = [(out_records.len(), OUT_RECORDS), (out_names.len(), OUT_NAMES)];
    match refusal_1(&sizes).and_then(|()| call.updated(beneath)) {
        Err(refusal) => refusal.into(),
        Ok((tree, last_id, visited)) => {
            Changed { visited, ..write(&tree, last_id, out_records, out_names) }
        }
    }
}

impl<'a> UpdateCall<'a> {
    /// Its lists.
    pub fn lists(&self) -> [&'a [u8]; 8] {
        let UpdateCall {
            records,
            pool,
            identifiers,
            last_id: _,
            version: _,
            deletions,
            additions,
            added_records,
            edits,
            request_pool,
        } = *self;
        [records, pool, identifiers, deletions, additions, added_records, edits, request_pool]
    }

    /// The same call with other lists.
    pub fn with_lists<'b>(&self, lists: [&'b [u8]; 8]) -> UpdateCall<'b> {
        let [records, pool, identifiers, deletions, additions, added_records, edits, request_pool] =
            lists;
        UpdateCall {
            records,
            pool,
            identifiers,
            last_id: self.last_id,
            version: self.version,
            deletions,
            additions,
            added_records,
            edits,
            request_pool,
        }
    }

    /// The order of 01 and 02: 2 for everything; 25; base 3 to 6; additions tree 3 to 6; deletion
    /// entries 3, 4; addition entries 3, 4; edits 3, 4; base 7 to 9; 10; deletions one at a time;
    /// additions one at a time; edits one at a time; 19; rebuilt tree 7 to 9.
    fn updated(&self, beneath: Beneath) -> Result<(Tree, i32, u32), Refusal> {
        let (rebuilt, last_id, visited) = self.planned(beneath)?;
        refusal_7(&rebuilt, REBUILT)?;
        refusal_8(&rebuilt, REBUILT)?;
        refusal_9(&rebuilt, &ids(self.identifiers))?;
        Ok((rebuilt, last_id, visited))
    }

    /// The rebuilt tree before 7 to 9 are asked of it.
    pub fn rebuilt(&self) -> Result<Tree, Refusal> {
        Ok(self.planned(Beneath::Refused)?.0)
    }

    fn planned(&self, beneath: Beneath) -> Result<(Tree, i32, u32), Refusal> {
        self.limits()?;
        refusal_25(self.version)?;
        let base = read_tree(self.records, self.pool, BASE)?;
        let added = read_tree(self.added_records, self.request_pool, ADDED)?;
        let deletions = read_paths(self.deletions, self.request_pool, DELETIONS)?;
        let additions = read_paths(self.additions, self.request_pool, ADDITIONS)?;
        let edits = read_edits(self.edits, self.request_pool)?;
        let identifiers = ids(self.identifiers);
        refusal_7(&base, BASE)?;
        refusal_8(&base, BASE)?;
        refusal_9(&base, &identifiers)?;
        refusal_10(added.roots.len(), additions.len())?;
        let names = Names::of(&base);
        let dropped = dropped(&base, &names, &identifiers, &deletions)?;
        let mut plan = Plan {
            beneath,
            version: self.version,
            base: &base,
            names,
            dropped,
            last_id: self.last_id,
            placed: vec![],
            renamed: HashMap::new(),
            relaxed: HashSet::new(),
            widened: HashMap::new(),
        };
        for (place, (path, column)) in additions.iter().zip(added.nodes()).enumerate() {
            plan.add(place, path.as_deref(), column)?;
        }
        for (place, edit) in edits.iter().enumerate() {
            plan.edit(place, edit)?;
        }
        let rebuilt = Tree::of(&plan.members(&base.roots, None));
        refusal_19(&rebuilt)?;
        Ok((rebuilt, plan.last_id, plan.visited()))
    }

    fn limits(&self) -> Result<(), Refusal> {
        refusal_2(&[
            Lent::Tree(self.records),
            Lent::Pool(self.pool),
            Lent::Identifiers(self.identifiers),
            Lent::Deletions(self.deletions),
            Lent::Additions(self.additions),
            Lent::Tree(self.added_records),
            Lent::Edits(self.edits),
            Lent::Pool(self.request_pool),
        ])
    }
}

/// refusal 25: the request names a version that is not known (02, 6/13).
fn refusal_25(version: u32) -> Result<(), Refusal> {
    refuse(25, BASE, (!VERSIONS.contains(&version)).then_some(0))
}

/// refusal 10: the roots of the additions tree differ from the additions in number.
fn refusal_10(roots: usize, additions: usize) -> Result<(), Refusal> {
    refuse(10, ADDITIONS, (roots != additions).then_some(0))
}

/// The ids that the deletions find, tested one at a time.
fn dropped(
    base: &Tree,
    names: &Names,
    identifiers: &[i32],
    deletions: &[Option<Vec<u8>>],
) -> Result<HashSet<i32>, Refusal> {
    let mut dropped = HashSet::new();
    for (place, path) in deletions.iter().enumerate() {
        let found = path.as_deref().and_then(|path| names.find(path));
        let id = base.rows[refusal_11(found, place)?].id;
        refusal_12(id, identifiers, place)?;
        dropped.insert(id);
    }
    Ok(dropped)
}

/// refusal 11: a deletion finds no column.
fn refusal_11(found: Option<usize>, place: usize) -> Result<usize, Refusal> {
    found.ok_or(Refusal::new(11, DELETIONS, place))
}

/// refusal 12: a deletion finds an identifier.
fn refusal_12(id: i32, identifiers: &[i32], place: usize) -> Result<(), Refusal> {
    refuse(12, DELETIONS, identifiers.contains(&id).then_some(place))
}

/// refusal 13: the added column's own name, or the new name of an edit, has a dot.
fn refusal_13(name: &[u8], list: u32, place: usize) -> Result<(), Refusal> {
    refuse(13, list, name.contains(&b'.').then_some(place))
}

/// refusal 14: the added column is required, without initial default.
fn refusal_14(column: &Node, place: usize) -> Result<(), Refusal> {
    let required = column.flags & REQUIRED != 0 && column.flags & DEFAULT == 0;
    refuse(14, ADDITIONS, required.then_some(place))
}

/// refusal 15: the parent path finds nothing.
fn refusal_15(found: Option<usize>, place: usize) -> Result<usize, Refusal> {
    found.ok_or(Refusal::new(15, ADDITIONS, place))
}

/// refusal 16: the parent leads to no struct: it is none itself, and neither is its
/// element or its value (one step). Answers the receiving struct.
fn refusal_16(base: &Tree, parent: usize, place: usize) -> Result<usize, Refusal> {
    let row = &base.rows[parent];
    let step = match row.kind {
        LIST => row.children[0],
        MAP => row.children[1],
        _ => parent,
    };
    match base.rows[step].kind {
        STRUCT => Ok(step),
        _ => Err(Refusal::new(16, ADDITIONS, place)),
    }
}

/// refusal 18 in an update: an id would pass 2,147,483,647.
fn refusal_18(last_id: i32, records: usize, place: usize) -> Result<(), Refusal> {
    let past = i64::from(last_id) + records as i64 > i64::from(i32::MAX);
    refuse(18, ADDITIONS, past.then_some(place))
}

/// refusal 19: the rebuilt tree passes a limit on trees.
fn refusal_19(tree: &Tree) -> Result<(), Refusal> {
    let deep = tree.rows.iter().any(|row| row.level > LEVELS);
    let sum: usize = tree.rows.iter().map(|row| row.name.len()).sum();
    let past = tree.rows.len() > MOST_RECORDS || deep || sum > NAME_SUM;
    refuse(19, REBUILT, past.then_some(0))
}

/// What will stand in the rebuilt tree.
struct Plan<'a> {
    beneath: Beneath,
    version: u32,
    base: &'a Tree,
    names: Names,
    dropped: HashSet<i32>,
    /// The last id consumed so far.
    last_id: i32,
    /// Each accepted column with the slot of its receiving struct; none is the root.
    placed: Vec<(Option<usize>, Node)>,
    /// The new names of base columns, by their slots.
    renamed: HashMap<usize, Vec<u8>>,
    /// The slots of base columns that are relaxed.
    relaxed: HashSet<usize>,
    /// The new type codes of base columns, by their slots.
    widened: HashMap<usize, u32>,
}

impl Plan<'_> {
    /// One addition: 13 to 16, 22, 17 and 18 in this order, then its ids.
    fn add(&mut self, place: usize, path: Option<&[u8]>, mut column: Node) -> Result<(), Refusal> {
        refusal_13(&column.name, ADDITIONS, place)?;
        refusal_14(&column, place)?;
        let receiver = match path {
            None => None,
            Some(path) => {
                let parent = refusal_15(self.names.find(path), place)?;
                let receiver = refusal_16(self.base, parent, place)?;
                if self.beneath == Beneath::Refused {
                    self.refusal_22(receiver, place)?;
                }
                Some(receiver)
            }
        };
        self.refusal_17(receiver, &column.name, place)?;
        refusal_18(self.last_id, size(&column), place)?;
        number(&mut column, &mut self.last_id);
        self.placed.push((receiver, column));
        Ok(())
    }

    /// One edit: 23, 24, 13 and 26 in this order, then what it changes.
    fn edit(&mut self, place: usize, edit: &Edit) -> Result<(), Refusal> {
        let slot = self.refusal_23(&edit.path, place)?;
        self.refusal_24(slot, &edit.change, place)?;
        match &edit.change {
            Change::Rename(name) => {
                refusal_13(name, EDITS, place)?;
                self.renamed.insert(slot, name.clone());
            }
            Change::Relax => {
                self.relaxed.insert(slot);
            }
            Change::Widen(code) => {
                self.refusal_26(slot, *code, place)?;
                self.widened.insert(slot, *code);
            }
        }
        Ok(())
    }

    fn is_dropped(&self, slot: usize) -> bool {
        self.dropped.contains(&self.base.rows[slot].id)
    }

    fn above(&self, slot: usize) -> Option<usize> {
        self.base.rows[slot].parent
    }

    /// Is it a root or a member of a struct, and so no element, key or value?
    fn is_member(&self, slot: usize) -> bool {
        self.above(slot).is_none_or(|above| self.base.rows[above].kind == STRUCT)
    }

    /// Is the record, or any above it, dropped as a member of a struct or of the root? A dropped
    /// element, key or value stays, and is no reason.
    fn goes(&self, slot: usize) -> bool {
        let mut path = std::iter::successors(Some(slot), |slot| self.above(*slot));
        path.any(|slot| self.is_member(slot) && self.is_dropped(slot))
    }

    /// refusal 22: the receiving struct goes.
    fn refusal_22(&self, receiver: usize, place: usize) -> Result<(), Refusal> {
        refuse(22, ADDITIONS, self.goes(receiver).then_some(place))
    }

    /// refusal 23: no surviving column. The path finds nothing in the base, or what goes.
    fn refusal_23(&self, path: &[u8], place: usize) -> Result<usize, Refusal> {
        let found = self.names.find(path).filter(|slot| !self.goes(*slot));
        found.ok_or(Refusal::new(23, EDITS, place))
    }

    /// refusal 24: a forbidden role: a rename of an element, key or value, a relaxing of a key; or
    /// a second rename of the same column, or a second widening. Any role is widened.
    fn refusal_24(&self, slot: usize, change: &Change, place: usize) -> Result<(), Refusal> {
        let key = |above: usize| {
            let row = &self.base.rows[above];
            row.kind == MAP && row.children[0] == slot
        };
        let forbidden = match change {
            Change::Rename(_) => !self.is_member(slot) || self.renamed.contains_key(&slot),
            Change::Relax => self.above(slot).is_some_and(key),
            Change::Widen(_) => self.widened.contains_key(&slot),
        };
        refuse(24, EDITS, forbidden.then_some(place))
    }

    /// refusal 26: the version has no step from the column's type in the base to the new one, or
    /// the column is no primitive.
    fn refusal_26(&self, slot: usize, code: u32, place: usize) -> Result<(), Refusal> {
        let row = &self.base.rows[slot];
        let step = row.kind == PRIMITIVE && is_step(self.version, row.type_code, code);
        refuse(26, EDITS, (!step).then_some(place))
    }

    /// refusal 17: the name is taken. At the root if look-up finds it undeleted. Under a
    /// parent if a direct member has it, that member isn't dropped, and the receiving
    /// struct's id isn't dropped.
    fn refusal_17(
        &self,
        receiver: Option<usize>,
        name: &[u8],
        place: usize,
    ) -> Result<(), Refusal> {
        let taken = match receiver {
            None => self.names.find(name).is_some_and(|slot| !self.is_dropped(slot)),
            Some(receiver) => {
                let members = &self.base.rows[receiver].children;
                let has = |m: &usize| self.base.rows[*m].name == name && !self.is_dropped(*m);
                !self.is_dropped(receiver) && members.iter().any(has)
            }
        };
        refuse(17, ADDITIONS, taken.then_some(place))
    }

    /// The records visited (02, 7/13), told from the base and the request alone: each base record
    /// with no dropped member above it, so that a dropped member counts and its inside does not;
    /// and each added one in the tree.
    fn visited(&self) -> u32 {
        let beneath = |above: Option<usize>| above.is_some_and(|above| self.goes(above));
        let base = (0..self.base.rows.len()).filter(|slot| !beneath(self.above(*slot))).count();
        let in_the_tree = self.placed.iter().filter(|(receiver, _)| !beneath(*receiver));
        let added: usize = in_the_tree.map(|(_, column)| size(column)).sum();
        u32::try_from(base + added).expect("2,048 at most")
    }

    /// The root list or a struct: the dropped members go with their subtrees, and
    /// additions follow the survivors in entry order.
    fn members(&self, slots: &[usize], receiver: Option<usize>) -> Vec<Node> {
        let survivors = slots.iter().filter(|slot| !self.is_dropped(**slot));
        let mut members: Vec<Node> = survivors.map(|slot| self.record(*slot)).collect();
        let here = self.placed.iter().filter(|(at, _)| *at == receiver);
        members.extend(here.map(|(_, column)| column.clone()));
        members
    }

    /// A record that stays, with its edits. A dropped list element, key or value stays too.
    fn record(&self, slot: usize) -> Node {
        let row = &self.base.rows[slot];
        let inside = match row.kind {
            STRUCT => self.members(&row.children, Some(slot)),
            _ => row.children.iter().map(|child| self.record(*child)).collect(),
        };
        let mut record = self.base.with(slot, inside);
        if let Some(name) = self.renamed.get(&slot) {
            record.name = name.clone();
        }
        if self.relaxed.contains(&slot) {
            record.flags &= !REQUIRED;
        }
        if let Some(code) = self.widened.get(&slot) {
            record.type_code = *code;
        }
        record
    }
}

fn size(node: &Node) -> usize {
    1 + node.inside.iter().map(size).sum::<usize>()
}

/// Gives ids in preorder from the last id + 1, and moves it on. 18 was tested.
fn number(node: &mut Node, last_id: &mut i32) {
    *last_id += 1;
    node.id = *last_id;
    node.inside.iter_mut().for_each(|child| number(child, last_id));
}
