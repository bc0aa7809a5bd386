//! Pruning to chosen ids: refusal 20.

use std::collections::HashSet;

use crate::answer::{BASE, Changed, Refusal};
use crate::layout::{LIST, MAP, PRIMITIVE, STRUCT, ids};
use crate::limits::{Lent, OUT_NAMES, OUT_RECORDS, refusal_1, refusal_2};
use crate::lookup::distinct;
use crate::tree::{Node, Tree};
use crate::write::write;

/// The tree without what isn't chosen; `full` not 0 keeps the whole type of a chosen field.
pub fn prune(
    records: &[u8],
    pool: &[u8],
    selected: &[u8],
    full: u32,
    out_records: &mut [u8],
    out_names: &mut [u8],
) -> Changed {
    let sizes = [(out_records.len(), OUT_RECORDS), (out_names.len(), OUT_NAMES)];
    match refusal_1(&sizes).and_then(|()| pruned(records, pool, selected, full)) {
        Err(refusal) => refusal.into(),
        Ok(tree) => write(&tree, 0, out_records, out_names),
    }
}

/// The two places that 01 names, where Rust's `unwrap` panics.
#[derive(Clone, Copy, Debug, PartialEq, Eq)]
pub enum Unwrap {
    /// Nothing is yielded at the root.
    Root,
    /// A chosen map value of struct kind yields nothing, not full.
    Value,
}

/// Where Rust's `unwrap` would panic on the way, if it would. A panic comes before a 20 that
/// is met later.
pub fn prune_where_rust_panics(
    records: &[u8],
    pool: &[u8],
    selected: &[u8],
    full: u32,
) -> Option<Unwrap> {
    let tree = checked(records, pool, selected).ok()?;
    let mut pruner = Pruner::new(&tree, selected, full);
    match pruner.members(&tree.roots) {
        _ if pruner.unwraps => Some(Unwrap::Value),
        Ok(None) => Some(Unwrap::Root),
        _ => None,
    }
}

fn checked(records: &[u8], pool: &[u8], selected: &[u8]) -> Result<Tree, Refusal> {
    refusal_2(&[Lent::Tree(records), Lent::Pool(pool), Lent::Selected(selected)])?;
    distinct(records, pool)
}

fn pruned(records: &[u8], pool: &[u8], selected: &[u8], full: u32) -> Result<Tree, Refusal> {
    let tree = checked(records, pool, selected)?;
    let kept = Pruner::new(&tree, selected, full).members(&tree.roots)?;
    Ok(Tree::of(&kept.unwrap_or_default()))
}

struct Pruner<'a> {
    tree: &'a Tree,
    chosen: HashSet<i32>,
    full: bool,
    /// A chosen map value of struct kind yielded nothing, not full.
    unwraps: bool,
}

/// The nodes that a type yields, or nothing.
type Yield = Option<Vec<Node>>;

impl Pruner<'_> {
    fn new<'a>(tree: &'a Tree, selected: &[u8], full: u32) -> Pruner<'a> {
        let chosen = ids(selected).into_iter().collect();
        Pruner { tree, chosen, full: full != 0, unwraps: false }
    }

    fn chosen(&self, slot: usize) -> bool {
        self.chosen.contains(&self.tree.rows[slot].id)
    }

    /// Struct type: its members that yield something, else nothing.
    fn members(&mut self, slots: &[usize]) -> Result<Yield, Refusal> {
        let mut kept = vec![];
        for slot in slots {
            let inside = self.inside(*slot)?;
            kept.extend(self.field(*slot, inside)?);
        }
        Ok((!kept.is_empty()).then_some(kept))
    }

    /// A field, a list's element or a map's value, after its inside was visited.
    fn field(&self, slot: usize, inside: Yield) -> Result<Option<Node>, Refusal> {
        if !self.chosen(slot) {
            return Ok(inside.map(|nodes| self.tree.with(slot, nodes)));
        }
        if self.full {
            return Ok(Some(self.tree.whole(slot)));
        }
        self.refusal_20(slot)?;
        Ok(Some(self.tree.with(slot, inside.unwrap_or_default())))
    }

    /// refusal 20: pruning meets a list or map chosen directly, not in full mode.
    fn refusal_20(&self, slot: usize) -> Result<(), Refusal> {
        match self.tree.rows[slot].kind {
            LIST | MAP => Err(Refusal::new(20, BASE, slot)),
            _ => Ok(()),
        }
    }

    /// What the type of a record yields; children are visited before parents, in order.
    fn inside(&mut self, slot: usize) -> Result<Yield, Refusal> {
        let row = &self.tree.rows[slot];
        match row.kind {
            PRIMITIVE => Ok(None),
            STRUCT => self.members(&row.children),
            LIST => {
                let element = row.children[0];
                let inside = self.inside(element)?;
                Ok(self.field(element, inside)?.map(|node| vec![node]))
            }
            _ => self.map(row.children[0], row.children[1]),
        }
    }

    /// What the key's inside yields is ignored, but 20 raised there stands.
    fn map(&mut self, key: usize, value: usize) -> Result<Yield, Refusal> {
        self.inside(key)?;
        let inside = self.inside(value)?;
        let empty_struct = self.tree.rows[value].kind == STRUCT && inside.is_none();
        self.unwraps |= self.chosen(value) && !self.full && empty_struct;
        let kept = match self.field(value, inside)? {
            None if self.chosen(key) => Some(self.tree.whole(value)),
            kept => kept,
        };
        Ok(kept.map(|value| vec![self.tree.whole(key), value]))
    }
}
