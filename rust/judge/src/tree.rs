//! A tree that passed 3 to 6, in two forms: nested nodes, and rows in slot order.

use crate::layout::{LIST, MAP, STRUCT};

/// A record with its inside.
#[derive(Clone, Debug, PartialEq, Eq)]
pub struct Node {
    pub id: i32,
    pub name: Vec<u8>,
    pub kind: u8,
    pub flags: u8,
    pub type_code: u32,
    pub attribute: u32,
    pub inside: Vec<Node>,
}

/// A record in its slot.
#[derive(Clone, Debug)]
pub struct Row {
    pub id: i32,
    pub name: Vec<u8>,
    pub kind: u8,
    pub flags: u8,
    pub type_code: u32,
    pub attribute: u32,
    /// Roots are level 1.
    pub level: usize,
    /// The slot of the record above.
    pub parent: Option<usize>,
    /// The slots of the direct children.
    pub children: Vec<usize>,
}

/// The rows of a tree in slot order, and the slots of its roots.
#[derive(Clone, Debug, Default)]
pub struct Tree {
    pub rows: Vec<Row>,
    pub roots: Vec<usize>,
}

impl Tree {
    /// The rows of these root trees, in preorder.
    pub fn of(roots: &[Node]) -> Tree {
        let mut tree = Tree::default();
        for root in roots {
            let slot = tree.put(root, None, 1);
            tree.roots.push(slot);
        }
        tree
    }

    fn put(&mut self, node: &Node, parent: Option<usize>, level: usize) -> usize {
        let slot = self.rows.len();
        self.rows.push(Row {
            id: node.id,
            name: node.name.clone(),
            kind: node.kind,
            flags: node.flags,
            type_code: node.type_code,
            attribute: node.attribute,
            level,
            parent,
            children: vec![],
        });
        for child in &node.inside {
            let at = self.put(child, Some(slot), level + 1);
            self.rows[slot].children.push(at);
        }
        slot
    }

    /// The record in a slot, with another inside.
    pub fn with(&self, slot: usize, inside: Vec<Node>) -> Node {
        let row = &self.rows[slot];
        Node {
            id: row.id,
            name: row.name.clone(),
            kind: row.kind,
            flags: row.flags,
            type_code: row.type_code,
            attribute: row.attribute,
            inside,
        }
    }

    /// The record in a slot with its whole inside.
    pub fn whole(&self, slot: usize) -> Node {
        self.with(slot, self.rows[slot].children.iter().map(|c| self.whole(*c)).collect())
    }

    /// The root trees.
    pub fn nodes(&self) -> Vec<Node> {
        self.roots.iter().map(|r| self.whole(*r)).collect()
    }

    /// The names from root to record joined by dots.
    pub fn full_name(&self, slot: usize) -> Vec<u8> {
        self.joined(slot, |_| true)
    }

    /// The full name without each proper ancestor that is a list element or map value of
    /// kind struct. Map keys stay, and so does the record's own name.
    pub fn short_name(&self, slot: usize) -> Vec<u8> {
        self.joined(slot, |above| !self.left_out(above))
    }

    fn left_out(&self, slot: usize) -> bool {
        let Some(parent) = self.rows[slot].parent else { return false };
        let above = &self.rows[parent];
        let element = above.kind == LIST;
        let value = above.kind == MAP && above.children[1] == slot;
        self.rows[slot].kind == STRUCT && (element || value)
    }

    fn joined(&self, slot: usize, keep: impl Fn(usize) -> bool) -> Vec<u8> {
        let mut parts = vec![self.rows[slot].name.clone()];
        let mut next = self.rows[slot].parent;
        while let Some(above) = next {
            if keep(above) {
                parts.push(self.rows[above].name.clone());
            }
            next = self.rows[above].parent;
        }
        parts.reverse();
        parts.join(&b'.')
    }

    /// The slots in the order in which names are entered: a record after its inside; a
    /// map's key only after the key's inside and the value's inside, then the value.
    pub fn entry_order(&self) -> Vec<usize> {
        let mut order = vec![];
        for root in &self.roots {
            self.enter_inside(*root, &mut order);
            order.push(*root);
        }
        order
    }

    fn enter_inside(&self, slot: usize, order: &mut Vec<usize>) {
        let children = &self.rows[slot].children;
        if self.rows[slot].kind == MAP {
            children.iter().for_each(|c| self.enter_inside(*c, order));
            order.extend(children);
        } else {
            for child in children {
                self.enter_inside(*child, order);
                order.push(*child);
            }
        }
    }
}
