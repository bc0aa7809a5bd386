//! Any list of records read for words, a refused one too: what stands below what, and the names.

use std::iter::successors;

use braidhurdle::layout::{RECORD_BYTES, Record};
use braidhurdle::names::shown;
use braidhurdle::{FieldId, Kind, Tree};

/// A record, and where it stands.
pub struct Row<'a> {
    pub bytes: &'a [u8; RECORD_BYTES],
    pub record: Record,
    /// The slot of the record above.
    pub above: Option<usize>,
    /// 1 for a root.
    pub level: usize,
    /// Which child it is of the record above, from 0.
    pub nth: u16,
    /// How many of its children are not there.
    pub missing: u16,
    name: Option<&'a [u8]>,
}

/// The records of a tree, in slot order.
pub struct Outline<'a>(pub Vec<Row<'a>>);

impl<'a> Outline<'a> {
    /// Counts are taken as they stand: whatever is refused, the records before it are in place.
    pub fn of(tree: &'a Tree) -> Outline<'a> {
        let mut rows: Vec<Row> = vec![];
        let mut open: Vec<usize> = vec![];
        let chunks = tree.records.chunks_exact(RECORD_BYTES).filter_map(|part| part.first_chunk());
        for (slot, bytes) in chunks.enumerate() {
            let record = Record::read(bytes);
            while open.last().is_some_and(|above| rows[*above].missing == 0) {
                open.pop();
            }
            let above = open.last().copied();
            let nth = above.map_or(0, |above| {
                rows[above].missing -= 1;
                rows[above].record.children - rows[above].missing - 1
            });
            let (level, missing) = (open.len() + 1, record.children);
            rows.push(Row {
                bytes,
                record,
                above,
                level,
                nth,
                missing,
                name: record.name(&tree.pool),
            });
            open.push(slot);
        }
        Outline(rows)
    }

    /// The names from the root down, joined by dots; a name that lies outside its pool is a dash.
    pub fn full_name(&self, slot: usize) -> Vec<u8> {
        self.joined(slot, |_| true)
    }

    /// The same without those above it that are a struct, and a list's element or a map's value.
    fn short_name(&self, slot: usize) -> Vec<u8> {
        let is_held = |slot: usize| match self.kind_above(slot) {
            Some(Kind::List) => true,
            Some(Kind::Map) => self.0[slot].nth == 1,
            _ => false,
        };
        self.joined(slot, |above| self.kind(above) != Some(Kind::Struct) || !is_held(above))
    }

    /// The names of those above that are said, and its own.
    fn joined(&self, slot: usize, said: impl Fn(usize) -> bool) -> Vec<u8> {
        let above = successors(self.0[slot].above, |above| self.0[*above].above);
        let slots = [slot].into_iter().chain(above.filter(|above| said(*above)));
        let mut names: Vec<&[u8]> = slots.map(|slot| self.0[slot].name.unwrap_or(b"-")).collect();
        names.reverse();
        names.join(&b'.')
    }

    fn kind(&self, slot: usize) -> Option<Kind> {
        Kind::from_number(self.0[slot].record.kind)
    }

    /// The kind of the record above.
    pub fn kind_above(&self, slot: usize) -> Option<Kind> {
        self.kind(self.0[slot].above?)
    }

    /// The records whose full name this is but for case, or, if there is none, whose short name it
    /// is; and the word for which.
    pub fn alike(&self, name: &[u8]) -> (&'static str, Vec<usize>) {
        let alike = |called: fn(&Self, usize) -> Vec<u8>| {
            let same = |slot: &usize| called(self, *slot).eq_ignore_ascii_case(name);
            (0..self.0.len()).filter(same).collect::<Vec<_>>()
        };
        match alike(Self::full_name) {
            full if full.is_empty() => ("short", alike(Self::short_name)),
            full => ("full", full),
        }
    }

    /// A record as `find` prints it.
    pub fn told(&self, slot: usize) -> String {
        told(self.0[slot].record.id, slot, &self.full_name(slot))
    }

    /// The first record before a slot that has the same id, for refusal 7, or else the same full
    /// name.
    pub fn equal(&self, number: u32, slot: usize) -> Option<usize> {
        let id = self.0.get(slot)?.record.id;
        match number {
            7 => (0..slot).find(|earlier| self.0[*earlier].record.id == id),
            _ => {
                let name = self.full_name(slot);
                (0..slot).find(|earlier| self.full_name(*earlier) == name)
            }
        }
    }
}

/// A column in words: id, slot and full name.
pub fn told(id: FieldId, slot: usize, full_name: &[u8]) -> String {
    format!("id {id} slot {slot} {}", shown(full_name))
}
