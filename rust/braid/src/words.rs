//! A refusal in words: number, list and place, what it means, which column it speaks of and why,
//! and what to do. The numbers are the library's; what it does not tell is looked up here.

use std::path::Path;

use braidhurdle::layout::{MOST_LEVELS, RECORD_BYTES, Record};
use braidhurdle::names::quoted;
use braidhurdle::{Column, Field, FieldId, Kind, Refusal, RequestRef, Tree};

use crate::arguments::Addition;
use crate::changes::{self, Changes, receiver};
use crate::outline::{Outline, told};
use crate::{Fault, edits, explain, identifiers, limits, names, near, rules};

/// What the library was given.
pub struct Given<'a> {
    pub stem: &'a Path,
    pub tree: &'a Tree,
    /// The line of each column, where the tree comes from a picture.
    pub lines: Option<&'a [usize]>,
    pub identifiers: &'a [FieldId],
    pub ask: Asked<'a>,
}

/// What was asked of the tree.
pub enum Asked<'a> {
    LookUp,
    Folded { name: &'a [u8] },
    Ids { asked: usize },
    Prune { chosen: usize },
    Renumber { from: FieldId },
    Update { asked: changes::Asked<'a>, request: RequestRef<'a> },
}

impl<'a> Given<'a> {
    /// A tree alone.
    pub fn new(stem: &'a Path, tree: &'a Tree) -> Given<'a> {
        Given { stem, tree, lines: None, identifiers: &[], ask: Asked::LookUp }
    }

    /// The refusal in words.
    pub fn refused(&self, refusal: Refusal) -> Fault {
        let Refusal { number, list, place } = refusal;
        let (meaning, stands) = (refusal.meaning(), self.stands(refusal));
        let cure = explain::cure(number);
        Fault::Refused(format!(
            "refused {number} at {list} {place}: {meaning}: {stands}\n{cure}\n\
             `braid explain {number}` tells more."
        ))
    }

    /// Where the tree comes from.
    pub fn from(&self) -> String {
        match self.lines {
            Some(_) => names::picture(self.stem),
            None => names::file(self.stem),
        }
    }

    fn stands(&self, refusal: Refusal) -> String {
        let place = refusal.place as usize;
        match (refusal.number, refusal.list, &self.ask) {
            (2, ..) => limits::passed(self).join("; "),
            (9, ..) => self.identifier(place),
            (25, _, Asked::Update { asked, .. }) => {
                format!("this update names {}, and there are 2 and 3", asked.version)
            }
            (18, 0, Asked::Renumber { from }) => {
                format!("{} records from {from}", self.tree.records.len() / RECORD_BYTES)
            }
            (number, 0, _) => self.record(number, place),
            (11 | 12, _, Asked::Update { asked, .. }) => self.deletion(place, asked.dropped),
            (number, 3, Asked::Update { asked, .. }) => self.addition(number, place, asked),
            (number, 6, Asked::Update { asked, .. }) => edits::refused(self, number, place, asked),
            (number, 4, Asked::Update { asked, .. }) => self
                .rebuilt(number, place, asked)
                .unwrap_or_else(|| format!("record {place} of the rebuilt tree")),
            _ => format!("{}, place {place}", refusal.list_name()),
        }
    }

    /// The record at a place, and what is the matter with it.
    fn record(&self, number: u32, place: usize) -> String {
        let outline = Outline::of(self.tree);
        let Some(row) = outline.0.get(place) else { return self.counts(&outline) };
        let why = match number {
            3 => format!(": {}", self.broken(row.bytes)),
            4 => {
                let Record { offset, length, .. } = row.record;
                let (end, pool) = (u64::from(offset) + u64::from(length), self.tree.pool.len());
                format!(": its name ends at byte {end} of the pool, which has {pool}")
            }
            5 => format!(": it stands at level {} of at most {MOST_LEVELS}", row.level),
            6 => format!(": {}", rules::label(&outline, place)),
            7 | 8 => self.before(&outline, outline.equal(number, place)),
            20 => format!(", a {}", rules::kind(row.record)),
            21 => self.ambiguous(&outline),
            _ => String::new(),
        };
        self.at(&outline, place) + &why
    }

    /// The earlier one of two records that are not told apart.
    fn before(&self, outline: &Outline, earlier: Option<usize>) -> String {
        let words = |earlier| format!(", and before it {}", self.spot(outline, earlier));
        earlier.map(words).unwrap_or_default()
    }

    /// The first record that the name means where case is forgotten, and by which of its names.
    fn ambiguous(&self, outline: &Outline) -> String {
        let Asked::Folded { name } = self.ask else { return String::new() };
        let (full_or_short, alike) = outline.alike(name);
        let before = self.before(outline, alike.first().copied());
        format!("{before}: but for case {} is the {full_or_short} name of both", quoted(name))
    }

    /// A record with where it stands: in which files, or in which line of a picture.
    fn at(&self, outline: &Outline, slot: usize) -> String {
        let between = if self.lines.is_some() { "," } else { ":" };
        format!("{}{between} {}", self.from(), self.spot(outline, slot))
    }

    fn spot(&self, outline: &Outline, slot: usize) -> String {
        match self.lines {
            Some(lines) => format!("line {}: {}", lines[slot], outline.told(slot)),
            None => outline.told(slot),
        }
    }

    /// Whose children are missing.
    fn counts(&self, outline: &Outline) -> String {
        let waits = |slot: &usize| outline.0[*slot].missing > 0;
        let words = |slot: usize| {
            let counted = outline.0[slot].record.children;
            let there = counted - outline.0[slot].missing;
            format!("{} counts {counted} below it, and there are {there}", self.at(outline, slot))
        };
        (0..outline.0.len()).filter(waits).map(words).collect::<Vec<_>>().join("; ")
    }

    /// The byte rule that a record breaks, with the bytes; the lines of a picture have none.
    fn broken(&self, bytes: &[u8; RECORD_BYTES]) -> String {
        let (at, rule) = rules::broken(bytes);
        let shown: Vec<String> =
            bytes[at.clone()].iter().map(|byte| format!("{byte:02x}")).collect();
        match self.lines {
            Some(_) => rule,
            None if at.len() == 1 => format!("{rule}; byte {} is {}", at.start, shown.concat()),
            None => format!("{rule}; bytes {} to {} are {}", at.start, at.end - 1, shown.join(" ")),
        }
    }

    /// An identifier, and every condition that it breaks: of the tree as given or, where it breaks
    /// none there, of the tree after the update.
    fn identifier(&self, place: usize) -> String {
        let (from, id) = (self.from(), self.identifiers[place]);
        let columns = columns(self.tree);
        let Some(slot) = columns.iter().position(|column| column.id == id) else {
            return format!("{from}: identifier {place}, id {id}: no column has it");
        };
        let told = told_of(&columns[slot]);
        match identifiers::broken(&columns, slot) {
            none if none.is_empty() => {
                let after = self.identifier_after(slot).unwrap_or(told);
                format!("after the update: identifier {place}, {after}")
            }
            broken => format!("{from}: identifier {place}, {told}: {}", broken.join("; ")),
        }
    }

    /// The column of an identifier, the edits that relax it or what stands above it; or else the
    /// deletion that takes it away and, where a new column gets its id, why that one is no
    /// identifier.
    fn identifier_after(&self, slot: usize) -> Option<String> {
        let Asked::Update { asked, .. } = self.ask else { return None };
        let changes = Changes::of(self.tree, asked)?;
        let Some(goes) = self.goes(&changes, slot) else {
            return edits::relaxing(self, &changes, slot);
        };
        let rebuilt = Tree::build(&changes.rebuilt()).ok()?;
        let (old, new) = (columns(self.tree), columns(&rebuilt));
        let Some(again) = new.iter().position(|column| column.id == old[slot].id) else {
            return Some(goes);
        };
        let (told, broken) = (told_of(&new[again]), identifiers::broken(&new, again).join("; "));
        let last = asked.last_id;
        Some(format!(
            "{goes}, and {told} gets its id, since the last id {last} is below it: {broken}"
        ))
    }

    /// The struct that would receive an addition, and the deletion that takes it away. Additions
    /// behind this one, and edits, are not asked: their paths may lead nowhere.
    fn receiver_goes(&self, place: usize, asked: &changes::Asked) -> Option<String> {
        let asked = changes::Asked { added: &asked.added[..=place], edits: &[], ..*asked };
        let changes = Changes::of(self.tree, asked)?;
        self.goes(&changes, changes.receiver(place)?)
    }

    /// A column that goes, and the deletion that takes it away.
    pub fn goes(&self, changes: &Changes, slot: usize) -> Option<String> {
        let outer = changes.taken_by(slot)?;
        let drop = changes.drops.iter().position(|drop| *drop == outer)?;
        let outline = Outline::of(self.tree);
        let with = match outer == slot {
            true => String::new(),
            false => format!(": it goes with {}", outline.told(outer)),
        };
        Some(format!("{}{with}, which deletion {drop} drops", outline.told(slot)))
    }

    fn deletion(&self, place: usize, dropped: &[Vec<u8>]) -> String {
        let words = format!("deletion {place}, path {}", quoted(&dropped[place]));
        match self.found(&dropped[place]) {
            Some(column) => format!("{words}: {}{}", told_of(&column), self.as_identifier(&column)),
            None => words + &near::question(self.tree, &dropped[place]),
        }
    }

    /// Which identifier a column is, if it is one.
    fn as_identifier(&self, column: &Column) -> String {
        match self.identifiers.iter().position(|id| *id == column.id) {
            Some(which) => format!(", which is identifier {which}"),
            None => String::new(),
        }
    }

    fn addition(&self, number: u32, place: usize, asked: &changes::Asked) -> String {
        let Addition { what, under } = &asked.added[place];
        let name = quoted(&what.name);
        let parent = under.as_ref().and_then(|path| self.found(path));
        let why = match (number, parent) {
            (15, _) => self.no_parent(under.as_deref().unwrap_or_default(), asked.added),
            (16, Some(parent)) => format!(": {}, a {}", told_of(&parent), self.kinds(&parent)),
            (17, parent) => match self.taken(parent, &what.name) {
                Some(column) => {
                    let freed = edits::freed(self, asked, &column);
                    format!(": so is named {}{freed}", told_of(&column))
                }
                None => String::new(),
            },
            (22, _) => match self.receiver_goes(place, asked) {
                Some(words) => format!(": {words}"),
                None => String::new(),
            },
            (18, _) => {
                let new: usize =
                    asked.added[..=place].iter().map(|a| limits::columns(&a.what)).sum();
                format!(": new ids up to it: {new}; the last id: {}", asked.last_id)
            }
            _ => String::new(),
        };
        match under {
            Some(path) => format!("addition {place}, {name} under {}{why}", quoted(path)),
            None => format!("addition {place}, {name} at the root{why}"),
        }
    }

    /// Why there is no parent of this path.
    fn no_parent(&self, path: &[u8], added: &[Addition<Field>]) -> String {
        if added.iter().any(|addition| addition.what.name == path) {
            ": this update adds it, and paths are looked up in the tree as it was".into()
        } else {
            near::question(self.tree, path)
        }
    }

    /// The column that has the name of an addition already, under this parent or at the root.
    fn taken(&self, parent: Option<Column>, name: &[u8]) -> Option<Column<'a>> {
        let Some(parent) = parent else { return self.found(name) };
        let columns: Vec<Column> = self.tree.columns().ok()?.collect();
        let above = receiver(&columns, parent.slot.0 as usize)?;
        let is_in = |column: &Column| column.parent.is_some_and(|(_, p)| p.0 as usize == above);
        columns.into_iter().find(|column| column.name == name && is_in(column))
    }

    /// The kind of a column, and of what is in a list or map.
    fn kinds(&self, column: &Column) -> String {
        let outline = Outline::of(self.tree);
        let slot = Some(column.slot.0 as usize);
        match outline.0.iter().rev().find(|row| row.above == slot) {
            Some(child) if column.kind != Kind::Struct => {
                format!("{} of {} columns", column.kind, rules::kind(child.record))
            }
            _ => column.kind.to_string(),
        }
    }

    /// What is refused of the rebuilt tree, which is built here once more to be told.
    fn rebuilt(&self, number: u32, place: usize, asked: &changes::Asked) -> Option<String> {
        let changes = Changes::of(self.tree, *asked)?;
        let tree = Tree::build(&changes.rebuilt()).ok()?;
        let outline = Outline::of(&tree);
        if number == 19 {
            return Some(limits::of_tree("the rebuilt tree", &outline).join("; "));
        }
        let earlier = outline.equal(number, place)?;
        let (column, before) = (outline.told(place), outline.told(earlier));
        let why = match number {
            7 => format!("; the last id {} is below it", asked.last_id),
            _ => edits::renaming(asked, &changes, &outline, &[place, earlier]),
        };
        Some(format!("{column}, and before it {before}{why}"))
    }

    /// The column that a path finds.
    pub fn found(&self, path: &[u8]) -> Option<Column<'a>> {
        self.tree.column_by_name(path).ok()?
    }
}

/// The columns of a tree; none where it is refused.
pub fn columns(tree: &Tree) -> Vec<Column<'_>> {
    tree.columns().map(Iterator::collect).unwrap_or_default()
}

/// A column as `find` prints it.
pub fn told_of(column: &Column) -> String {
    told(column.id, column.slot.0 as usize, &column.full_name())
}
