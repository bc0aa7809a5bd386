//! A tree read for people, column by column.

use alloc::vec;
use alloc::vec::Vec;

use crate::layout::{DEFAULT, Kind, MOST_LEVELS, RECORD_BYTES, REQUIRED, Record};
use crate::{Field, FieldId, Refusal, Slot, Tree, TreeRef, c};

/// A column as it stands in a tree.
#[derive(Clone, Copy, Debug, PartialEq, Eq, Hash)]
pub struct Column<'a> {
    /// Its place in the list.
    pub slot: Slot,
    /// 1 for a root, and at most 16.
    pub level: usize,
    /// The column above it; none for a root.
    pub parent: Option<(FieldId, Slot)>,
    /// Its id.
    pub id: FieldId,
    /// Its own name, the very part of the pool that holds it.
    pub name: &'a [u8],
    /// What it is.
    pub kind: Kind,
    /// Must it have a value?
    pub required: bool,
    /// Has it an initial default?
    pub default: bool,
    /// The type code of a primitive; 0 for the others.
    pub type_code: u32,
    /// The number by which the host keeps doc and defaults.
    pub attribute: u32,
    /// How many columns stand directly below it.
    pub children: usize,
    /// The names from its root down to it.
    names: [&'a [u8]; MOST_LEVELS],
}

impl<'a> Column<'a> {
    /// Its own name as text; none where it is not UTF-8.
    #[must_use]
    pub fn name_str(&self) -> Option<&'a str> {
        core::str::from_utf8(self.name).ok()
    }

    /// The names from its root down to it, joined by dots.
    #[must_use]
    pub fn full_name(&self) -> Vec<u8> {
        self.names[..self.level].join(&b'.')
    }
}

/// The columns of an accepted tree, in slot order.
#[derive(Clone, Debug)]
#[must_use]
pub struct Columns<'a> {
    tree: TreeRef<'a>,
    next: usize,
    /// The columns from a root down to the last one, with the children that they still wait for.
    above: [(FieldId, Slot, u16); MOST_LEVELS],
    names: [&'a [u8]; MOST_LEVELS],
    level: usize,
}

impl Tree {
    /// The columns in slot order.
    ///
    /// ```
    /// # use braidhurdle::{Field, FieldId, Tree};
    /// let day = Field::primitive("day", 4).id(FieldId(2));
    /// let tree = Tree::build(&[Field::structure("visit", [day]).id(FieldId(1))])?;
    /// let columns: Vec<_> = tree.columns()?.collect();
    /// assert_eq!(columns[1].name_str(), Some("day"));
    /// assert_eq!(columns[1].full_name(), b"visit.day");
    /// assert_eq!(columns[1].parent, Some((FieldId(1), columns[0].slot)));
    /// # Ok::<(), Box<dyn std::error::Error>>(())
    /// ```
    ///
    /// # Errors
    ///
    /// Refusals 2 to 8.
    pub fn columns(&self) -> Result<Columns<'_>, Refusal> {
        self.lent().columns()
    }

    /// The column at a slot. A slot behind the last has none.
    ///
    /// # Errors
    ///
    /// Refusals 2 to 8.
    pub fn column(&self, slot: Slot) -> Result<Option<Column<'_>>, Refusal> {
        self.lent().column(slot)
    }

    /// The column of a full name, or else of a short name, as [`Tree::find_name`] finds it.
    ///
    /// ```
    /// # use braidhurdle::{Field, FieldId, Kind, Tree};
    /// # let day = Field::primitive("day", 4).id(FieldId(3));
    /// # let element = Field::structure("element", [day]).id(FieldId(2));
    /// # let tree = Tree::build(&[Field::list("visits", element).id(FieldId(1))])?;
    /// let day = tree.column_by_name("visits.day")?.ok_or("no such column")?;
    /// assert_eq!((day.id, day.kind, day.type_code), (FieldId(3), Kind::Primitive, 4));
    /// # Ok::<(), Box<dyn std::error::Error>>(())
    /// ```
    ///
    /// # Errors
    ///
    /// Refusals 2 to 8.
    pub fn column_by_name(&self, name: impl AsRef<[u8]>) -> Result<Option<Column<'_>>, Refusal> {
        self.lent().column_by_name(name)
    }

    /// The column of a name where case is forgotten, as [`Tree::find_folded`] finds it.
    ///
    /// # Errors
    ///
    /// Refusals 2 to 8 and 21.
    pub fn column_by_folded_name(
        &self,
        name: impl AsRef<[u8]>,
    ) -> Result<Option<Column<'_>>, Refusal> {
        self.lent().column_by_folded_name(name)
    }

    /// The columns of these ids, in their order, as [`Tree::find_ids`] finds them.
    ///
    /// ```
    /// # use braidhurdle::{Field, FieldId, Tree};
    /// # let day = Field::primitive("day", 4).id(FieldId(2));
    /// # let tree = Tree::build(&[Field::structure("visit", [day]).id(FieldId(1))])?;
    /// let columns = tree.columns_by_ids(&[FieldId(2), FieldId(9)])?;
    /// assert_eq!(columns[0].map(|day| day.full_name()), Some(b"visit.day".to_vec()));
    /// assert_eq!(columns[1], None);
    /// # Ok::<(), Box<dyn std::error::Error>>(())
    /// ```
    ///
    /// # Errors
    ///
    /// Refusals 2 to 8; 2 is for more than 1,024 ids too.
    pub fn columns_by_ids(&self, ids: &[FieldId]) -> Result<Vec<Option<Column<'_>>>, Refusal> {
        let slots = self.find_ids(ids)?;
        let columns: Vec<Column> = Columns::of_accepted(self.lent()).collect();
        Ok(slots.into_iter().map(|slot| columns.get(slot?.0 as usize).copied()).collect())
    }

    /// The roots with all that is inside them, as [`Tree::build`] takes them.
    ///
    /// # Errors
    ///
    /// Refusals 2 to 8.
    pub fn fields(&self) -> Result<Vec<Field>, Refusal> {
        let columns: Vec<Column> = self.columns()?.collect();
        // from the last column on: when one is met, its children are the last that were made
        let mut made = vec![];
        for column in columns.into_iter().rev() {
            let inside = (0..column.children).map_while(|_| made.pop()).collect();
            made.push(Field {
                id: column.id,
                name: column.name.to_vec(),
                kind: column.kind,
                required: column.required,
                default: column.default,
                type_code: column.type_code,
                attribute: column.attribute,
                inside,
            });
        }
        made.reverse();
        Ok(made)
    }
}

impl<'a> TreeRef<'a> {
    /// The columns in slot order.
    ///
    /// # Errors
    ///
    /// Refusals 2 to 8.
    pub fn columns(self) -> Result<Columns<'a>, Refusal> {
        self.check()?;
        Ok(Columns::of_accepted(self))
    }

    /// The column at a slot. A slot behind the last has none.
    ///
    /// # Errors
    ///
    /// Refusals 2 to 8.
    pub fn column(self, slot: Slot) -> Result<Option<Column<'a>>, Refusal> {
        Ok(self.columns()?.nth(slot.0 as usize))
    }

    /// The column of a full name, or else of a short name.
    ///
    /// # Errors
    ///
    /// Refusals 2 to 8.
    pub fn column_by_name(self, name: impl AsRef<[u8]>) -> Result<Option<Column<'a>>, Refusal> {
        self.find_name(name).map(|found| self.found_column(found))
    }

    /// The column of a name where case is forgotten.
    ///
    /// # Errors
    ///
    /// Refusals 2 to 8 and 21.
    pub fn column_by_folded_name(
        self,
        name: impl AsRef<[u8]>,
    ) -> Result<Option<Column<'a>>, Refusal> {
        self.find_folded(name).map(|found| self.found_column(found))
    }

    /// The column that a look-up found, which tested the tree before.
    fn found_column(self, found: Option<(FieldId, Slot)>) -> Option<Column<'a>> {
        let (_, slot) = found?;
        Columns::of_accepted(self).nth(slot.0 as usize)
    }

    /// The name at a slot, the very part of the pool that holds it; none where there is none.
    fn name(self, slot: Slot) -> Option<&'a [u8]> {
        let part = c::found_name(self.records, self.pool, slot.0);
        let from = (part.found == 1).then_some(part.offset as usize)?;
        self.pool.get(from..)?.get(..part.length as usize)
    }
}

impl<'a> Columns<'a> {
    /// The columns of a tree that passed 2 to 8.
    fn of_accepted(tree: TreeRef<'a>) -> Columns<'a> {
        let above = [(FieldId(0), Slot(0), 0); MOST_LEVELS];
        Columns { tree, next: 0, above, names: [&[]; MOST_LEVELS], level: 0 }
    }
}

impl<'a> Iterator for Columns<'a> {
    type Item = Column<'a>;

    /// Ends at the first record that an accepted tree can't have, so never early.
    fn next(&mut self) -> Option<Column<'a>> {
        let bytes = self.tree.records.get(self.next * RECORD_BYTES..)?.first_chunk()?;
        let record = Record::read(bytes);
        let name = self.tree.name(Slot(self.next as u32))?;
        let kind = Kind::from_number(record.kind)?;
        while self.level > 0 && self.above[self.level - 1].2 == 0 {
            self.level -= 1;
            self.names[self.level] = &[];
        }
        let parent = self.above[..self.level].last_mut().map(|(id, slot, left)| {
            *left -= 1;
            (*id, *slot)
        });
        let slot = Slot(self.next as u32);
        *self.above.get_mut(self.level)? = (record.id, slot, record.children);
        self.names[self.level] = name;
        self.level += 1;
        self.next += 1;
        Some(Column {
            slot,
            level: self.level,
            parent,
            id: record.id,
            name,
            kind,
            required: record.flags & REQUIRED != 0,
            default: record.flags & DEFAULT != 0,
            type_code: record.type_code,
            attribute: record.attribute,
            children: record.children.into(),
            names: self.names,
        })
    }

    fn size_hint(&self) -> (usize, Option<usize>) {
        let left = (self.tree.records.len() / RECORD_BYTES).saturating_sub(self.next);
        (left, Some(left))
    }
}

impl ExactSizeIterator for Columns<'_> {}
