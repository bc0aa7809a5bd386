//! Trees, lent and owned, and what can be asked of them.

use alloc::vec;
use alloc::vec::Vec;

use crate::layout::{ID_BYTES, MOST_ASKED, MOST_IDENTIFIERS, MOST_SELECTED, RECORD_BYTES};
use crate::{FieldId, Refusal, Request, RequestRef, Room, Slot, c};

/// A tree of columns: 24-byte records in preorder, and the pool that holds their names. Any bytes
/// may stand in it: what is malformed is refused when something is asked.
#[derive(Clone, Debug, Default, PartialEq, Eq, Hash)]
pub struct Tree {
    /// The records, 24 bytes each.
    pub records: Vec<u8>,
    /// The names.
    pub pool: Vec<u8>,
}

/// A tree whose bytes are lent: what [`Tree`] owns, or a part of a file or a [`Room`]. No look-up
/// and no change of it allocates.
#[derive(Clone, Copy, Debug, Default, PartialEq, Eq, Hash)]
pub struct TreeRef<'a> {
    /// The records, 24 bytes each.
    pub records: &'a [u8],
    /// The names.
    pub pool: &'a [u8],
}

/// What an accepted update gives.
///
/// ```
/// use braidhurdle::{Field, FieldId, Request, Tree, Type, Updated};
///
/// let cost = Field::primitive("cost", Type::Int).id(FieldId(2));
/// let node = Field::structure("node", [cost]).id(FieldId(1));
/// let tree = Tree::build(&[node, Field::primitive("site", Type::Int).id(FieldId(3))])?;
/// let floor = Field::primitive("floor", Type::Int);
/// let request = Request::new(FieldId(3)).drop("node")?.add(floor)?;
///
/// let Updated { tree, last_id, visited } = tree.update(&request)?;
/// assert_eq!(tree.to_string(), "3 site: int\n4 floor: int\n");
/// assert_eq!(last_id, FieldId(4));
/// // `node`, `site` and `floor`: what is inside a dropped column is not visited.
/// assert_eq!(visited, 3);
/// # Ok::<(), Box<dyn std::error::Error>>(())
/// ```
#[derive(Clone, Copy, Debug, Default, PartialEq, Eq, Hash)]
pub struct Updated<T = Tree> {
    /// The tree after the update.
    pub tree: T,
    /// The last id that was consumed: keep it, and give it to the next request.
    pub last_id: FieldId,
    /// The records visited in the rebuild, to plan a time slot by: each record of the tree as it
    /// was with no dropped member of a struct or of the root above it, and each added record. So a
    /// dropped member counts, and what stands inside it does not. An element, key or value that is
    /// dropped stays, and is no reason to leave out what stands inside it. At most the records of
    /// the tree as it was and those added; and at most 1,088, since an answer has at most 1,024
    /// records and a request at most 64 deletions.
    pub visited: u32,
}

/// What an accepted renumbering gives.
#[derive(Clone, Copy, Debug, Default, PartialEq, Eq, Hash)]
pub struct Renumbered<T = Tree, I = Vec<FieldId>> {
    /// The tree with its new ids.
    pub tree: T,
    /// The identifiers' new ids, in the order given.
    pub identifiers: I,
}

/// What pruning keeps of a column that is chosen.
#[derive(Clone, Copy, Debug, Default, PartialEq, Eq, Hash)]
pub enum Mode {
    /// The column, with those columns inside it that are chosen too. A list or map can't be chosen
    /// so: refusal 20.
    #[default]
    Plain,
    /// The column with all that is inside it.
    Full,
}

impl Tree {
    /// The tree of these bytes.
    #[must_use]
    pub fn new(records: Vec<u8>, pool: Vec<u8>) -> Tree {
        Tree { records, pool }
    }

    /// The same tree, lent.
    #[must_use]
    pub fn lent(&self) -> TreeRef<'_> {
        TreeRef { records: &self.records, pool: &self.pool }
    }

    /// Drops, adds and edits columns. New ones come behind those that stay, in the order of the
    /// request.
    ///
    /// # Errors
    ///
    /// Refusals 2 to 19, 22 to 24 and 26.
    pub fn update(&self, request: &Request) -> Result<Updated, Refusal> {
        let mut room = Room::boxed();
        let Updated { tree, last_id, visited } =
            self.lent().update_in(request.lent(), &mut room)?;
        Ok(Updated { tree: tree.to_tree(), last_id, visited })
    }

    /// Keeps the chosen columns and what stands above them. Ids that the tree has not are ignored.
    ///
    /// # Errors
    ///
    /// Refusals 2 to 8 and 20.
    pub fn prune(&self, chosen: &[FieldId], mode: Mode) -> Result<Tree, Refusal> {
        let mut room = Room::boxed();
        Ok(self.lent().prune_in(chosen, mode, &mut room)?.to_tree())
    }

    /// Numbers every column anew from `start` on, and maps the identifiers in the order given. The
    /// old ids then mean nothing: no data file that carries them fits the new tree.
    ///
    /// # Errors
    ///
    /// Refusals 2 to 9 and 18.
    pub fn renumber(&self, start: FieldId, identifiers: &[FieldId]) -> Result<Renumbered, Refusal> {
        let mut room = Room::boxed();
        let renumbered = self.lent().renumber_in(start, identifiers, &mut room)?;
        Ok(Renumbered {
            tree: renumbered.tree.to_tree(),
            identifiers: renumbered.identifiers.to_vec(),
        })
    }

    /// The column of a full name, or else of a short name, which leaves out the structs that are a
    /// list's element or a map's value: `visits.day` finds `visits.element.day`. Any bytes are a
    /// name.
    ///
    /// # Errors
    ///
    /// Refusals 2 to 8.
    pub fn find_name(&self, name: impl AsRef<[u8]>) -> Result<Option<(FieldId, Slot)>, Refusal> {
        self.lent().find_name(name)
    }

    /// The column of a full name, or else of a short name, where case is forgotten: for names that
    /// people type. A to Z equal a to z, and no other byte folds. Where two or more columns match
    /// by their full names, or, if none does, by their short names, it is refused, whether or not
    /// one is spelt as asked: the place is the slot of the second.
    ///
    /// ```
    /// use braidhurdle::{Field, FieldId, RefusalKind, Slot, Tree};
    ///
    /// let cost = Field::primitive("cost", 3).id(FieldId(2));
    /// let node = Field::structure("node", [cost]).id(FieldId(1));
    /// let tree = Tree::build(&[node.clone()])?;
    /// assert_eq!(tree.find_folded("Node.Cost")?, Some((FieldId(2), Slot(1))));
    ///
    /// // Which of the two is meant nobody can say; exactly spelt they are told apart.
    /// let tree = Tree::build(&[node, Field::primitive("Node", 9).id(FieldId(3))])?;
    /// let refusal = tree.find_folded("node").unwrap_err();
    /// assert_eq!((refusal.kind(), refusal.place), (Some(RefusalKind::Ambiguous), 2));
    /// assert_eq!(tree.find_name("Node")?, Some((FieldId(3), Slot(2))));
    /// # Ok::<(), Box<dyn std::error::Error>>(())
    /// ```
    ///
    /// # Errors
    ///
    /// Refusals 2 to 8 and 21.
    pub fn find_folded(&self, name: impl AsRef<[u8]>) -> Result<Option<(FieldId, Slot)>, Refusal> {
        self.lent().find_folded(name)
    }

    /// The slot of an id.
    ///
    /// # Errors
    ///
    /// Refusals 2 to 8.
    pub fn find_id(&self, id: FieldId) -> Result<Option<Slot>, Refusal> {
        self.lent().find_id(id)
    }

    /// The slot of each of these ids, in their order; none where the tree has no such id. The tree
    /// is tested once for all of them, where [`Tree::find_id`] tests it for each.
    ///
    /// ```
    /// use braidhurdle::{Field, FieldId, RefusalKind, Slot, Tree};
    ///
    /// let cost = Field::primitive("cost", 3).id(FieldId(7));
    /// let tree = Tree::build(&[Field::structure("node", [cost]).id(FieldId(3))])?;
    /// let slots = tree.find_ids(&[FieldId(7), FieldId(99), FieldId(3)])?;
    /// assert_eq!(slots, [Some(Slot(1)), None, Some(Slot(0))]);
    ///
    /// // More than 1,024 ids at once are refused.
    /// let refusal = tree.find_ids(&[FieldId(7); 1_025]).unwrap_err();
    /// assert_eq!(refusal.kind(), Some(RefusalKind::PastLimit));
    /// # Ok::<(), Box<dyn std::error::Error>>(())
    /// ```
    ///
    /// # Errors
    ///
    /// Refusals 2 to 8; 2 is for more than 1,024 ids too.
    pub fn find_ids(&self, ids: &[FieldId]) -> Result<Vec<Option<Slot>>, Refusal> {
        let mut slots = vec![None; ids.len()];
        self.lent().find_ids_in(ids, &mut slots)?;
        Ok(slots)
    }

    /// The column above that of an id. A root and an unknown id have none.
    ///
    /// # Errors
    ///
    /// Refusals 2 to 8.
    pub fn find_parent(&self, id: FieldId) -> Result<Option<(FieldId, Slot)>, Refusal> {
        self.lent().find_parent(id)
    }

    /// Would the tree be accepted as a base?
    ///
    /// # Errors
    ///
    /// Refusals 2 to 8.
    pub fn check(&self) -> Result<(), Refusal> {
        self.lent().check()
    }

    /// Would the tree be accepted as a base with these identifiers? Each must be a required
    /// primitive, no float and no double, with nothing above it but required structs.
    ///
    /// ```
    /// use braidhurdle::{Field, FieldId, RefusalKind, Tree};
    ///
    /// let serial = Field::primitive("serial", 9).id(FieldId(2)).required();
    /// let node = Field::structure("node", [serial]).id(FieldId(1));
    ///
    /// // The struct above it is optional, so a row may have no serial number.
    /// let refusal = Tree::build(&[node.clone()])?.check_identifiers(&[FieldId(2)]).unwrap_err();
    /// assert_eq!((refusal.number, refusal.list, refusal.place), (9, 5, 0));
    /// assert_eq!(refusal.kind(), Some(RefusalKind::UnknownIdentifier));
    ///
    /// assert_eq!(Tree::build(&[node.required()])?.check_identifiers(&[FieldId(2)]), Ok(()));
    /// # Ok::<(), Box<dyn std::error::Error>>(())
    /// ```
    ///
    /// # Errors
    ///
    /// Refusals 2 to 9.
    pub fn check_identifiers(&self, identifiers: &[FieldId]) -> Result<(), Refusal> {
        // a renumbering asks 2 to 9, and from 0 on it never meets 18
        let mut room = Room::boxed();
        self.lent().renumber_in(FieldId(0), identifiers, &mut room).map(drop)
    }
}

impl<'a> TreeRef<'a> {
    /// The tree of these bytes.
    #[must_use]
    pub fn new(records: &'a [u8], pool: &'a [u8]) -> TreeRef<'a> {
        TreeRef { records, pool }
    }

    /// A copy that owns its bytes.
    #[must_use]
    pub fn to_tree(self) -> Tree {
        Tree::new(self.records.to_vec(), self.pool.to_vec())
    }

    /// Drops, adds and edits columns; the answer stands in the room.
    ///
    /// # Errors
    ///
    /// Refusals 2 to 19 and 22 to 26.
    pub fn update_in<'r>(
        self,
        request: RequestRef<'_>,
        room: &'r mut Room,
    ) -> Result<Updated<TreeRef<'r>>, Refusal> {
        let numbers = c::update(
            self.records,
            self.pool,
            request.identifiers,
            request.last_id.0,
            request.version,
            request.deletions,
            request.additions,
            request.added_records,
            request.edits,
            request.pool,
            &mut room.records,
            &mut room.names,
        );
        let numbers = numbers.accepted()?;
        let c::Changed { last_id, visited, .. } = numbers;
        Ok(Updated { tree: answered(numbers, room), last_id: FieldId(last_id), visited })
    }

    /// Keeps the chosen columns; the answer stands in the room.
    ///
    /// # Errors
    ///
    /// Refusals 2 to 8 and 20.
    pub fn prune_in<'r>(
        self,
        chosen: &[FieldId],
        mode: Mode,
        room: &'r mut Room,
    ) -> Result<TreeRef<'r>, Refusal> {
        let mut bytes = [0; ID_BYTES * (MOST_SELECTED + 1)];
        let chosen = id_bytes(chosen, &mut bytes);
        let full = u32::from(mode == Mode::Full);
        let (records, names) = (&mut room.records, &mut room.names);
        let numbers = c::prune(self.records, self.pool, chosen, full, records, names);
        Ok(answered(numbers.accepted()?, room))
    }

    /// Numbers every column anew from `start` on; the answer stands in the room.
    ///
    /// # Errors
    ///
    /// Refusals 2 to 9 and 18.
    pub fn renumber_in<'r>(
        self,
        start: FieldId,
        identifiers: &[FieldId],
        room: &'r mut Room,
    ) -> Result<Renumbered<TreeRef<'r>, &'r [FieldId]>, Refusal> {
        let mut bytes = [0; ID_BYTES * (MOST_IDENTIFIERS + 1)];
        let given = id_bytes(identifiers, &mut bytes);
        let mut bytes = [0; ID_BYTES * (MOST_IDENTIFIERS + 1)];
        let mapped = &mut bytes[..given.len()];
        let (records, names) = (&mut room.records, &mut room.names);
        let (tree, start) = (self, start.0);
        let numbers = c::renumber(tree.records, tree.pool, given, start, records, names, mapped);
        let numbers = numbers.accepted()?;
        for (id, word) in room.identifiers.iter_mut().zip(words(mapped)) {
            *id = FieldId(i32::from_le_bytes(word));
        }
        let room: &'r Room = room;
        let identifiers = &room.identifiers[..identifiers.len()];
        Ok(Renumbered { tree: answered(numbers, room), identifiers })
    }

    /// The column of a full name, or else of a short name.
    ///
    /// # Errors
    ///
    /// Refusals 2 to 8.
    pub fn find_name(self, name: impl AsRef<[u8]>) -> Result<Option<(FieldId, Slot)>, Refusal> {
        found(c::find_name(self.records, self.pool, name.as_ref()))
    }

    /// The column of a full name, or else of a short name, where A to Z equal a to z.
    ///
    /// # Errors
    ///
    /// Refusals 2 to 8, and 21 where two columns match at the same level.
    pub fn find_folded(self, name: impl AsRef<[u8]>) -> Result<Option<(FieldId, Slot)>, Refusal> {
        found(c::find_folded(self.records, self.pool, name.as_ref()))
    }

    /// The slot of an id.
    ///
    /// # Errors
    ///
    /// Refusals 2 to 8.
    pub fn find_id(self, id: FieldId) -> Result<Option<Slot>, Refusal> {
        let found = found(c::find_id(self.records, self.pool, id.0))?;
        Ok(found.map(|(_, slot)| slot))
    }

    /// The slot of each of these ids, in their order; none where the tree has no such id. They
    /// stand in `slots`, which may be longer: what is behind them stays, and on a refusal all of
    /// it. Answers how many of the ids were found.
    ///
    /// ```
    /// # use braidhurdle::{Field, Tree};
    /// use braidhurdle::{FieldId, Slot, TreeRef};
    /// # let tree = Tree::build(&[Field::primitive("a", 4).id(FieldId(1))])?;
    /// # let (records, pool) = (&tree.records[..], &tree.pool[..]);
    ///
    /// let mut slots = [None; 3];
    /// let found = TreeRef::new(records, pool).find_ids_in(&[FieldId(2), FieldId(1)], &mut slots)?;
    /// assert_eq!((found, slots), (1, [None, Some(Slot(0)), None]));
    /// # Ok::<(), Box<dyn std::error::Error>>(())
    /// ```
    ///
    /// # Errors
    ///
    /// Refusal 1 where there are fewer slots than ids; then 2 to 8, and 2 is for more than 1,024
    /// ids too.
    pub fn find_ids_in(
        self,
        ids: &[FieldId],
        slots: &mut [Option<Slot>],
    ) -> Result<usize, Refusal> {
        let mut bytes = [0; ID_BYTES * (MOST_ASKED + 1)];
        let asked = id_bytes(ids, &mut bytes);
        // as many slots too few as there are, though not all ids be kept: 1 is told before 2
        let missing = ids.len().saturating_sub(slots.len()).saturating_mul(ID_BYTES);
        let mut bytes = [0; ID_BYTES * (MOST_ASKED + 1)];
        let out = &mut bytes[..asked.len().saturating_sub(missing)];
        let numbers = c::find_ids(self.records, self.pool, asked, out).accepted()?;
        for (slot, word) in slots.iter_mut().zip(words(out)) {
            let number = u32::from_le_bytes(word);
            *slot = (number != c::NO_SLOT).then_some(Slot(number));
        }
        Ok(numbers.found as usize)
    }

    /// The column above that of an id. A root and an unknown id have none.
    ///
    /// # Errors
    ///
    /// Refusals 2 to 8.
    pub fn find_parent(self, id: FieldId) -> Result<Option<(FieldId, Slot)>, Refusal> {
        found(c::find_parent(self.records, self.pool, id.0))
    }

    /// Would the tree be accepted as a base?
    ///
    /// # Errors
    ///
    /// Refusals 2 to 8.
    pub fn check(self) -> Result<(), Refusal> {
        // every look-up tests 2 to 8 of the whole tree before it looks
        self.find_id(FieldId(0)).map(|_| ())
    }
}

impl<'a> From<&'a Tree> for TreeRef<'a> {
    fn from(tree: &'a Tree) -> TreeRef<'a> {
        tree.lent()
    }
}

/// The tree that an accepted answer left in the room.
fn answered(numbers: c::Changed, room: &Room) -> TreeRef<'_> {
    let (records, names) = (numbers.records as usize * RECORD_BYTES, numbers.names as usize);
    TreeRef { records: &room.records[..records], pool: &room.names[..names] }
}

/// Ids as bytes. Of more ids than fit only those that fit are kept: there is room for one id above
/// the limit, and past the limit the answer is refusal 2 whatever the ids.
fn id_bytes<'b>(ids: &[FieldId], room: &'b mut [u8]) -> &'b [u8] {
    let bytes = room.len().min(ids.len().saturating_mul(ID_BYTES));
    for (to, id) in room.chunks_exact_mut(ID_BYTES).zip(ids) {
        to.copy_from_slice(&id.0.to_le_bytes());
    }
    &room[..bytes]
}

/// The ids or slots of a list, as bytes.
fn words(list: &[u8]) -> impl Iterator<Item = [u8; ID_BYTES]> {
    list.chunks_exact(ID_BYTES).filter_map(|word| word.first_chunk().copied())
}

fn found(numbers: c::Found) -> Result<Option<(FieldId, Slot)>, Refusal> {
    let numbers = numbers.accepted()?;
    Ok((numbers.found != 0).then_some((FieldId(numbers.id), Slot(numbers.slot))))
}
