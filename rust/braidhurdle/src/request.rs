//! What an update is asked to do.

use alloc::vec::Vec;

use crate::field::{end, write};
use crate::layout::{ENTRY_BYTES, Edit, edit, entry};
use crate::{Field, FieldId, Overlong, TypeCode, Version};

/// What an update is asked to do: the columns to drop, to add and to edit, in this order, the last
/// id that was handed out, the format version, and the ids of the identifier fields. Later versions
/// may have more to ask for; what is not named has a default.
///
/// ```
/// use braidhurdle::{Field, FieldId, Request, Type, Version};
///
/// let request = Request::new(FieldId(10))
///     .version(Version::V3)
///     .drop("node.cost")?
///     .add_under("node", Field::primitive("cost", Type::Long))?
///     .add(Field::primitive("floor", Type::Int))?
///     .rename("node.button", "push")?
///     .relax("parts.value")?
///     .widen("visits.day", Type::Timestamp)?
///     .identifiers(&[FieldId(1)]);
/// # Ok::<(), braidhurdle::Overlong>(())
/// ```
#[derive(Clone, Debug, Default, PartialEq, Eq, Hash)]
pub struct Request {
    /// The last id that was handed out, or consumed: not the largest in the tree, since that one
    /// may have been dropped.
    pub last_id: FieldId,
    /// The format version whose steps a widening goes by.
    pub version: Version,
    /// The ids of the identifier fields, 4 bytes each.
    pub identifiers: Vec<u8>,
    /// The paths to drop, 8 bytes an entry.
    pub deletions: Vec<u8>,
    /// The paths to add under, 8 bytes an entry.
    pub additions: Vec<u8>,
    /// The added columns: the k-th root belongs to the k-th addition.
    pub added_records: Vec<u8>,
    /// The paths to edit, and how, 16 bytes an edit.
    pub edits: Vec<u8>,
    /// Paths and new names.
    pub pool: Vec<u8>,
}

/// A request whose bytes are lent: what [`Request`] owns, or parts of a message.
#[derive(Clone, Copy, Debug, PartialEq, Eq, Hash)]
pub struct RequestRef<'a> {
    /// The last id that was handed out, or consumed.
    pub last_id: FieldId,
    /// The number of the format version, as a message has it: one that is no [`Version`] is refused
    /// with 25.
    pub version: u32,
    /// The ids of the identifier fields, 4 bytes each.
    pub identifiers: &'a [u8],
    /// The paths to drop, 8 bytes an entry.
    pub deletions: &'a [u8],
    /// The paths to add under, 8 bytes an entry.
    pub additions: &'a [u8],
    /// The added columns: the k-th root belongs to the k-th addition.
    pub added_records: &'a [u8],
    /// The paths to edit, and how, 16 bytes an edit.
    pub edits: &'a [u8],
    /// Paths and new names.
    pub pool: &'a [u8],
}

impl Default for RequestRef<'_> {
    /// Nothing is asked for, and the version is the default one.
    fn default() -> Self {
        RequestRef {
            last_id: FieldId::default(),
            version: Version::default().number(),
            identifiers: &[],
            deletions: &[],
            additions: &[],
            added_records: &[],
            edits: &[],
            pool: &[],
        }
    }
}

impl Request {
    /// A request that asks for nothing yet. Ids will be handed out from `last_id` + 1.
    #[must_use]
    pub fn new(last_id: FieldId) -> Request {
        Request { last_id, ..Request::default() }
    }

    /// Also drops the column of this name, with all that is inside it.
    ///
    /// # Errors
    ///
    /// What the layout can't hold.
    pub fn drop(mut self, path: impl AsRef<[u8]>) -> Result<Request, Overlong> {
        let entry = path_entry(path.as_ref(), &mut self.pool)?;
        self.deletions.extend(entry);
        Ok(self)
    }

    /// Also adds this column at the root.
    ///
    /// # Errors
    ///
    /// What the layout can't hold.
    #[allow(clippy::should_implement_trait)] // 01's word; nothing is summed
    pub fn add(mut self, column: Field) -> Result<Request, Overlong> {
        write(&[column], &mut self.added_records, &mut self.pool)?;
        self.additions.extend(entry(0, 0, false));
        Ok(self)
    }

    /// Also adds this column under a struct, or under a list or map of structs. Where the same
    /// request drops that struct, or what it stands in, the update is refused:
    ///
    /// ```
    /// use braidhurdle::{Field, FieldId, RefusalKind, Request, Tree};
    ///
    /// let tree = Tree::build(&[Field::structure("node", []).id(FieldId(1))])?;
    /// let floor = Field::primitive("floor", 2);
    /// let request = Request::new(FieldId(1)).drop("node")?.add_under("node", floor)?;
    /// let refusal = tree.update(&request).unwrap_err();
    /// assert_eq!(refusal.kind(), Some(RefusalKind::ParentGone));
    /// # Ok::<(), Box<dyn std::error::Error>>(())
    /// ```
    ///
    /// # Errors
    ///
    /// What the layout can't hold.
    pub fn add_under(
        mut self,
        parent: impl AsRef<[u8]>,
        column: Field,
    ) -> Result<Request, Overlong> {
        let entry = path_entry(parent.as_ref(), &mut self.pool)?;
        write(&[column], &mut self.added_records, &mut self.pool)?;
        self.additions.extend(entry);
        Ok(self)
    }

    /// Also gives a column a new name. It is a column of the tree as it was, one that stays, and
    /// neither an element, key or value; its id is as it was. Each column gets one new name at
    /// most, without a dot. Two can exchange their names:
    ///
    /// ```
    /// use braidhurdle::{Field, FieldId, RefusalKind, Request, Tree, Type, Updated};
    ///
    /// let column = |id, name| Field::primitive(name, Type::Int).id(FieldId(id));
    /// let tree = Tree::build(&[column(1, "a"), column(2, "b")])?;
    /// let request = Request::new(FieldId(2)).rename("a", "b")?.rename("b", "a")?;
    /// let Updated { tree, last_id, .. } = tree.update(&request)?;
    /// assert_eq!(tree.to_string(), "1 b: int\n2 a: int\n");
    ///
    /// // All paths are looked up in the tree as it was: there is no column `c` yet.
    /// let request = Request::new(last_id).rename("a", "c")?.relax("c")?;
    /// let refusal = tree.update(&request).unwrap_err();
    /// assert_eq!(refusal.kind(), Some(RefusalKind::NoSurvivingColumn));
    /// # Ok::<(), Box<dyn std::error::Error>>(())
    /// ```
    ///
    /// # Errors
    ///
    /// What the layout can't hold.
    pub fn rename(
        mut self,
        path: impl AsRef<[u8]>,
        name: impl AsRef<[u8]>,
    ) -> Result<Request, Overlong> {
        let name = name.as_ref();
        let length = u8::try_from(name.len()).map_err(|_| Overlong::Name(name.len()))?;
        let path = pooled(path.as_ref(), &mut self.pool)?;
        self.edits.extend(edit(path, Edit::Rename(end(&self.pool)?, length)));
        self.pool.extend_from_slice(name);
        Ok(self)
    }

    /// Also makes a column optional, as it may be already. It is a column of the tree as it was,
    /// one that stays, and no key. An identifier, and what stands above one, is required, so then
    /// the update is refused with 9.
    ///
    /// # Errors
    ///
    /// What the layout can't hold.
    pub fn relax(mut self, path: impl AsRef<[u8]>) -> Result<Request, Overlong> {
        let path = pooled(path.as_ref(), &mut self.pool)?;
        self.edits.extend(edit(path, Edit::Relax));
        Ok(self)
    }

    /// Also gives a column a wider type, by a step of the request's format version:
    /// [`Type::steps`](crate::Type::steps) has them. It is a primitive of the tree as it was, one
    /// that stays, in any role; its id is as it was. Each column is widened once at most.
    ///
    /// ```
    /// use braidhurdle::{Field, FieldId, RefusalKind, Request, Tree, Type, Updated, Version};
    ///
    /// let price = Field::primitive("price", Type::Int).id(FieldId(1));
    /// let tree = Tree::build(&[price, Field::primitive("day", Type::Date).id(FieldId(2))])?;
    /// let request = Request::new(FieldId(2)).widen("price", Type::Long)?;
    /// let Updated { tree, last_id, .. } = tree.update(&request)?;
    /// assert_eq!(tree.to_string(), "1 price: long\n2 day: date\n");
    ///
    /// // A date is widened by version 3 alone.
    /// let request = Request::new(last_id).widen("day", Type::Timestamp)?;
    /// let refusal = tree.update(&request).unwrap_err();
    /// assert_eq!(refusal.kind(), Some(RefusalKind::StepNotAllowed));
    /// assert!(tree.update(&request.version(Version::V3)).is_ok());
    /// # Ok::<(), Box<dyn std::error::Error>>(())
    /// ```
    ///
    /// # Errors
    ///
    /// What the layout can't hold.
    pub fn widen(mut self, path: impl AsRef<[u8]>, to: impl TypeCode) -> Result<Request, Overlong> {
        let path = pooled(path.as_ref(), &mut self.pool)?;
        self.edits.extend(edit(path, Edit::Widen(to.type_code())));
        Ok(self)
    }

    /// The same request by the steps of this format version. Without it they are those of 2.
    #[must_use]
    pub fn version(self, version: Version) -> Request {
        Request { version, ..self }
    }

    /// The same request with these identifier fields. They can't be dropped. Each is a required
    /// primitive, no float and no double, with nothing above it but required structs; else the
    /// update is refused with 9. [`Tree::check_identifiers`](crate::Tree::check_identifiers) asks
    /// for that alone.
    #[must_use]
    pub fn identifiers(mut self, ids: &[FieldId]) -> Request {
        self.identifiers = ids.iter().flat_map(|id| id.0.to_le_bytes()).collect();
        self
    }

    /// The same request, lent.
    #[must_use]
    pub fn lent(&self) -> RequestRef<'_> {
        RequestRef {
            last_id: self.last_id,
            version: self.version.number(),
            identifiers: &self.identifiers,
            deletions: &self.deletions,
            additions: &self.additions,
            added_records: &self.added_records,
            edits: &self.edits,
            pool: &self.pool,
        }
    }
}

impl<'a> From<&'a Request> for RequestRef<'a> {
    fn from(request: &'a Request) -> RequestRef<'a> {
        request.lent()
    }
}

/// The entry of a path; the path goes to the end of the pool.
fn path_entry(path: &[u8], pool: &mut Vec<u8>) -> Result<[u8; ENTRY_BYTES], Overlong> {
    pooled(path, pool).map(|(offset, length)| entry(offset, length, true))
}

/// Puts a path to the end of the pool, and tells its offset and length.
fn pooled(path: &[u8], pool: &mut Vec<u8>) -> Result<(u32, u16), Overlong> {
    let length = u16::try_from(path.len()).map_err(|_| Overlong::Path(path.len()))?;
    let offset = end(pool)?;
    pool.extend_from_slice(path);
    Ok((offset, length))
}
