//! Columns made by hand, and the bytes of a tree of them.

use alloc::vec;
use alloc::vec::Vec;
use core::fmt;

use crate::layout::{DEFAULT, Kind, REQUIRED, Record};
use crate::{FieldId, Tree, TypeCode};

/// A column with all that is inside it, to build a tree or an addition of. A list's child must be
/// named `element`, a map's `key` and `value`: refusal 6 says where one is not.
///
/// ```
/// use braidhurdle::{Field, FieldId, Tree};
///
/// let visits = Field::list(
///     "visits",
///     Field::structure("element", [Field::primitive("day", 4).id(FieldId(7))]).id(FieldId(6)),
/// );
/// let tree = Tree::build(&[visits.id(FieldId(2))])?;
/// assert_eq!(tree.find_name("visits.day")?.unwrap().0, FieldId(7));
/// # Ok::<(), Box<dyn std::error::Error>>(())
/// ```
#[derive(Clone, Debug, PartialEq, Eq, Hash)]
pub struct Field {
    /// The id. Ids in an addition are ignored.
    pub id: FieldId,
    /// The name, of any bytes, at most 255.
    pub name: Vec<u8>,
    /// What the column is.
    pub kind: Kind,
    /// Must it have a value?
    pub required: bool,
    /// Has it an initial default?
    pub default: bool,
    /// The type code of a primitive; 0 for the others.
    pub type_code: u32,
    /// The number by which the host keeps doc and defaults.
    pub attribute: u32,
    /// A struct's members, a list's element, a map's key and value.
    pub inside: Vec<Field>,
}

impl Field {
    fn new(name: impl AsRef<[u8]>, kind: Kind, type_code: u32, inside: Vec<Field>) -> Field {
        Field {
            id: FieldId(0),
            name: name.as_ref().to_vec(),
            kind,
            required: false,
            default: false,
            type_code,
            attribute: 0,
            inside,
        }
    }

    /// An optional primitive of this type or type code, with id 0.
    #[must_use]
    pub fn primitive(name: impl AsRef<[u8]>, of: impl TypeCode) -> Field {
        Field::new(name, Kind::Primitive, of.type_code(), vec![])
    }

    /// An optional struct of these members, with id 0.
    #[must_use]
    pub fn structure(name: impl AsRef<[u8]>, members: impl IntoIterator<Item = Field>) -> Field {
        Field::new(name, Kind::Struct, 0, members.into_iter().collect())
    }

    /// An optional list, with id 0.
    #[must_use]
    pub fn list(name: impl AsRef<[u8]>, element: Field) -> Field {
        Field::new(name, Kind::List, 0, vec![element])
    }

    /// An optional map, with id 0.
    #[must_use]
    pub fn map(name: impl AsRef<[u8]>, key: Field, value: Field) -> Field {
        Field::new(name, Kind::Map, 0, vec![key, value])
    }

    /// The same column with this id.
    #[must_use]
    pub fn id(self, id: FieldId) -> Field {
        Field { id, ..self }
    }

    /// The same column, required.
    #[must_use]
    pub fn required(self) -> Field {
        Field { required: true, ..self }
    }

    /// The same column with an initial default.
    #[must_use]
    pub fn default(self) -> Field {
        Field { default: true, ..self }
    }

    /// The same column with this attribute number.
    #[must_use]
    pub fn attribute(self, attribute: u32) -> Field {
        Field { attribute, ..self }
    }

    /// The name as text; none where it is not UTF-8.
    #[must_use]
    pub fn name_str(&self) -> Option<&str> {
        core::str::from_utf8(&self.name).ok()
    }
}

impl Tree {
    /// The tree of these roots, its names packed in record order. What passes a limit of 01 is
    /// built all the same, and refused when it is used.
    ///
    /// # Errors
    ///
    /// What the layout can't hold.
    pub fn build(roots: &[Field]) -> Result<Tree, Overlong> {
        let mut tree = Tree::default();
        write(roots, &mut tree.records, &mut tree.pool)?;
        Ok(tree)
    }
}

/// What the layout of bytes can't hold, with the size that was asked for.
#[derive(Clone, Copy, Debug, PartialEq, Eq, Hash)]
pub enum Overlong {
    /// A name of more than 255 bytes.
    Name(usize),
    /// A path of more than 65,535 bytes.
    Path(usize),
    /// More than 65,535 direct children.
    Children(usize),
    /// A pool in which a name would stand at an offset of more than 32 bits.
    Pool(usize),
}

impl fmt::Display for Overlong {
    fn fmt(&self, f: &mut fmt::Formatter<'_>) -> fmt::Result {
        let (what, size, most) = match self {
            Overlong::Name(size) => ("bytes in a name", size, 255),
            Overlong::Path(size) => ("bytes in a path", size, 65_535),
            Overlong::Children(size) => ("direct children", size, 65_535),
            Overlong::Pool(size) => ("bytes in a pool", size, u32::MAX),
        };
        write!(f, "{size} {what}: the layout holds at most {most}")
    }
}

impl core::error::Error for Overlong {}

/// Writes these columns and all inside them behind what the two lists hold. By a stack of its own,
/// so that no depth is too deep.
pub(crate) fn write(
    roots: &[Field],
    records: &mut Vec<u8>,
    pool: &mut Vec<u8>,
) -> Result<(), Overlong> {
    let mut open = vec![roots.iter()];
    while let Some(row) = open.last_mut() {
        let Some(field) = row.next() else {
            open.pop();
            continue;
        };
        records.extend(record(field, pool)?.bytes());
        open.push(field.inside.iter());
    }
    Ok(())
}

/// One column's record; its name goes to the end of the pool.
fn record(field: &Field, pool: &mut Vec<u8>) -> Result<Record, Overlong> {
    let (length, children) = (field.name.len(), field.inside.len());
    let record = Record {
        id: field.id,
        offset: end(pool)?,
        length: u8::try_from(length).map_err(|_| Overlong::Name(length))?,
        kind: field.kind.number(),
        flags: if field.required { REQUIRED } else { 0 } | if field.default { DEFAULT } else { 0 },
        children: u16::try_from(children).map_err(|_| Overlong::Children(children))?,
        type_code: field.type_code,
        attribute: field.attribute,
    };
    pool.extend_from_slice(&field.name);
    Ok(record)
}

/// The offset of what comes next in a pool.
pub(crate) fn end(pool: &[u8]) -> Result<u32, Overlong> {
    u32::try_from(pool.len()).map_err(|_| Overlong::Pool(pool.len()))
}
