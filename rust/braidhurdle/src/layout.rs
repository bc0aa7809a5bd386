//! 01's layout of bytes, and its limits.

use core::fmt;

use crate::FieldId;

/// Bytes of a record.
pub const RECORD_BYTES: usize = 24;
/// Bytes of a path entry.
pub const ENTRY_BYTES: usize = 8;
/// Bytes of an edit.
pub const EDIT_BYTES: usize = 16;
/// Bytes of an id in a list of ids.
pub const ID_BYTES: usize = 4;
/// Most records in a tree.
pub const MOST_RECORDS: usize = 1_024;
/// Most levels in a tree; roots are level 1.
pub const MOST_LEVELS: usize = 16;
/// Most identifiers.
pub const MOST_IDENTIFIERS: usize = 64;
/// Most selected ids.
pub const MOST_SELECTED: usize = 1_024;
/// Most ids that are asked for at once.
pub const MOST_ASKED: usize = 1_024;
/// Record bytes that an output buffer must hold.
pub const RECORD_ROOM: usize = 24_576;
/// Name bytes that an output buffer must hold.
pub const NAME_ROOM: usize = 32_768;

/// The type code of a float, [`Type::Float`](crate::Type::Float). An identifier has neither this
/// code nor [`DOUBLE`].
pub const FLOAT: u32 = 5;
/// The type code of a double, [`Type::Double`](crate::Type::Double).
pub const DOUBLE: u32 = 6;

/// What a column is.
#[derive(Clone, Copy, Debug, PartialEq, Eq, PartialOrd, Ord, Hash)]
pub enum Kind {
    /// A value with a type code.
    Primitive,
    /// A row of members.
    Struct,
    /// A list of one child, its element.
    List,
    /// A map of two children, its key and its value.
    Map,
}

impl Kind {
    /// The kind's number in a record.
    #[must_use]
    pub fn number(self) -> u8 {
        match self {
            Kind::Primitive => 0,
            Kind::Struct => 1,
            Kind::List => 2,
            Kind::Map => 3,
        }
    }

    /// The kind of a number.
    #[must_use]
    pub fn from_number(number: u8) -> Option<Kind> {
        [Kind::Primitive, Kind::Struct, Kind::List, Kind::Map].get(usize::from(number)).copied()
    }
}

impl TryFrom<u8> for Kind {
    type Error = NoKind;

    fn try_from(number: u8) -> Result<Kind, NoKind> {
        Kind::from_number(number).ok_or(NoKind(number))
    }
}

/// A number that is no kind's.
#[derive(Clone, Copy, Debug, PartialEq, Eq, PartialOrd, Ord, Hash)]
pub struct NoKind(pub u8);

impl fmt::Display for NoKind {
    fn fmt(&self, f: &mut fmt::Formatter<'_>) -> fmt::Result {
        write!(f, "{} is no kind, which is a number from 0 to 3", self.0)
    }
}

impl core::error::Error for NoKind {}

impl fmt::Display for Kind {
    fn fmt(&self, f: &mut fmt::Formatter<'_>) -> fmt::Result {
        f.pad(match self {
            Kind::Primitive => "primitive",
            Kind::Struct => "struct",
            Kind::List => "list",
            Kind::Map => "map",
        })
    }
}

/// A record's fields, as its 24 bytes have them, whatever they hold.
#[derive(Clone, Copy, Debug, PartialEq, Eq, Hash)]
pub struct Record {
    /// Bytes 0-3.
    pub id: FieldId,
    /// Bytes 4-7: where its name stands in the pool.
    pub offset: u32,
    /// Byte 8: the name's length.
    pub length: u8,
    /// Byte 9: [`Kind::from_number`] tells which.
    pub kind: u8,
    /// Byte 10: bit 0 required, bit 1 has an initial default.
    pub flags: u8,
    /// Bytes 12-13: how many columns stand directly below it.
    pub children: u16,
    /// Bytes 16-19.
    pub type_code: u32,
    /// Bytes 20-23.
    pub attribute: u32,
}

/// Bit 0 of the flags.
pub(crate) const REQUIRED: u8 = 1;
/// Bit 1 of the flags: the column has an initial default.
pub(crate) const DEFAULT: u8 = 2;

impl Record {
    /// The record of 24 bytes; the bytes that must be 0 are not looked at.
    #[must_use]
    pub fn read(b: &[u8; RECORD_BYTES]) -> Record {
        let word = |at: usize| u32::from_le_bytes([b[at], b[at + 1], b[at + 2], b[at + 3]]);
        Record {
            id: FieldId(word(0) as i32),
            offset: word(4),
            length: b[8],
            kind: b[9],
            flags: b[10],
            children: u16::from_le_bytes([b[12], b[13]]),
            type_code: word(16),
            attribute: word(20),
        }
    }

    /// The part of a pool that holds its name; none where that lies outside.
    #[must_use]
    pub fn name(self, pool: &[u8]) -> Option<&[u8]> {
        let start = usize::try_from(self.offset).ok()?;
        pool.get(start..start.checked_add(self.length.into())?)
    }

    /// The record's 24 bytes.
    pub(crate) fn bytes(self) -> [u8; RECORD_BYTES] {
        let mut b = [0; RECORD_BYTES];
        b[0..4].copy_from_slice(&self.id.0.to_le_bytes());
        b[4..8].copy_from_slice(&self.offset.to_le_bytes());
        b[8] = self.length;
        b[9] = self.kind;
        b[10] = self.flags;
        b[12..14].copy_from_slice(&self.children.to_le_bytes());
        b[16..20].copy_from_slice(&self.type_code.to_le_bytes());
        b[20..24].copy_from_slice(&self.attribute.to_le_bytes());
        b
    }
}

/// A path entry's 8 bytes.
pub(crate) fn entry(offset: u32, length: u16, has_path: bool) -> [u8; ENTRY_BYTES] {
    let mut b = [0; ENTRY_BYTES];
    b[0..4].copy_from_slice(&offset.to_le_bytes());
    b[4..6].copy_from_slice(&length.to_le_bytes());
    b[6] = has_path.into();
    b
}

/// Byte 6 of an edit: a new name.
pub const RENAME: u8 = 1;
/// Byte 6 of an edit: no longer required.
pub const RELAX: u8 = 2;
/// Byte 6 of an edit: a wider type.
pub const WIDEN: u8 = 3;

/// What an edit does.
pub(crate) enum Edit {
    /// Gives the new name of this offset and length.
    Rename(u32, u8),
    Relax,
    /// Gives this type code.
    Widen(u32),
}

/// An edit's 16 bytes, with the offset and length of its path.
pub(crate) fn edit((offset, length): (u32, u16), what: Edit) -> [u8; EDIT_BYTES] {
    let (number, word, byte) = match what {
        Edit::Rename(offset, length) => (RENAME, offset, length),
        Edit::Relax => (RELAX, 0, 0),
        Edit::Widen(code) => (WIDEN, code, 0),
    };
    let mut b = [0; EDIT_BYTES];
    b[..ENTRY_BYTES].copy_from_slice(&entry(offset, length, true));
    b[6] = number;
    b[8..12].copy_from_slice(&word.to_le_bytes());
    b[12] = byte;
    b
}
