//! The byte layout of records, path entries, edits and id lists.

/// Bytes of a record.
pub const RECORD_BYTES: usize = 24;
/// Bytes of a path entry.
pub const ENTRY_BYTES: usize = 8;
/// Bytes of an edit.
pub const EDIT_BYTES: usize = 16;
/// Bytes of an id in a list of ids, and of a slot in a list of slots.
pub const ID_BYTES: usize = 4;

/// What stands in a list of slots for an id that is not in the tree.
pub const NO_SLOT: u32 = 4_294_967_295;

/// Kind 0.
pub const PRIMITIVE: u8 = 0;
/// Kind 1.
pub const STRUCT: u8 = 1;
/// Kind 2.
pub const LIST: u8 = 2;
/// Kind 3.
pub const MAP: u8 = 3;

/// Bit 0 of the flags.
pub const REQUIRED: u8 = 1;
/// Bit 1 of the flags: the column has an initial default.
pub const DEFAULT: u8 = 2;

/// What an edit does: 1.
pub const RENAME: u8 = 1;
/// What an edit does: 2.
pub const RELAX: u8 = 2;
/// What an edit does: 3.
pub const WIDEN: u8 = 3;

/// Type code 1; the table is that of 02, 6/13.
pub const BOOLEAN: u32 = 1;
/// Type code 2.
pub const INT: u32 = 2;
/// Type code 3.
pub const LONG: u32 = 3;
/// Type code 4.
pub const DATE: u32 = 4;
/// Type code 5.
pub const FLOAT: u32 = 5;
/// Type code 6.
pub const DOUBLE: u32 = 6;
/// Type code 7.
pub const TIMESTAMP: u32 = 7;
/// Type code 8.
pub const TIMESTAMP_NS: u32 = 8;
/// Type code 9.
pub const STRING: u32 = 9;
/// What a decimal's code has beside 256 x precision + scale.
pub const DECIMAL: u32 = 65_536;

/// The 24 bytes of a record, as they stand.
#[derive(Clone, Copy, Debug)]
pub struct Record {
    pub id: i32,
    pub offset: u32,
    pub length: u8,
    pub kind: u8,
    pub flags: u8,
    pub byte_11: u8,
    pub children: u16,
    pub bytes_14: u16,
    pub type_code: u32,
    pub attribute: u32,
}

/// The 8 bytes of a path entry, as they stand.
#[derive(Clone, Copy, Debug)]
pub struct Entry {
    pub offset: u32,
    pub length: u16,
    pub has_path: u8,
    pub byte_7: u8,
}

/// The 16 bytes of an edit, as they stand.
#[derive(Clone, Copy, Debug)]
pub struct EditEntry {
    pub offset: u32,
    pub length: u16,
    pub what: u8,
    pub byte_7: u8,
    /// Where a new name starts, or a type code.
    pub word_8: u32,
    pub name_length: u8,
    pub bytes_13: [u8; 3],
}

fn word(bytes: &[u8], at: usize) -> u32 {
    u32::from_le_bytes([bytes[at], bytes[at + 1], bytes[at + 2], bytes[at + 3]])
}

fn half(bytes: &[u8], at: usize) -> u16 {
    u16::from_le_bytes([bytes[at], bytes[at + 1]])
}

/// The records of a list that is a whole number of them.
pub fn records(bytes: &[u8]) -> Vec<Record> {
    bytes
        .chunks_exact(RECORD_BYTES)
        .map(|b| Record {
            id: word(b, 0) as i32,
            offset: word(b, 4),
            length: b[8],
            kind: b[9],
            flags: b[10],
            byte_11: b[11],
            children: half(b, 12),
            bytes_14: half(b, 14),
            type_code: word(b, 16),
            attribute: word(b, 20),
        })
        .collect()
}

/// The path entries of a list that is a whole number of them.
pub fn entries(bytes: &[u8]) -> Vec<Entry> {
    bytes
        .chunks_exact(ENTRY_BYTES)
        .map(|b| Entry { offset: word(b, 0), length: half(b, 4), has_path: b[6], byte_7: b[7] })
        .collect()
}

/// The edits of a list that is a whole number of them.
pub fn edit_entries(bytes: &[u8]) -> Vec<EditEntry> {
    bytes
        .chunks_exact(EDIT_BYTES)
        .map(|b| EditEntry {
            offset: word(b, 0),
            length: half(b, 4),
            what: b[6],
            byte_7: b[7],
            word_8: word(b, 8),
            name_length: b[12],
            bytes_13: [b[13], b[14], b[15]],
        })
        .collect()
}

/// The ids of a list that is a whole number of them.
pub fn ids(bytes: &[u8]) -> Vec<i32> {
    bytes.chunks_exact(ID_BYTES).map(|b| word(b, 0) as i32).collect()
}

/// Does a part stand within a pool? The sum is taken in 64 bits, so that it can't wrap.
pub fn within(offset: u32, length: usize, pool: &[u8]) -> bool {
    u64::from(offset) + length as u64 <= pool.len() as u64
}

/// A part of a pool that is known to stand within it.
pub fn part(offset: u32, length: usize, pool: &[u8]) -> Vec<u8> {
    pool[offset as usize..offset as usize + length].to_vec()
}
