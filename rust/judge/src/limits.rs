//! refusal 1 and refusal 2: the sizes of what is lent.

use crate::answer::{BASE, Refusal, refuse};
use crate::layout::{EDIT_BYTES, ENTRY_BYTES, ID_BYTES, RECORD_BYTES, records};

/// Most records in a tree.
pub const MOST_RECORDS: usize = 1_024;
/// Most levels in a tree; roots are level 1.
pub const LEVELS: usize = 16;
/// Most bytes in a pool.
pub const POOL_BYTES: usize = 32_768;
/// Most as the sum of a tree's name lengths.
pub const NAME_SUM: usize = 32_768;
/// Most deletions.
pub const MOST_DELETIONS: usize = 64;
/// Most additions.
pub const MOST_ADDITIONS: usize = 64;
/// Most edits (02, 5/13).
pub const MOST_EDITS: usize = 64;
/// Most identifier ids.
pub const MOST_IDENTIFIERS: usize = 64;
/// Most selected ids.
pub const MOST_SELECTED: usize = 1_024;
/// Most ids asked for at once (02, 2/13).
pub const MOST_ASKED: usize = 1_024;
/// Least record bytes of an output buffer.
pub const OUT_RECORDS: usize = 24_576;
/// Least name bytes of an output buffer.
pub const OUT_NAMES: usize = 32_768;

/// refusal 1: an output buffer is below its size. Each is given as its bytes and its size.
pub fn refusal_1(buffers: &[(usize, usize)]) -> Result<(), Refusal> {
    refuse(1, BASE, buffers.iter().any(|(bytes, size)| bytes < size).then_some(0))
}

/// Something lent that 2 looks at.
pub enum Lent<'a> {
    Tree(&'a [u8]),
    Pool(&'a [u8]),
    Deletions(&'a [u8]),
    Additions(&'a [u8]),
    Edits(&'a [u8]),
    Identifiers(&'a [u8]),
    Selected(&'a [u8]),
    Asked(&'a [u8]),
}

impl Lent<'_> {
    fn fits(&self) -> bool {
        let whole = |bytes: &[u8], unit, most| {
            bytes.len().is_multiple_of(unit) && bytes.len() / unit <= most
        };
        match self {
            Lent::Tree(b) => whole(b, RECORD_BYTES, MOST_RECORDS) && name_sum(b) <= NAME_SUM,
            Lent::Pool(b) => b.len() <= POOL_BYTES,
            Lent::Deletions(b) => whole(b, ENTRY_BYTES, MOST_DELETIONS),
            Lent::Additions(b) => whole(b, ENTRY_BYTES, MOST_ADDITIONS),
            Lent::Edits(b) => whole(b, EDIT_BYTES, MOST_EDITS),
            Lent::Identifiers(b) => whole(b, ID_BYTES, MOST_IDENTIFIERS),
            Lent::Selected(b) => whole(b, ID_BYTES, MOST_SELECTED),
            Lent::Asked(b) => whole(b, ID_BYTES, MOST_ASKED),
        }
    }
}

/// The sum of the length bytes, whatever else the records hold: 2 comes before 3 and 4.
fn name_sum(bytes: &[u8]) -> usize {
    records(bytes).iter().map(|r| usize::from(r.length)).sum()
}

/// refusal 2: a limit on an input count, length or name sum is passed, or a list is no
/// whole number of records.
pub fn refusal_2(lent: &[Lent]) -> Result<(), Refusal> {
    refuse(2, BASE, (!lent.iter().all(Lent::fits)).then_some(0))
}
