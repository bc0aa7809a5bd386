//! Documents 01 and 02 as a plain program: the judge for what iceberg's own code can't answer.
//!
//! It is written from their text alone. It is slow, it allocates, and it never calls the
//! port. It answers every operation on any bytes. The functions take what the port's C
//! functions take, in the same order, and give the same numbers; what an update reads is one
//! value, [`UpdateCall`].
//!
//! Each rule that turns a request down is one function, named after its number:
//! search for `refusal 16`.

mod answer;
mod index;
mod layout;
mod limits;
mod lister;
mod lookup;
mod promotions;
mod prune;
mod read;
mod renumber;
mod tree;
mod update;
mod write;

pub use answer::{ADDED, ADDITIONS, BASE, DELETIONS, EDITS, IDENTIFIERS, LAST_REFUSAL, REBUILT};
pub use answer::{Changed, Found, Refusal, Searched};
pub use index::{Names, alike};
pub use layout::{
    BOOLEAN, DATE, DECIMAL, DOUBLE, FLOAT, INT, LONG, STRING, TIMESTAMP, TIMESTAMP_NS,
};
pub use layout::{DEFAULT, LIST, MAP, PRIMITIVE, REQUIRED, STRUCT};
pub use layout::{EDIT_BYTES, ENTRY_BYTES, ID_BYTES, NO_SLOT, RECORD_BYTES, RELAX, RENAME, WIDEN};
pub use limits::{
    LEVELS, MOST_ADDITIONS, MOST_ASKED, MOST_DELETIONS, MOST_EDITS, MOST_IDENTIFIERS, MOST_RECORDS,
    MOST_SELECTED, NAME_SUM, OUT_NAMES, OUT_RECORDS, POOL_BYTES,
};
pub use lister::list;
pub use lookup::{find_folded, find_id, find_ids, find_name, find_parent};
pub use promotions::{VERSIONS, decimal, is_step};
pub use prune::{Unwrap, prune, prune_where_rust_panics};
pub use read::{Change, Edit, read_edits, read_paths, read_tree};
pub use renumber::renumber;
pub use tree::{Node, Row, Tree};
pub use update::{UpdateCall, update, update_before_22};
