//! The benchmark: named schemas, sizes, and the cases that are timed on them; cases that are
//! built to be bad; updates with edits; updates in which nearly all stands inside one struct;
//! searches by id beside a scan; the stack that an entry uses.

mod asked;
mod deepest;
mod edits;
mod folded;
mod hashes;
mod ids;
mod inside;
mod names;
mod rows;
mod schemas;
mod searches;
mod slowest;
mod stack;
mod steps;
mod timed;
mod timing;
mod worst;

pub use asked::again;
pub use deepest::deepest;
pub use edits::{editing, widening};
pub use folded::worst_folded;
pub use ids::{FAMILIES, Family};
pub use inside::{INSIDE, inside};
pub use names::worst_names;
pub use rows::{Beside, Row, rows};
pub use schemas::{SCHEMAS, schema};
pub use searches::{Search, scan, searches};
pub use slowest::{Goal, Slow, slowest};
pub use stack::{marks, stack_used};
pub use steps::Steps;
pub use timed::{LINKED, timed_search};
pub use timing::{Call, Room, copy_all, times};
pub use worst::{worst_identifiers, worst_ids, worst_parents};

/// Records in a schema.
pub const SIZES: [usize; 3] = [10, 100, 1_024];
