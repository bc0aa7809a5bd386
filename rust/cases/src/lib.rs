//! Cases for the comparison: what an operation is lent, how a case and its answer are
//! written down, a seeded generator, and the cases that stand in the recorded list by name.

mod broken;
mod build;
mod case;
mod crowded;
mod damage;
mod dropped;
mod edges;
mod edited;
mod edits;
mod folded;
mod generate;
mod hash;
mod identifiers;
mod ids;
mod line;
mod named;
mod random;
mod shapes;
mod shrink;
mod sorted;
mod tally;
mod trees;
mod visited;
mod widened;
mod widenings;

pub use broken::{Broken, Of, base_breaks_9, broken, broken_in};
pub use build::{
    Addition, additions, ask_of, by_version, decimal, edited, ids_by, list_of, map_of, packed,
    prim, prune_by, relax, rename, renumber_by, request, strukt, the_tree, update_by, update_of,
    widen,
};
pub use case::{Answer, Ask, ByJudge, Case, Numbers, Operations, Outcome, answer, outcome, shown};
pub use damage::lists;
pub use generate::{Batch, Generator, OPERATIONS, Origin, Sizes};
pub use hash::{bucket, budget_left, hash, tag, word, words_of_one_hash};
pub use line::{Judge, Recorded, read_line, read_recorded, write_line};
pub use named::{Expected, Named, named};
pub use random::Random;
pub use shapes::{all_shapes, shapes_of};
pub use shrink::shrink;
pub use tally::{Counts, Tally};
