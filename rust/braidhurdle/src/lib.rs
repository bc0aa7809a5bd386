//! Columns of a table schema, changed, pruned, renumbered and looked up.
//!
//! This crate is a thin, safe layer over a proved library, which it links as an archive. Any bytes
//! at all get an answer: what is malformed is turned down by a number, a list and a place
//! ([`Refusal`]), and then nothing is changed. No function has a state, so each may be called from
//! any thread.
//!
//! A schema is a [`Tree`]: 24-byte records in preorder, and a pool that holds their names. Document
//! 01 (`docs/01-scope.md`) has the layout, the rules and the limits; document 02
//! (`docs/02-change-requests.md`) what was asked for since.
//!
//! # Change a schema
//!
//! ```
//! use braidhurdle::{Field, FieldId, Request, Tree, Type, Updated};
//!
//! // A schema of two columns; the second has one inside.
//! let day = Field::primitive("day", Type::Date).id(FieldId(3));
//! let element = Field::structure("element", [day]).id(FieldId(4));
//! let tree = Tree::build(&[
//!     Field::primitive("button", Type::Int).id(FieldId(1)).required(),
//!     Field::list("visits", element).id(FieldId(2)),
//! ])?;
//!
//! // Ids are handed out from the last one + 1. Keep the last id beside the tree: the largest id in
//! // the tree is not enough, since that column may have been dropped.
//! let request = Request::new(FieldId(4))
//!     .drop("visits.day")?
//!     .add_under("visits", Field::primitive("day", Type::String))?
//!     .add(Field::primitive("floor", Type::Int))?
//!     .rename("button", "switch")?
//!     .widen("button", Type::Long)?
//!     .identifiers(&[FieldId(1)]);
//! let Updated { tree, last_id, visited } = tree.update(&request)?;
//! assert_eq!(last_id, FieldId(6));
//! // The time of a rebuild grows with the records that it visits: here 4 old ones and 2 new ones.
//! assert_eq!(visited, 6);
//!
//! // The new `day` is another column than the old one.
//! assert_eq!(tree.find_name("visits.day")?.map(|(id, _)| id), Some(FieldId(5)));
//! assert_eq!(tree.find_id(FieldId(3))?, None);
//! // A renamed and widened column is the same one.
//! assert_eq!(tree.find_name("switch")?.map(|(id, _)| id), Some(FieldId(1)));
//! # Ok::<(), Box<dyn std::error::Error>>(())
//! ```
//!
//! # Read one
//!
//! Store and send [`Tree::records`] and [`Tree::pool`] as they are. Bytes from elsewhere need no
//! check: [`Tree::new`] takes any, and whatever is asked of them tests them first. The module
//! `files` keeps a tree and its last id as files.
//!
//! ```
//! # use braidhurdle::{Field, FieldId};
//! use braidhurdle::{Mode, Refusal, RefusalKind, Tree, Type};
//!
//! let day = Field::primitive("day", Type::Date).id(FieldId(2));
//! let mut tree = Tree::build(&[Field::structure("visit", [day]).id(FieldId(1))])?;
//!
//! // For people, a tree is its picture. Programs read it column by column.
//! assert_eq!(tree.to_string(), "1 visit: struct\n  2 day: date\n");
//! let types = tree.columns()?.map(|column| Type::of_code(column.type_code));
//! assert!(types.eq([None, Some(Type::Date)]));
//! let day = tree.column_by_name("visit.day")?.ok_or("no such column")?;
//! assert_eq!((day.id, day.name_str()), (FieldId(2), Some("day")));
//! // What people type may have another case. What may be either of two columns is refused.
//! assert_eq!(tree.column_by_folded_name("Visit.DAY")?, Some(day));
//! // Ids that a data file carries are found all at once: the tree is tested once for all.
//! assert_eq!(tree.find_ids(&[FieldId(2), FieldId(9)])?, [Some(day.slot), None]);
//!
//! // A name that lies outside its pool is refused: 4, in the base, at slot 0.
//! tree.pool.clear();
//! let refusal = tree.prune(&[FieldId(1)], Mode::Full).unwrap_err();
//! assert_eq!(refusal, Refusal { number: 4, list: 0, place: 0 });
//! assert_eq!(refusal.kind(), Some(RefusalKind::OutsidePool));
//! # Ok::<(), Box<dyn std::error::Error>>(())
//! ```
//!
//! # Without the heap
//!
//! [`TreeRef`] and [`RequestRef`] are the same on lent bytes, and a [`Room`] holds the answer. It
//! is made once and used again and again; no call allocates.
//!
//! ```
//! # use braidhurdle::{Field, FieldId, Tree};
//! use braidhurdle::{Mode, Room, TreeRef};
//! # let tree = Tree::build(&[Field::primitive("a", 4).id(FieldId(1))])?;
//! # let (records, pool) = (&tree.records[..], &tree.pool[..]);
//!
//! let mut room = Room::boxed();
//! let tree = TreeRef::new(records, pool);
//! let kept: TreeRef = tree.prune_in(&[FieldId(1)], Mode::Plain, &mut room)?;
//! assert_eq!(kept.columns()?.len(), 1);
//! # Ok::<(), Box<dyn std::error::Error>>(())
//! ```
//!
//! The module [`c`] has the very calls, on your own buffers. Without its feature `std`, which is on
//! unless turned off, the crate needs no standard library.
//!
//! # The archive
//!
//! The build takes `libbraidhurdle.a` from the folder that the variable `BRAIDHURDLE_ARCHIVE`
//! names; else from `target/staticlib` of the checkout that this crate stands in; else it has the
//! toolchain make it there, which proves the library first and takes minutes. `docs/USING.md` has
//! the steps.
#![no_std]
#![deny(missing_docs)]
#![deny(missing_debug_implementations)]
#![deny(clippy::missing_errors_doc, clippy::must_use_candidate, clippy::return_self_not_must_use)]
#![deny(unsafe_code)]
#![deny(unsafe_op_in_unsafe_fn)]

extern crate alloc;
#[cfg(feature = "std")]
extern crate std;

#[allow(unsafe_code)] // the calls themselves
pub mod c;
mod columns;
mod field;
#[cfg(feature = "std")]
pub mod files;
pub mod layout;
pub mod names;
mod numbers;
mod picture;
mod refusal;
mod request;
mod room;
mod tree;
mod types;

pub use columns::{Column, Columns};
pub use field::{Field, Overlong};
pub use layout::{Kind, NoKind};
pub use numbers::{FieldId, Slot};
pub use refusal::{Refusal, RefusalKind, RefusalList};
pub use request::{Request, RequestRef};
pub use room::Room;
pub use tree::{Mode, Renumbered, Tree, TreeRef, Updated};
pub use types::{Decimal, NoType, NoVersion, Type, TypeCode, Version};

/// Is the archive linked? Only a build with `BRAIDHURDLE_ARCHIVE=none` is without it, for machines
/// that test the rest; there every call panics.
pub const LINKED: bool = cfg!(archive);
