//! The first judge: iceberg 0.10.1's own files, compiled unchanged from where they lie, on
//! 01's bytes. No file of the crate is copied here; build.rs finds and checks them.
//!
//! The modules `error`, `spec`, `expr`, `table` and `transaction` repeat the crate's own,
//! since its files name each other by `crate::`. What is not the crate's in them carries no
//! behaviour; docs/COMPARISON.md lists it. Without the files this library has no judge.

// most of what the crate's files offer is not called here
#![cfg_attr(iceberg, allow(dead_code))]
// the crate's macro is named by `crate::`, and stands in a file that is included
#![cfg_attr(iceberg, allow(macro_expanded_macro_exports_accessed_by_absolute_paths))]

// ---- the crate's files, and the modules that hold them ----
#[cfg(iceberg)]
include!(concat!(env!("OUT_DIR"), "/root.rs"));
#[cfg(iceberg)]
mod catalog;
#[cfg(iceberg)]
pub mod expr;
#[cfg(iceberg)]
pub mod spec;
#[cfg(iceberg)]
pub mod table;
#[cfg(iceberg)]
pub mod transaction;
#[cfg(iceberg)]
pub use catalog::{TableRequirement, TableUpdate};
#[cfg(iceberg)]
pub use error::{Error, ErrorKind, Result};

// ---- the judge ----
#[cfg(iceberg)]
mod fields;
#[cfg(iceberg)]
mod operations;
#[cfg(iceberg)]
mod request;
mod verdict;

pub use verdict::{Iceberg, Verdict, judge};
