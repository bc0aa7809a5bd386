//! Stands for spec/mod.rs: of the crate's modules the three that a schema needs.

include!(concat!(env!("OUT_DIR"), "/spec.rs"));
mod values;

pub use datatypes::*;
pub use schema::*;
pub use values::*;

pub(crate) mod beside;
