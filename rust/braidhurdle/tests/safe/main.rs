//! The crate as its users see it.

mod any_bytes;
mod building;
mod edits;
mod files;
mod find_ids;
mod folded;
mod numbers;
mod package;
mod picture;
mod reading;
mod refusals;
mod room;
mod t;
mod tables;
mod text;
mod types;
mod visited;
mod widenings;
mod worked;
