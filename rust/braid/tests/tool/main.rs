//! The tool run as people run it.

mod answers;
mod examples;
mod explain;
mod files;
mod folder;
mod happened;
mod last;
mod pictures;
mod refusals;
