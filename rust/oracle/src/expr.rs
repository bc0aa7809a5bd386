//! Stands for expr/mod.rs: only what schema/mod.rs asks for.

include!(concat!(env!("OUT_DIR"), "/expr.rs"));
