//! The port's C functions, for the comparison and the benchmark: plain, and behind fences.

mod beside;
mod guarded;
mod plain;

pub use beside::{beside, beside_paper};
pub use guarded::Guarded;
pub use plain::Port;

/// Why the port can't be asked, if it can't.
pub fn absent() -> Option<&'static str> {
    if braidhurdle::LINKED { None } else { Some("built without its archive") }
}
