//! Standard input and output that are not there.
//!
//! Before `main` Rust opens /dev/null in the place of a standard stream that is closed. An answer
//! would go there in silence, and a picture come from there empty. So this is asked earlier, when
//! the loader runs the functions of `.init_array`.

use std::ffi::c_int;
use std::io;
use std::sync::atomic::{AtomicBool, Ordering};

/// Standard input and output, by their numbers: were they closed?
static CLOSED: [AtomicBool; 2] = [AtomicBool::new(false), AtomicBool::new(false)];

/// The number of Linux for a file that is not open.
const NOT_OPEN: i32 = 9;

unsafe extern "C" {
    // SAFETY: it takes any number, and no pointer
    safe fn isatty(file: c_int) -> c_int;
}

#[used]
// SAFETY: the loader calls what stands in this section, once and before `main`; `ask` calls the C
// library alone, which is ready by then
#[unsafe(link_section = ".init_array")]
static ASK: extern "C" fn() = ask;

extern "C" fn ask() {
    for (closed, file) in CLOSED.iter().zip(0..) {
        let not_open = || io::Error::last_os_error().raw_os_error() == Some(NOT_OPEN);
        closed.store(isatty(file) == 0 && not_open(), Ordering::Relaxed);
    }
}

/// Was standard input closed when the tool was called?
pub fn no_input() -> bool {
    CLOSED[0].load(Ordering::Relaxed)
}

/// Was standard output closed when the tool was called?
pub fn no_output() -> bool {
    CLOSED[1].load(Ordering::Relaxed)
}
