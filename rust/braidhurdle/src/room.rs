//! Room for an answer, to be used again and again.

use alloc::boxed::Box;
use core::fmt;

use crate::FieldId;
use crate::layout::{MOST_IDENTIFIERS, NAME_ROOM, RECORD_ROOM};

/// Room for one answer: about 57 KB, so keep it in a box or a static. What it holds is
/// overwritten by the next answer. It is large enough for every answer, so refusal 1 is never met.
#[derive(Clone)]
pub struct Room {
    pub(crate) records: [u8; RECORD_ROOM],
    pub(crate) names: [u8; NAME_ROOM],
    pub(crate) identifiers: [FieldId; MOST_IDENTIFIERS],
}

impl Room {
    /// Empty room.
    #[must_use]
    pub const fn new() -> Room {
        Room {
            records: [0; RECORD_ROOM],
            names: [0; NAME_ROOM],
            identifiers: [FieldId(0); MOST_IDENTIFIERS],
        }
    }

    /// Empty room on the heap. It is built there, and never stands on the stack.
    #[must_use]
    #[allow(unsafe_code)] // a box of numbers can't be filled in its place otherwise
    pub fn boxed() -> Box<Room> {
        let mut room = Box::<Room>::new_uninit();
        // SAFETY: a room is numbers alone, and all of them 0 is a room.
        unsafe {
            room.as_mut_ptr().write_bytes(0, 1);
            room.assume_init()
        }
    }
}

impl Default for Room {
    fn default() -> Room {
        Room::new()
    }
}

impl fmt::Debug for Room {
    /// Its name alone: what it holds belongs to the answer that was given.
    fn fmt(&self, f: &mut fmt::Formatter<'_>) -> fmt::Result {
        f.debug_struct("Room").finish_non_exhaustive()
    }
}
