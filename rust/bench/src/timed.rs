//! The index of ids and the search in it, apart from all else: crates/index_timed.

/// Was its archive there?
pub const LINKED: bool = cfg!(timed);

#[cfg(timed)]
unsafe extern "C" {
    fn braidhurdle_timed_search(
        records: *const u8,
        record_bytes: usize,
        ids: *const u8,
        id_bytes: usize,
        rounds: u32,
    ) -> u32;
}

/// Builds the index, then searches each id, in so many rounds: how many searches found a slot.
#[cfg(timed)]
pub fn timed_search(records: &[u8], ids: &[u8], rounds: u32) -> u32 {
    // Safe: it reads the two slices, whatever they hold, and writes nothing.
    unsafe {
        braidhurdle_timed_search(records.as_ptr(), records.len(), ids.as_ptr(), ids.len(), rounds)
    }
}

/// There is nothing to call.
#[cfg(not(timed))]
pub fn timed_search(_: &[u8], _: &[u8], _: u32) -> u32 {
    unreachable!("built without libindex_timed.a")
}
