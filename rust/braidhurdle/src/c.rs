//! The C functions as they are: slices in, a few numbers out, nothing allocated and nothing
//! kept. What a function writes and what a refusal leaves is told in `include/braidhurdle.h`.
//! The unsafe code of the crate is here, but for the room that is made on the heap.
//!
//! The other modules are built on this one. Call it where the bytes come from elsewhere and the
//! buffers are your own:
//!
//! ```
//! use braidhurdle::c;
//!
//! // An empty tree is a tree, and has no column 1.
//! assert_eq!(c::find_id(&[], &[], 1), c::Found::default());
//! // A list of 5 bytes is no whole number of records: refusal 2.
//! assert_eq!(c::find_id(&[0; 5], &[], 1).refusal, 2);
//! ```

/// The answer of update, prune and renumber. On a refusal the last four are 0.
#[repr(C)]
#[derive(Clone, Copy, Debug, Default, PartialEq, Eq, Hash)]
pub struct Changed {
    /// 0 where accepted, else the refusal's number.
    pub refusal: u32,
    /// The list that a refusal speaks of.
    pub list: u32,
    /// The place in that list.
    pub place: u32,
    /// Records of the answer.
    pub records: u32,
    /// Name bytes of the answer.
    pub names: u32,
    /// The last id consumed by an update; 0 for the others.
    pub last_id: i32,
    /// The records that an update visited in its rebuild; 0 for the others.
    pub visited: u32,
}

/// The answer of a look-up. Where nothing is found, or on a refusal, id and slot are 0.
#[repr(C)]
#[derive(Clone, Copy, Debug, Default, PartialEq, Eq, Hash)]
pub struct Found {
    /// 0 where there is an answer, else the refusal's number.
    pub refusal: u32,
    /// The list that a refusal speaks of.
    pub list: u32,
    /// The place in that list.
    pub place: u32,
    /// 0 or 1.
    pub found: u32,
    /// The id of the column that was found.
    pub id: i32,
    /// Its slot.
    pub slot: u32,
}

/// The answer of a look-up of many ids.
#[repr(C)]
#[derive(Clone, Copy, Debug, Default, PartialEq, Eq, Hash)]
pub struct Searched {
    /// 0 where there is an answer, else the refusal's number.
    pub refusal: u32,
    /// The list that a refusal speaks of.
    pub list: u32,
    /// The place in that list.
    pub place: u32,
    /// How many of the ids were found; one that is asked for twice counts twice. 0 on a refusal.
    pub found: u32,
}

/// What stands for a slot where an id is not in the tree. No slot is so large.
pub const NO_SLOT: u32 = u32::MAX;

/// Where a name stands in the pool. Where there is none, or on a refusal, offset and length are 0.
#[repr(C)]
#[derive(Clone, Copy, Debug, Default, PartialEq, Eq)]
pub struct Name {
    /// 0, or 4 where the name passes the end of the pool.
    pub refusal: u32,
    /// The list that a refusal speaks of.
    pub list: u32,
    /// The place in that list: the slot.
    pub place: u32,
    /// 0 or 1.
    pub found: u32,
    /// Where the name begins in the pool.
    pub offset: u32,
    /// Its bytes.
    pub length: u32,
}

/// Only an archive whose functions are those that are declared here has this one, so that no other
/// links.
#[cfg(archive)]
#[used]
static DECLARED: unsafe extern "C" fn() -> u32 = {
    unsafe extern "C" {
        fn braidhurdle_abi_9() -> u32;
    }
    braidhurdle_abi_9
};

/// One function of the archive. Its arguments are lists, numbers, lists, and buffers to write, in
/// this order; in C a list or buffer is a pointer and a length, as `include/braidhurdle.h` has it.
macro_rules! function {
    (
        $(#[$doc:meta])*
        $name:ident is $symbol:ident(
            $($list:ident)*; $($number:ident: $type:ty)*; $($more:ident)*; $($out:ident)*
        ) -> $answer:ty
    ) => {
        $(#[$doc])*
        #[must_use]
        #[allow(clippy::too_many_arguments)] // the C function's own
        pub fn $name(
            $($list: &[u8],)* $($number: $type,)* $($more: &[u8],)* $($out: &mut [u8],)*
        ) -> $answer {
            #[cfg(archive)]
            unsafe extern "C" {
                fn $symbol(
                    $($list: *const u8, _: usize,)* $($number: $type,)*
                    $($more: *const u8, _: usize,)* $($out: *mut u8, _: usize,)*
                ) -> $answer;
            }
            #[cfg(not(archive))]
            #[allow(unused_variables)]
            unsafe fn $symbol(
                $($list: *const u8, _: usize,)* $($number: $type,)*
                $($more: *const u8, _: usize,)* $($out: *mut u8, _: usize,)*
            ) -> $answer {
                panic!("braidhurdle was built with BRAIDHURDLE_ARCHIVE=none, so without its code")
            }
            // SAFETY: the function asks nothing of its caller but that each pointer and length
            // are those of bytes that it may read, or write where the pointer says so, and that
            // what it writes overlaps nothing else. They are a slice's own, borrowed for the call.
            unsafe {
                $symbol(
                    $($list.as_ptr(), $list.len(),)* $($number,)*
                    $($more.as_ptr(), $more.len(),)* $($out.as_mut_ptr(), $out.len(),)*
                )
            }
        }
    };
}

function! {
    /// Drops, adds and edits columns. Ids are handed out from `last_id` + 1, and types are widened
    /// by the steps of the format version, 2 or 3.
    update is braidhurdle_update(
        records pool identifiers; last_id: i32 version: u32;
        deletions additions added_records edits request_pool;
        out_records out_names
    ) -> Changed
}
function! {
    /// Keeps the selected columns. `full`: not 0 keeps a chosen column's whole type.
    prune is braidhurdle_prune(records pool selected; full: u32;; out_records out_names) -> Changed
}
function! {
    /// Numbers every column anew from `start` on; identifiers are mapped in the order given.
    renumber is braidhurdle_renumber(
        records pool identifiers; start: i32;; out_records out_names out_identifiers
    ) -> Changed
}
function! {
    /// The column of a full name, or else of a short name.
    find_name is braidhurdle_find_name(records pool name;;;) -> Found
}
function! {
    /// The column of a full name, or else of a short name, where A to Z equal a to z. Refusal 21
    /// where two columns match at the same level.
    find_folded is braidhurdle_find_folded(records pool name;;;) -> Found
}
function! {
    /// The column of an id.
    find_id is braidhurdle_find_id(records pool; id: i32;;) -> Found
}
function! {
    /// The slots of many ids, 4 bytes each in the order of `ids`, or [`NO_SLOT`] where the tree has
    /// no such id.
    ///
    /// ```
    /// use braidhurdle::c;
    ///
    /// let ids = [1i32, 2].map(i32::to_le_bytes);
    /// let mut slots = [0; 9];
    /// assert_eq!(c::find_ids(&[], &[], ids.as_flattened(), &mut slots), c::Searched::default());
    /// // An empty tree has neither of the two. What stands behind their slots stays.
    /// assert_eq!(slots[..4], c::NO_SLOT.to_le_bytes());
    /// assert_eq!(slots[4..], [255, 255, 255, 255, 0]);
    /// ```
    find_ids is braidhurdle_find_ids(records pool ids;;; out_slots) -> Searched
}
function! {
    /// The column above that of an id.
    find_parent is braidhurdle_find_parent(records pool; id: i32;;) -> Found
}
function! {
    /// The name of the record at a slot. That record alone is read: the tree is not tested.
    found_name is braidhurdle_found_name(records pool; slot: u32;;) -> Name
}
