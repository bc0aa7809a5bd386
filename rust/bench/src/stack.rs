//! How much stack an entry uses. It runs in a thread whose stack is memory of our own, filled
//! before with one value; the lowest byte that has another value afterwards is the mark.

use std::collections::BTreeMap;
use std::ffi::c_void;
use std::hint::black_box;
use std::ptr;

use cases::{Case, Operations};

use crate::timing::Room;

/// Room for the thread: far more than any entry needs, and more than the least that systems ask.
const STACK: usize = 1 << 18;
/// Stacks are aligned to the largest page in use.
const PAGE: usize = 1 << 16;
const PAINT: u8 = 0xB7;

/// `pthread_attr_t`: at most 64 bytes where this runs.
#[repr(C, align(16))]
struct Attributes([u8; 256]);

unsafe extern "C" {
    fn pthread_attr_init(attributes: *mut Attributes) -> i32;
    fn pthread_attr_setstack(attributes: *mut Attributes, lowest: *mut c_void, bytes: usize)
    -> i32;
    fn pthread_attr_destroy(attributes: *mut Attributes) -> i32;
    fn pthread_create(
        thread: *mut usize,
        attributes: *const Attributes,
        start: extern "C" fn(*mut c_void) -> *mut c_void,
        argument: *mut c_void,
    ) -> i32;
    fn pthread_join(thread: usize, answer: *mut *mut c_void) -> i32;
}

/// What the thread calls, and where its stack stood just before.
struct Job<'a> {
    call: &'a mut (dyn FnMut() + Send),
    top: usize,
}

extern "C" fn start(job: *mut c_void) -> *mut c_void {
    // Safe: it is the job of the caller below, who waits for this thread.
    let job = unsafe { &mut *job.cast::<Job>() };
    let here = 0u8;
    job.top = ptr::from_ref(&here).addr();
    (job.call)();
    ptr::null_mut()
}

/// The bytes of stack that a call uses, with the frames between it and here.
pub fn stack_used(call: &mut (dyn FnMut() + Send)) -> usize {
    let mut memory = vec![PAINT; STACK + PAGE];
    let lowest = memory.as_mut_ptr();
    let lowest = lowest.wrapping_add(lowest.align_offset(PAGE));
    let mut job = Job { call, top: 0 };
    let mut attributes = Attributes([0; 256]);
    let mut thread = 0;
    // Safe: the stack lies within `memory`, which nobody else touches until the thread has
    // ended; the job lives as long. The attributes have more room than the C library needs.
    unsafe {
        done(pthread_attr_init(&mut attributes));
        done(pthread_attr_setstack(&mut attributes, lowest.cast(), STACK));
        done(pthread_create(&mut thread, &attributes, start, ptr::from_mut(&mut job).cast()));
        done(pthread_join(thread, ptr::null_mut()));
        done(pthread_attr_destroy(&mut attributes));
    }
    let from = lowest.addr() - memory.as_ptr().addr();
    let painted = memory[from..].iter().take_while(|byte| **byte == PAINT).count();
    job.top - (lowest.addr() + painted)
}

fn done(status: i32) {
    assert_eq!(status, 0, "a thread on a stack of our own");
}

/// The most stack that each entry used over some cases, from the caller's frame down.
pub fn marks(
    cases: impl IntoIterator<Item = Case>,
    by: &(impl Operations + Sync),
) -> BTreeMap<&'static str, usize> {
    let mut room = Room::default();
    let mut marks = BTreeMap::new();
    for case in cases {
        let used = stack_used(&mut || {
            black_box(room.call(&case, by));
        });
        let most = marks.entry(case.ask.word()).or_insert(0);
        *most = used.max(*most);
    }
    marks
}
