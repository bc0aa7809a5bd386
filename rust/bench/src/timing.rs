//! Times of single calls.

use std::hint::black_box;

use cases::{Ask, Case, Operations};
use judge::{ID_BYTES, MOST_ASKED, OUT_NAMES, OUT_RECORDS};

const ROUNDS: usize = 50;
const TURN_NANOSECONDS: i64 = 1_000_000;

/// What is timed; the buffers are everybody's.
pub type Call<'a> = Box<dyn Fn(&mut Room) + 'a>;

/// Nanoseconds of one call of each: the best of some rounds, in this thread's own processor time, so
/// that other work on the machine does little harm. In a round all take turns: the machine's clock
/// moves, and so it moves for all of them.
pub fn times(calls: &[Option<Call>]) -> Vec<Option<f64>> {
    let mut room = Room::default();
    let mut counts = vec![1; calls.len()];
    let mut best = vec![None; calls.len()];
    for _ in 0..ROUNDS {
        for ((call, count), best) in calls.iter().zip(&mut counts).zip(&mut best) {
            let Some(call) = call else { continue };
            let time = turn(|| call(&mut room), count);
            *best = Some(best.map_or(time, |best: f64| best.min(time)));
        }
    }
    best
}

/// Nanoseconds of one call, of as many as fill a turn. One goes before them untimed, since others
/// have filled the caches in their turns: a call that fills its turn alone would pay for that.
fn turn(mut call: impl FnMut(), count: &mut u32) -> f64 {
    call();
    loop {
        let start = processor_time();
        (0..*count).for_each(|_| call());
        let spent = processor_time() - start;
        if spent >= TURN_NANOSECONDS {
            return spent as f64 / f64::from(*count);
        }
        *count *= 2;
    }
}

/// `timespec` of a 64-bit system.
#[repr(C)]
struct Clock {
    seconds: i64,
    nanoseconds: i64,
}

unsafe extern "C" {
    fn clock_gettime(clock: i32, now: *mut Clock) -> i32;
}

/// Linux's `CLOCK_THREAD_CPUTIME_ID`.
const THREAD_TIME: i32 = 3;

/// The nanoseconds that this thread has had on a processor.
fn processor_time() -> i64 {
    let mut now = Clock { seconds: 0, nanoseconds: 0 };
    // Safe: it writes the struct alone.
    let status = unsafe { clock_gettime(THREAD_TIME, &mut now) };
    assert_eq!(status, 0, "a thread's clock");
    now.seconds * 1_000_000_000 + now.nanoseconds
}

/// Output buffers that are made once, so that no call pays for them.
pub struct Room {
    records: Vec<u8>,
    names: Vec<u8>,
    identifiers: Vec<u8>,
    slots: Vec<u8>,
}

impl Default for Room {
    fn default() -> Room {
        Room {
            records: vec![0; OUT_RECORDS],
            names: vec![0; OUT_NAMES],
            identifiers: vec![0; 256],
            slots: vec![0; MOST_ASKED * ID_BYTES],
        }
    }
}

impl Room {
    /// Calls the operation of a case; 01's number of a refusal, or none for the lister.
    pub fn call(&mut self, case: &Case, by: &impl Operations) -> Option<u32> {
        let (base, pool) = (&case.records[..], &case.pool[..]);
        let (r, n, i) = (&mut self.records[..], &mut self.names[..], &mut self.identifiers[..]);
        Some(match &case.ask {
            Ask::Update { .. } => by.update(&case.update_call()?, r, n).refusal,
            Ask::Prune { selected, full, .. } => {
                by.prune(base, pool, selected, *full, r, n).refusal
            }
            Ask::Renumber { identifiers, start, .. } => {
                by.renumber(base, pool, identifiers, *start, r, n, i).refusal
            }
            Ask::Name(name) => by.find_name(base, pool, name).refusal,
            Ask::Folded(name) => by.find_folded(base, pool, name).refusal,
            Ask::Id(id) => by.find_id(base, pool, *id).refusal,
            Ask::Ids { ids, .. } => by.find_ids(base, pool, ids, &mut self.slots).refusal,
            Ask::Parent(id) => by.find_parent(base, pool, *id).refusal,
            Ask::List => return None,
        })
    }

    /// The records that an accepted update visits; none for a refusal and for the others.
    pub fn visited(&mut self, case: &Case, by: &impl Operations) -> Option<u32> {
        let done = by.update(&case.update_call()?, &mut self.records, &mut self.names);
        (done.refusal == 0).then_some(done.visited)
    }

    /// Copies the base's bytes to the front of the buffers: what no operation can be below
    /// that writes as much.
    pub fn copy(&mut self, case: &Case) {
        copy_all(&case.records, &mut self.records);
        copy_all(&case.pool, &mut self.names);
    }
}

/// Copies bytes to the front of a buffer.
pub fn copy_all(from: &[u8], to: &mut [u8]) {
    black_box(&mut to[..from.len()]).copy_from_slice(black_box(from));
}
