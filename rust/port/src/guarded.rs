//! The same calls on copies with a fence around each, so that a byte changed in what is lent,
//! or written beside a buffer, is seen.

use std::cell::RefCell;

use cases::Operations;
use judge::{Changed, Found, Searched, UpdateCall};

use crate::plain::Port;

const FENCE: usize = 64;
const FENCE_BYTE: u8 = 0x5C;

/// The operations behind fences; the first stray write is kept.
pub struct Guarded<O = Port> {
    by: O,
    stray: RefCell<Option<String>>,
}

/// A copy of a slice between two fences.
struct Fenced(Vec<u8>);

impl Fenced {
    fn new(bytes: &[u8]) -> Fenced {
        let fence = [FENCE_BYTE; FENCE];
        Fenced([&fence[..], bytes, &fence[..]].concat())
    }
    fn inside(&mut self) -> &mut [u8] {
        let end = self.0.len() - FENCE;
        &mut self.0[FENCE..end]
    }
    fn whole(&self) -> bool {
        let end = self.0.len() - FENCE;
        self.0[..FENCE].iter().chain(&self.0[end..]).all(|byte| *byte == FENCE_BYTE)
    }
}

impl Guarded<Port> {
    /// The port behind fences.
    pub fn port() -> Guarded<Port> {
        Guarded::new(Port)
    }
}

impl<O: Operations> Guarded<O> {
    /// Any operations behind fences.
    pub fn new(by: O) -> Guarded<O> {
        Guarded { by, stray: RefCell::new(None) }
    }

    /// The first stray write since the last question.
    pub fn stray(&self) -> Option<String> {
        self.stray.take()
    }

    /// Calls with fenced copies, looks at all of them, and hands the buffers back.
    fn fenced<T>(
        &self,
        lent: &[&[u8]],
        out: &mut [&mut [u8]],
        call: impl FnOnce(&[&[u8]], &mut [&mut [u8]]) -> T,
    ) -> T {
        let mut copies: Vec<Fenced> = lent.iter().map(|bytes| Fenced::new(bytes)).collect();
        let mut rooms: Vec<Fenced> = out.iter().map(|bytes| Fenced::new(bytes)).collect();
        let answer = {
            let copies: Vec<&[u8]> = copies.iter_mut().map(|copy| &*copy.inside()).collect();
            let mut rooms: Vec<&mut [u8]> = rooms.iter_mut().map(Fenced::inside).collect();
            call(&copies, &mut rooms)
        };
        for (at, (copy, bytes)) in copies.iter_mut().zip(lent).enumerate() {
            if !copy.whole() || copy.inside() != *bytes {
                self.stray.replace(Some(format!("lent bytes {at} were changed")));
            }
        }
        for (at, (room, bytes)) in rooms.iter_mut().zip(out).enumerate() {
            if !room.whole() {
                self.stray.replace(Some(format!("bytes beside output buffer {at} were changed")));
            }
            bytes.copy_from_slice(room.inside());
        }
        answer
    }
}

impl<O: Operations> Operations for Guarded<O> {
    fn update(&self, call: &UpdateCall, out_records: &mut [u8], out_names: &mut [u8]) -> Changed {
        self.fenced(&call.lists(), &mut [out_records, out_names], |copies, out| {
            let [r, n] = out else { unreachable!("two buffers") };
            let copies = copies.try_into().expect("as many as the call has");
            self.by.update(&call.with_lists(copies), r, n)
        })
    }

    fn prune(
        &self,
        records: &[u8],
        pool: &[u8],
        selected: &[u8],
        full: u32,
        out_records: &mut [u8],
        out_names: &mut [u8],
    ) -> Changed {
        self.fenced(&[records, pool, selected], &mut [out_records, out_names], |l, out| {
            let [r, n] = out else { unreachable!("two buffers") };
            self.by.prune(l[0], l[1], l[2], full, r, n)
        })
    }

    fn renumber(
        &self,
        records: &[u8],
        pool: &[u8],
        identifiers: &[u8],
        start: i32,
        out_records: &mut [u8],
        out_names: &mut [u8],
        out_identifiers: &mut [u8],
    ) -> Changed {
        let out = &mut [out_records, out_names, out_identifiers];
        self.fenced(&[records, pool, identifiers], out, |l, out| {
            let [r, n, i] = out else { unreachable!("three buffers") };
            self.by.renumber(l[0], l[1], l[2], start, r, n, i)
        })
    }

    fn find_name(&self, records: &[u8], pool: &[u8], name: &[u8]) -> Found {
        self.fenced(&[records, pool, name], &mut [], |l, _| self.by.find_name(l[0], l[1], l[2]))
    }

    fn find_folded(&self, records: &[u8], pool: &[u8], name: &[u8]) -> Found {
        self.fenced(&[records, pool, name], &mut [], |l, _| self.by.find_folded(l[0], l[1], l[2]))
    }

    fn find_id(&self, records: &[u8], pool: &[u8], id: i32) -> Found {
        self.fenced(&[records, pool], &mut [], |l, _| self.by.find_id(l[0], l[1], id))
    }

    fn find_ids(&self, records: &[u8], pool: &[u8], ids: &[u8], out_slots: &mut [u8]) -> Searched {
        self.fenced(&[records, pool, ids], &mut [out_slots], |l, out| {
            let [s] = out else { unreachable!("one buffer") };
            self.by.find_ids(l[0], l[1], l[2], s)
        })
    }

    fn find_parent(&self, records: &[u8], pool: &[u8], id: i32) -> Found {
        self.fenced(&[records, pool], &mut [], |l, _| self.by.find_parent(l[0], l[1], id))
    }
}
