//! The calls as they are. The judge shares no type with what it judges, so the numbers are copied.

use braidhurdle::c;
use cases::Operations;
use judge::{Changed, Found, Searched, UpdateCall};

/// The port.
pub struct Port;

/// The numbers, as the judge has them.
fn changed(c: c::Changed) -> Changed {
    let c::Changed { refusal, list, place, records, names, last_id, visited } = c;
    Changed { refusal, list, place, records, names, last_id, visited }
}

/// The numbers, as the judge has them.
fn found(f: c::Found) -> Found {
    let c::Found { refusal, list, place, found, id, slot } = f;
    Found { refusal, list, place, found, id, slot }
}

impl Operations for Port {
    fn update(&self, call: &UpdateCall, r: &mut [u8], n: &mut [u8]) -> Changed {
        changed(c::update(
            call.records,
            call.pool,
            call.identifiers,
            call.last_id,
            call.version,
            call.deletions,
            call.additions,
            call.added_records,
            call.edits,
            call.request_pool,
            r,
            n,
        ))
    }

    fn prune(
        &self,
        records: &[u8],
        pool: &[u8],
        selected: &[u8],
        full: u32,
        r: &mut [u8],
        n: &mut [u8],
    ) -> Changed {
        changed(c::prune(records, pool, selected, full, r, n))
    }

    fn renumber(
        &self,
        records: &[u8],
        pool: &[u8],
        identifiers: &[u8],
        start: i32,
        r: &mut [u8],
        n: &mut [u8],
        i: &mut [u8],
    ) -> Changed {
        changed(c::renumber(records, pool, identifiers, start, r, n, i))
    }

    fn find_name(&self, records: &[u8], pool: &[u8], name: &[u8]) -> Found {
        found(c::find_name(records, pool, name))
    }

    fn find_folded(&self, records: &[u8], pool: &[u8], name: &[u8]) -> Found {
        found(c::find_folded(records, pool, name))
    }

    fn find_id(&self, records: &[u8], pool: &[u8], id: i32) -> Found {
        found(c::find_id(records, pool, id))
    }

    fn find_ids(&self, records: &[u8], pool: &[u8], ids: &[u8], s: &mut [u8]) -> Searched {
        let c::Searched { refusal, list, place, found } = c::find_ids(records, pool, ids, s);
        Searched { refusal, list, place, found }
    }

    fn find_parent(&self, records: &[u8], pool: &[u8], id: i32) -> Found {
        found(c::find_parent(records, pool, id))
    }
}
