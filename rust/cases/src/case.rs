//! A case, and what came of it.

use judge::{Changed, Found, Refusal, Searched, UpdateCall};

/// What an operation is lent: a base, and what is asked of it.
#[derive(Clone, Debug, PartialEq, Eq)]
pub struct Case {
    pub records: Vec<u8>,
    pub pool: Vec<u8>,
    pub ask: Ask,
}

impl Case {
    /// What an update is lent; none for the other operations.
    pub fn update_call(&self) -> Option<UpdateCall<'_>> {
        match &self.ask {
            Ask::Update {
                identifiers,
                last_id,
                version,
                deletions,
                additions,
                added_records,
                edits,
                request_pool,
                out_records: _,
                out_names: _,
            } => Some(UpdateCall {
                records: &self.records,
                pool: &self.pool,
                identifiers,
                last_id: *last_id,
                version: *version,
                deletions,
                additions,
                added_records,
                edits,
                request_pool,
            }),
            _ => None,
        }
    }
}

/// An operation with what it takes beside the base. `out_` fields are buffer sizes.
#[derive(Clone, Debug, PartialEq, Eq)]
pub enum Ask {
    Update {
        identifiers: Vec<u8>,
        last_id: i32,
        version: u32,
        deletions: Vec<u8>,
        additions: Vec<u8>,
        added_records: Vec<u8>,
        edits: Vec<u8>,
        request_pool: Vec<u8>,
        out_records: usize,
        out_names: usize,
    },
    Prune {
        selected: Vec<u8>,
        full: u32,
        out_records: usize,
        out_names: usize,
    },
    Renumber {
        identifiers: Vec<u8>,
        start: i32,
        out_records: usize,
        out_names: usize,
        out_identifiers: usize,
    },
    Name(Vec<u8>),
    /// By name, where case is forgotten.
    Folded(Vec<u8>),
    Id(i32),
    /// Many ids at once.
    Ids {
        ids: Vec<u8>,
        out_slots: usize,
    },
    Parent(i32),
    List,
}

impl Ask {
    /// The operation's word in the recorded list.
    pub fn word(&self) -> &'static str {
        match self {
            Ask::Update { .. } => "update",
            Ask::Prune { .. } => "prune",
            Ask::Renumber { .. } => "renumber",
            Ask::Name(_) => "name",
            Ask::Folded(_) => "folded",
            Ask::Id(_) => "id",
            Ask::Ids { .. } => "ids",
            Ask::Parent(_) => "parent",
            Ask::List => "list",
        }
    }
}

/// An answer as the recorded list has it.
#[derive(Clone, Debug, PartialEq, Eq)]
pub enum Answer {
    Refused(Refusal),
    Updated { records: Vec<u8>, names: Vec<u8>, last_id: i32, visited: u32 },
    Pruned { records: Vec<u8>, names: Vec<u8> },
    Renumbered { records: Vec<u8>, names: Vec<u8>, identifiers: Vec<u8> },
    Found { id: i32, slot: u32 },
    Nothing,
    Searched { slots: Vec<u8>, found: u32 },
    Listed(Vec<u8>),
}

impl Answer {
    /// 01's number of a refusal.
    pub fn refusal(&self) -> Option<Refusal> {
        match self {
            Answer::Refused(refusal) => Some(*refusal),
            _ => None,
        }
    }

    /// The record bytes of an accepted tree.
    pub fn records(&self) -> Option<&[u8]> {
        match self {
            Answer::Updated { records, .. }
            | Answer::Pruned { records, .. }
            | Answer::Renumbered { records, .. } => Some(records),
            _ => None,
        }
    }
}

/// The numbers that an operation returns.
#[derive(Clone, Copy, Debug, PartialEq, Eq)]
pub enum Numbers {
    Changed(Changed),
    Found(Found),
    Searched(Searched),
}

/// All that an operation leaves: its numbers, and its buffers from end to end.
#[derive(Clone, Debug, PartialEq, Eq)]
pub struct Outcome {
    pub numbers: Numbers,
    pub out_records: Vec<u8>,
    pub out_names: Vec<u8>,
    pub out_identifiers: Vec<u8>,
    pub out_slots: Vec<u8>,
}

/// Somebody who does the operations: the second judge, or the port.
pub trait Operations {
    fn update(&self, call: &UpdateCall, out_records: &mut [u8], out_names: &mut [u8]) -> Changed;
    fn prune(
        &self,
        records: &[u8],
        pool: &[u8],
        selected: &[u8],
        full: u32,
        out_records: &mut [u8],
        out_names: &mut [u8],
    ) -> Changed;
    #[allow(clippy::too_many_arguments)] // the C function's own list
    fn renumber(
        &self,
        records: &[u8],
        pool: &[u8],
        identifiers: &[u8],
        start: i32,
        out_records: &mut [u8],
        out_names: &mut [u8],
        out_identifiers: &mut [u8],
    ) -> Changed;
    fn find_name(&self, records: &[u8], pool: &[u8], name: &[u8]) -> Found;
    fn find_folded(&self, records: &[u8], pool: &[u8], name: &[u8]) -> Found;
    fn find_id(&self, records: &[u8], pool: &[u8], id: i32) -> Found;
    fn find_ids(&self, records: &[u8], pool: &[u8], ids: &[u8], out_slots: &mut [u8]) -> Searched;
    fn find_parent(&self, records: &[u8], pool: &[u8], id: i32) -> Found;
}

/// The second judge: the text of 01 and 02.
pub struct ByJudge;

impl Operations for ByJudge {
    fn update(&self, call: &UpdateCall, out_records: &mut [u8], out_names: &mut [u8]) -> Changed {
        judge::update(call, out_records, out_names)
    }
    fn prune(
        &self,
        records: &[u8],
        pool: &[u8],
        selected: &[u8],
        full: u32,
        out_records: &mut [u8],
        out_names: &mut [u8],
    ) -> Changed {
        judge::prune(records, pool, selected, full, out_records, out_names)
    }
    fn renumber(
        &self,
        records: &[u8],
        pool: &[u8],
        identifiers: &[u8],
        start: i32,
        out_records: &mut [u8],
        out_names: &mut [u8],
        out_identifiers: &mut [u8],
    ) -> Changed {
        judge::renumber(records, pool, identifiers, start, out_records, out_names, out_identifiers)
    }
    fn find_name(&self, records: &[u8], pool: &[u8], name: &[u8]) -> Found {
        judge::find_name(records, pool, name)
    }
    fn find_folded(&self, records: &[u8], pool: &[u8], name: &[u8]) -> Found {
        judge::find_folded(records, pool, name)
    }
    fn find_id(&self, records: &[u8], pool: &[u8], id: i32) -> Found {
        judge::find_id(records, pool, id)
    }
    fn find_ids(&self, records: &[u8], pool: &[u8], ids: &[u8], out_slots: &mut [u8]) -> Searched {
        judge::find_ids(records, pool, ids, out_slots)
    }
    fn find_parent(&self, records: &[u8], pool: &[u8], id: i32) -> Found {
        judge::find_parent(records, pool, id)
    }
}

/// A buffer whose bytes differ from their neighbours, so that a stray write shows.
fn filled(bytes: usize) -> Vec<u8> {
    let turn: [u8; 256] = std::array::from_fn(|at| (at as u8).wrapping_mul(37) ^ 0xA5);
    let mut buffer = turn.repeat(bytes.div_ceil(turn.len()));
    buffer.truncate(bytes);
    buffer
}

/// All that an operation leaves on a case; none for the lister, which is no operation of the port.
pub fn outcome(case: &Case, by: &impl Operations) -> Option<Outcome> {
    let (mut r, mut n, mut i, mut s) = (vec![], vec![], vec![], vec![]);
    let (records, pool) = (&case.records[..], &case.pool[..]);
    let numbers = match &case.ask {
        Ask::Update { out_records, out_names, .. } => {
            (r, n) = (filled(*out_records), filled(*out_names));
            Numbers::Changed(by.update(&case.update_call()?, &mut r, &mut n))
        }
        Ask::Prune { selected, full, out_records, out_names } => {
            (r, n) = (filled(*out_records), filled(*out_names));
            Numbers::Changed(by.prune(records, pool, selected, *full, &mut r, &mut n))
        }
        Ask::Renumber { identifiers, start, out_records, out_names, out_identifiers } => {
            (r, n, i) = (filled(*out_records), filled(*out_names), filled(*out_identifiers));
            let (r, n, i) = (&mut r, &mut n, &mut i);
            Numbers::Changed(by.renumber(records, pool, identifiers, *start, r, n, i))
        }
        Ask::Name(name) => Numbers::Found(by.find_name(records, pool, name)),
        Ask::Folded(name) => Numbers::Found(by.find_folded(records, pool, name)),
        Ask::Id(id) => Numbers::Found(by.find_id(records, pool, *id)),
        Ask::Ids { ids, out_slots } => {
            s = filled(*out_slots);
            Numbers::Searched(by.find_ids(records, pool, ids, &mut s))
        }
        Ask::Parent(id) => Numbers::Found(by.find_parent(records, pool, *id)),
        Ask::List => return None,
    };
    Some(Outcome { numbers, out_records: r, out_names: n, out_identifiers: i, out_slots: s })
}

/// The second judge's answer to a case.
pub fn answer(case: &Case) -> Answer {
    if case.ask == Ask::List {
        return match judge::list(&case.records, &case.pool) {
            Ok(lines) => Answer::Listed(lines),
            Err(refusal) => Answer::Refused(refusal),
        };
    }
    let o = outcome(case, &ByJudge).expect("the judge answers every operation");
    shown(case, &o)
}

/// What an outcome says, in the words of the recorded list.
pub fn shown(case: &Case, o: &Outcome) -> Answer {
    let (refusal, list, place) = match o.numbers {
        Numbers::Changed(c) => (c.refusal, c.list, c.place),
        Numbers::Found(f) => (f.refusal, f.list, f.place),
        Numbers::Searched(s) => (s.refusal, s.list, s.place),
    };
    if refusal != 0 {
        return Answer::Refused(Refusal { number: refusal, list, place });
    }
    match o.numbers {
        Numbers::Found(f) if f.found == 0 => Answer::Nothing,
        Numbers::Found(f) => Answer::Found { id: f.id, slot: f.slot },
        Numbers::Searched(s) => {
            let asked = if let Ask::Ids { ids, .. } = &case.ask { ids.len() } else { 0 };
            Answer::Searched { slots: o.out_slots[..asked].to_vec(), found: s.found }
        }
        Numbers::Changed(c) => {
            let records = o.out_records[..c.records as usize * judge::RECORD_BYTES].to_vec();
            let names = o.out_names[..c.names as usize].to_vec();
            match &case.ask {
                Ask::Update { .. } => {
                    Answer::Updated { records, names, last_id: c.last_id, visited: c.visited }
                }
                Ask::Renumber { identifiers, .. } => {
                    let identifiers = o.out_identifiers[..identifiers.len()].to_vec();
                    Answer::Renumbered { records, names, identifiers }
                }
                _ => Answer::Pruned { records, names },
            }
        }
    }
}
