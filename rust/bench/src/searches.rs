//! Searches by id beside a linear scan of the same records, and beside the crate.

use std::hint::black_box;

use cases::{Ask, Case, ask_of, ids_by, packed};
use judge::{ID_BYTES, RECORD_BYTES};
use oracle::Iceberg;
use port::Port;

use crate::ids::Family;
use crate::schemas::{schema, with_ids};
use crate::timed::{LINKED, timed_search};
use crate::timing::{Call, Room};

/// Rounds of a search in what is built: as many as make the building small beside them.
const MANY: u32 = 10_000;

/// What is done besides searching.
#[derive(Clone, Copy, PartialEq, Eq)]
enum Way {
    /// Nothing: it is done many times in what is built once, and what building takes is subtracted.
    Built,
    /// The index of ids is built. Nothing is tested but that no two are equal.
    Building,
    /// All that an entry does.
    Entry,
}

/// Ids that are sought in a tree.
pub struct Search {
    pub what: &'static str,
    pub case: Case,
    /// How many of them are there.
    pub found: u32,
    way: Way,
}

/// The searches in a schema of so many records whose ids are of a family.
pub fn searches(name: &str, (_, ids): Family, records: usize) -> Vec<Search> {
    let ids = ids(2 * records);
    let (present, absent) = ids.split_at(records);
    let base = packed(&with_ids(schema(name, records), present.iter().copied()));
    let [first, last, none] = [present[0], present[records - 1], absent[records - 1]];
    let row = |what, way, asked: &[i32]| Search {
        what,
        case: ids_by(base.clone(), asked),
        way,
        found: asked.iter().filter(|id| present.contains(id)).count() as u32,
    };
    let one = |what, id| {
        let case = ask_of(base.clone(), Ask::Id(id));
        Search { case, ..row(what, Way::Entry, &[id]) }
    };
    vec![
        row("one search in what is built: first", Way::Built, &[first]),
        row("the same: last", Way::Built, &[last]),
        row("the same: absent", Way::Built, &[none]),
        row("building, one search: first", Way::Building, &[first]),
        row("the same: last", Way::Building, &[last]),
        row("the same: absent", Way::Building, &[none]),
        row("building, as many searches: all", Way::Building, present),
        row("the same: all absent", Way::Building, absent),
        one("find_id: first", first),
        one("the same: last", last),
        one("the same: absent", none),
        row("find_ids of as many: all", Way::Entry, present),
        row("the same: all absent", Way::Entry, absent),
    ]
}

impl Search {
    /// How often a call of it searches.
    pub fn rounds(&self) -> u32 {
        if self.way == Way::Built { MANY } else { 1 }
    }

    fn ids(&self) -> Vec<u8> {
        match &self.case.ask {
            Ask::Ids { ids, .. } => ids.clone(),
            Ask::Id(id) => id.to_le_bytes().to_vec(),
            other => unreachable!("{} is no search by id", other.word()),
        }
    }

    /// Our call and what is to be subtracted from it, the scan, and the crate's. Each answer is
    /// looked at first.
    pub fn calls(&self, iceberg: Option<Iceberg>) -> [Option<Call<'_>>; 4] {
        let (records, rounds) = (&self.case.records[..], self.rounds());
        let found = self.found * rounds;
        let scanned = self.ids();
        assert_eq!(scan(records, &scanned, rounds), found, "{}", self.what);
        let scan: Call = Box::new(move |_| {
            black_box(scan(records, &scanned, rounds));
        });
        let ours = match self.way {
            Way::Entry => port::absent().is_none().then(|| self.entry()),
            _ => LINKED.then(|| {
                let ids = self.ids();
                assert_eq!(timed_search(records, &ids, rounds), found, "{}", self.what);
                self.alone(rounds)
            }),
        };
        let less = (LINKED && self.way == Way::Built).then(|| self.alone(0));
        [ours, less, Some(scan), iceberg.map(|iceberg| self.by_crate(iceberg))]
    }

    fn entry(&self) -> Call<'_> {
        assert_eq!(Room::default().call(&self.case, &Port), Some(0), "{}", self.what);
        Box::new(|room| {
            black_box(room.call(&self.case, &Port));
        })
    }

    fn alone(&self, rounds: u32) -> Call<'_> {
        let ids = self.ids();
        Box::new(move |_| {
            black_box(timed_search(&self.case.records, &ids, rounds));
        })
    }

    fn by_crate(&self, iceberg: Iceberg) -> Call<'_> {
        if self.way != Way::Built {
            return Box::new(move |_| {
                black_box(iceberg.operate(&self.case));
            });
        }
        let has = iceberg.built(&self.case).expect("the crate builds it");
        let ids: Vec<i32> = words(&self.ids()).map(i32::from_le_bytes).collect();
        Box::new(move |_| {
            for _ in 0..MANY {
                for id in &ids {
                    black_box(has(black_box(*id)));
                }
            }
        })
    }
}

fn words(ids: &[u8]) -> impl Iterator<Item = [u8; ID_BYTES]> {
    ids.chunks_exact(ID_BYTES).map(|id| id.try_into().expect("so many bytes"))
}

/// The scan: for each id the first record that begins with it, in so many rounds. How many there
/// are. It believes that each record has an id of its own, and looks at nothing else.
pub fn scan(records: &[u8], ids: &[u8], rounds: u32) -> u32 {
    let mut found = 0;
    for _ in 0..rounds {
        for id in words(ids) {
            // so that no round can be left out as the same as the one before
            let (records, id) = (black_box(records), black_box(id));
            let slot = records.chunks_exact(RECORD_BYTES).position(|r| r[..ID_BYTES] == id);
            found += u32::from(black_box(slot).is_some());
        }
    }
    found
}
