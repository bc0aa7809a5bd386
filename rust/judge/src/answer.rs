//! What an operation answers, in the port's own numbers.

/// List number 0: the base.
pub const BASE: u32 = 0;
/// List number 1: the additions tree.
pub const ADDED: u32 = 1;
/// List number 2: the deletions.
pub const DELETIONS: u32 = 2;
/// List number 3: the additions.
pub const ADDITIONS: u32 = 3;
/// List number 4: the rebuilt tree.
pub const REBUILT: u32 = 4;
/// List number 5: the identifiers.
pub const IDENTIFIERS: u32 = 5;
/// List number 6: the edits.
pub const EDITS: u32 = 6;

/// The last number of a refusal.
pub const LAST_REFUSAL: u32 = 26;

/// Why a request is turned down: its number, the list, and the place in it.
#[derive(Clone, Copy, Debug, PartialEq, Eq, PartialOrd, Ord)]
pub struct Refusal {
    pub number: u32,
    pub list: u32,
    pub place: u32,
}

impl Refusal {
    /// The refusal with this number at this place of a list.
    pub fn new(number: u32, list: u32, place: usize) -> Refusal {
        Refusal { number, list, place: u32::try_from(place).expect("a place is a small number") }
    }
}

/// Refuses with the number at the lowest place where the fault stands, if it stands anywhere.
pub fn refuse(number: u32, list: u32, fault: Option<usize>) -> Result<(), Refusal> {
    match fault {
        None => Ok(()),
        Some(place) => Err(Refusal::new(number, list, place)),
    }
}

/// The answer of update, prune and renumber. On a refusal the last four are 0.
#[derive(Clone, Copy, Debug, Default, PartialEq, Eq)]
pub struct Changed {
    /// 0 where accepted, else the refusal's number.
    pub refusal: u32,
    pub list: u32,
    pub place: u32,
    /// Records of the answer.
    pub records: u32,
    /// Name bytes of the answer.
    pub names: u32,
    /// The last id consumed by an update; 0 for the others.
    pub last_id: i32,
    /// The records that an update visits in its rebuild (02, 7/13); 0 for the others.
    pub visited: u32,
}

impl From<Refusal> for Changed {
    fn from(r: Refusal) -> Changed {
        Changed { refusal: r.number, list: r.list, place: r.place, ..Changed::default() }
    }
}

/// The answer of a look-up. Where nothing is found, or on a refusal, id and slot are 0.
#[derive(Clone, Copy, Debug, Default, PartialEq, Eq)]
pub struct Found {
    /// 0 where it was answered, else the refusal's number.
    pub refusal: u32,
    pub list: u32,
    pub place: u32,
    /// 0 or 1.
    pub found: u32,
    pub id: i32,
    pub slot: u32,
}

impl From<Refusal> for Found {
    fn from(r: Refusal) -> Found {
        Found { refusal: r.number, list: r.list, place: r.place, ..Found::default() }
    }
}

/// The answer of a look-up of many ids. On a refusal the last is 0.
#[derive(Clone, Copy, Debug, Default, PartialEq, Eq)]
pub struct Searched {
    /// 0 where it was answered, else the refusal's number.
    pub refusal: u32,
    pub list: u32,
    pub place: u32,
    /// How many of the ids were found; one that is asked for twice counts twice.
    pub found: u32,
}

impl From<Refusal> for Searched {
    fn from(r: Refusal) -> Searched {
        Searched { refusal: r.number, list: r.list, place: r.place, ..Searched::default() }
    }
}

impl Found {
    /// What a look-up in an accepted tree answers.
    pub fn at(what: Option<(i32, usize)>) -> Found {
        match what {
            None => Found::default(),
            Some((id, slot)) => Found { found: 1, id, slot: slot as u32, ..Found::default() },
        }
    }
}
