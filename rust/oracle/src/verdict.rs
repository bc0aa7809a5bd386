//! What the crate says to a case.

use cases::{Answer, Case};

/// The crate's word on a case.
#[derive(Clone, Debug, PartialEq, Eq)]
pub enum Verdict {
    /// Accepted, or a look-up's answer.
    Answer(Answer),
    /// Turned down. The number is 01's for the crate's text. The place is there where the
    /// crate's own behaviour tells it. `base`: the builder refused the base.
    Refused { number: u32, place: Option<u32>, base: bool, text: String },
    /// The crate panicked; in an update the place is the addition at which it did.
    Panicked { place: Option<u32>, text: String },
    /// The bytes have no counterpart in the crate.
    Unfit(&'static str),
}

/// The crate, where its files are there.
#[cfg(iceberg)]
#[derive(Clone, Copy)]
pub struct Iceberg(());

/// The crate, where its files are there. Here they are not, so there is no such value.
#[cfg(not(iceberg))]
#[derive(Clone, Copy)]
pub enum Iceberg {}

/// The judge, or why it isn't there.
#[cfg(iceberg)]
pub fn judge() -> Result<Iceberg, &'static str> {
    Ok(Iceberg(()))
}

/// The judge, or why it isn't there.
#[cfg(not(iceberg))]
pub fn judge() -> Result<Iceberg, &'static str> {
    Err(env!("ICEBERG_ABSENT"))
}

#[cfg(iceberg)]
impl Iceberg {
    /// The crate's word on a case.
    pub fn verdict(&self, case: &Case) -> Verdict {
        crate::operations::verdict(case)
    }

    /// From the bytes to the crate's answer and no further, for measuring. True where it is
    /// accepted and, in a look-up, something is found.
    pub fn operate(&self, case: &Case) -> bool {
        crate::operations::operate(case)
    }

    /// The base as the crate builds it, asked whether it has an id, for measuring.
    pub fn built(&self, case: &Case) -> Option<Box<dyn Fn(i32) -> bool>> {
        crate::operations::built(case)
    }

    /// The last id consumed by an accepted update, as one more column shows it: its id less one.
    pub fn last_id(&self, case: &Case) -> Option<i32> {
        crate::operations::last_id_by_one_more(case)
    }

    /// How many columns an update's deletions take out, each counted without its inside.
    pub fn left_out(&self, case: &Case) -> Option<usize> {
        crate::operations::left_out_by_rebuilding(case)
    }

    /// Renumbering by the crate's own `ReassignFieldIds`, without its builder: the ids.
    pub fn renumbered_without_builder(&self, case: &Case) -> Option<Vec<i32>> {
        crate::operations::renumbered_without_builder(case)
    }
}

#[cfg(not(iceberg))]
impl Iceberg {
    /// The crate's word on a case.
    pub fn verdict(&self, _: &Case) -> Verdict {
        match *self {}
    }

    /// From the bytes to the crate's answer and no further, for measuring. True where it is
    /// accepted and, in a look-up, something is found.
    pub fn operate(&self, _: &Case) -> bool {
        match *self {}
    }

    /// The base as the crate builds it, asked whether it has an id, for measuring.
    pub fn built(&self, _: &Case) -> Option<Box<dyn Fn(i32) -> bool>> {
        match *self {}
    }

    /// The last id consumed by an accepted update, as one more column shows it.
    pub fn last_id(&self, _: &Case) -> Option<i32> {
        match *self {}
    }

    /// How many columns an update's deletions take out, each counted without its inside.
    pub fn left_out(&self, _: &Case) -> Option<usize> {
        match *self {}
    }

    /// Renumbering by the crate's own `ReassignFieldIds`, without its builder: the ids.
    pub fn renumbered_without_builder(&self, _: &Case) -> Option<Vec<i32>> {
        match *self {}
    }
}
