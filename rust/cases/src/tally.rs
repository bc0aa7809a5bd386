//! What came up in a run, counted for each operation.

use std::collections::BTreeMap;
use std::fmt;

use judge::{
    ADDED, ADDITIONS, BASE, DELETIONS, EDITS, IDENTIFIERS, LAST_REFUSAL, REBUILT, RECORD_BYTES,
};

use crate::case::{Answer, Case};
use crate::generate::{OPERATIONS, Origin};
use crate::shapes::{all_shapes, shapes_of};
use crate::sorted::{SHAPES_OF_SORTED, sorted_shapes};

/// A count for each of the operations.
#[derive(Clone, Copy, Debug, Default, PartialEq, Eq)]
pub struct Counts([u64; OPERATIONS.len()]);

impl Counts {
    fn at(operation: &str) -> usize {
        OPERATIONS.iter().position(|word| *word == operation).expect("one of the operations")
    }

    /// One more for an operation.
    pub fn add(&mut self, operation: &str) {
        self.0[Counts::at(operation)] += 1;
    }

    /// The count of an operation.
    pub fn of(&self, operation: &str) -> u64 {
        self.0[Counts::at(operation)]
    }

    /// The counts of all operations together.
    pub fn sum(&self) -> u64 {
        self.0.iter().sum()
    }
}

impl std::ops::AddAssign for Counts {
    fn add_assign(&mut self, other: Counts) {
        self.0.iter_mut().zip(other.0).for_each(|(count, more)| *count += more);
    }
}

impl fmt::Display for Counts {
    fn fmt(&self, f: &mut fmt::Formatter<'_>) -> fmt::Result {
        self.0.iter().try_for_each(|count| match count {
            0 => write!(f, "{:>9}", "-"),
            _ => write!(f, "{count:>9}"),
        })
    }
}

/// How often each refusal, with its list, and each shape came up.
#[derive(Clone, Debug, Default, PartialEq, Eq)]
pub struct Tally {
    pub cases: Counts,
    /// Bases of up to 40 records, and of more than 900.
    pub small: Counts,
    pub large: Counts,
    pub origins: BTreeMap<Origin, Counts>,
    pub refusals: BTreeMap<(u32, u32), Counts>,
    pub shapes: BTreeMap<&'static str, Counts>,
}

/// The refusals that an operation can give, each with its list.
fn possible(operation: &str) -> Vec<(u32, u32)> {
    let base = |numbers: &[u32]| numbers.iter().map(|n| (*n, BASE)).collect::<Vec<_>>();
    let mut possible = base(&[2, 3, 4, 5, 6, 7, 8]);
    match operation {
        "update" => {
            possible.extend(base(&[1, 25]));
            possible.extend([3, 4, 5, 6].map(|n| (n, ADDED)));
            possible.extend([3, 4, 11, 12].map(|n| (n, DELETIONS)));
            possible.extend([3, 4, 10, 13, 14, 15, 16, 17, 18, 22].map(|n| (n, ADDITIONS)));
            possible.extend([3, 4, 13, 23, 24, 26].map(|n| (n, EDITS)));
            possible.extend([7, 8, 19].map(|n| (n, REBUILT)));
            possible.push((9, IDENTIFIERS));
        }
        "prune" => possible.extend(base(&[1, 20])),
        "renumber" => {
            possible.extend(base(&[1, 18]));
            possible.push((9, IDENTIFIERS));
        }
        "folded" => possible.extend(base(&[21])),
        "ids" => possible.extend(base(&[1])),
        _ => {}
    }
    possible
}

/// Can a shape come up in an operation?
fn fits(shape: &str, operation: &str) -> bool {
    let of = shape.split(':').next().expect("a shape starts with a word");
    of == "tree" || of == operation
}

impl Tally {
    /// Counts a case with its answer.
    pub fn count(&mut self, case: &Case, origin: Origin, answer: &Answer) {
        let operation = case.ask.word();
        self.cases.add(operation);
        self.origins.entry(origin).or_default().add(operation);
        match case.records.len() / RECORD_BYTES {
            ..=40 => self.small.add(operation),
            901.. => self.large.add(operation),
            _ => {}
        }
        if let Some(refusal) = answer.refusal() {
            let at = (refusal.number, refusal.list);
            self.refusals.entry(at).or_default().add(operation);
        }
        for shape in shapes_of(case, answer) {
            self.shapes.entry(shape).or_default().add(operation);
        }
        if origin == Origin::Crowded {
            for shape in sorted_shapes(case, answer) {
                self.shapes.entry(shape).or_default().add(operation);
            }
        }
    }

    /// Adds what another part of the run met.
    pub fn add(&mut self, other: &Tally) {
        self.cases += other.cases;
        self.small += other.small;
        self.large += other.large;
        merge(&mut self.origins, &other.origins);
        merge(&mut self.refusals, &other.refusals);
        merge(&mut self.shapes, &other.shapes);
    }

    fn times(&self, refusal: (u32, u32), operation: &str) -> u64 {
        self.refusals.get(&refusal).map_or(0, |counts| counts.of(operation))
    }

    /// What never came up in any operation: of all refusals and shapes.
    pub fn missing(&self) -> Vec<String> {
        let met = |number: &u32| self.refusals.keys().any(|(known, _)| known == number);
        let refusals = (1..=LAST_REFUSAL).filter(|number| !met(number));
        let shapes = all_shapes().filter(|shape| !self.shapes.contains_key(shape));
        refusals.map(|n| format!("refusal {n}")).chain(shapes.map(|s| s.to_string())).collect()
    }

    /// What an operation can meet and never met, and refusals that it met and can't give.
    pub fn missing_by_operation(&self) -> Vec<String> {
        let mut missing = vec![];
        for operation in OPERATIONS {
            let possible = possible(operation);
            for (number, list) in &possible {
                if self.times((*number, *list), operation) == 0 {
                    missing.push(format!("{operation}: never refusal {number} in list {list}"));
                }
            }
            for (number, list) in self.refusals.keys().filter(|at| !possible.contains(at)) {
                if self.times((*number, *list), operation) > 0 {
                    missing.push(format!("{operation}: has no refusal {number} in list {list}"));
                }
            }
            let shapes = all_shapes().filter(|shape| fits(shape, operation));
            missing.extend(self.never(operation, shapes));
        }
        missing
    }

    /// What crowded cases can meet and never met, for each operation.
    pub fn missing_of_crowded(&self) -> Vec<String> {
        let of = |operation| {
            let shapes = SHAPES_OF_SORTED.iter().copied();
            self.never(operation, shapes.filter(move |shape| fits(shape, operation)))
        };
        OPERATIONS.into_iter().flat_map(of).collect()
    }

    fn never(&self, operation: &str, shapes: impl Iterator<Item = &'static str>) -> Vec<String> {
        let times = |shape: &str| self.shapes.get(shape).map_or(0, |counts| counts.of(operation));
        let never = shapes.filter(|shape| times(shape) == 0);
        never.map(|shape| format!("{operation}: never {shape}")).collect()
    }

    /// Each count with its words.
    fn rows(&self) -> Vec<(String, Counts)> {
        let mut rows = vec![("cases".to_string(), self.cases)];
        rows.push(("with up to 40 records".into(), self.small));
        rows.push(("with more than 900 records".into(), self.large));
        for (origin, counts) in &self.origins {
            let made = match origin {
                Origin::Whole => "whole",
                Origin::Damaged => "damaged",
                Origin::Edge => "at a limit or one past it",
                Origin::Crowded => "of names that crowd their chains",
            };
            rows.push((format!("made {made}"), *counts));
        }
        for ((number, list), counts) in &self.refusals {
            rows.push((format!("refusal {number} in list {list}"), *counts));
        }
        let met = |shape: &&str| self.shapes.contains_key(shape);
        let sorted = SHAPES_OF_SORTED.iter().copied().filter(met);
        let shapes = all_shapes()
            .chain(sorted)
            .map(|s| (s, self.shapes.get(s).copied().unwrap_or_default()));
        rows.extend(shapes.map(|(shape, counts)| (shape.to_string(), counts)));
        rows
    }
}

fn merge<K: Ord + Copy>(rows: &mut BTreeMap<K, Counts>, more: &BTreeMap<K, Counts>) {
    for (key, counts) in more {
        *rows.entry(*key).or_default() += *counts;
    }
}

impl fmt::Display for Tally {
    fn fmt(&self, f: &mut fmt::Formatter<'_>) -> fmt::Result {
        OPERATIONS.iter().try_for_each(|word| write!(f, "{word:>9}"))?;
        writeln!(f)?;
        self.rows().iter().try_for_each(|(what, counts)| writeln!(f, "{counts}  {what}"))
    }
}
