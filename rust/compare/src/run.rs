//! A run over many cases.

use std::collections::BTreeMap;
use std::panic::{AssertUnwindSafe, catch_unwind};
use std::sync::Mutex;
use std::sync::atomic::{AtomicU64, Ordering};

use cases::{
    Answer, Batch, ByJudge, Case, Counts, Generator, OPERATIONS, Operations, Origin, Tally, answer,
    outcome, shown, shrink,
};
use oracle::Iceberg;
use port::{Guarded, Port, beside};

use crate::agree::{Agreement, LISTED, agreement, not_the_crates};
use crate::recorded::line;

/// What a run met.
#[derive(Clone, Debug, Default, PartialEq, Eq)]
pub struct Report {
    pub tally: Tally,
    /// How the crate's words stood to the paper's.
    pub crate_beside_paper: BTreeMap<Agreement, Counts>,
    /// Cases in which the port gave the paper's answer.
    pub port: Counts,
}

/// A case on which two of them part.
#[derive(Clone, Debug)]
pub struct Failure {
    /// The case's number.
    pub number: u64,
    pub why: String,
    /// The case as it was made, and shrunk, each a line of the recorded format.
    pub line: String,
    pub shrunk: String,
}

impl std::fmt::Display for Failure {
    fn fmt(&self, f: &mut std::fmt::Formatter<'_>) -> std::fmt::Result {
        write!(f, "{}\nas it was made:\n{}\nshrunk:\n{}", self.why, self.line, self.shrunk)
    }
}

/// What one case shows where nobody parts.
#[derive(Clone, Debug)]
pub struct Shown {
    /// The paper's answer.
    pub paper: Answer,
    /// How the crate stood to it, where it was there.
    pub agreed: Option<Agreement>,
    /// Was the port asked?
    pub port: bool,
}

/// Puts one case to the judges and the port, or tells how two of them part.
pub fn check(case: &Case, iceberg: Option<Iceberg>) -> Result<Shown, String> {
    check_by(case, iceberg, linked())
}

/// The port, where it is there.
fn linked() -> Option<Port> {
    port::absent().is_none().then_some(Port)
}

/// The same with any operations in the port's place. A panic of somebody is told like a
/// difference, so that its case is shown.
fn check_by<O: Operations>(
    case: &Case,
    iceberg: Option<Iceberg>,
    by: Option<O>,
) -> Result<Shown, String> {
    let checked = catch_unwind(AssertUnwindSafe(|| checked_by(case, iceberg, by)));
    checked.unwrap_or_else(|_| Err("somebody panicked".into()))
}

fn checked_by<O: Operations>(
    case: &Case,
    iceberg: Option<Iceberg>,
    by: Option<O>,
) -> Result<Shown, String> {
    let left = outcome(case, &ByJudge);
    let paper = left.as_ref().map_or_else(|| answer(case), |left| shown(case, left));
    let agreed = match (iceberg, not_the_crates(case, &paper)) {
        (None, _) => None,
        (_, Some(own)) => Some(own),
        (Some(iceberg), None) => {
            let said = iceberg.verdict(case);
            match agreement(case, &paper, &said) {
                Agreement::Differ => return Err(format!("crate {said:?}\npaper {paper:?}")),
                agreed => Some(agreed),
            }
        }
    };
    let port = match (left, by) {
        (Some(left), Some(by)) => beside(case, &left, &Guarded::new(by))?,
        _ => false,
    };
    Ok(Shown { paper, agreed, port })
}

/// Cases that a thread takes at a time.
const PART: u64 = 512;

/// The cases `from..from + count` of a seed, up to the first on which two of them part; the
/// report and that first case are the same whatever the number of threads.
pub struct Run {
    pub generator: Generator,
    pub from: u64,
    pub count: u64,
    pub threads: usize,
    pub batch: Batch,
}

impl Run {
    /// As many threads as the machine has cores.
    pub fn new(generator: Generator, from: u64, count: u64) -> Run {
        let threads = std::thread::available_parallelism().map_or(1, usize::from);
        Run { generator, from, count, threads, batch: Batch::Made }
    }

    /// A case, and how it was made.
    fn made(&self, n: u64) -> (Case, Origin) {
        self.generator.of(self.batch, n)
    }

    /// Puts the cases to the judges and the port.
    pub fn report(&self, iceberg: Option<Iceberg>) -> Result<Report, Box<Failure>> {
        self.report_by(iceberg, linked)
    }

    /// The same with any operations in the port's place.
    pub fn report_by<O: Operations>(
        &self,
        iceberg: Option<Iceberg>,
        by: impl Fn() -> Option<O> + Sync,
    ) -> Result<Report, Box<Failure>> {
        let (next, first) = (AtomicU64::new(self.from), AtomicU64::new(u64::MAX));
        let whole = Mutex::new(Report::default());
        let part = || {
            let mut report = Report::default();
            loop {
                // parts go out in order, so each case before a failing one is put by somebody
                let start = next.fetch_add(PART, Ordering::Relaxed);
                let end = (start + PART).min(self.from + self.count);
                if start >= end.min(first.load(Ordering::Relaxed)) {
                    break;
                }
                if let Some(n) =
                    (start..end).find(|n| !self.count_in(*n, &mut report, iceberg, by()))
                {
                    first.fetch_min(n, Ordering::Relaxed);
                    break;
                }
            }
            whole.lock().expect("no thread panics").add(&report);
        };
        std::thread::scope(|scope| {
            for _ in 0..self.threads {
                scope.spawn(part);
            }
        });
        match first.into_inner() {
            u64::MAX => Ok(whole.into_inner().expect("no thread panics")),
            n => Err(Box::new(self.failure(n, iceberg, by))),
        }
    }

    /// Counts a case; false where two of them part.
    fn count_in(
        &self,
        n: u64,
        report: &mut Report,
        iceberg: Option<Iceberg>,
        by: Option<impl Operations>,
    ) -> bool {
        let (case, origin) = self.made(n);
        let Ok(Shown { paper, agreed, port }) = check_by(&case, iceberg, by) else { return false };
        report.tally.count(&case, origin, &paper);
        if let Some(agreed) = agreed {
            report.crate_beside_paper.entry(agreed).or_default().add(case.ask.word());
        }
        if port {
            report.port.add(case.ask.word());
        }
        true
    }

    fn failure<O: Operations>(
        &self,
        number: u64,
        iceberg: Option<Iceberg>,
        by: impl Fn() -> Option<O>,
    ) -> Failure {
        let (case, _) = self.made(number);
        let why = |case: &Case| check_by(case, iceberg, by()).err();
        let parted = why(&case).expect("it parted before");
        let (seed, batch) = (self.generator.seed, self.batch);
        let parted = format!("seed {seed}, case {number}{batch}\n{parted}");
        eprintln!("{parted}\nit is being shrunk");
        let least = shrink(&case, &|case| why(case).is_some());
        let (line, shrunk) = (line(case, iceberg).0, line(least, iceberg).0);
        Failure { number, why: parted, line, shrunk }
    }
}

/// That an operation has fewer than it should.
fn fewer(counts: &Counts, operation: &str, least: u64, what: &str) -> Option<String> {
    let count = counts.of(operation);
    (count < least).then(|| format!("{operation}: {count} {what}, not {least}"))
}

impl Report {
    /// Why a run says too little: too few cases of an operation, or too few trees of more than
    /// 900 records that were accepted; a refusal, shape or departure that never came up; cases
    /// that were not put to the crate or to the port, where these are there.
    pub fn short_of(&self, cases: u64, large: u64) -> Vec<String> {
        let mut short = self.tally.missing_by_operation();
        let none = Counts::default();
        let grown = self.tally.shapes.get("tree: more than 900 records").unwrap_or(&none);
        for operation in OPERATIONS {
            let mut at_least = |counts: &Counts, least: u64, what: &str| {
                short.extend(fewer(counts, operation, least, what));
            };
            at_least(&self.tally.small, cases / 2, "cases of up to 40 records");
            at_least(grown, large, "accepted trees of more than 900 records");
        }
        short.extend(self.not_put(cases));
        let judged = &self.crate_beside_paper;
        if !judged.is_empty() {
            let never = LISTED.iter().filter(|listed| !judged.contains_key(listed));
            short.extend(never.map(|listed| format!("never {listed}")));
        }
        short
    }

    /// The same of a run of names that crowd their chains.
    pub fn short_of_crowded(&self, cases: u64) -> Vec<String> {
        [self.tally.missing_of_crowded(), self.not_put(cases)].concat()
    }

    /// Too few cases of an operation, or some that were not put to the crate or to the port, where
    /// these are there; or the crate parts in a way that is not listed.
    fn not_put(&self, cases: u64) -> Vec<String> {
        let mut short = vec![];
        let mut at_least = |counts: &Counts, operation: &str, least: u64, what: &str| {
            short.extend(fewer(counts, operation, least, what));
        };
        for operation in OPERATIONS {
            at_least(&self.tally.cases, operation, cases, "cases");
        }
        let all = |operation: &str| self.tally.cases.of(operation);
        if port::absent().is_none() {
            for operation in OPERATIONS.into_iter().filter(|operation| *operation != "list") {
                at_least(&self.port, operation, all(operation), "answers of the port");
            }
        }
        let judged = &self.crate_beside_paper;
        if !judged.is_empty() {
            let mut asked = Counts::default();
            judged.values().for_each(|counts| asked += *counts);
            for operation in OPERATIONS {
                at_least(&asked, operation, all(operation), "cases put to the crate");
            }
            let known = |met: &Agreement| *met == Agreement::Same || LISTED.contains(met);
            let unknown = judged.keys().filter(|met| !known(met));
            short.extend(unknown.map(|met| format!("not in the list: {met}")));
        }
        short
    }

    fn add(&mut self, other: &Report) {
        self.tally.add(&other.tally);
        self.port += other.port;
        for (agreed, counts) in &other.crate_beside_paper {
            *self.crate_beside_paper.entry(*agreed).or_default() += *counts;
        }
    }
}

impl std::fmt::Display for Report {
    fn fmt(&self, f: &mut std::fmt::Formatter<'_>) -> std::fmt::Result {
        writeln!(f, "{}", self.tally)?;
        writeln!(f, "iceberg's own code beside 01's text:")?;
        for (agreed, counts) in &self.crate_beside_paper {
            writeln!(f, "{counts}  {agreed}")?;
        }
        match port::absent() {
            Some(why) => writeln!(f, "the port was not asked: {why}"),
            None => writeln!(f, "the port beside 01's text:\n{}  the same in all bytes", self.port),
        }
    }
}
