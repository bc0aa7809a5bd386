//! Agreement at scale: the port's C functions beside both judges. `rust/test` runs this by
//! itself, in a release build, since it takes long in another and uses all cores.

use cases::{Batch, Generator, OPERATIONS, Sizes};
use compare::{Run, iceberg, port_is_there};

/// Cases of each operation, and accepted trees of more than 900 records among them.
const CASES: u64 = 200_000;
const LARGE: u64 = 500;
const SEED: u64 = 2;

/// The same of the second run, in which the ids of each case share their bits.
const TURNED: u64 = 50_000;
const TURNED_LARGE: u64 = 100;

/// Cases of each operation in the third run, whose names crowd their chains.
const CROWDED: u64 = 2_500;

fn from_environment(variable: &str, usual: u64) -> u64 {
    match std::env::var(variable) {
        Ok(word) => word.parse().unwrap_or_else(|_| panic!("{variable} is no number: {word}")),
        Err(_) => usual,
    }
}

#[test]
fn the_port_and_both_judges_agree_at_scale() {
    let seed = from_environment("BRAIDHURDLE_SEED", SEED);
    let cases = from_environment("BRAIDHURDLE_CASES", CASES).max(CASES);
    let (iceberg, _) = (iceberg(), port_is_there());
    let generator = Generator { seed, sizes: Sizes::Usual };
    let report = |batch: Batch, cases: u64| {
        let run = Run { batch, ..Run::new(generator, 0, cases * OPERATIONS.len() as u64) };
        println!("seed {seed}, {cases} cases of each operation{batch}");
        let report = run.report(iceberg).unwrap_or_else(|failure| panic!("{failure}"));
        println!("{report}");
        report
    };
    for (batch, cases, large) in
        [(Batch::Made, cases, LARGE), (Batch::Turned, TURNED, TURNED_LARGE)]
    {
        assert_eq!(report(batch, cases).short_of(cases, large), Vec::<String>::new());
    }
    let crowded = report(Batch::Crowded, CROWDED).short_of_crowded(CROWDED);
    assert_eq!(crowded, Vec::<String>::new());
}
