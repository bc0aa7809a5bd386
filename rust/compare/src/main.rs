//! The comparison on the command line.

use std::process::ExitCode;

use cases::{Batch, Generator, Sizes};
use compare::{Run, iceberg, recorded_list, replay};

const USAGE: &str = "\
compare run [SEED [COUNT [FROM]]]     random cases; COUNT is 90000 unless given, SEED 1, FROM 0
compare turned [SEED [COUNT [FROM]]]  the same cases with their ids turned
compare crowded [SEED [COUNT [FROM]]] cases of names that crowd their chains
compare record                        writes the recorded list to standard output
compare replay FILE                   puts the lines of a file to the judges and the port";

const COUNT: u64 = 90_000;

fn main() -> ExitCode {
    let arguments: Vec<String> = std::env::args().skip(1).collect();
    let words: Vec<&str> = arguments.iter().map(String::as_str).collect();
    let done = match words.as_slice() {
        ["run", numbers @ ..] if numbers.len() <= 3 => random(numbers, Batch::Made),
        ["turned", numbers @ ..] if numbers.len() <= 3 => random(numbers, Batch::Turned),
        ["crowded", numbers @ ..] if numbers.len() <= 3 => random(numbers, Batch::Crowded),
        ["record"] => record(),
        ["replay", file] => replay_file(file),
        _ => Err(USAGE.into()),
    };
    match done {
        Ok(said) => {
            print!("{said}");
            ExitCode::SUCCESS
        }
        Err(why) => {
            eprintln!("{why}");
            ExitCode::FAILURE
        }
    }
}

fn random(numbers: &[&str], batch: Batch) -> Result<String, String> {
    let number = |at: usize, usual: u64| match numbers.get(at) {
        None => Ok(usual),
        Some(word) => word.parse().map_err(|_| format!("no number: {word}\n{USAGE}")),
    };
    let (seed, count, from) = (number(0, 1)?, number(1, COUNT)?, number(2, 0)?);
    println!("seed {seed}, cases {from} to {}", from + count);
    let generator = Generator { seed, sizes: Sizes::Usual };
    let run = Run { batch, ..Run::new(generator, from, count) };
    run.report(iceberg()).map(|report| report.to_string()).map_err(|failure| failure.to_string())
}

fn record() -> Result<String, String> {
    let iceberg = oracle::judge().map_err(|why| format!("both judges are needed: {why}"))?;
    Ok(recorded_list(iceberg))
}

fn replay_file(file: &str) -> Result<String, String> {
    let text = std::fs::read_to_string(file).map_err(|why| format!("{file}: {why}"))?;
    let lines = replay(&text, iceberg())?;
    Ok(format!("{lines} lines, every answer as recorded\n"))
}
