//! Looks for slow trees: `slowest [ROUNDS [SEED]]`. From each of the benchmark's trees it goes so
//! many rounds towards more steps, first of 8 and then of the search for a full name, and prints
//! the worst tree that it found: its steps, and where the port and the crate are there the time of
//! a look-up by id, or of an update with 64 deletions of that full name.

use std::hint::black_box;
use std::process::ExitCode;

use bench::{Call, Goal, Room, Slow, again, schema, slowest, times};
use cases::{Ask, Case, ask_of, packed};
use judge::Tree;
use port::Port;

fn main() -> ExitCode {
    let mut words = std::env::args().skip(1);
    let mut number = |default: u64| words.next().map_or(Ok(default), |word| word.parse());
    let (Ok(rounds), Ok(seed)) = (number(1_000), number(1)) else {
        eprintln!("slowest [ROUNDS [SEED]], two numbers");
        return ExitCode::from(2);
    };
    for goal in [Goal::Names, Goal::Search] {
        println!("\n{goal:?}: {rounds} rounds from each tree, seed {seed}");
        let all = slowest(goal, rounds, seed);
        for [first, last] in &all {
            println!("{:45}{:>12}{:>12}", first.start, first.sum(goal), last.sum(goal));
        }
        let worst = all.into_iter().map(|[_, last]| last).max_by_key(|slow| slow.sum(goal));
        told(&worst.expect("there are starts"), goal);
    }
    ExitCode::SUCCESS
}

/// What a tree is, and how long it takes beside an ordinary one and beside the crate.
fn told(slow: &Slow, goal: Goal) {
    let tree = Tree::of(&slow.roots);
    let bytes: Vec<usize> = tree.rows.iter().map(|row| row.name.len()).collect();
    let dots = tree.rows.iter().flat_map(|row| &row.name).filter(|byte| **byte == b'.').count();
    println!("\nthe worst is from {:?}: {:?}", slow.start, slow.steps[goal as usize]);
    println!(
        "{} records, {} roots, {} levels, names of {} to {} bytes, {} in all, {dots} dots in them",
        tree.rows.len(),
        tree.roots.len(),
        tree.rows.iter().map(|row| row.level).max().unwrap_or(0),
        bytes.iter().min().unwrap_or(&0),
        bytes.iter().max().unwrap_or(&0),
        bytes.iter().sum::<usize>()
    );
    let ordinary = schema("levels", tree.rows.len());
    let of = [(&ordinary, tree.rows.len() - 1), (&slow.roots, slow.dearest)];
    let cases = of.map(|(base, slot)| match goal {
        Goal::Names => ask_of(packed(base), Ask::Id(base[0].id)),
        Goal::Search => again(base, slot),
    });
    let calls = cases.iter().flat_map(|case| [ours(case), theirs(case)]).collect::<Vec<_>>();
    let shown = |time: &Option<f64>| time.map_or("-".into(), |time| format!("{:.1}", time / 1e3));
    let times: Vec<String> = times(&calls).iter().map(shown).collect();
    println!(
        "microseconds, ours and the crate's: levels {}, {}; the worst {}, {}",
        times[0], times[1], times[2], times[3]
    );
}

fn ours(case: &Case) -> Option<Call<'_>> {
    let there = port::absent().is_none() && Room::default().call(case, &Port) == Some(0);
    there.then(|| -> Call {
        Box::new(|room| {
            black_box(room.call(case, &Port));
        })
    })
}

fn theirs(case: &Case) -> Option<Call<'_>> {
    let iceberg = oracle::judge().ok()?;
    Some(Box::new(move |_| {
        black_box(iceberg.operate(case));
    }))
}
