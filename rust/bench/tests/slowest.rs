//! The search for slow trees.

use bench::{Goal, Slow, slowest};
use cases::{Answer, Ask, answer, ask_of, packed};

const SEED: u64 = 7;

fn sums(goal: Goal, trees: &[[Slow; 2]]) -> Vec<[u64; 2]> {
    trees.iter().map(|[first, last]| [first.sum(goal), last.sum(goal)]).collect()
}

/// Some rounds from each tree: no count falls, some grow, and what is found is accepted. The same
/// seed finds the same.
#[test]
fn a_search_goes_up_and_stays_within_the_limits() {
    for goal in [Goal::Names, Goal::Search] {
        let found = slowest(goal, 8, SEED);
        let steps = sums(goal, &found);
        assert!(steps.iter().all(|[first, last]| first <= last), "{steps:?}");
        assert!(steps.iter().any(|[first, last]| first < last), "{steps:?}");
        assert_eq!(sums(goal, &slowest(goal, 8, SEED)), steps);
        for [_, Slow { start, roots, .. }] in &found {
            let asked = answer(&ask_of(packed(roots), Ask::Id(1)));
            assert!(matches!(asked, Answer::Found { .. }), "{start}: {asked:?}");
        }
    }
}

/// Only the tree that is built for it stays in its chains: nothing of it is sorted.
#[test]
fn bad_trees_are_sorted_and_ordinary_ones_not() {
    for [Slow { start, steps: [names, _], .. }, _] in slowest(Goal::Names, 0, SEED) {
        let few = ["flat", "tables", "levels", "equal", "14 chains cut in 14 ways, one leaf each"];
        assert_eq!(names.moved == 0, few.contains(&start), "{start}: {names:?}");
    }
}
