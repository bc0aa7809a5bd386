//! The named cases, and the format that they are recorded in.

use cases::{Judge, Recorded, answer, budget_left, by_version, named, read_line, write_line};
use judge::LAST_REFUSAL;

#[test]
fn every_named_case_has_the_answer_that_it_must_have() {
    let wrong: Vec<String> = named()
        .iter()
        .filter(|one| !one.expected.met_by(&answer(&one.case)))
        .map(|one| format!("{}: {:?}, not {:?}", one.title, answer(&one.case), one.expected))
        .map(|text| text.chars().take(400).collect())
        .collect();
    assert!(wrong.is_empty(), "{} cases\n{}", wrong.len(), wrong.join("\n"));
}

#[test]
fn names_are_sorted_where_a_title_says_so() {
    let mut count = [0, 0];
    for one in named() {
        let way = ["chained: ", "sorted: "].iter().position(|way| one.title.starts_with(way));
        let Some(way) = way else { continue };
        count[way] += 1;
        let base = judge::read_tree(&one.case.records, &one.case.pool, judge::BASE);
        let rebuilt = one.case.update_call().and_then(|call| call.rebuilt().ok());
        let mut trees = rebuilt.into_iter().chain(base.ok());
        let sorted = trees.any(|tree| budget_left(&tree).is_none());
        assert_eq!(sorted, way == 1, "{}", one.title);
        assert!(!one.listed, "{}", one.title);
    }
    assert!(count[0] > 10 && count[1] > 30, "{count:?}");
}

#[test]
fn a_line_reads_back_as_it_was_written() {
    for one in named() {
        let answer = answer(&one.case);
        let recorded = Recorded { case: one.case, judge: Judge::Paper, answer };
        let line = write_line(&recorded);
        assert!(line.is_ascii() && !line.contains('\n') && !line.contains("  "));
        assert_eq!(read_line(&line), Ok(recorded));
    }
}

#[test]
fn a_damaged_line_is_told() {
    for line in [
        "id both - - 7 = nothing",
        "update both - - - 0 - - - - 0 0 = refused 1 0 0",
        "update both - - - 0 - - - - 0 0 00 = refused 1 0 0",
        "update both - - - 0 - - - - 0 0 00 3 = refused 1 0 0",
        "update both - - - 0 - - - - 0 0 - 4294967295 = refused 1 0 0",
        "update both - - - 0 - - - - 0 0 = ok - - 0 2048",
    ] {
        assert!(read_line(line).is_ok());
    }
    for bad in [
        "",
        "id",
        "id both - -",
        "id both - - 7",
        "id both - - 7 = ",
        "id both - - 7 = nothing more",
        "id both - - 7 = ok -",
        "id neither - - 7 = nothing",
        "ids both - - 7 = nothing",
        "ids both - - - 0 = nothing",
        "ids both - - - 0 = ok -",
        "folder both - - 7 = nothing",
        "update both - - - 0 - - - - 0 0 - = refused 1 0 0",
        "update both - - - 0 - - - - 0 0 00 - = refused 1 0 0",
        "update both - - - 0 - - - - 0 0 00 2 = refused 1 0 0",
        "update both - - - 0 - - - - 0 0 - 2 = refused 1 0 0",
        "update both - - - 0 - - - - 0 0 3 = refused 1 0 0",
        "update both - - - 0 - - - - 0 0 00 3 3 = refused 1 0 0",
        "update both - - - 0 - - - - 0 0 = ok - - 0",
        "update both - - - 0 - - - - 0 0 = ok - - 0 -",
        "update both - - - 0 - - - - 0 0 = ok - - 0 0 0",
        "update both - - - 0 - - - - 0 0 = refused 1 0 0 0",
        "prune both - - - 0 0 0 = ok - - 0",
        "id both 0 - 7 = nothing",
        "id both 0G - 7 = nothing",
        "id both AB - 7 = nothing",
        "id both - - -7 = nothing",
        "id both - - 4294967296 = nothing",
        "id both  - - 7 = nothing",
    ] {
        assert!(read_line(bad).is_err(), "{bad}");
    }
}

/// What 25 comes before is told where the version is known.
#[test]
fn what_stands_behind_25_is_told_by_another_version() {
    let mut met = 0;
    for one in named() {
        let Some(fault) = one.title.strip_prefix("25 before ") else { continue };
        let number = fault.split(' ').next().expect("a number");
        for version in [2, 3] {
            let refusal = answer(&by_version(version, one.case.clone())).refusal();
            assert_eq!(refusal.map(|r| r.number.to_string()).as_deref(), Some(number), "{fault}");
        }
        met += 1;
    }
    assert!(met > 30, "{met}");
}

/// What 01 and 02 tell by number stands in the list by name.
#[test]
fn the_named_cases_hold_every_refusal_and_all_worked_examples() {
    let titles: Vec<String> = named().into_iter().map(|one| one.title).collect();
    for worked in 1..=13 {
        let start = format!("P{worked}:");
        assert!(titles.iter().any(|title| title.starts_with(&start)), "{start}");
    }
    // 25 and 36 are points that no input can show; 36 has a case all the same
    let of_02 = (145..=148).chain(161..=164).chain(168..=171).chain(181..=189).chain(197..=203);
    let of_02 = of_02.chain(209..=213);
    for reading in (1..=67).filter(|n| *n != 25).chain(of_02) {
        let start = format!("reading {reading}:");
        assert!(titles.iter().any(|title| title.starts_with(&start)), "{start}");
    }
    let refusals: Vec<u32> =
        named().iter().filter_map(|one| answer(&one.case).refusal()).map(|r| r.number).collect();
    for number in 1..=LAST_REFUSAL {
        assert!(refusals.contains(&number), "refusal {number}");
    }
}
