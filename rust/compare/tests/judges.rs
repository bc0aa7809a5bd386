//! The two judges beside each other, on their common ground.

use cases::{Answer, Generator, Named, OPERATIONS, Sizes, answer, named};
use compare::{Agreement, LISTED, Run, absent, agreement, check, iceberg};
use judge::Refusal;
use oracle::Verdict;

const SEED: u64 = 7;

/// The crate's builder is given the tree that edits leave.
const EDITED: [&str; 2] = ["renaming and relaxing", "widening types"];

#[test]
fn the_judges_agree_on_every_named_case() {
    let Some(iceberg) = iceberg() else { return };
    for Named { title, case, .. } in named() {
        if let Err(why) = check(&case, Some(iceberg)) {
            panic!("{title}\n{why}");
        }
    }
}

#[test]
fn threads_change_nothing_in_a_report() {
    let report = |threads| {
        let generator = Generator { seed: SEED, sizes: Sizes::Usual };
        let run = Run { threads, ..Run::new(generator, 100, 9_000) };
        run.report(iceberg()).unwrap_or_else(|failure| panic!("{failure}"))
    };
    let (one, three) = (report(1), report(3));
    assert_eq!(one.tally.cases.sum(), 9_000);
    assert_eq!(one, three);
}

#[test]
fn a_run_that_says_too_little_is_told() {
    let generator = Generator { seed: SEED, sizes: Sizes::Usual };
    let report = Run::new(generator, 0, 900).report(iceberg()).expect("they agree");
    let short = report.short_of(101, 500);
    for told in [
        "update: 100 cases, not 101",
        "prune: never refusal 1 in list 0",
        "id: never tree: 1,024 records",
    ] {
        assert!(short.contains(&told.to_string()), "{told}: {short:?}");
    }
    assert!(
        short.iter().any(|why| why.contains("accepted trees of more than 900 records, not 500"))
    );
    if iceberg().is_some() {
        assert!(short.contains(&"never departure: only 26 letters fold".into()), "{short:?}");
    }
}

/// Every departure that a run counts stands on the page, in the same words.
#[test]
fn what_a_run_may_meet_stands_in_the_list_of_differences() {
    let page = concat!(env!("CARGO_MANIFEST_DIR"), "/../../docs/DIFFERENCES.md");
    let page = std::fs::read_to_string(page).expect("docs/DIFFERENCES.md").replace('*', "");
    for listed in LISTED {
        let words = listed.words().expect("it is listed");
        assert!(page.contains(words), "{words}");
    }
}

/// The crate's counter is a local variable, so the first judge counts; one more column shows
/// what the crate itself counted.
#[test]
fn the_last_id_is_the_crates_own() {
    let Some(iceberg) = iceberg() else { return };
    let generator = Generator { seed: SEED, sizes: Sizes::Usual };
    let mut shown = 0;
    for n in (0..18_000).step_by(OPERATIONS.len()) {
        let case = generator.case(n);
        let Verdict::Answer(Answer::Updated { last_id, .. }) = iceberg.verdict(&case) else {
            continue;
        };
        // the added column may pass the largest id, or meet an id of the base
        if let Some(seen) = iceberg.last_id(&case) {
            assert_eq!(seen, last_id, "seed {SEED}, case {n}");
            shown += 1;
        }
    }
    assert!(shown > 500, "{shown} cases");
}

/// The crate counts no visits. What it leaves out of the base it shows by rebuilding it with the
/// deletions alone; with the records of its answer these are all that the first judge counts.
#[test]
fn what_is_visited_is_by_the_crates_own_rebuilding() {
    let Some(iceberg) = iceberg() else { return };
    let generator = Generator { seed: SEED, sizes: Sizes::Usual };
    let (mut shown, mut fewer) = (0, 0);
    for n in (0..36_000).step_by(OPERATIONS.len()) {
        let case = generator.case(n);
        let said = iceberg.verdict(&case);
        let Verdict::Answer(Answer::Updated { records, visited, .. }) = said else { continue };
        let left_out = iceberg.left_out(&case).expect("it is accepted with more");
        let count = |records: &[u8]| records.len() / judge::RECORD_BYTES;
        assert_eq!(visited as usize, count(&records) + left_out, "seed {SEED}, case {n}");
        let call = case.update_call().expect("an update");
        let whole = count(call.records) + count(call.added_records);
        (shown, fewer) = (shown + 1, fewer + usize::from((visited as usize) < whole));
    }
    assert!(shown > 1_000 && fewer > 200, "{shown} and {fewer}");
}

/// No other number passes.
#[test]
fn a_number_of_visited_records_that_differs_is_told() {
    let Some(iceberg) = iceberg() else { return };
    let mut told = 0;
    for Named { title, case, .. } in named() {
        let (paper, said) = (answer(&case), iceberg.verdict(&case));
        let Verdict::Answer(Answer::Updated { records, names, last_id, visited }) = said else {
            continue;
        };
        if paper.refusal().is_some() {
            continue;
        }
        for visited in [visited + 1, visited.wrapping_sub(1)] {
            let (records, names) = (records.clone(), names.clone());
            let wrong = Verdict::Answer(Answer::Updated { records, names, last_id, visited });
            assert_eq!(agreement(&case, &paper, &wrong), Agreement::Differ, "{title}");
        }
        told += 1;
    }
    assert!(told > 300, "{told}");
}

#[test]
fn a_word_that_differs_is_told() {
    let Some(iceberg) = iceberg() else { return };
    for Named { title, case, .. } in named().into_iter().filter(|one| one.title.starts_with('P')) {
        let said = iceberg.verdict(&case);
        let wrong = Answer::Found { id: 77, slot: 7 };
        let agreed = agreement(&case, &wrong, &said);
        // where the crate panics there is no word to differ from
        let says = !matches!(said, Verdict::Panicked { .. });
        assert_eq!(agreed == Agreement::Differ, says, "{title}: {said:?}");
        let right = agreement(&case, &answer(&case), &said);
        assert!(right != Agreement::Differ, "{title}");
    }
}

/// 9 of the base is not 9 of the rebuilt tree, though number, list and place are the same.
#[test]
fn a_9_of_the_other_tree_is_told() {
    let Some(iceberg) = iceberg() else { return };
    let (mut bases, mut others) = (0, 0);
    for Named { title, case, .. } in named() {
        let paper = answer(&case);
        let Verdict::Refused { number: 9, place, base, text } = iceberg.verdict(&case) else {
            continue;
        };
        if case.update_call().is_none() || paper.refusal().is_none_or(|r| r.number != 9) {
            continue;
        }
        let said = |base| Verdict::Refused { number: 9, place, base, text: text.clone() };
        let agreed = agreement(&case, &paper, &said(base));
        let edited = !base && agreed.words().is_some_and(|words| EDITED.contains(&words));
        assert!(agreed == Agreement::Same || edited, "{title}: {agreed}");
        assert_eq!(agreement(&case, &paper, &said(!base)), Agreement::Differ, "{title}");
        if base { bases += 1 } else { others += 1 }
    }
    assert!(bases > 20 && others > 10, "{bases} and {others}");
}

/// A base that the builder turns down for its identifiers must be turned down here, and one that
/// it takes must be taken.
#[test]
fn an_identifier_that_one_of_them_takes_is_told() {
    let Some(iceberg) = iceberg() else { return };
    for Named { title, case, .. } in named().into_iter().filter(|one| one.title.contains("4/13")) {
        let (paper, said) = (answer(&case), iceberg.verdict(&case));
        let wrong = match paper.refusal() {
            None => Answer::Refused(Refusal::new(9, judge::IDENTIFIERS, 0)),
            Some(refusal) if refusal.number == 9 => {
                Answer::Updated { records: vec![], names: vec![], last_id: 0, visited: 0 }
            }
            _ => continue,
        };
        assert_eq!(agreement(&case, &wrong, &said), Agreement::Differ, "{title}");
    }
}

/// Where the text gives 22 the crate is held to 01 as it was, so no other word passes.
#[test]
fn a_word_that_differs_is_told_where_22_is_given_too() {
    let Some(iceberg) = iceberg() else { return };
    let (mut departures, mut others) = (0, 0);
    for Named { title, case, .. } in named() {
        let paper = answer(&case);
        // without 22 this one meets a limit, and the crate has none
        let limit = title == "22 before 19";
        // of what stands behind it the crate says nothing
        let edited = title.ends_with("of an edit");
        if limit || edited || paper.refusal().is_none_or(|refusal| refusal.number != 22) {
            continue;
        }
        let said = iceberg.verdict(&case);
        let departs = agreement(&case, &paper, &said);
        assert_eq!(departs.words(), Some("no additions to a dropped parent"), "{title}");
        let wrong = match said {
            Verdict::Answer(Answer::Updated { records, names, last_id, visited }) => {
                // each of the numbers in its turn
                let (last_id, visited) = match departures % 2 {
                    0 => (last_id ^ 1, visited),
                    _ => (last_id, visited + 1),
                };
                Verdict::Answer(Answer::Updated { records, names, last_id, visited })
            }
            Verdict::Refused { number: 17, place, base, text } => {
                Verdict::Refused { number: 15, place, base, text }
            }
            _ => continue,
        };
        assert_eq!(agreement(&case, &paper, &wrong), Agreement::Differ, "{title}");
        match wrong {
            Verdict::Answer(_) => departures += 1,
            _ => others += 1,
        }
    }
    assert!(departures > 20 && others > 1, "{departures} and {others}");
}

/// Where there are edits the crate builds the tree that they leave, and no other word passes.
#[test]
fn a_word_that_differs_is_told_where_there_are_edits() {
    let Some(iceberg) = iceberg() else { return };
    // of each kind of departure
    let (mut built, mut refused, mut missed) = ([0; 2], [0; 2], [0; 2]);
    for Named { title, case, .. } in named() {
        if case.update_call().is_none_or(|call| call.edits.is_empty()) {
            continue;
        }
        let (paper, said) = (answer(&case), iceberg.verdict(&case));
        let agreed = agreement(&case, &paper, &said);
        assert!(agreed != Agreement::Differ, "{title}");
        let kind = EDITED.iter().position(|words| agreed.words() == Some(words));
        let Some(kind) = kind else { continue };
        let wrong = match said {
            Verdict::Answer(Answer::Updated { mut records, names, last_id, visited }) => {
                // of the last record the flags, or the type code
                let Some(at) = records.len().checked_sub([14, 8][kind]) else { continue };
                records[at] ^= 1;
                built[kind] += 1;
                Verdict::Answer(Answer::Updated { records, names, last_id, visited })
            }
            Verdict::Refused { number: 23, place, base, text } => {
                missed[kind] += 1;
                Verdict::Refused { number: 23, place: place.map(|at| at + 1), base, text }
            }
            Verdict::Refused { .. } => {
                refused[kind] += 1;
                let (records, names, last_id, visited) = (vec![], vec![], 0, 0);
                Verdict::Answer(Answer::Updated { records, names, last_id, visited })
            }
            other => panic!("{title}: {other:?}"),
        };
        assert_eq!(agreement(&case, &paper, &wrong), Agreement::Differ, "{title}");
    }
    let enough = |counts: [i32; 2], least: [i32; 2]| counts[0] > least[0] && counts[1] > least[1];
    assert!(enough(built, [50, 50]), "{built:?}");
    assert!(enough(refused, [15, 3]), "{refused:?}");
    assert!(enough(missed, [40, 30]), "{missed:?}");
}

/// What a refused edit says is put to the crate as far as it goes: its deletions and additions pass
/// there too, and no column is missed before it.
#[test]
fn a_refused_edit_before_which_the_crate_refuses_is_told() {
    let Some(iceberg) = iceberg() else { return };
    let mut met = 0;
    for Named { title, case, .. } in named() {
        let paper = answer(&case);
        let Some(Refusal { number: 13 | 24 | 26, list: judge::EDITS, place }) = paper.refusal()
        else {
            continue;
        };
        let agreed = agreement(&case, &paper, &iceberg.verdict(&case));
        assert_eq!(agreed.words(), Some("24, 13 and 26 of an edit, and 25"), "{title}");
        for number in [11, 15, 17, 23] {
            let place = Some(if number == 23 { place } else { 0 });
            let wrong = Verdict::Refused { number, place, base: false, text: String::new() };
            assert_eq!(agreement(&case, &paper, &wrong), Agreement::Differ, "{title}");
        }
        let base = Verdict::Refused { number: 8, place: None, base: true, text: String::new() };
        assert_eq!(agreement(&case, &paper, &base), Agreement::Differ, "{title}");
        met += 1;
    }
    assert!(met > 600, "{met}");
}

#[test]
fn a_missing_judge_is_a_note_and_where_it_is_needed_a_failure() {
    let note = absent("the port", "no archive", false).expect("a note");
    assert!(note.contains("the port did not run: no archive"), "{note}");
    assert!(absent("the port", "no archive", true).is_err());
}
