//! The recorded list.

use cases::read_recorded;
use compare::{iceberg, recorded_list, recorded_path, replay};
use judge::LAST_REFUSAL;

fn text() -> String {
    std::fs::read_to_string(recorded_path()).expect("crates/recorded/data/recorded.txt")
}

#[test]
fn the_list_is_what_the_command_writes() {
    let Some(iceberg) = iceberg() else { return };
    assert!(text() == recorded_list(iceberg), "make it again: cargo run -p compare -- record");
}

#[test]
fn both_judges_still_give_the_recorded_answers() {
    let lines = replay(&text(), iceberg()).unwrap_or_else(|why| panic!("{why}"));
    assert!((3_000..7_000).contains(&lines), "{lines} lines");
}

/// The program that replays it without Rust holds a line at a time, and no more than so many bytes
/// of it. Of the whole list it asks nothing: its bound keeps the checkout small. It was three
/// million bytes before the identifiers, whose cases of 16 levels need them; edits need a quarter of
/// a million more, widenings 0.4 million, since every pair of codes is a case, and visits 0.1.
#[test]
fn the_list_is_plain_and_small() {
    let text = text();
    assert!(text.is_ascii() && text.ends_with('\n'));
    assert!(text.len() < 4_000_000, "{} bytes", text.len());
    assert!(text.lines().all(|line| line.len() < 131_072));
}

#[test]
fn every_refusal_stands_in_the_list() {
    let lines = read_recorded(&text()).expect("every line is read");
    let refusals: Vec<u32> =
        lines.iter().filter_map(|(_, line)| line.answer.refusal()).map(|r| r.number).collect();
    for number in 1..=LAST_REFUSAL {
        let times = refusals.iter().filter(|refusal| **refusal == number).count();
        assert!(times > 1, "refusal {number}: {times}");
    }
}
