//! The recorded list: made, and replayed.

use std::path::PathBuf;

use cases::{
    Answer, Case, Generator, Judge, Named, Recorded, Sizes, answer, named, read_line,
    read_recorded, write_line,
};
use judge::RECORD_BYTES;
use oracle::Iceberg;

use crate::agree::{Agreement, agreement};
use crate::run::check;

/// The seed of the random part.
const SEED: u64 = 20_260;
/// Random cases in the list.
const RANDOM: u64 = 3_856;
/// Random updates behind them that add beneath what they drop.
const DROPPED_PARENT: u64 = 80;
/// Random updates, and as many renumberings, whose identifiers are mostly refused.
const IDENTIFIERS: u64 = 48;

/// Random updates with edits.
const EDITS: u64 = 72;

/// Random updates that widen.
const WIDENINGS: u64 = 96;

/// Random updates that don't visit all.
const VISITS: usize = 20;

/// Where the list stands in the repository.
pub fn recorded_path() -> PathBuf {
    PathBuf::from(env!("CARGO_MANIFEST_DIR")).join("../../crates/recorded/data/recorded.txt")
}

/// The whole list: a header, the named cases, then the random ones, those of 02 last.
pub fn recorded_list(iceberg: Iceberg) -> String {
    let mut lines = vec![];
    for Named { title, case, .. } in named().into_iter().filter(|one| one.listed) {
        lines.push(format!("# {title}"));
        lines.push(entry(case, iceberg));
    }
    lines.push(format!("# random, seed {SEED}"));
    let generator = Generator { seed: SEED, sizes: Sizes::Small };
    let mut random: Vec<Case> = (0..RANDOM).map(|n| generator.case(n)).collect();
    // those of 02 behind the others, so that an operation more only adds lines
    random.sort_by_key(|case| ["folded", "ids"].iter().position(|word| *word == case.ask.word()));
    lines.extend(random.into_iter().map(|case| entry(case, iceberg)));
    lines.push(format!("# 3/13: additions beneath what is dropped, random, seed {SEED}"));
    let beneath = (0..DROPPED_PARENT).map(|n| generator.dropped_parent(n));
    lines.extend(beneath.map(|case| entry(case, iceberg)));
    lines.push(format!("# 4/13: identifiers, random, seed {SEED}"));
    for operation in ["update", "renumber"] {
        let identified = (0..IDENTIFIERS).map(|n| generator.identifiers(operation, n));
        lines.extend(identified.map(|case| entry(case, iceberg)));
    }
    lines.push(format!("# 5/13: edits, random, seed {SEED}"));
    lines.extend((0..EDITS).map(|n| entry(generator.edits(n), iceberg)));
    lines.push(format!("# 6/13: widenings, random, seed {SEED}"));
    lines.extend((0..WIDENINGS).map(|n| entry(generator.widenings(n), iceberg)));
    lines.push(format!("# 7/13: what is visited, random, seed {SEED}"));
    let others = (RANDOM..).map(|n| generator.case(n)).filter(leaves_unvisited);
    lines.extend(others.take(VISITS).map(|case| entry(case, iceberg)));
    header(&lines) + &lines.join("\n") + "\n"
}

/// Is it an accepted update that drops a member with an inside?
fn leaves_unvisited(case: &Case) -> bool {
    let Some(call) = case.update_call() else { return false };
    let all = (call.records.len() + call.added_records.len()) / RECORD_BYTES;
    matches!(answer(case), Answer::Updated { visited, .. } if (visited as usize) < all)
}

fn entry(case: Case, iceberg: Iceberg) -> String {
    let (line, agreed) = line(case, Some(iceberg));
    assert_ne!(agreed, Some(Agreement::Differ), "the judges part: {line}");
    line
}

/// A case as a line of the list, and how the crate, where it is there, stands to its answer.
pub fn line(case: Case, iceberg: Option<Iceberg>) -> (String, Option<Agreement>) {
    let answer = answer(&case);
    let agreed = iceberg.map(|iceberg| agreement(&case, &answer, &iceberg.verdict(&case)));
    let both = agreed == Some(Agreement::Same);
    let judge = if both { Judge::Both } else { Judge::Paper };
    (write_line(&Recorded { case, judge, answer }), agreed)
}

fn header(lines: &[String]) -> String {
    let cases = lines.iter().filter(|line| !line.starts_with('#')).count();
    let longest = lines.iter().map(String::len).max().unwrap_or(0);
    format!(
        "\
# Recorded answers: one case to a line. Lines that start with # are comments.
# Made in rust/oracle by: cargo run -p compare -- record; seed {SEED}.
# {cases} cases; the longest line has {longest} bytes.
#
# OP JUDGE RECORDS POOL inputs.. = answer..
#
# update   JUDGE RECORDS POOL IDENTIFIERS LAST_ID DELETIONS ADDITIONS ADDED_RECORDS REQUEST_POOL OUT_RECORDS OUT_NAMES = ok RECORDS NAMES LAST_ID VISITED
#          with EDITS behind OUT_NAMES where there are any or a VERSION, and VERSION behind them where it is not 2
# prune    JUDGE RECORDS POOL SELECTED FULL OUT_RECORDS OUT_NAMES = ok RECORDS NAMES
# renumber JUDGE RECORDS POOL IDENTIFIERS START OUT_RECORDS OUT_NAMES OUT_IDENTIFIERS = ok RECORDS NAMES IDENTIFIERS
# name     JUDGE RECORDS POOL NAME = found ID SLOT, or nothing
# id       JUDGE RECORDS POOL ID = found ID SLOT, or nothing
# parent   JUDGE RECORDS POOL ID = found ID SLOT (of the record above), or nothing
# list     JUDGE RECORDS POOL = ok TEXT (every byte that the lister writes)
# folded   JUDGE RECORDS POOL NAME = found ID SLOT, or nothing (the name where case is forgotten)
# ids      JUDGE RECORDS POOL IDS OUT_SLOTS = ok SLOTS FOUND (4 bytes a slot, ffffffff for none)
# any of them = refused NUMBER LIST PLACE
#
# Fields stand between single blanks. Byte strings are lower-case hex, - if empty. Numbers are
# decimal and unsigned, 32 bits; ids are bit patterns. OUT_ fields are sizes of output buffers
# in bytes. FULL is full mode if it is not 0.
#
# JUDGE is both where iceberg 0.10.1's own code gave this answer and so did 01's text; for
# refusals 7 to 9 the crate tells the number, and list and place are the text's. It is paper
# where the text alone gave it: the crate can't be asked, or departs as listed.
#
"
    )
}

/// Puts every line to the judges and the port. Answers how many lines there were.
pub fn replay(text: &str, iceberg: Option<Iceberg>) -> Result<usize, String> {
    let lines = read_recorded(text)?;
    for (number, recorded) in &lines {
        held(recorded, iceberg).map_err(|why| format!("line {number}: {why}"))?;
    }
    Ok(lines.len())
}

fn held(recorded: &Recorded, iceberg: Option<Iceberg>) -> Result<(), String> {
    let now = answer(&recorded.case);
    if now != recorded.answer {
        return Err(format!("recorded {:?}\nnow {now:?}", recorded.answer));
    }
    match check(&recorded.case, iceberg)?.agreed {
        Some(Agreement::Same) if recorded.judge != Judge::Both => {
            Err("the crate gives this answer too".into())
        }
        Some(other) if other != Agreement::Same && recorded.judge == Judge::Both => {
            Err(format!("the crate no longer gives this answer: {other:?}"))
        }
        _ => {
            let again = write_line(recorded);
            let same = read_line(&again).as_ref() == Ok(recorded);
            if same { Ok(()) } else { Err("the line does not read back".into()) }
        }
    }
}
