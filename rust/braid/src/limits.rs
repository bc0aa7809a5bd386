//! Which limit is passed, in words: refusals 2 and 19 tell no place.

use braidhurdle::Field;
use braidhurdle::layout::{
    MOST_ASKED, MOST_IDENTIFIERS, MOST_LEVELS, MOST_RECORDS, MOST_SELECTED, NAME_ROOM, RECORD_BYTES,
};

use crate::outline::Outline;
use crate::words::{Asked, Given};

/// Most deletions, most additions, and most edits.
const MOST_ENTRIES: usize = 64;

/// Every limit of refusal 2 that what was given passes.
pub fn passed(given: &Given) -> Vec<String> {
    let outline = Outline::of(given.tree);
    let mut passed = files(given, outline.0.len());
    passed.extend(sizes(&given.from(), &outline));
    let mut limit = |what: &str, size: usize, most: usize| {
        if size > most {
            passed.push(format!("{size} {what}, and at most {most} may be given"));
        }
    };
    limit("identifiers", given.identifiers.len(), MOST_IDENTIFIERS);
    match &given.ask {
        Asked::LookUp | Asked::Folded { .. } | Asked::Renumber { .. } => {}
        Asked::Ids { asked } => limit("ids to find", *asked, MOST_ASKED),
        Asked::Prune { chosen } => limit("chosen ids", *chosen, MOST_SELECTED),
        Asked::Update { asked, request } => {
            limit("deletions", asked.dropped.len(), MOST_ENTRIES);
            limit("additions", asked.added.len(), MOST_ENTRIES);
            limit("edits", asked.edits.len(), MOST_ENTRIES);
            limit("bytes of paths and new names", request.pool.len(), NAME_ROOM);
            let added = asked.added.iter().map(|addition| columns(&addition.what)).sum();
            limit("added columns", added, MOST_RECORDS);
            let names = asked.added.iter().map(|addition| name_bytes(&addition.what)).sum();
            limit("bytes in the added names together", names, NAME_ROOM);
        }
    }
    passed
}

/// The limits on trees that one passes: records, levels, name bytes.
pub fn of_tree(of: &str, outline: &Outline) -> Vec<String> {
    let levels = outline.0.iter().map(|row| row.level).max().unwrap_or(0);
    let levels = past(of, levels, MOST_LEVELS, "levels");
    levels.into_iter().chain(sizes(of, outline)).collect()
}

/// How many columns an addition has.
pub fn columns(field: &Field) -> usize {
    1 + field.inside.iter().map(columns).sum::<usize>()
}

/// The lengths of an addition's names together.
fn name_bytes(field: &Field) -> usize {
    field.name.len() + field.inside.iter().map(name_bytes).sum::<usize>()
}

fn sizes(of: &str, outline: &Outline) -> impl Iterator<Item = String> {
    let names = outline.0.iter().map(|row| usize::from(row.record.length)).sum();
    let records = past(of, outline.0.len(), MOST_RECORDS, "records");
    records.into_iter().chain(past(of, names, NAME_ROOM, "bytes in all names together"))
}

fn past(of: &str, size: usize, most: usize, what: &str) -> Option<String> {
    (size > most).then(|| format!("{of} has {size} {what}, and may have {most}"))
}

/// What is wrong with the lengths of files, with so many whole records. Of a file that is too long
/// one byte too many was read.
fn files(given: &Given, whole: usize) -> Vec<String> {
    let (from, more) = (given.from(), given.tree.records.len() % RECORD_BYTES);
    let mut wrong = vec![];
    if more > 0 && whole == MOST_RECORDS {
        wrong.push(format!("{from}.rec has more than {MOST_RECORDS} records"));
    } else if more > 0 {
        let bytes = format!("{more} bytes; a record has {RECORD_BYTES}");
        wrong.push(format!("{from}.rec has {whole} whole records and {bytes}"));
    }
    if given.lines.is_none() && given.tree.pool.len() > NAME_ROOM {
        wrong.push(format!("{from}.names has more than {NAME_ROOM} bytes"));
    }
    wrong
}
