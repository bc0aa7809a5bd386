//! Where the two judges have common ground, and whether they agree there.

use std::collections::BTreeSet;

use cases::{Answer, Ask, Case, Numbers, Outcome, base_breaks_9, shown};
use judge::{
    EDIT_BYTES, ENTRY_BYTES, ID_BYTES, Names, OUT_NAMES, OUT_RECORDS, RECORD_BYTES, Refusal,
    Unwrap, WIDEN,
};
use oracle::Verdict;

/// How the crate's word stands to the paper's. The words are those of docs/DIFFERENCES.md.
#[derive(Clone, Copy, Debug, PartialEq, Eq, PartialOrd, Ord)]
pub enum Agreement {
    /// The same answer; of a refusal the same number, and the place where the crate tells it.
    Same,
    /// Both refuse a tree with several faults, and 01 compares only the fact.
    Fact,
    /// A departure that the page lists.
    Departure(&'static str),
    /// The crate can't be asked.
    Outside(&'static str),
    /// None of these.
    Differ,
}

use Agreement::{Departure, Differ, Fact, Outside, Same};

const ELEMENT_KEY_VALUE: &str = "6: names of element, key and value";
const PAST_LARGEST: &str = "18 in updates";
const LIMITS: &str = "the limits";
const NOT_UTF8: &str = "names that are not UTF-8";
const NOTHING_AT_ROOT: &str = "a panic: nothing yielded at the root";
const VALUE_YIELDS_NOTHING: &str =
    "a panic: a chosen map value of struct kind that yields nothing, not full";
const ONLY_LETTERS: &str = "only 26 letters fold";
const AMBIGUOUS: &str = "ambiguity is refused";
const DROPPED_PARENT: &str = "no additions to a dropped parent";
const EDITED: &str = "renaming and relaxing";
const WIDENED: &str = "widening types";
const REFUSED_EDIT: &str = "24, 13 and 26 of an edit, and 25";
const BYTES: &str = "1 to 6 and 10 speak of bytes that the crate never sees";

/// Every agreement that is none of the same answer: all that a run may meet.
pub const LISTED: [Agreement; 14] = [
    Fact,
    Departure(ELEMENT_KEY_VALUE),
    Departure(PAST_LARGEST),
    Departure(LIMITS),
    Departure(NOT_UTF8),
    Departure(NOTHING_AT_ROOT),
    Departure(VALUE_YIELDS_NOTHING),
    Departure(ONLY_LETTERS),
    Departure(AMBIGUOUS),
    Departure(DROPPED_PARENT),
    Departure(EDITED),
    Departure(WIDENED),
    Outside(REFUSED_EDIT),
    Outside(BYTES),
];

impl Agreement {
    /// The words of docs/DIFFERENCES.md, where it has some.
    pub fn words(&self) -> Option<&'static str> {
        match self {
            Same | Differ => None,
            Fact => Some("only the fact of refusal is compared"),
            Departure(words) | Outside(words) => Some(words),
        }
    }
}

impl std::fmt::Display for Agreement {
    fn fmt(&self, f: &mut std::fmt::Formatter<'_>) -> std::fmt::Result {
        let kind = match self {
            Same => "the same answer",
            Differ => "they differ",
            Fact => "both refuse: ",
            Departure(_) => "departure: ",
            Outside(_) => "outside: ",
        };
        write!(f, "{kind}{}", self.words().unwrap_or_default())
    }
}

/// Where the paper's answer is a refusal that the crate does not have, there is nothing to ask.
pub fn not_the_crates(case: &Case, paper: &Answer) -> Option<Agreement> {
    let refusal = paper.refusal()?;
    match refusal.number {
        2 if whole(case) => Some(Departure(LIMITS)),
        5 if !past_the_end(case, refusal) => Some(Departure(LIMITS)),
        6 => Some(Departure(ELEMENT_KEY_VALUE)),
        19 => Some(Departure(LIMITS)),
        1..=5 | 10 => Some(Outside(BYTES)),
        25 => Some(Outside(REFUSED_EDIT)),
        _ => None,
    }
}

/// Is every list a whole number of records, so that 2 speaks of a limit?
fn whole(case: &Case) -> bool {
    let fit = |list: &[u8], unit| list.len().is_multiple_of(unit);
    let lists = match &case.ask {
        Ask::Update { identifiers, deletions, additions, added_records, edits, .. } => {
            fit(identifiers, ID_BYTES)
                && fit(edits, EDIT_BYTES)
                && fit(deletions, ENTRY_BYTES)
                && fit(additions, ENTRY_BYTES)
                && fit(added_records, RECORD_BYTES)
        }
        Ask::Prune { selected: ids, .. }
        | Ask::Renumber { identifiers: ids, .. }
        | Ask::Ids { ids, .. } => fit(ids, ID_BYTES),
        _ => true,
    };
    lists && fit(&case.records, RECORD_BYTES)
}

/// Does 5 speak of counts that need more records, and not of level 17?
fn past_the_end(case: &Case, refusal: Refusal) -> bool {
    let records = match &case.ask {
        Ask::Update { added_records, .. } if refusal.list == judge::ADDED => added_records,
        _ => &case.records,
    };
    refusal.place as usize == records.len() / RECORD_BYTES
}

/// How the crate's word on a case stands to the paper's answer.
pub fn agreement(case: &Case, paper: &Answer, said: &Verdict) -> Agreement {
    if let Some(own) = not_the_crates(case, paper) {
        return own;
    }
    match paper.refusal() {
        Some(refusal) if refusal.number == 22 => return dropped_parent(case, said),
        Some(refusal) if refusal.list == judge::EDITS => return refused_edit(case, refusal, said),
        _ => {}
    }
    match judged(case, paper, said) {
        Same | Fact if of_an_edited_tree(case, paper) => edits(case),
        other => other,
    }
}

/// The crate has no edits, whatever they do.
fn edits(case: &Case) -> Agreement {
    let widens = |edit: &[u8]| edit[6] == WIDEN;
    let call = case.update_call().expect("only an update has edits");
    let any = call.edits.chunks_exact(EDIT_BYTES).any(widens);
    Departure(if any { WIDENED } else { EDITED })
}

fn judged(case: &Case, paper: &Answer, said: &Verdict) -> Agreement {
    match said {
        Verdict::Unfit("a name that is not UTF-8") => Departure(NOT_UTF8),
        Verdict::Unfit(_) => Differ,
        Verdict::Answer(answer) => answered(case, paper, answer),
        Verdict::Refused { number: 9, base, .. } if other_tree(case, paper, *base) => Differ,
        Verdict::Refused { number, base: true, .. } => base_refused(paper, *number),
        Verdict::Refused { number, place, .. } => refused(paper, *number, *place),
        Verdict::Panicked { place, text } => panicked(case, paper, *place, text),
    }
}

/// Does the paper's answer speak of a tree with edits in it? The crate has none, and its builder is
/// asked for the tree that they leave.
fn of_an_edited_tree(case: &Case, paper: &Answer) -> bool {
    let edited = case.update_call().is_some_and(|call| !call.edits.is_empty());
    edited
        && paper.refusal().is_none_or(|refusal| match refusal.number {
            9 => !base_breaks_9(case),
            _ => refusal.list == judge::REBUILT,
        })
}

/// The crate has taken the deletions and additions. Whether a column survives is told by its own
/// look-up and its own rebuilding, up to the edit that is refused; what else forbids an edit is not.
fn refused_edit(case: &Case, refusal: Refusal, said: &Verdict) -> Agreement {
    match said {
        Verdict::Unfit("a name that is not UTF-8") => Departure(NOT_UTF8),
        Verdict::Refused { number: 23, place, .. } if refusal.number == 23 => {
            if *place == Some(refusal.place) { edits(case) } else { Differ }
        }
        _ if refusal.number == 23 => Differ,
        Verdict::Refused { number: 23, place: Some(place), .. } => {
            if *place > refusal.place {
                Outside(REFUSED_EDIT)
            } else {
                Differ
            }
        }
        Verdict::Answer(_) | Verdict::Refused { number: 7..=9, base: false, .. } => {
            Outside(REFUSED_EDIT)
        }
        _ => Differ,
    }
}

/// The crate has no 22 and goes by the text as it was before: the addition is nowhere, or a later
/// refusal is met. So its word is held to that answer, whatever it is.
fn dropped_parent(case: &Case, said: &Verdict) -> Agreement {
    match agreement(case, &before_22(case), said) {
        Same
        | Fact
        | Departure(PAST_LARGEST | LIMITS | EDITED | WIDENED)
        | Outside(REFUSED_EDIT) => Departure(DROPPED_PARENT),
        other => other,
    }
}

/// The answer to an update as it was before 02's 3/13.
fn before_22(case: &Case) -> Answer {
    let call = case.update_call().expect("only an update is refused with 22");
    let (mut out_records, mut out_names) = (vec![0; OUT_RECORDS], vec![0; OUT_NAMES]);
    let answer = judge::update_before_22(&call, &mut out_records, &mut out_names);
    let (numbers, out_identifiers, out_slots) = (Numbers::Changed(answer), vec![], vec![]);
    shown(case, &Outcome { numbers, out_records, out_names, out_identifiers, out_slots })
}

fn answered(case: &Case, paper: &Answer, said: &Answer) -> Agreement {
    match &case.ask {
        Ask::Folded(name) => forgotten_case(case, name, paper, said),
        _ if said == paper => Same,
        _ => Differ,
    }
}

/// The crate puts every key of its names into one map, in lower case. Of keys that meet there the
/// one that its hash map had last stays, so where they are of two columns only this can be asked:
/// that it answers one of them. Which departure it is goes by the tree and the name alone.
fn forgotten_case(case: &Case, name: &[u8], paper: &Answer, said: &Answer) -> Agreement {
    let keys = keys(case);
    let lower = |name: &[u8]| str::from_utf8(name).expect("the crate took it").to_lowercase();
    let asked = lower(name);
    let meet = |alike: &dyn Fn(&[u8]) -> bool| -> BTreeSet<i32> {
        keys.iter().filter(|(key, _)| alike(key)).map(|(_, id)| *id).collect()
    };
    let by_crate = meet(&|key| lower(key) == asked);
    let by_letters = meet(&|key| key.eq_ignore_ascii_case(name));
    let fits = |answer: &Answer, ids: &BTreeSet<i32>| match answer {
        Answer::Found { id, .. } => ids.contains(id),
        Answer::Nothing => ids.is_empty(),
        Answer::Refused(refusal) => refusal.number == 21 && !ids.is_empty(),
        _ => false,
    };
    let refused = paper.refusal().is_some();
    match fits(said, &by_crate) && fits(paper, &by_letters) {
        false => Differ,
        true if by_crate != by_letters => Departure(ONLY_LETTERS),
        true if refused || by_letters.len() > 1 => Departure(AMBIGUOUS),
        true if said == paper => Same,
        true => Differ,
    }
}

/// The crate's map from names to ids: every full name, and every short name that is no full name,
/// with the first entered of those that have it. A key may stand here twice.
fn keys(case: &Case) -> Vec<(Vec<u8>, i32)> {
    let tree = judge::read_tree(&case.records, &case.pool, judge::BASE).expect("the crate took it");
    let names = Names::of(&tree);
    let slots = 0..tree.rows.len();
    let called = slots.flat_map(|slot| [tree.full_name(slot), tree.short_name(slot)]);
    let entry = |name: Vec<u8>| {
        let slot = names.find(&name).expect("a column has it");
        (name, tree.rows[slot].id)
    };
    called.map(entry).collect()
}

/// Does the text give 9 too, but of the other tree, where the crate's is of the base or of the
/// rebuilt tree?
fn other_tree(case: &Case, paper: &Answer, base: bool) -> bool {
    let nine = paper.refusal().is_some_and(|refusal| refusal.number == 9);
    nine && base_breaks_9(case) != base
}

fn base_refused(paper: &Answer, number: u32) -> Agreement {
    let fault = |number: u32| (7..=9).contains(&number);
    match paper.refusal() {
        Some(refusal) if refusal.number == number => Same,
        Some(refusal) if fault(refusal.number) && fault(number) => Fact,
        _ => Differ,
    }
}

fn refused(paper: &Answer, number: u32, place: Option<u32>) -> Agreement {
    let Some(refusal) = paper.refusal() else { return Differ };
    let rebuilt = |r: Refusal| r.list >= judge::REBUILT && (7..=9).contains(&number);
    match refusal.number == number {
        true if place.is_none_or(|place| place == refusal.place) => Same,
        false if rebuilt(refusal) => Fact,
        _ => Differ,
    }
}

fn panicked(case: &Case, paper: &Answer, place: Option<u32>, text: &str) -> Agreement {
    match &case.ask {
        Ask::Update { .. } => {
            let same = |r: Refusal| r.number == 18 && Some(r.place) == place;
            let overflow = text == "attempt to add with overflow";
            match paper.refusal().is_some_and(same) && overflow {
                true => Departure(PAST_LARGEST),
                false => Differ,
            }
        }
        Ask::Prune { selected, full, .. } if text.contains("Option::unwrap()") => {
            match judge::prune_where_rust_panics(&case.records, &case.pool, selected, *full) {
                Some(Unwrap::Root) => Departure(NOTHING_AT_ROOT),
                Some(Unwrap::Value) => Departure(VALUE_YIELDS_NOTHING),
                None => Differ,
            }
        }
        _ => Differ,
    }
}
