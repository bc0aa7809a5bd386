//! The shapes of widenings and versions (02, 6/13), of accepted updates and of refused ones.

use judge::{
    Change, DATE, DOUBLE, FLOAT, INT, LIST, LONG, MAP, PRIMITIVE, Refusal, STRING, STRUCT,
    TIMESTAMP, TIMESTAMP_NS, decimal, is_step,
};

use crate::broken::base_breaks_9;
use crate::build::by_version;
use crate::case::{Ask, Case, answer};
use crate::edited::Request;
use crate::shapes::ids_of;
use crate::trees::held;

/// They start with the operation's word, as all shapes do.
pub static SHAPES_OF_WIDENINGS: &[&str] = &[
    "update: int widened to long by version 2",
    "update: int widened to long by version 3",
    "update: float widened to double by version 2",
    "update: float widened to double by version 3",
    "update: a decimal widened by version 2",
    "update: a decimal widened by version 3",
    "update: date widened to timestamp",
    "update: date widened to timestamp_ns",
    "update: a decimal of one digit widened",
    "update: a decimal widened to 38 digits",
    "update: a decimal widened by one digit",
    "update: a decimal of scale 0 widened",
    "update: a decimal widened whose scale is its precision",
    "update: a root widened",
    "update: a struct's member widened",
    "update: an element widened",
    "update: a key widened",
    "update: a value widened",
    "update: an identifier widened",
    "update: a dropped element, key or value widened",
    "update: widened beneath a dropped element, key or value",
    "update: widened beside a deletion and an addition",
    "update: widened by a short name",
    "update: renamed, then widened",
    "update: widened, then renamed",
    "update: relaxed, then widened",
    "update: widened, then relaxed",
    "update: renamed, relaxed and widened",
    "update: 64 widenings",
    "update: 64 edits of all three kinds",
    "update: 25 for version 0",
    "update: 25 for version 1",
    "update: 25 for version 4",
    "update: 25 for the largest version",
    "update: 25 for a version whose lowest byte is 2 or 3",
    "update: 25 without edits",
    "update: 25 with edits",
    "update: 25, and 3 to 6",
    "update: 25, and 7 to 9 of the base",
    "update: 25, and a deletion, an addition or an edit is refused",
    "update: 25, and the rebuilt tree is refused",
    "update: 25, and nothing else",
    "update: 3 for a new name's length of one that widens",
    "update: 3 for another byte of one that widens",
    "update: 4 for the path of one that widens",
    "update: 23 of a widening for a path that finds nothing",
    "update: 23 of a widening for what goes",
    "update: 23 of a widening that is no step",
    "update: 24 for a second widening",
    "update: 24 for a second widening to the same code",
    "update: 24 for a second widening to another code",
    "update: 24 for a second widening that is no step",
    "update: 24 for a second widening of an element, key or value",
    "update: 24 for a second widening beside another edit of the column",
    "update: 26 for a struct",
    "update: 26 for a list",
    "update: 26 for a map",
    "update: 26 for the code that it has",
    "update: 26 for a step turned round",
    "update: 26 for a step of version 3 by version 2",
    "update: 26 for another type of the table",
    "update: 26 for a decimal of another scale",
    "update: 26 for a decimal of another scale and a higher precision",
    "update: 26 for a decimal of a lower precision",
    "update: 26 for a precision of 39",
    "update: 26 for a scale above the precision",
    "update: 26 for another code outside the table",
    "update: 26 from a precision of 0",
    "update: 26 from a precision of 39",
    "update: 26 from a scale above the precision",
    "update: 26 from another code outside the table",
    "update: 26 of an element, key or value",
    "update: 9 for a float that is widened",
];

/// Of an accepted widening.
pub fn widen_shapes(
    request: &Request,
    slot: usize,
    code: u32,
    met: &mut impl FnMut(&'static str, bool),
) {
    let row = &request.tree.rows[slot];
    let two = request.version == 2;
    match (row.type_code, code) {
        (INT, LONG) => {
            met("update: int widened to long by version 2", two);
            met("update: int widened to long by version 3", !two);
        }
        (FLOAT, DOUBLE) => {
            met("update: float widened to double by version 2", two);
            met("update: float widened to double by version 3", !two);
        }
        (DATE, _) => {
            met("update: date widened to timestamp", code == TIMESTAMP);
            met("update: date widened to timestamp_ns", code == TIMESTAMP_NS);
        }
        _ => {
            let (precision, scale) = decimal(row.type_code).expect("no other type is widened");
            let (higher, _) = decimal(code).expect("a decimal stays one");
            met("update: a decimal widened by version 2", two);
            met("update: a decimal widened by version 3", !two);
            met("update: a decimal of one digit widened", precision == 1);
            met("update: a decimal widened to 38 digits", higher == 38);
            met("update: a decimal widened by one digit", higher == precision + 1);
            met("update: a decimal of scale 0 widened", scale == 0);
            met("update: a decimal widened whose scale is its precision", scale == precision);
        }
    }
    let member = !held(&request.tree, slot);
    met("update: a root widened", row.parent.is_none());
    met("update: a struct's member widened", member && row.parent.is_some());
    met("update: an element widened", request.is_child(slot, LIST, 0));
    met("update: a key widened", request.is_child(slot, MAP, 0));
    met("update: a value widened", request.is_child(slot, MAP, 1));
}

/// Two edits of one column, or all edits of an accepted update.
pub fn widened_pair_shapes(request: &Request, met: &mut impl FnMut(&'static str, bool)) {
    use Change::{Relax, Rename, Widen};
    request.pairs(&mut |one, other| {
        met("update: renamed, then widened", matches!((one, other), (Rename(_), Widen(_))));
        met("update: widened, then renamed", matches!((one, other), (Widen(_), Rename(_))));
        met("update: relaxed, then widened", matches!((one, other), (Relax, Widen(_))));
        met("update: widened, then relaxed", matches!((one, other), (Widen(_), Relax)));
    });
    let does = |of: Option<usize>, is: fn(&Change) -> bool| {
        request.each().any(|(slot, change)| of.is_none_or(|of| of == slot) && is(change))
    };
    let kinds: [fn(&Change) -> bool; 3] =
        [|c| matches!(c, Rename(_)), |c| matches!(c, Relax), |c| matches!(c, Widen(_))];
    let all = |of: Option<usize>| kinds.iter().all(|is| does(of, *is));
    let one = request.each().any(|(slot, _)| all(Some(slot)));
    met("update: renamed, relaxed and widened", one);
    let full = request.edits.len() == judge::MOST_EDITS;
    let widens = request.each().all(|(_, change)| kinds[2](change));
    met("update: 64 widenings", full && widens);
    met("update: 64 edits of all three kinds", full && all(None));
}

/// Of 25: which version it is, and what else is wrong.
pub fn version_shapes(case: &Case, met: &mut impl FnMut(&'static str, bool)) {
    let Ask::Update { version, edits, .. } = &case.ask else { return };
    met("update: 25 for version 0", *version == 0);
    met("update: 25 for version 1", *version == 1);
    met("update: 25 for version 4", *version == 4);
    met("update: 25 for the largest version", *version == u32::MAX);
    let lowest = [2, 3].contains(&(version & 255));
    met("update: 25 for a version whose lowest byte is 2 or 3", lowest);
    met("update: 25 without edits", edits.is_empty());
    met("update: 25 with edits", !edits.is_empty());
    match answer(&by_version(3, case.clone())).refusal() {
        None => met("update: 25, and nothing else", true),
        Some(Refusal { number, list, .. }) => {
            let base = match number {
                9 => base_breaks_9(case),
                _ => (7..9).contains(&number) && list == judge::BASE,
            };
            let request = [judge::DELETIONS, judge::ADDITIONS, judge::EDITS].contains(&list);
            let refused = number > 9 && request;
            met("update: 25, and 3 to 6", number < 7);
            met("update: 25, and 7 to 9 of the base", base);
            met("update: 25, and a deletion, an addition or an edit is refused", refused);
            met("update: 25, and the rebuilt tree is refused", list == judge::REBUILT);
        }
    }
}

/// Of 9 of the base: is the identifier a float that the request widens?
pub fn float_shapes(case: &Case, refusal: Refusal, met: &mut impl FnMut(&'static str, bool)) {
    let Ask::Update { identifiers, .. } = &case.ask else { return };
    let request = Request::of(case).expect("9 comes after 4");
    let id = ids_of(identifiers)[refusal.place as usize];
    let float = |slot: usize| {
        let row = &request.tree.rows[slot];
        row.id == id && row.type_code == FLOAT
    };
    let widened =
        |(slot, change): (usize, &Change)| float(slot) && *change == Change::Widen(DOUBLE);
    met("update: 9 for a float that is widened", request.each().any(widened));
}

/// Of 3 and 4 of an edit that widens.
pub fn widening_byte_shapes(edit: &[u8], number: u32, met: &mut impl FnMut(&'static str, bool)) {
    let length = edit[12] != 0;
    met("update: 3 for a new name's length of one that widens", number == 3 && length);
    met("update: 3 for another byte of one that widens", number == 3 && !length);
    met("update: 4 for the path of one that widens", number == 4);
}

/// Of 23, 24 and 26 of a widening.
pub fn no_step_shapes(
    request: &Request,
    refusal: Refusal,
    code: u32,
    met: &mut impl FnMut(&'static str, bool),
) {
    let place = refusal.place as usize;
    let Some(slot) = request.found[place] else {
        return met("update: 23 of a widening for a path that finds nothing", true);
    };
    let row = &request.tree.rows[slot];
    let no_step = row.kind != PRIMITIVE || !is_step(request.version, row.type_code, code);
    let is_held = held(&request.tree, slot);
    match refusal.number {
        23 => {
            met("update: 23 of a widening for what goes", true);
            met("update: 23 of a widening that is no step", no_step);
        }
        24 => {
            let earlier = request.found[..place].iter().zip(&request.edits);
            let earlier = earlier.filter(|(found, _)| **found == Some(slot));
            let changes: Vec<&Change> = earlier.map(|(_, edit)| &edit.change).collect();
            let same = changes.contains(&&Change::Widen(code));
            met("update: 24 for a second widening", true);
            met("update: 24 for a second widening to the same code", same);
            met("update: 24 for a second widening to another code", !same);
            met("update: 24 for a second widening that is no step", no_step);
            met("update: 24 for a second widening of an element, key or value", is_held);
            let beside = changes.len() > 1;
            met("update: 24 for a second widening beside another edit of the column", beside);
        }
        _ => {
            met("update: 26 of an element, key or value", is_held);
            met("update: 26 for a struct", row.kind == STRUCT);
            met("update: 26 for a list", row.kind == LIST);
            met("update: 26 for a map", row.kind == MAP);
            if row.kind == PRIMITIVE {
                pair_of_codes(request.version, row.type_code, code, met);
            }
        }
    }
}

/// The digits that a code would have as a decimal, whether the table has it or not.
fn digits(code: u32) -> Option<(u32, u32)> {
    (65_536..65_536 + 65_536).contains(&code).then(|| (code / 256 - 256, code % 256))
}

/// Of 26: what is wrong with two codes.
fn pair_of_codes(version: u32, old: u32, new: u32, met: &mut impl FnMut(&'static str, bool)) {
    let known = |code: u32| (1..=STRING).contains(&code) || decimal(code).is_some();
    met("update: 26 for the code that it has", old == new);
    met("update: 26 for a step turned round", is_step(3, new, old));
    met("update: 26 for a step of version 3 by version 2", version == 2 && is_step(3, old, new));
    if let (Some((p, s)), Some((q, t))) = (decimal(old), decimal(new)) {
        met("update: 26 for a decimal of another scale", p == q && s != t);
        met("update: 26 for a decimal of another scale and a higher precision", p < q && s != t);
        met("update: 26 for a decimal of a lower precision", p > q);
    } else if known(old) && known(new) {
        let later = is_step(3, old, new) || is_step(3, new, old);
        met("update: 26 for another type of the table", old != new && !later);
    }
    if known(old) && !known(new) {
        let digits = digits(new);
        let above = digits.is_some_and(|(p, s)| s > p && p <= 38);
        let forty = digits.is_some_and(|(p, _)| p == 39);
        met("update: 26 for a precision of 39", forty);
        met("update: 26 for a scale above the precision", above);
        met("update: 26 for another code outside the table", !forty && !above);
    }
    if !known(old) {
        let digits = digits(old);
        let above = digits.is_some_and(|(p, s)| s > p && (1..=38).contains(&p));
        let none = digits.is_some_and(|(p, _)| p == 0);
        let forty = digits.is_some_and(|(p, _)| p == 39);
        met("update: 26 from a precision of 0", none);
        met("update: 26 from a precision of 39", forty);
        met("update: 26 from a scale above the precision", above);
        met("update: 26 from another code outside the table", !none && !forty && !above);
    }
}
