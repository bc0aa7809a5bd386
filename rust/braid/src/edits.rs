//! Edits: how a rename is read, and in words refusals 23, 24 and 26, 13 of an edit, and what an
//! edit has to do with 8, 9 and 17.

use std::iter::successors;
use std::mem::discriminant;

use braidhurdle::names::quoted;
use braidhurdle::{Column, Kind, Tree, Version};

use crate::changes::{Asked, Changes};
use crate::outline::Outline;
use crate::words::{Given, columns, told_of};
use crate::{near, types};

/// A change of the column that a path finds.
pub struct Edit {
    pub path: Vec<u8>,
    pub change: Change,
}

/// A new name; no longer required; or another type, by its code.
pub enum Change {
    Rename(Vec<u8>),
    Relax,
    Widen(u32),
}

impl Edit {
    /// What is asked for.
    fn said(&self) -> String {
        let path = quoted(&self.path);
        match &self.change {
            Change::Rename(name) => format!("rename of {path} to {}", quoted(name)),
            Change::Relax => format!("relaxing of {path}"),
            Change::Widen(code) => format!("widening of {path} to {}", types::named(*code)),
        }
    }

    /// What it does to a column.
    fn does(&self) -> String {
        match &self.change {
            Change::Rename(name) => format!("renames it to {}", quoted(name)),
            Change::Relax => "relaxes it".into(),
            Change::Widen(code) => format!("widens it to {}", types::named(*code)),
        }
    }

    /// What a column then is.
    fn done(&self) -> &'static str {
        match self.change {
            Change::Rename(_) => "renamed",
            Change::Relax => "relaxed",
            Change::Widen(_) => "widened",
        }
    }

    pub fn new_name(&self) -> Option<&[u8]> {
        match &self.change {
            Change::Rename(name) => Some(name),
            _ => None,
        }
    }

    pub fn new_code(&self) -> Option<u32> {
        match self.change {
            Change::Widen(code) => Some(code),
            _ => None,
        }
    }
}

/// The path and the new name on both sides of a `=`. Either may have more of them: then it is the
/// one before which a column's name stands. Where there is no such one the first; where there are
/// several, what they are.
pub fn parted(tree: &Tree, both: &[u8]) -> Result<(Vec<u8>, Vec<u8>), String> {
    let at = |place: usize| (both[..place].to_vec(), both[place + 1..].to_vec());
    let places: Vec<usize> = (0..both.len()).filter(|place| both[*place] == b'=').collect();
    let finds = |place: &&usize| matches!(tree.find_name(&both[..**place]), Ok(Some(_)));
    let found: Vec<usize> = places.iter().filter(finds).copied().collect();
    match (&found[..], &places[..]) {
        ([], [first, ..]) | ([first], _) => Ok(at(*first)),
        _ => {
            let names = found.iter().map(|place| quoted(&both[..*place]));
            Err(format!(
                "{} begins with the names of several columns: {}",
                quoted(both),
                names.collect::<Vec<_>>().join(", ")
            ))
        }
    }
}

/// An edit that is refused, and why.
pub fn refused(given: &Given, number: u32, place: usize, asked: &Asked) -> String {
    let edit = &asked.edits[place];
    let why = match number {
        13 => own_name(edit),
        23 => not_there(given, place, asked),
        24 => forbidden(given, place, asked),
        26 => no_step(given, place, asked),
        _ => None,
    };
    format!("edit {place}, {}{}", edit.said(), why.unwrap_or_default())
}

/// The new name without the names above it, where these stand in front of it.
fn own_name(edit: &Edit) -> Option<String> {
    let dot = edit.path.iter().rposition(|byte| *byte == b'.')?;
    let own = edit.new_name()?.strip_prefix(&edit.path[..=dot])?;
    (!own.contains(&b'.')).then(|| format!("; did you mean {}?", quoted(own)))
}

/// Why an edit finds no column that stays: it goes, or is not there yet, or never was.
fn not_there(given: &Given, place: usize, asked: &Asked) -> Option<String> {
    // the edits behind it are not asked: their paths may lead nowhere
    let before = Asked { edits: &asked.edits[..place], ..*asked };
    let (path, changes) = (&asked.edits[place].path, Changes::of(given.tree, before)?);
    if let Some(column) = given.found(path) {
        return Some(format!(": {}", given.goes(&changes, column.slot.0 as usize)?));
    }
    let rebuilt = Tree::build(&changes.rebuilt()).ok()?;
    let Ok(Some(later)) = rebuilt.column_by_name(path) else {
        return Some(near::question(given.tree, path));
    };
    let as_it_was = "and paths are looked up in the tree as it was";
    let was = given.tree.find_id(later.id).ok()?;
    Some(match was.and_then(|slot| given.tree.column(slot).ok()?) {
        None => format!(": this update adds it, {as_it_was}"),
        Some(column) => {
            let by = renaming(&before, &changes, &Outline::of(&rebuilt), &[later.slot.0 as usize]);
            format!(": that is the new name of {}, {as_it_was}{by}", told_of(&column))
        }
    })
}

/// Which role forbids an edit, or which edit before it does the same to the same column.
fn forbidden(given: &Given, place: usize, asked: &Asked) -> Option<String> {
    let edit = &asked.edits[place];
    let column = given.found(&edit.path)?;
    let (told, done) = (told_of(&column), edit.done());
    let whole = column.parent.and_then(|(_, above)| given.tree.column(above).ok()?);
    // a type is widened in any role
    let forbids = |above: &Column| above.kind != Kind::Struct && edit.new_code().is_none();
    if let Some(whole) = whole.filter(forbids) {
        let own = String::from_utf8_lossy(column.name);
        return Some(format!(": {told}: a {}'s {own} is not {done}", whole.kind));
    }
    let same = |earlier: &Edit| {
        discriminant(&earlier.change) == discriminant(&edit.change)
            && given.found(&earlier.path).is_some_and(|found| found == column)
    };
    let earlier = asked.edits[..place].iter().position(same)?;
    let does = asked.edits[earlier].does();
    Some(format!(": {told}: edit {earlier} {does}, and a column is {done} once"))
}

/// Why a column's type is not widened so.
fn no_step(given: &Given, place: usize, asked: &Asked) -> Option<String> {
    let edit = &asked.edits[place];
    let column = given.found(&edit.path)?;
    let why = match column.kind {
        Kind::Primitive => {
            let version = Version::try_from(asked.version).ok()?;
            types::no_step(version, column.type_code, edit.new_code()?)
        }
        kind => format!("it is a {kind}, and no primitive"),
    };
    Some(format!(": {}: {why}", told_of(&column)))
}

/// The edit that frees the name of a column, and why that is of no use to an addition.
pub fn freed(given: &Given, asked: &Asked, column: &Column) -> String {
    let frees = |edit: &Edit| {
        edit.new_name().is_some_and(|name| name != column.name)
            && given.found(&edit.path).is_some_and(|found| found == *column)
    };
    match asked.edits.iter().position(frees) {
        Some(edit) => format!(
            ", which edit {edit} renames, but after the additions: rename it in an update before \
             this one"
        ),
        None => String::new(),
    }
}

/// The edits that relax an identifier's column, or what stands above it.
pub fn relaxing(given: &Given, changes: &Changes, slot: usize) -> Option<String> {
    let columns = columns(given.tree);
    let up = |slot: &usize| columns[*slot].parent.map(|(_, above)| above.0 as usize);
    let relaxed: Vec<String> = successors(Some(slot), up)
        .filter(|at| columns[*at].required)
        .filter_map(|at| {
            let edit = changes.relaxing(at)?;
            Some(match at == slot {
                true => format!("edit {edit} relaxes it"),
                false => format!("edit {edit} relaxes {} above it", told_of(&columns[at])),
            })
        })
        .collect();
    let told = told_of(&columns[slot]);
    (!relaxed.is_empty()).then(|| format!("{told}: {}", relaxed.join("; ")))
}

/// The renames to which records of a rebuilt tree owe their full names.
pub fn renaming(asked: &Asked, changes: &Changes, rebuilt: &Outline, slots: &[usize]) -> String {
    let above = |slot: &usize| rebuilt.0[*slot].above;
    let ids: Vec<_> = slots
        .iter()
        .flat_map(|slot| successors(Some(*slot), above).collect::<Vec<_>>())
        .map(|slot| rebuilt.0[slot].record.id)
        .collect();
    let names = |place: &usize| changes.renames(*place).is_some_and(|id| ids.contains(&id));
    let edits = (0..asked.edits.len()).filter(names);
    edits.map(|place| format!("; edit {place} is a {}", asked.edits[place].said())).collect()
}
