//! The last id of a tree: said, kept beside it, or the largest. No id is handed out twice.

use braidhurdle::files::with_ending;
use braidhurdle::names::shown;
use braidhurdle::{FieldId, Tree};

use crate::words::Given;
use crate::{Fault, names};

/// A last id, and what must be told of it.
pub struct Last {
    pub id: FieldId,
    pub note: String,
}

/// The last id for an update: what is said, or else what is kept. One that is said below an id of
/// the tree, or below the one that is kept, is taken by force alone; one that is kept below an id
/// of the tree is not taken at all, since force is for files too.
pub fn of_update(
    given: &Given,
    said: Option<FieldId>,
    kept: Option<FieldId>,
    force: bool,
) -> Result<Last, Fault> {
    if given.tree.check().is_err() {
        // the update is refused, whatever the last id
        return Ok(Last { id: said.or(kept).unwrap_or_default(), note: String::new() });
    }
    let file = file(given);
    let Some(id) = said else {
        let id = kept.ok_or_else(|| missing(&file, given.tree))?;
        return match above(given.tree, id) {
            None => Ok(Last { id, note: String::new() }),
            Some(above) => {
                let from = format!("{file}: the last id {id}");
                Err(too_low(&from, &above, "say the last id by --last-id"))
            }
        };
    };
    let kept = kept.filter(|kept| *kept > id).map(|kept| format!("{kept}, which {file} keeps"));
    Ok(Last { id, note: low(id, above(given.tree, id).or(kept), force)? })
}

/// The last id of a tree that is made: what is said, or else the largest.
pub fn of_made(tree: &Tree, said: Option<FieldId>, force: bool) -> Result<Last, Fault> {
    let id = said.or(largest(tree)).unwrap_or_default();
    Ok(Last { id, note: low(id, above(tree, id), force)? })
}

/// The column of the largest id, where that is above a last id.
pub fn above(tree: &Tree, last: FieldId) -> Option<String> {
    let column = tree.columns().ok()?.max_by_key(|column| column.id)?;
    let told = format!("id {} of {}", column.id, shown(&column.full_name()));
    (column.id > last).then_some(told)
}

pub fn largest(tree: &Tree) -> Option<FieldId> {
    tree.columns().ok()?.map(|column| column.id).max()
}

/// The file that keeps the last id of a tree.
pub fn file(given: &Given) -> String {
    names::file(&with_ending(given.stem, "last"))
}

fn missing(file: &str, tree: &Tree) -> Fault {
    let largest = match largest(tree) {
        Some(id) => format!("The largest id of the tree is {id}; one that was dropped since"),
        None => "An id that was dropped".into(),
    };
    Fault::Given(format!(
        "{file}: not found, and no --last-id says the last id consumed so far. {largest} may have \
         been larger"
    ))
}

/// Ends where a last id that was said is below something, or goes on by force and tells it.
fn low(id: FieldId, above: Option<String>, force: bool) -> Result<String, Fault> {
    let from = format!("--last-id {id}");
    match above {
        None => Ok(String::new()),
        Some(above) if force => Ok(format!("by force: {from} is below {above}\n")),
        Some(above) => Err(too_low(&from, &above, "--force takes it all the same")),
    }
}

fn too_low(from: &str, above: &str, cure: &str) -> Fault {
    Fault::Given(format!(
        "{from} is below {above}: an id could be handed out twice. Nothing is written; {cure}"
    ))
}
