//! What each subcommand does: read, ask the library, write, and say what people need to know.

use std::fs::{self, File};
use std::io::{self, IsTerminal, Read};
use std::path::{Path, PathBuf};

use braidhurdle::files::{ENDINGS, FileFault, Over, Stored, Why, with_ending};
use braidhurdle::layout::RECORD_BYTES;
use braidhurdle::names::{quoted, shown};
use braidhurdle::{
    Column, Columns, Field, FieldId, Mode, Overlong, Refusal, Request, RequestRef, Room, Slot,
    Tree, Updated,
};

use crate::arguments::{self, Added, Addition, Ask, Named, Of, Out};
use crate::changes::{self, Changes};
use crate::edits::{self, Change, Edit};
use crate::last::{self, Last};
use crate::words::{Asked, Given, told_of};
use crate::{Fault, explain, names, near, picture, streams};

/// More bytes than the picture of 1,024 columns needs.
const MOST_PICTURE: u64 = 1 << 22;

/// The answer, as it is printed.
pub fn answer(ask: Ask) -> Result<Vec<u8>, Fault> {
    let (stem, of) = match ask {
        Ask::Explain(number) => return Ok(explain::told(number).into()),
        Ask::Make { picture, last_id, out } => return make(&picture, last_id, &out),
        Ask::Of(stem, of) => (stem, of),
    };
    // who does not ask for the last id is not kept up by a file that holds none
    let stored = match of {
        Of::Check { .. } | Of::Update { .. } => Stored::read(&stem),
        _ => Tree::read(&stem).map(|tree| Stored { tree, last_id: None }),
    };
    let Stored { tree, last_id: kept } = stored.map_err(of_file)?;
    let given = Given::new(&stem, &tree);
    match of {
        Of::List { plain } => list(&given, plain),
        Of::Check { identifiers } => check(given, &identifiers, kept),
        Of::Find(name) => found(&given, by_name(&given, &name)?),
        Of::FindFolded(name) => {
            let given = Given { ask: Asked::Folded { name: &name }, ..given };
            found(&given, slot_of(&given, &name, tree.find_folded(&name))?)
        }
        Of::FindIds(ids) => by_ids(&Given { ask: Asked::Ids { asked: ids.len() }, ..given }, &ids),
        Of::Parent(id) => parent(&given, id),
        Of::Prune { keep, full, out } => prune(given, &keep, full, &out),
        Of::Renumber { from, identifiers, out } => renumber(given, from, &identifiers, &out),
        Of::Update { last_id, version, identifiers, drop, add, edit, out } => {
            let Last { id: last_id, note } = last::of_update(&given, last_id, kept, out.force)?;
            let identifiers = ids(&given, &identifiers)?;
            let dropped = drop.into_iter().map(|column| path(&given, column));
            let dropped = dropped.collect::<Result<Vec<_>, _>>()?;
            let added = added(&given, add)?;
            let edits = edit.into_iter().map(|edit| edited(&given, edit));
            let edits = edits.collect::<Result<Vec<_>, _>>()?;
            let (dropped, added, edits) = (&dropped, &added, &edits);
            let asked = changes::Asked { last_id, version, dropped, added, edits };
            update(Given { identifiers: &identifiers, ..given }, asked, &out, note)
        }
    }
}

fn list(given: &Given, plain: bool) -> Result<Vec<u8>, Fault> {
    let columns = given.tree.columns().map_err(|why| given.refused(why))?;
    Ok(if plain { lines(columns) } else { given.tree.to_string().into() })
}

/// The lister's lines: slot, id, parent id or `-`, full name. Names stand as they are, but not on
/// a terminal, which would obey them.
fn lines(columns: Columns) -> Vec<u8> {
    let escaped = io::stdout().is_terminal();
    let mut lines = vec![];
    for column in columns {
        let parent = column.parent.map_or("-".into(), |(id, _)| id.to_string());
        lines.extend(format!("{} {} {parent} ", column.slot, column.id).bytes());
        let name = column.full_name();
        lines.extend(if escaped { shown(&name).into() } else { name });
        lines.push(b'\n');
    }
    lines
}

fn check(given: Given, identifiers: &[Named], kept: Option<FieldId>) -> Result<Vec<u8>, Fault> {
    let identifiers = &ids(&given, identifiers)?;
    let given = Given { identifiers, ..given };
    given.tree.check_identifiers(identifiers).map_err(|why| given.refused(why))?;
    let (records, names) = (records(given.tree), given.tree.pool.len());
    let mut accepted = format!("accepted: {records} records, {names} name bytes");
    let columns = given.tree.columns_by_ids(identifiers).map_err(|why| given.refused(why))?;
    for column in columns.iter().flatten() {
        accepted += &format!("\nidentifier {}", told_of(column));
    }
    let file = last::file(&given);
    let last = match kept {
        Some(last) => {
            if let Some(above) = last::above(given.tree, last) {
                return Err(Fault::Given(format!("{file}: the last id {last} is below {above}")));
            }
            format!("last id {last}")
        }
        None => format!("no last id: {file} is not there"),
    };
    Ok(format!("{accepted}\n{last}\n").into())
}

fn by_name(given: &Given, name: &[u8]) -> Result<Slot, Fault> {
    slot_of(given, name, given.tree.find_name(name))
}

/// What the look-up of a name found, or else which may have been meant.
fn slot_of(
    given: &Given,
    name: &[u8],
    found: Result<Option<(FieldId, Slot)>, Refusal>,
) -> Result<Slot, Fault> {
    match found.map_err(|why| given.refused(why))? {
        Some((_, slot)) => Ok(slot),
        None => {
            let near = near::question(given.tree, name);
            Err(Fault::Nothing(format!("no column is named {}{near}", quoted(name))))
        }
    }
}

fn by_id(given: &Given, id: FieldId) -> Result<Slot, Fault> {
    let found = given.tree.find_id(id).map_err(|why| given.refused(why))?;
    found.ok_or_else(|| Fault::Nothing(unknown(id)))
}

/// The columns of ids, a line each, of one test of the tree.
fn by_ids(given: &Given, ids: &[FieldId]) -> Result<Vec<u8>, Fault> {
    let columns = given.tree.columns_by_ids(ids).map_err(|why| given.refused(why))?;
    let said = |(id, column): (&FieldId, Option<Column>)| {
        column.map(|column| line(&column)).ok_or_else(|| unknown(*id))
    };
    let each: Vec<Result<String, String>> = ids.iter().zip(columns).map(said).collect();
    if each.iter().any(Result::is_err) {
        return Err(Fault::NotAll(each));
    }
    Ok(each.into_iter().flatten().collect::<String>().into())
}

fn unknown(id: FieldId) -> String {
    format!("no column has id {id}")
}

fn parent(given: &Given, id: FieldId) -> Result<Vec<u8>, Fault> {
    match given.tree.find_parent(id).map_err(|why| given.refused(why))? {
        Some((_, slot)) => found(given, slot),
        // an unknown id says so itself
        None => {
            by_id(given, id).and_then(|_| Err(Fault::Nothing(format!("column {id} is a root"))))
        }
    }
}

/// What is printed of a column that was found.
fn found(given: &Given, slot: Slot) -> Result<Vec<u8>, Fault> {
    Ok(line(&column(given, slot)?).into())
}

fn line(column: &Column) -> String {
    told_of(column) + "\n"
}

/// A column that was found.
fn column<'a>(given: &Given<'a>, slot: Slot) -> Result<Column<'a>, Fault> {
    let column = given.tree.column(slot).map_err(|why| given.refused(why))?;
    Ok(column.expect("a slot that was found"))
}

/// The ids of columns. One that is given as an id need not be there; a name must.
fn ids(given: &Given, columns: &[Named]) -> Result<Vec<FieldId>, Fault> {
    let id = |named: &Named| match named {
        Named::Id(id) => Ok(*id),
        Named::Path(path) => Ok(column(given, by_name(given, path)?)?.id),
    };
    columns.iter().map(id).collect()
}

/// The path of a column. One that is given as a path need not be there; an id must, and its full
/// name finds it alone.
fn path(given: &Given, named: Named) -> Result<Vec<u8>, Fault> {
    match named {
        Named::Path(path) => Ok(path),
        Named::Id(id) => Ok(column(given, by_id(given, id)?)?.full_name()),
    }
}

fn prune(given: Given, keep: &[Named], full: bool, out: &Out) -> Result<Vec<u8>, Fault> {
    let mode = if full { Mode::Full } else { Mode::Plain };
    let mut keep = ids(&given, keep)?;
    let given = Given { ask: Asked::Prune { chosen: keep.len() }, ..given };
    let tree = given.tree.prune(&keep, mode).map_err(|why| given.refused(why))?;
    keep.sort();
    keep.dedup();
    let mut said = String::new();
    let slots = given.tree.find_ids(&keep).map_err(|why| given.refused(why))?;
    for (id, _) in keep.iter().zip(slots).filter(|(_, slot)| slot.is_none()) {
        said += &format!("not in {}: id {id}\n", names::file(given.stem));
    }
    said += &format!("kept {} of {} records\n", records(&tree), records(given.tree));
    // an update of a part would hand out ids that the whole hands out too
    write(Stored { tree, last_id: None }, out, said)
}

fn renumber(
    given: Given,
    from: FieldId,
    identifiers: &[Named],
    out: &Out,
) -> Result<Vec<u8>, Fault> {
    let identifiers = &ids(&given, identifiers)?;
    let given = Given { identifiers, ask: Asked::Renumber { from }, ..given };
    let answer = given.tree.renumber(from, identifiers).map_err(|why| given.refused(why))?;
    // of no column at all the next id is still the first number, where there is one below it
    let last_id = last::largest(&answer.tree).unwrap_or(FieldId(from.0.saturating_sub(1)));
    let mut said = format!("last id {last_id}\n");
    if !identifiers.is_empty() {
        let ids: Vec<String> = answer.identifiers.iter().map(FieldId::to_string).collect();
        said += &format!("identifiers {}\n", ids.join(","));
    }
    write(Stored { tree: answer.tree, last_id: Some(last_id) }, out, said)
}

/// Each column to add. A tree of several roots is several additions.
fn added(
    given: &Given,
    additions: Vec<Addition<Added, Named>>,
) -> Result<Vec<Addition<Field>>, Fault> {
    let mut added = vec![];
    for Addition { what, under } in additions {
        let under = under.map(|above| path(given, above)).transpose()?;
        match what {
            Added::Column(what) => added.push(Addition { what, under }),
            Added::Tree(stem) => {
                let tree = Tree::read(&stem).map_err(of_file)?;
                let roots = tree.fields().map_err(|why| Given::new(&stem, &tree).refused(why))?;
                let add = |what| Addition { what, under: under.clone() };
                added.extend(roots.into_iter().map(add));
            }
        }
    }
    Ok(added)
}

/// What is to become of a column that stays.
fn edited(given: &Given, edit: arguments::Edit) -> Result<Edit, Fault> {
    let (column, change) = match edit {
        arguments::Edit::Relax(column) => (column, Change::Relax),
        arguments::Edit::RenameId(id, name) => (Named::Id(id), Change::Rename(name)),
        arguments::Edit::Rename(both) => {
            let (path, name) = edits::parted(given.tree, &both).map_err(|why| {
                Fault::Given(format!("--rename {why}; --rename-id ID=NAME tells which is meant"))
            })?;
            (Named::Path(path), Change::Rename(name))
        }
        arguments::Edit::Widen(column, code) => (column, Change::Widen(code)),
    };
    Ok(Edit { path: path(given, column)?, change })
}

fn update(given: Given, asked: changes::Asked, out: &Out, note: String) -> Result<Vec<u8>, Fault> {
    let request = request(given.identifiers, asked).map_err(overlong)?;
    // as a number, so that the library says whether there is such a version
    let request = RequestRef { version: asked.version, ..request.lent() };
    let given = Given { ask: Asked::Update { asked, request }, ..given };
    let mut room = Room::boxed();
    let answer = given.tree.lent().update_in(request, &mut room);
    let Updated { tree, last_id, visited } = answer.map_err(|why| given.refused(why))?;
    let lines = Changes::of(given.tree, asked).map(|changes| changes.lines());
    let mut said = format!("{note}{}last id {last_id}\n", lines.unwrap_or_default());
    let noun = if visited == 1 { "record" } else { "records" };
    said += &format!("visited {visited} {noun} in the rebuild\n");
    write(Stored { tree: tree.to_tree(), last_id: Some(last_id) }, out, said)
}

fn request(identifiers: &[FieldId], asked: changes::Asked) -> Result<Request, Overlong> {
    let mut request = Request::new(asked.last_id).identifiers(identifiers);
    for path in asked.dropped {
        request = request.drop(path)?;
    }
    for Addition { what, under } in asked.added {
        request = match under {
            Some(path) => request.add_under(path, what.clone())?,
            None => request.add(what.clone())?,
        };
    }
    for Edit { path, change } in asked.edits {
        request = match change {
            Change::Rename(name) => request.rename(path, name)?,
            Change::Relax => request.relax(path)?,
            Change::Widen(code) => request.widen(path, *code)?,
        };
    }
    Ok(request)
}

fn make(picture: &Path, last_id: Option<FieldId>, out: &Out) -> Result<Vec<u8>, Fault> {
    let fault = |why: String| Fault::Given(format!("{}: {why}", names::picture(picture)));
    let mut text = vec![];
    let file: io::Result<Box<dyn Read>> = match picture.to_str() {
        Some("-") if streams::no_input() => return Err(fault("closed".into())),
        Some("-") => Ok(Box::new(io::stdin())),
        _ => File::open(picture).map(|file| Box::new(file) as Box<dyn Read>),
    };
    file.and_then(|file| file.take(MOST_PICTURE + 1).read_to_end(&mut text))
        .map_err(|why| fault(why.to_string()))?;
    if text.len() as u64 > MOST_PICTURE {
        return Err(fault(format!("longer than {MOST_PICTURE} bytes")));
    }
    let text = String::from_utf8(text).map_err(|why| fault(no_text(&why)))?;
    let picture::Picture { roots, lines } = picture::read(&text).map_err(fault)?;
    let tree = Tree::build(&roots).map_err(overlong)?;
    let given = Given { lines: Some(&lines), ..Given::new(picture, &tree) };
    tree.check().map_err(|why| given.refused(why))?;
    let Last { id, note } = last::of_made(&tree, last_id, out.force)?;
    write(Stored { tree, last_id: Some(id) }, out, format!("{note}last id {id}\n"))
}

/// Why bytes are no text, with the line.
fn no_text(why: &std::string::FromUtf8Error) -> String {
    let before = &why.as_bytes()[..why.utf8_error().valid_up_to()];
    let line = 1 + before.iter().filter(|byte| **byte == b'\n').count();
    format!("line {line}: {}", why.utf8_error())
}

/// How many whole records a tree has.
fn records(tree: &Tree) -> usize {
    tree.records.len() / RECORD_BYTES
}

fn overlong(why: Overlong) -> Fault {
    Fault::Given(why.to_string())
}

/// Writes a tree, and says what happened.
fn write(stored: Stored, out: &Out, mut said: String) -> Result<Vec<u8>, Fault> {
    let over = if out.force { Over::Files } else { Over::Nothing };
    let links: Vec<PathBuf> = ENDINGS
        .map(|ending| with_ending(&out.stem, ending))
        .into_iter()
        .filter(|file| fs::read_link(file).is_ok())
        .collect();
    stored.write(&out.stem, over).map_err(of_file)?;
    for link in links {
        said += &format!("{} was a link, and what it led to is as it was\n", names::file(&link));
    }
    Ok(if out.quiet { vec![] } else { said.into() })
}

fn of_file(FileFault { file, why }: FileFault) -> Fault {
    let hint = match why {
        Why::Missing => "; a tree is named by the common stem of its files",
        Why::AlreadyThere => "; --force replaces files",
        Why::NoFile => "; --force replaces files and links alone",
        Why::NoName => "; DIR/T is one",
        _ => "",
    };
    Fault::Given(format!("{}: {why}{hint}", names::file(&file)))
}
