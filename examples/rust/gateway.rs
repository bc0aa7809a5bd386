//! A gateway's table through one board revision: built, changed, stored, read by name, cut to
//! what a reader asked for, and refused. docs/USING.md has the steps to a project of your own.

use std::error::Error;
use std::{env, fs, process};

use braidhurdle::files::{Over, Stored};
use braidhurdle::{Field, FieldId, Mode, RefusalKind, Request, Tree, Type, Updated, Version};

fn main() -> Result<(), Box<dyn Error>> {
    let (tree, last_id) = first()?;
    print("as it was built", &tree)?;

    // The next revision reports a fault with each visit, has no floor, calls a button a switch, and
    // tells the time of a visit, not only its day. What is renamed or widened is the same column,
    // and so it has the same id. Only format version 3 makes a date a timestamp.
    let request = Request::new(last_id)
        .version(Version::V3)
        .identifiers(&[FieldId(1)])
        .drop("floor")?
        .add_under("visits", Field::primitive("fault", Type::Int))?
        .rename("button", "switch")?
        .widen("visits.day", Type::Timestamp)?;
    let updated = tree.update(&request)?;
    print("after the update", &updated.tree)?;
    // The time of a rebuild grows with these: a time slot is planned by them.
    println!("visited {} records in the rebuild", updated.visited);

    // The next update needs the tree and its last id. What was stored needs no check first.
    let (tree, last_id) = stored_and_read(updated)?;

    // Look up by name, then keep that column and what stands above it.
    let fault = tree
        .column_by_name("visits.fault")?
        .ok_or("no such column")?;
    println!(
        "visits.fault is column {}, today at slot {}",
        fault.id, fault.slot
    );
    // What a fitter types has any case; had two columns matched, it would be refused.
    if tree.column_by_folded_name("Visits.Fault")? == Some(fault) {
        println!("Visits.Fault is the same column, where case is forgotten");
    }
    // Data files carry ids. All of them are looked up at once, and the tree is tested once.
    let ids = [fault.id, FieldId(2)];
    for (id, slot) in ids.into_iter().zip(tree.find_ids(&ids)?) {
        match slot {
            Some(slot) => println!("column {id} stands at slot {slot}"),
            None => println!("column {id} is gone"),
        }
    }
    print("cut to it", &tree.prune(&[fault.id], Mode::Plain)?)?;

    // A request that can't be done says why; the tree is as it was.
    let again = Request::new(last_id).drop("floor")?;
    let Err(refusal) = tree.update(&again) else {
        return Err("a column can't be dropped twice".into());
    };
    match refusal.kind() {
        Some(RefusalKind::NoSuchColumn) => println!("{refusal}"),
        _ => return Err(refusal.into()),
    }
    Ok(())
}

/// Puts a tree and its last id into files, all of them or none, and reads them again.
fn stored_and_read(updated: Updated) -> Result<(Tree, FieldId), Box<dyn Error>> {
    let folder = env::temp_dir().join(format!("gateway-{}", process::id()));
    fs::create_dir_all(&folder)?;
    let stem = folder.join("board-2");
    Stored::from(updated).write(&stem, Over::Nothing)?;
    let stored = Stored::read(&stem);
    fs::remove_dir_all(&folder)?;
    let Stored { tree, last_id } = stored?;
    Ok((tree, last_id.ok_or("no last id was stored")?))
}

/// A first schema, with ids of our own, and its last id.
fn first() -> Result<(Tree, FieldId), Box<dyn Error>> {
    let day = Field::primitive("day", Type::Date).id(FieldId(5));
    let visit = Field::structure("element", [day]).id(FieldId(4));
    let tree = Tree::build(&[
        Field::primitive("button", Type::Int)
            .id(FieldId(1))
            .required(),
        Field::primitive("floor", Type::Int).id(FieldId(2)),
        Field::list("visits", visit).id(FieldId(3)),
    ])?;
    Ok((tree, FieldId(5)))
}

fn print(what: &str, tree: &Tree) -> Result<(), Box<dyn Error>> {
    println!("{what}:");
    for column in tree.columns()? {
        println!("{}{column}", "  ".repeat(column.level));
    }
    Ok(())
}

#[test]
fn it_goes_through() {
    main().expect("every step is accepted but the last, which is refused");
}
