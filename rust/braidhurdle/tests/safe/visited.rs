//! How many records an update visits in its rebuild (02, 7/13).

use crate::t::{keyed, primitive, t};
use braidhurdle::layout::{NAME_ROOM, RECORD_BYTES, RECORD_ROOM};
use braidhurdle::{Column, Field, FieldId, Kind, Overlong, Request, Tree, Type, Updated, c};

type Tested = Result<(), Box<dyn std::error::Error>>;

fn request() -> Request {
    Request::new(FieldId(10))
}

fn dropping<S: AsRef<[u8]>>(paths: &[S]) -> Result<Request, Overlong> {
    paths.iter().try_fold(request(), Request::drop)
}

/// How many records an update leaves, and how many it visits.
fn counts(tree: &Tree, request: &Request) -> Result<(usize, u32), Box<dyn std::error::Error>> {
    let Updated { tree, visited, .. } = tree.update(request)?;
    Ok((tree.records.len() / RECORD_BYTES, visited))
}

/// A list of structs of two columns: 4 records.
fn alarms() -> Field {
    let element = Field::structure("element", [primitive(0, "day"), primitive(0, "count")]);
    Field::list("alarms", element)
}

#[test]
fn an_empty_request_visits_every_record_once() -> Tested {
    for (tree, records) in [(Tree::default(), 0), (t(), 10), (keyed(), 4)] {
        assert_eq!(counts(&tree, &request())?, (records, records as u32));
    }
    Ok(())
}

#[test]
fn a_dropped_member_counts_and_what_stands_inside_it_does_not() -> Tested {
    for (paths, counted) in [
        (&["node"][..], (7, 8)),
        (&["visits"], (7, 8)),
        (&["parts"], (6, 7)),
        (&["node", "visits", "parts"], (0, 3)),
        // nothing stands inside these
        (&["node.cost"], (9, 10)),
        (&["node.cost", "visits.day", "parts.price"], (7, 10)),
        // what is dropped inside a dropped one is not met, and what is dropped twice counts once
        (&["node.cost", "node", "node"], (7, 8)),
        (&["visits.day", "visits.element", "visits"], (7, 8)),
    ] {
        assert_eq!(counts(&t(), &dropping(paths)?)?, counted, "{paths:?}");
    }
    Ok(())
}

#[test]
fn below_a_dropped_element_key_or_value_all_counts() -> Tested {
    for paths in [&["visits.element"][..], &["parts.value"], &["parts.key", "parts.value"]] {
        assert_eq!(counts(&t(), &dropping(paths)?)?, (10, 10), "{paths:?}");
    }
    // a member goes there as it does elsewhere
    let inner = Field::structure("s", [primitive(4, "a"), primitive(5, "b")]).id(FieldId(3));
    let element = Field::structure("element", [inner, primitive(6, "c")]).id(FieldId(2));
    let tree = Tree::build(&[Field::list("l", element).id(FieldId(1))])?;
    assert_eq!(counts(&tree, &dropping(&["l.element"])?)?, (6, 6));
    assert_eq!(counts(&tree, &dropping(&["l.element", "l.element.s"])?)?, (3, 4));
    Ok(())
}

#[test]
fn each_added_record_counts() -> Tested {
    assert_eq!(counts(&t(), &request().add(alarms())?)?, (14, 14));
    let both = request().add(alarms())?.add_under("visits", alarms())?;
    assert_eq!(counts(&t(), &both)?, (18, 18));
    let with_drop = dropping(&["node", "visits.element"])?.add_under("visits", alarms())?;
    assert_eq!(counts(&t(), &with_drop)?, (11, 12));
    assert_eq!(counts(&Tree::default(), &request().add(alarms())?)?, (4, 4));
    Ok(())
}

#[test]
fn an_edit_changes_nothing_of_it() -> Tested {
    let edited = dropping(&["node"])?.rename("visits", "calls")?.relax("parts")?;
    assert_eq!(counts(&t(), &edited)?, (7, 8));
    let tree = Tree::build(&[Field::primitive("a", Type::Int).id(FieldId(1))])?;
    assert_eq!(counts(&tree, &request().widen("a", Type::Long)?)?, (1, 1));
    Ok(())
}

/// The slots of what stands above a column, from the next one on.
fn above(columns: &[Column], slot: usize) -> impl Iterator<Item = usize> {
    let parent = |slot: &usize| columns[*slot].parent.map(|(_, above)| above.0 as usize);
    std::iter::successors(parent(&slot), parent)
}

/// Whatever is dropped from T: the definition, and that it is the records of the answer with the
/// dropped members that stand beneath no other.
#[test]
fn it_is_the_definitions_number_for_every_choice_of_columns() -> Tested {
    let tree = t();
    let columns: Vec<Column> = tree.columns()?.collect();
    let added = 4;
    for choice in 0..1 << columns.len() {
        let chosen = |slot: &usize| choice >> slot & 1 == 1;
        let slots = || 0..columns.len();
        let paths: Vec<_> = slots().filter(chosen).map(|slot| columns[slot].full_name()).collect();
        let (left, visited) = counts(&tree, &dropping(&paths)?.add(alarms())?)?;
        let is_member = |slot: usize| {
            above(&columns, slot).next().is_none_or(|above| columns[above].kind == Kind::Struct)
        };
        let goes = |slot: &usize| chosen(slot) && is_member(*slot);
        let met = || slots().filter(|slot| !above(&columns, *slot).any(|above| goes(&above)));
        assert_eq!(visited as usize, met().count() + added, "{choice:b}");
        assert_eq!(visited as usize, left + met().filter(goes).count(), "{choice:b}");
    }
    Ok(())
}

/// A full tree is left, and each of 64 deletions, of which there are no more, finds a column of its
/// own: no update visits more.
#[test]
fn the_largest_update_visits_all_that_was_there_and_all_that_is_added() -> Tested {
    let columns: Vec<Field> = (1..=1_024).map(|id| primitive(id, &format!("c{id}"))).collect();
    let paths: Vec<String> = (1..=64).map(|id| format!("c{id}")).collect();
    let members: Vec<Field> = (1..64).map(|n| primitive(0, &format!("m{n}"))).collect();
    let request = Request { last_id: FieldId(1_024), ..dropping(&paths)? };
    let request = request.add(Field::structure("s", members))?;
    assert_eq!(counts(&Tree::build(&columns)?, &request)?, (1_024, 1_024 + 64));
    Ok(())
}

#[test]
fn a_refusal_reports_0_and_so_do_pruning_and_renumbering() -> Tested {
    let tree = t();
    let (records, pool) = (&tree.records[..], &tree.pool[..]);
    let (mut out, mut names) = (vec![0; RECORD_ROOM], vec![0; NAME_ROOM]);
    let mut update = |request: &Request| {
        let (ids, last, version) = (&request.identifiers, request.last_id.0, request.version);
        let (drop, add, added) = (&request.deletions, &request.additions, &request.added_records);
        let (edits, lent, version) = (&request.edits, &request.pool, version.number());
        let (out, names) = (&mut out, &mut names);
        c::update(records, pool, ids, last, version, drop, add, added, edits, lent, out, names)
    };
    let floor = || primitive(0, "floor");
    let accepted = c::Changed { records: 8, names: 39, last_id: 11, visited: 9, ..zeros() };
    assert_eq!(update(&dropping(&["node"])?.add(floor())?), accepted);
    let torn = Request { deletions: vec![0; 7], ..request() };
    for (request, refusal, list, place) in [
        (torn, 2, 0, 0),
        (request().identifiers(&[FieldId(11)]), 9, 5, 0),
        (dropping(&["node", "nodes"])?, 11, 2, 1),
        (dropping(&["node"])?.add_under("node", floor())?, 22, 3, 0),
        (dropping(&["node"])?.relax("node")?, 23, 6, 0),
        // of the rebuilt tree
        (dropping(&["node"])?.add(floor())?.add(floor())?, 8, 4, 8),
    ] {
        assert_eq!(update(&request), c::Changed { refusal, list, place, ..zeros() });
    }
    let pruned = c::prune(records, pool, &[7, 0, 0, 0], 0, &mut out, &mut names);
    assert_eq!(pruned, c::Changed { records: 3, names: 16, ..zeros() });
    let renumbered = c::renumber(records, pool, &[], 1, &mut out, &mut names, &mut []);
    assert_eq!(renumbered, c::Changed { records: 10, names: 48, ..zeros() });
    Ok(())
}

fn zeros() -> c::Changed {
    c::Changed::default()
}
