//! Edits: what a rename and a relaxing change, and that they change nothing else.

use crate::t::{keyed, t};
use braidhurdle::{Field, FieldId, Overlong, Request, Tree, Updated};

type Tested = Result<(), Box<dyn std::error::Error>>;

fn request() -> Request {
    Request::new(FieldId(10))
}

/// The picture of T after a request.
fn picture(request: Result<Request, Overlong>) -> Result<String, Box<dyn std::error::Error>> {
    let Updated { tree, last_id, .. } = t().update(&request?)?;
    assert_eq!(last_id, FieldId(10), "no edit hands out an id");
    Ok(tree.to_string())
}

#[test]
fn a_rename_gives_a_new_name_and_changes_nothing_else() -> Tested {
    for (path, name) in [("node", "board"), ("visits.day", ""), ("parts.price", "cost=2")] {
        let Updated { tree, .. } = t().update(&request().rename(path, name)?)?;
        let column = t().column_by_name(path)?.map(|column| column.slot).expect("it is there");
        let mut expected = t().fields()?;
        rename(&mut expected, t().column(column)?.expect("it is there").id, name);
        assert_eq!(tree, Tree::build(&expected)?, "{path}");
    }
    Ok(())
}

/// Gives the column of an id another name.
fn rename(fields: &mut [Field], id: FieldId, name: &str) {
    for field in fields {
        if field.id == id {
            field.name = name.into();
        }
        rename(&mut field.inside, id, name);
    }
}

#[test]
fn a_renamed_column_is_found_by_its_new_name_alone() -> Tested {
    let Updated { tree, .. } =
        t().update(&request().rename("visits", "calls")?.rename("visits.element.day", "date")?)?;
    assert_eq!(tree.find_name("calls.date")?, t().find_name("visits.day")?);
    for old in ["visits", "visits.day", "visits.date", "calls.day"] {
        assert_eq!(tree.find_name(old)?, None, "{old}");
    }
    Ok(())
}

#[test]
fn a_relaxing_makes_optional_and_leaves_a_default() -> Tested {
    for default in [false, true] {
        let site = Field { default, ..Field::primitive("site", 9).id(FieldId(1)).required() };
        let relaxed = Field { required: false, ..site.clone() };
        for (from, paths) in [(&site, 1), (&site, 2), (&relaxed, 1)] {
            let mut request = request();
            for _ in 0..paths {
                request = request.relax("site")?;
            }
            let tree = Tree::build(std::slice::from_ref(from))?.update(&request)?.tree;
            assert_eq!(tree, Tree::build(std::slice::from_ref(&relaxed))?);
        }
    }
    Ok(())
}

#[test]
fn a_column_is_renamed_and_relaxed_in_either_order() -> Tested {
    let one = keyed().update(&request().rename("node.serial", "no")?.relax("node.serial")?)?;
    let other = keyed().update(&request().relax("node.serial")?.rename("node.serial", "no")?)?;
    assert_eq!(one, other);
    let no = one.tree.column_by_name("node.no")?.expect("it is there");
    assert_eq!((no.id, no.required), (FieldId(2), false));
    Ok(())
}

#[test]
fn names_can_be_exchanged_and_taken_from_what_goes() -> Tested {
    let exchanged =
        picture(request().rename("node.cost", "button")?.rename("node.button", "cost"))?;
    assert!(exchanged.contains("  4 cost: primitive 0\n  5 button: primitive 0\n"), "{exchanged}");
    let taken = picture(request().drop("node.cost")?.rename("node.button", "cost"))?;
    assert!(taken.contains("1 node: struct\n  4 cost: primitive 0\n2 visits"), "{taken}");
    Ok(())
}

#[test]
fn edits_stand_beside_deletions_additions_and_identifiers() -> Tested {
    let request = Request::new(FieldId(4))
        .identifiers(&[FieldId(2)])
        .drop("node.cost")?
        .add_under("node", Field::primitive("cost", 3))?
        .rename("node", "board")?
        .relax("site")?;
    let Updated { tree, last_id, .. } = keyed().update(&request)?;
    assert_eq!(
        tree.to_string(),
        "1 board: struct required\n  2 serial: primitive 0 required\n  5 cost: long\n\
         4 site: primitive 0\n"
    );
    assert_eq!(last_id, FieldId(5));
    Ok(())
}
