//! Widenings: what they change, and that they change nothing else.

use crate::t::t;
use braidhurdle::{
    Field, FieldId, Overlong, Refusal, Request, RequestRef, Room, Tree, Type, Updated, Version,
};

type Tested = Result<(), Box<dyn std::error::Error>>;

fn request() -> Request {
    Request::new(FieldId(20))
}

fn decimal(precision: u8, scale: u8) -> Type {
    Type::decimal(precision, scale).expect("a decimal")
}

fn column(id: i32, name: &str, of: Type) -> Field {
    Field::primitive(name, of).id(FieldId(id))
}

/// A column of each type that a version widens, in each role: members of the root and of a struct,
/// an element, a key and a value. All that a widening leaves is set in one or another.
fn roots() -> [Field; 5] {
    let node = [
        column(2, "heat", Type::Float).default(),
        column(3, "price", decimal(9, 2)).attribute(7),
        column(4, "name", Type::String),
    ];
    let key = column(8, "key", Type::Date).required();
    [
        column(10, "serial", Type::Int).required().default().attribute(1),
        Field::structure("node", node).id(FieldId(1)).required(),
        Field::list("days", column(6, "element", Type::Date)).id(FieldId(5)),
        Field::map("parts", key, column(9, "value", Type::Int)).id(FieldId(7)),
        Field::primitive("other", 77).id(FieldId(11)),
    ]
}

fn typed() -> Tree {
    Tree::build(&roots()).expect("it fits the layout")
}

/// Gives the column of an id another type.
fn set(fields: &mut [Field], id: FieldId, of: Type) {
    for field in fields {
        if field.id == id {
            field.type_code = of.code();
        }
        set(&mut field.inside, id, of);
    }
}

/// What a request of version 3 is refused with.
fn refusal(request: Result<Request, Overlong>) -> Option<Refusal> {
    typed().update(&request.expect("it fits the layout").version(Version::V3)).err()
}

fn refused(number: u32, place: u32) -> Option<Refusal> {
    Some(Refusal { number, list: 6, place })
}

#[test]
fn a_widening_gives_a_new_type_in_any_role_and_changes_nothing_else() -> Tested {
    let widened = [
        ("serial", 10, Type::Long),
        ("node.heat", 2, Type::Double),
        ("node.price", 3, decimal(10, 2)),
        ("node.price", 3, decimal(38, 2)),
        ("days.element", 6, Type::Timestamp),
        ("parts.key", 8, Type::TimestampNs),
        ("parts.value", 9, Type::Long),
    ];
    for (path, id, to) in widened {
        let request = request().version(Version::V3).widen(path, to)?;
        let mut expected = roots();
        set(&mut expected, FieldId(id), to);
        let Updated { tree, last_id, .. } = typed().update(&request)?;
        assert_eq!(tree, Tree::build(&expected)?, "{path} to {to}");
        assert_eq!(last_id, FieldId(20), "no widening hands out an id");
    }
    Ok(())
}

#[test]
fn each_version_has_its_own_steps() -> Tested {
    let day = request().widen("parts.key", Type::Timestamp)?;
    assert_eq!(typed().update(&day).err(), refused(26, 0));
    assert_eq!(typed().update(&day.clone().version(Version::V2)).err(), refused(26, 0));
    assert!(typed().update(&day.version(Version::V3)).is_ok());
    for version in [Version::V2, Version::V3] {
        let long = request().version(version).widen("serial", Type::Long)?;
        assert!(typed().update(&long).is_ok(), "{version}");
    }
    Ok(())
}

/// The steps of two updates follow each other, each by the version that its own update names.
#[test]
fn a_widened_column_is_widened_again_by_another_update() -> Tested {
    let Updated { tree, .. } = typed().update(&request().widen("node.price", decimal(12, 2))?)?;
    let back = request().widen("node.price", decimal(9, 2))?;
    assert_eq!(tree.update(&back).err(), refused(26, 0), "no step leads back");
    let Updated { tree, .. } = tree.update(&request().widen("node.price", decimal(18, 2))?)?;
    assert!(tree.to_string().contains("  3 price: decimal(18,2) attribute 7\n"), "{tree}");
    Ok(())
}

#[test]
fn no_step_leads_out_of_the_table_to_the_same_type_or_from_what_is_no_primitive() {
    let barred = [
        ("serial", Type::Int.code()),
        ("serial", Type::String.code()),
        ("serial", 10),
        ("serial", 0),
        ("node.price", decimal(9, 2).code()),
        ("node.price", decimal(8, 2).code()),
        ("node.price", decimal(10, 3).code()),
        ("node.price", 65_536 + 256 * 39 + 2),
        ("node.name", Type::Long.code()),
        ("other", Type::Long.code()),
        ("other", 78),
        ("node", Type::Long.code()),
        ("days", Type::Timestamp.code()),
        ("parts", Type::Long.code()),
    ];
    for (path, code) in barred {
        assert_eq!(refusal(request().widen(path, code)), refused(26, 0), "{path} to {code}");
    }
}

#[test]
fn a_second_widening_is_24_whatever_its_step() {
    for again in [Type::Long, Type::Int, Type::Boolean] {
        let twice = request().widen("serial", Type::Long).and_then(|r| r.widen("serial", again));
        assert_eq!(refusal(twice), refused(24, 1), "{again}");
    }
    let first =
        request().widen("serial", Type::Boolean).and_then(|r| r.widen("serial", Type::Long));
    assert_eq!(refusal(first), refused(26, 0));
}

#[test]
fn a_column_that_goes_or_comes_is_not_widened() -> Tested {
    let dropped = request().drop("node")?.widen("node.heat", Type::Double);
    assert_eq!(refusal(dropped), refused(23, 0));
    let added = request().add(Field::primitive("new", Type::Int))?.widen("new", Type::Long);
    assert_eq!(refusal(added), refused(23, 0));
    // an element that a deletion finds stays
    let element = request().drop("days.element")?.widen("days.element", Type::Timestamp);
    assert_eq!(refusal(element), None);
    Ok(())
}

#[test]
fn a_column_is_renamed_relaxed_and_widened_in_any_order() -> Tested {
    type Edit = fn(Request) -> Result<Request, Overlong>;
    let rename: Edit = |request| request.rename("serial", "no");
    let relax: Edit = |request| request.relax("serial");
    let widen: Edit = |request| request.widen("serial", Type::Long);
    let [serial, others @ ..] = roots();
    let serial = Field { name: "no".into(), required: false, ..serial };
    let serial = Field { type_code: Type::Long.code(), ..serial };
    let expected = Tree::build(&[&[serial][..], &others].concat())?;
    for edits in [[rename, relax, widen], [widen, rename, relax], [relax, widen, rename]] {
        let request = edits.into_iter().try_fold(request(), |request, edit| edit(request))?;
        assert_eq!(typed().update(&request)?.tree, expected);
    }
    Ok(())
}

#[test]
fn an_int_identifier_stays_one_as_long_and_a_float_is_none_as_double() -> Tested {
    let serial = request().identifiers(&[FieldId(10)]).widen("serial", Type::Long)?;
    let Updated { tree, .. } = typed().update(&serial)?;
    assert_eq!(tree.check_identifiers(&[FieldId(10)]), Ok(()));

    let heat = Tree::build(&[column(1, "heat", Type::Float).required()])?;
    let widened = request().widen("heat", Type::Double)?;
    let none = Some(Refusal { number: 9, list: 5, place: 0 });
    assert_eq!(heat.update(&widened.clone().identifiers(&[FieldId(1)])).err(), none);
    let Updated { tree, .. } = heat.update(&widened)?;
    assert_eq!(tree.check_identifiers(&[FieldId(1)]).err(), none);
    Ok(())
}

#[test]
fn widenings_stand_beside_deletions_and_additions() -> Tested {
    let request = request()
        .version(Version::V3)
        .identifiers(&[FieldId(10)])
        .drop("parts")?
        .drop("node.heat")?
        .add_under("node", Field::primitive("heat", Type::Double))?
        .widen("days.element", Type::TimestampNs)?
        .widen("node.price", decimal(18, 2))?;
    let Updated { tree, last_id, .. } = typed().update(&request)?;
    assert_eq!(
        tree.to_string(),
        "10 serial: int required default attribute 1\n1 node: struct required\n  \
         3 price: decimal(18,2) attribute 7\n  4 name: string\n  21 heat: double\n5 days: list\n  \
         6 element: timestamp_ns\n11 other: primitive 77\n"
    );
    assert_eq!(last_id, FieldId(21));
    Ok(())
}

#[test]
fn a_request_that_names_no_version_asks_for_2() {
    assert_eq!(Request::new(FieldId(1)).version, Version::V2);
    assert_eq!(RequestRef::default().version, 2);
    assert_eq!(RequestRef::default(), Request::default().lent());
}

/// 25 comes after 1 and 2 and before all else, in every update.
#[test]
fn any_other_version_than_2_and_3_is_refused_in_every_update() {
    let mut room = Room::boxed();
    let mut answer = |tree: &Tree, version: u32| {
        let request = RequestRef { version, edits: &[0xFF; 16], ..RequestRef::default() };
        tree.lent().update_in(request, &mut room).map(drop).expect_err("a broken edit").number
    };
    let mut broken = t();
    broken.records[11] = 1;
    let cut = Tree::new(vec![0; 23], vec![]);
    for version in [0, 1, 4, 5, 258, 65_538, u32::MAX] {
        let refusals = [&t(), &broken, &cut].map(|tree| answer(tree, version));
        assert_eq!(refusals, [25, 25, 2], "{version}");
    }
    for version in [2, 3] {
        assert_eq!(answer(&t(), version), 3);
    }
    let request = RequestRef { version: 4, last_id: FieldId(10), ..RequestRef::default() };
    let unknown = Refusal { number: 25, list: 0, place: 0 };
    assert_eq!(t().lent().update_in(request, &mut room).map(drop), Err(unknown));
}
