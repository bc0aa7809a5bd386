//! Builders write the layout's bytes, or say what it can't hold.

use braidhurdle::{Field, FieldId, Overlong, Refusal, Request, Slot, Tree, Type};

use crate::t::{primitive, t};

/// T's records as 01 describes them: id, name offset, name length, kind, flags, children.
const T: [(u8, u8, u8, u8, u8, u8); 10] = [
    (1, 0, 4, 1, 0, 2),
    (4, 4, 6, 0, 0, 0),
    (5, 10, 4, 0, 0, 0),
    (2, 14, 6, 2, 0, 1),
    (6, 20, 7, 1, 0, 1),
    (7, 27, 3, 0, 0, 0),
    (3, 30, 5, 3, 0, 2),
    (8, 35, 3, 0, 1, 0),
    (9, 38, 5, 1, 0, 1),
    (10, 43, 5, 0, 0, 0),
];

#[test]
fn t_is_built_byte_for_byte() {
    let record = |(id, offset, length, kind, flags, children)| {
        let mut bytes = [0; 24];
        (bytes[0], bytes[4], bytes[8]) = (id, offset, length);
        (bytes[9], bytes[10], bytes[12]) = (kind, flags, children);
        bytes
    };
    let records: Vec<u8> = T.into_iter().flat_map(record).collect();
    assert_eq!(t(), Tree::new(records, b"nodebuttoncostvisitselementdaypartskeyvalueprice".into()));
}

#[test]
fn every_field_of_a_record_has_its_bytes() -> Result<(), Overlong> {
    let column = Field::primitive([0xC3, 0x28], 0x0403_0201).id(FieldId(-2)).required().default();
    let tree = Tree::build(&[column.attribute(0x0807_0605)])?;
    let expected =
        [[0xFE, 0xFF, 0xFF, 0xFF, 0, 0, 0, 0, 2, 0, 3, 0], [0, 0, 0, 0, 1, 2, 3, 4, 5, 6, 7, 8]];
    assert_eq!(tree.records, expected.concat());
    assert_eq!(tree.pool, [0xC3, 0x28]);
    Ok(())
}

#[test]
fn a_request_is_built_byte_for_byte() -> Result<(), Overlong> {
    let request = Request::new(FieldId(10))
        .drop("node.cost")?
        .add_under("node", Field::primitive("cost", 4))?
        .add(Field::structure("s", [Field::primitive("m", 5)]))?
        .rename("node.button", "push")?
        .relax("parts")?
        .widen("day", 0x0001_0902)?
        .widen("day", Type::Long)?
        .identifiers(&[FieldId(1), FieldId(-1)]);
    assert_eq!(request.pool, b"node.costnodecostsmnode.buttonpushpartsdayday");
    assert_eq!(request.deletions, [0, 0, 0, 0, 9, 0, 1, 0]);
    assert_eq!(request.additions, [9, 0, 0, 0, 4, 0, 1, 0, 0, 0, 0, 0, 0, 0, 0, 0]);
    assert_eq!(request.identifiers, [1, 0, 0, 0, 255, 255, 255, 255]);
    let record = |offset: u8, length: u8, kind: u8, children: u8, code: u8| {
        let head = [0, 0, 0, 0, offset, 0, 0, 0, length, kind, 0, 0];
        [head, [children, 0, 0, 0, code, 0, 0, 0, 0, 0, 0, 0]].concat()
    };
    let records = [record(13, 4, 0, 0, 4), record(17, 1, 1, 1, 0), record(18, 1, 0, 0, 5)];
    assert_eq!(request.added_records, records.concat());
    let rename = [19, 0, 0, 0, 11, 0, 1, 0, 30, 0, 0, 0, 4, 0, 0, 0];
    let relax = [34, 0, 0, 0, 5, 0, 2, 0, 0, 0, 0, 0, 0, 0, 0, 0];
    let decimal = [39, 0, 0, 0, 3, 0, 3, 0, 2, 9, 1, 0, 0, 0, 0, 0];
    let long = [42, 0, 0, 0, 3, 0, 3, 0, 3, 0, 0, 0, 0, 0, 0, 0];
    assert_eq!(request.edits, [rename, relax, decimal, long].concat());
    Ok(())
}

/// 65 edits are built, as 65 deletions are, and refused when they are used.
#[test]
fn edits_are_counted_up_to_their_limit() -> Result<(), Overlong> {
    let relaxed = |count: usize| {
        let mut request = Request::new(FieldId(10));
        for _ in 0..count {
            request = request.relax("node")?;
        }
        Ok(t().update(&request).map(|updated| updated.tree))
    };
    assert_eq!(relaxed(64)?, Ok(t()));
    assert_eq!(relaxed(65)?, Err(Refusal { number: 2, list: 0, place: 0 }));
    Ok(())
}

#[test]
fn a_name_of_255_bytes_fits_and_one_of_256_is_told() {
    let named = |bytes: usize| Tree::build(&[primitive(1, &"n".repeat(bytes))]);
    assert_eq!(named(255).map(|tree| tree.check()), Ok(Ok(())));
    assert_eq!(named(256), Err(Overlong::Name(256)));
    let added = Request::new(FieldId(1)).add(primitive(1, &"n".repeat(256)));
    assert_eq!(added, Err(Overlong::Name(256)));
    let renamed = |bytes: usize| Request::new(FieldId(10)).rename("node", "n".repeat(bytes));
    assert!(t().update(&renamed(255).expect("it fits")).is_ok());
    assert_eq!(renamed(256), Err(Overlong::Name(256)));
    let inside = Field::structure("s", [primitive(1, &"n".repeat(300))]);
    assert_eq!(Tree::build(&[inside]), Err(Overlong::Name(300)));
}

#[test]
fn a_path_of_65_535_bytes_fits_and_one_more_is_told() {
    let dropped = |bytes: usize| Request::new(FieldId(10)).drop(vec![b'p'; bytes]);
    let refusal = t().update(&dropped(65_535).expect("it fits")).unwrap_err();
    assert_eq!(refusal.number, 2, "the request pool passes its limit");
    assert_eq!(dropped(65_536), Err(Overlong::Path(65_536)));
    let under = Request::new(FieldId(10)).add_under(vec![b'p'; 65_536], primitive(0, "x"));
    assert_eq!(under, Err(Overlong::Path(65_536)));
    let path = vec![b'p'; 65_536];
    assert_eq!(Request::new(FieldId(10)).rename(&path, "x"), Err(Overlong::Path(65_536)));
    assert_eq!(Request::new(FieldId(10)).relax(&path), Err(Overlong::Path(65_536)));
    assert_eq!(Request::new(FieldId(10)).widen(&path, Type::Long), Err(Overlong::Path(65_536)));
}

#[test]
fn a_struct_of_65_535_members_fits_and_one_more_is_told() {
    let of =
        |members: usize| Tree::build(&[Field::structure("s", vec![primitive(1, ""); members])]);
    assert_eq!(of(65_535).map(|tree| tree.check().unwrap_err().number), Ok(2));
    assert_eq!(of(65_536), Err(Overlong::Children(65_536)));
}

#[test]
fn what_the_layout_cant_hold_is_told_in_words() {
    let words = [
        (Overlong::Name(256), "256 bytes in a name: the layout holds at most 255"),
        (Overlong::Path(70_000), "70000 bytes in a path: the layout holds at most 65535"),
        (Overlong::Children(65_536), "65536 direct children: the layout holds at most 65535"),
        (
            Overlong::Pool(1 << 32),
            "4294967296 bytes in a pool: the layout holds at most 4294967295",
        ),
    ];
    for (overlong, said) in words {
        assert_eq!(overlong.to_string(), said);
    }
}

#[test]
fn what_01_refuses_is_built_and_refused_when_it_is_used() -> Result<(), Overlong> {
    let refused = |number, place| Err(Refusal { number, list: 0, place });
    let mut odd = primitive(1, "p");
    odd.inside.push(primitive(2, "q"));
    assert_eq!(Tree::build(&[odd])?.check(), refused(3, 0), "a primitive with a child");
    let list = Field::list("l", primitive(2, "Element")).id(FieldId(1));
    assert_eq!(Tree::build(&[list])?.check(), refused(6, 1));
    let deep = (0..1_000).fold(primitive(0, "x"), |inside, _| Field::structure("x", [inside]));
    assert_eq!(Tree::build(&[deep])?.check(), refused(5, 16));
    Ok(())
}

#[test]
fn names_need_not_be_text() -> Result<(), Box<dyn std::error::Error>> {
    let member = Field::primitive([0, 0x80], 1).id(FieldId(2));
    let tree = Tree::build(&[Field::structure([0xFF], [member])])?;
    assert_eq!(tree.find_name([0xFF, b'.', 0, 0x80])?, Some((FieldId(2), Slot(1))));
    Ok(())
}
