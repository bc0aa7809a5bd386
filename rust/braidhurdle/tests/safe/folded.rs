//! The look-up that forgets case (02, 1/13), beside the exact one.

use crate::t::{primitive, t};
use braidhurdle::{Field, FieldId, Refusal, RefusalKind, Request, Slot, Tree};

/// What a look-up that forgets case answers, by id and slot.
fn found(tree: &Tree, name: impl AsRef<[u8]>) -> Result<Option<(i32, u32)>, Refusal> {
    tree.find_folded(name).map(|found| found.map(|(id, slot)| (id.0, slot.0)))
}

fn ambiguous(second: u32) -> Result<Option<(i32, u32)>, Refusal> {
    Err(Refusal { number: 21, list: 0, place: second })
}

fn built(roots: &[Field]) -> Tree {
    Tree::build(roots).expect("it fits the layout")
}

/// A list `l`, id 1, of structs of these members.
fn list_of(members: impl IntoIterator<Item = Field>) -> Field {
    Field::list("l", Field::structure("element", members).id(FieldId(2))).id(FieldId(1))
}

#[test]
fn full_and_short_names_are_found_in_any_case() {
    assert_eq!(found(&t(), "Node.Cost"), Ok(Some((5, 2))));
    for name in ["visits.element.day", "VISITS.ELEMENT.DAY", "visits.day", "Visits.dAY"] {
        assert_eq!(found(&t(), name), Ok(Some((7, 5))), "{name}");
    }
    assert_eq!(found(&t(), "DAY"), Ok(None));
    let tree = built(&[primitive(1, "AZaz")]);
    assert_eq!(found(&tree, "azAZ"), Ok(Some((1, 0))), "capitals of the tree fold too");
}

#[test]
fn a_column_is_found_in_any_case_in_one_call() -> Result<(), Box<dyn std::error::Error>> {
    let tree = t();
    assert_eq!(tree.column_by_folded_name("Parts.Price")?, tree.column(Slot(9))?);
    assert_eq!(tree.column_by_folded_name("Price")?, None);
    let twins = built(&[primitive(1, "a"), primitive(2, "A")]);
    let refusal = twins.column_by_folded_name("a").expect_err("a refusal");
    assert_eq!(refusal.kind(), Some(RefusalKind::Ambiguous));
    Ok(())
}

#[test]
fn of_all_bytes_the_26_letters_alone_fold() {
    for own in 0..=u8::MAX {
        let tree = built(&[Field::primitive([b'.', own], 0).id(FieldId(1))]);
        for asked in 0..=u8::MAX {
            let same = own.eq_ignore_ascii_case(&asked).then_some((1, 0));
            assert_eq!(found(&tree, [b'.', asked]), Ok(same), "{own} asked as {asked}");
        }
    }
    assert_eq!(found(&built(&[primitive(1, "Ä")]), "ä"), Ok(None));
}

#[test]
fn any_bytes_of_any_length_are_a_name() {
    let odd = Field::primitive([0xFF, 0, b'k', 0x80], 0).id(FieldId(3));
    let tree = built(&[primitive(1, ""), list_of([odd]).id(FieldId(4))]);
    assert_eq!(found(&tree, ""), Ok(Some((1, 0))));
    assert_eq!(found(&tree, b"L.\xFF\0K\x80"), Ok(Some((3, 3))));
    assert_eq!(found(&tree, b"L.\xFF\0K\x81"), Ok(None));
    assert_eq!(found(&tree, vec![b'L'; 1 << 20]), Ok(None));
    assert_eq!(found(&Tree::default(), "l"), Ok(None));
}

#[test]
fn two_full_names_are_refused_at_the_second_slot_though_one_be_exact() {
    let tree = built(&[primitive(1, "b"), primitive(2, "A"), primitive(3, "a")]);
    for name in ["a", "A"] {
        assert_eq!(found(&tree, name), ambiguous(2), "{name}");
    }
    assert_eq!(tree.find_name("a"), Ok(Some((FieldId(3), Slot(2)))), "case tells them apart");
    assert_eq!(found(&tree, "B"), Ok(Some((1, 0))), "others are found");
    let more = built(&[primitive(1, "aa"), primitive(2, "aA"), primitive(3, "AA")]);
    assert_eq!(found(&more, "aa"), ambiguous(1), "the second, not the last");
    let nested = Field::structure("X", [primitive(2, "y")]).id(FieldId(1));
    assert_eq!(found(&built(&[nested, primitive(3, "x.Y")]), "x.y"), ambiguous(2));
}

#[test]
fn two_short_names_are_refused_and_a_full_name_comes_before_them() {
    let twins = || list_of([primitive(3, "a"), primitive(4, "A")]);
    assert_eq!(found(&built(&[twins()]), "l.a"), ambiguous(3));
    assert_eq!(found(&built(&[twins(), primitive(5, "L.a")]), "l.A"), Ok(Some((5, 4))));
}

#[test]
fn equal_short_names_are_refused_where_the_exact_look_up_takes_the_first_entered() {
    let element = Field::structure("element", [primitive(4, "element")]).id(FieldId(3));
    let tree = built(&[list_of([Field::list("1", element).id(FieldId(5))])]);
    assert_eq!(found(&tree, "l.1.element"), ambiguous(4));
    assert_eq!(tree.find_name("l.1.element"), Ok(Some((FieldId(4), Slot(4)))));
}

#[test]
fn faults_of_the_tree_are_told_first() {
    let tree = built(&[primitive(1, "a"), primitive(2, "A"), primitive(3, "a")]);
    assert_eq!(found(&tree, "a"), Err(Refusal { number: 8, list: 0, place: 2 }));
    let tree = built(&[primitive(1, "a"), primitive(1, "A")]);
    assert_eq!(found(&tree, "a"), Err(Refusal { number: 7, list: 0, place: 1 }));
}

#[test]
fn the_exact_look_up_and_updates_forget_no_case() -> Result<(), Box<dyn std::error::Error>> {
    assert_eq!(t().find_name("Node.Cost")?, None);
    let refusal = t().update(&Request::new(FieldId(10)).drop("Node.Cost")?).expect_err("a refusal");
    assert_eq!(refusal.kind(), Some(RefusalKind::NoSuchColumn));
    let request = Request::new(FieldId(10)).add(Field::primitive("Node", 0))?;
    let tree = t().update(&request)?.tree;
    assert_eq!(tree.find_name("Node")?, Some((FieldId(11), Slot(10))), "the name is not taken");
    assert_eq!(found(&tree, "Node"), ambiguous(10));
    Ok(())
}
