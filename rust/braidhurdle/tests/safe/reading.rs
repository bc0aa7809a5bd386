//! A tree read for people.

use crate::t::{primitive, roots, t};
use braidhurdle::{Field, FieldId, Kind, Mode, Slot, Tree};

#[test]
fn the_columns_of_t_are_read_as_they_were_built() -> Result<(), Box<dyn std::error::Error>> {
    let tree = t();
    let columns: Vec<_> = tree.columns()?.collect();
    assert_eq!(tree.columns()?.len(), 10);
    let levels: Vec<usize> = columns.iter().map(|column| column.level).collect();
    assert_eq!(levels, [1, 2, 2, 1, 2, 3, 1, 2, 2, 3]);
    let children: Vec<usize> = columns.iter().map(|column| column.children).collect();
    assert_eq!(children, [2, 0, 0, 1, 1, 0, 2, 0, 1, 0]);
    let required: Vec<Slot> = columns.iter().filter(|c| c.required).map(|c| c.slot).collect();
    assert_eq!(required, [Slot(7)]);
    let kinds: Vec<Kind> = columns.iter().filter(|c| c.level == 1).map(|c| c.kind).collect();
    assert_eq!(kinds, [Kind::Struct, Kind::List, Kind::Map]);
    Ok(())
}

/// 01's lister, by hand.
fn listed(tree: &Tree) -> String {
    let line = |column: braidhurdle::Column| {
        let parent = column.parent.map_or("-".into(), |(id, _)| id.to_string());
        let name = String::from_utf8(column.full_name()).expect("T's names are text");
        format!("{} {} {parent} {name}\n", column.slot, column.id)
    };
    tree.columns().expect("an accepted tree").map(line).collect()
}

#[test]
fn p8s_answer_is_listed_as_01_shows_it() -> Result<(), Box<dyn std::error::Error>> {
    let lines = listed(&t().prune(&[FieldId(7)], Mode::Plain)?);
    assert!(include_str!("../../../../docs/01-scope.md").contains(&format!("```\n{lines}```")));
    Ok(())
}

#[test]
fn parents_and_full_names_are_those_of_the_look_ups() -> Result<(), Box<dyn std::error::Error>> {
    let tree = t();
    for column in tree.columns()? {
        assert_eq!(tree.find_parent(column.id)?, column.parent);
        assert_eq!(tree.find_name(column.full_name())?, Some((column.id, column.slot)));
        assert_eq!(tree.find_id(column.id)?, Some(column.slot));
        assert_eq!(tree.column(column.slot)?, Some(column));
    }
    assert_eq!(tree.column(Slot(10))?, None);
    Ok(())
}

#[test]
fn the_fields_of_a_tree_build_the_same_tree() -> Result<(), Box<dyn std::error::Error>> {
    assert_eq!(t().fields()?, roots());
    let [mut node, ..] = roots();
    node.inside[0] = Field::primitive([0xFF, 0], u32::MAX).default().attribute(7).id(FieldId(-1));
    let tree = Tree::build(&[node, primitive(2, "")])?;
    assert_eq!(Tree::build(&tree.fields()?)?, tree);
    Ok(())
}

#[test]
fn a_name_is_the_very_part_of_the_pool() -> Result<(), Box<dyn std::error::Error>> {
    let tree = t();
    let visits = tree.column(Slot(3))?.expect("T has ten columns");
    assert!(std::ptr::eq(visits.name, &tree.pool[14..20]));
    Ok(())
}

#[test]
fn a_column_is_found_by_its_full_or_short_name_in_one_call()
-> Result<(), Box<dyn std::error::Error>> {
    let tree = t();
    for name in ["visits.element.day", "visits.day"] {
        assert_eq!(tree.column_by_name(name)?, tree.column(Slot(5))?, "{name}");
    }
    assert_eq!(tree.column_by_name("day")?, None);
    let refused = Tree::new(t().records, vec![]);
    assert_eq!(refused.column_by_name("day").map(|_| ()), refused.check());
    Ok(())
}

#[test]
fn a_name_is_text_where_it_is_utf_8() -> Result<(), Box<dyn std::error::Error>> {
    let fields = [primitive(1, "größe"), Field::primitive([0xFF], 9).id(FieldId(2))];
    let names = [Some("größe"), None];
    assert_eq!(fields.each_ref().map(Field::name_str), names);
    let tree = Tree::build(&fields)?;
    assert!(tree.columns()?.map(|column| column.name_str()).eq(names));
    Ok(())
}

#[test]
fn an_empty_tree_has_no_columns_and_a_refused_one_says_why() {
    assert_eq!(Tree::default().columns().map(|columns| columns.len()), Ok(0));
    let refusal = Tree::new(t().records, vec![]).columns().map(|_| ()).unwrap_err();
    assert_eq!((refusal.number, refusal.list, refusal.place), (4, 0, 0));
}

#[test]
fn equal_columns_are_equal_whatever_stands_before_them() -> Result<(), Box<dyn std::error::Error>> {
    let behind = |member: &str| {
        let before = Field::structure("s", [primitive(2, member)]).id(FieldId(1));
        Tree::build(&[before, primitive(3, "same")])
    };
    assert_eq!(behind("x")?.column(Slot(2))?, behind("y")?.column(Slot(2))?);
    assert_ne!(behind("x")?.column(Slot(1))?, behind("y")?.column(Slot(1))?);
    Ok(())
}
