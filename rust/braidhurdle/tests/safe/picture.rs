//! A tree as people see it.

use braidhurdle::names::{quoted, shown};
use braidhurdle::{Field, FieldId, Slot, Tree, Type};

use crate::t::t;

#[test]
fn a_tree_is_displayed_as_its_picture() {
    let page = include_str!("../../../../docs/FORMAT.md");
    let indented: String = t().to_string().lines().map(|line| format!("    {line}\n")).collect();
    assert!(page.contains(&indented), "{indented}");
    assert_eq!(t().lent().to_string(), t().to_string());
    assert_eq!(Tree::default().to_string(), "");
}

#[test]
fn a_refused_tree_is_displayed_as_its_refusal() {
    let tree = Tree::new(vec![0; 23], vec![]);
    let refusal = tree.check().expect_err("a refusal");
    assert_eq!(tree.to_string(), format!("{refusal}\n"));
}

#[test]
fn a_column_is_displayed_with_all_that_is_set() -> Result<(), Box<dyn std::error::Error>> {
    let column = Field::primitive("the day", 4).id(FieldId(-1)).required().default().attribute(7);
    let tree = Tree::build(&[column])?;
    let line = "-1 \"the day\": date required default attribute 7";
    assert_eq!(tree.column(Slot(0))?.expect("it is there").to_string(), line);
    assert_eq!(tree.to_string(), format!("{line}\n"));
    Ok(())
}

#[test]
fn a_code_is_displayed_as_its_type_or_as_it_is() -> Result<(), Box<dyn std::error::Error>> {
    let price = Type::decimal(9, 2).expect("a decimal").code();
    let shown = [(0, "primitive 0"), (2, "int"), (8, "timestamp_ns"), (10, "primitive 10")];
    let decimals = [(price, "decimal(9,2)"), (65_536 + 256 * 9 + 10, "primitive 67850")];
    for (code, word) in shown.into_iter().chain(decimals) {
        assert_eq!(
            Tree::build(&[Field::primitive("a", code)])?.to_string(),
            format!("0 a: {word}\n")
        );
    }
    Ok(())
}

#[test]
fn names_that_could_deceive_are_quoted_and_escaped() {
    assert_eq!(shown("größe".as_bytes()), "größe");
    assert_eq!(shown(b""), "\"\"");
    assert_eq!(shown(b"a:b"), "\"a:b\"");
    assert_eq!(shown(b"\x1b[2J\xff"), "\"\\x1b[2J\\xff\"");
    assert_eq!(quoted(br#"a"\"#), r#""a\"\\""#);
}
