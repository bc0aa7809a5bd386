//! Refusals, lists and types have one table, that of the definitions. The enums and the header have
//! the same numbers, the same words, and one name for each.

use braidhurdle::{RefusalKind, RefusalList, Type};

const DEFINITIONS: &str = include_str!("../../../../crates/paper/specs/Refusals.antt");
const TYPES: &str = include_str!("../../../../crates/paper/specs/Promotions.antt");
const HEADER: &str = include_str!("../../../../include/braidhurdle.h");

/// A number, the name it has in the header, and its words.
type Row = (u32, String, String);

/// The numbers and words of the definitions.
fn defined() -> Vec<(u32, String)> {
    let refusals = DEFINITIONS.lines().filter_map(|line| line.strip_prefix("-- refusal "));
    let row = |line: &str| {
        let (number, words) = line.split_once(": ").expect("a number and words");
        (number.parse().expect("a number"), without_request(words))
    };
    refusals.map(row).collect()
}

/// Words without the request of 02 that added to them: `(02, 4/13)` is for readers of definitions.
fn without_request(words: &str) -> String {
    let Some((before, named)) = words.split_once("(02, ") else { return words.into() };
    let (_, behind) = named.split_once(") ").expect("the request's number, and words");
    [before, behind].concat()
}

fn defined_lists() -> Vec<(u32, String)> {
    in_one_line(DEFINITIONS, "0 base")
}

/// The numbers and words of a line, from the first one on.
fn in_one_line(definitions: &'static str, first: &str) -> Vec<(u32, String)> {
    let from_first = |line: &'static str| line.find(first).map(|at| &line[at..]);
    let line = definitions.lines().find_map(from_first).expect("a line");
    let row = |one: &str| {
        let (number, words) = one.split_once(' ').expect("a number and words");
        (number.parse().expect("a number"), words.into())
    };
    line.trim_end_matches('.').split(", ").map(row).collect()
}

/// The rows of a table of the header, by the macro that has it.
fn of_header(table: &str) -> Vec<Row> {
    let (_, behind) = HEADER.split_once(&format!("#define {table}(X) \\\n")).expect("a table");
    let (rows, _) = behind.split_once("\n\n").expect("an end");
    let row = |line: &str| {
        let line = line.trim().trim_end_matches('\\').trim_end();
        let inside = line.strip_prefix("X(").and_then(|line| line.strip_suffix("\")"));
        let (head, words) = inside.expect("a row").split_once(", \"").expect("words");
        let (number, name) = head.split_once(", ").expect("a name");
        (number.parse().expect("a number"), name.into(), words.into())
    };
    rows.lines().map(row).collect()
}

/// The header's name of an enum's case: `NameTwice` is `NAME_TWICE`.
fn header_name(case: &str) -> String {
    let mut name = String::new();
    for letter in case.chars() {
        if letter.is_uppercase() && !name.is_empty() {
            name.push('_');
        }
        name.extend(letter.to_uppercase());
    }
    name
}

/// Holds an enum to the header's table and to the definitions'.
fn same(of_enum: Vec<Row>, header: &str, defined: Vec<(u32, String)>) {
    assert_eq!(of_enum, of_header(header));
    let numbers: Vec<(u32, String)> = of_enum.into_iter().map(|(n, _, words)| (n, words)).collect();
    assert_eq!(numbers, defined);
}

#[test]
fn the_refusals_of_definitions_enum_and_header_are_the_same() {
    let row = |kind: &RefusalKind| {
        assert_eq!(RefusalKind::from_number(kind.number()), Some(*kind));
        (kind.number(), header_name(&format!("{kind:?}")), kind.to_string())
    };
    same(RefusalKind::ALL.iter().map(row).collect(), "BRAIDHURDLE_REFUSALS", defined());
}

#[test]
fn the_lists_of_definitions_enum_and_header_are_the_same() {
    let row = |list: &RefusalList| {
        assert_eq!(RefusalList::from_number(list.number()), Some(*list));
        (list.number(), header_name(&format!("{list:?}")), list.to_string())
    };
    same(RefusalList::ALL.iter().map(row).collect(), "BRAIDHURDLE_LISTS", defined_lists());
}

#[test]
fn the_types_of_definitions_enum_and_header_are_the_same() {
    let all = (0..65_536).filter_map(Type::of_code);
    let row = |of: Type| (of.code(), header_name(&format!("{of:?}")), of.to_string());
    same(all.map(row).collect(), "BRAIDHURDLE_TYPES", in_one_line(TYPES, "1 boolean"));
}

#[test]
fn a_number_that_is_in_no_table_is_none() {
    let behind = defined().len() as u32 + 1;
    for number in [0, behind, u32::MAX] {
        assert_eq!(RefusalKind::from_number(number), None);
    }
    assert_eq!(RefusalList::from_number(defined_lists().len() as u32), None);
}
