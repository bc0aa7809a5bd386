//! Single facts about iceberg's own code where it and 01 part, or 01 leaves a point open. The
//! named cases have the rest: both judges give the answers there.

use cases::{
    Answer, Ask, Case, Expected, Named, answer, by_version, decimal, edited, list_of, map_of,
    named, packed, prim, relax, rename, strukt, the_tree, update_of, widen,
};
use compare::iceberg;
use judge::{DATE, DOUBLE, FLOAT, INT, LONG, Node, REQUIRED, STRING, TIMESTAMP, TIMESTAMP_NS};
use oracle::{Iceberg, Verdict};

fn case(base: &[Node], ask: Ask) -> Case {
    let (records, pool) = packed(base);
    Case { records, pool, ask }
}

fn renumbering(base: &[Node], identifiers: &[i32], start: i32) -> Case {
    let bytes: Vec<u8> = identifiers.iter().flat_map(|id| id.to_le_bytes()).collect();
    let (out_records, out_names) = (judge::OUT_RECORDS, judge::OUT_NAMES);
    let out_identifiers = bytes.len();
    let ask = Ask::Renumber { identifiers: bytes, start, out_records, out_names, out_identifiers };
    case(base, ask)
}

fn required(mut node: Node) -> Node {
    node.flags |= REQUIRED;
    node
}

fn number(iceberg: Iceberg, case: &Case) -> u32 {
    match iceberg.verdict(case) {
        Verdict::Refused { number, .. } => number,
        Verdict::Answer(_) => 0,
        other => panic!("{other:?}"),
    }
}

/// P1 to P4, P8, P9 and P12: the very answer. P5: 01's, which 02 amends. P10: and the place. P6,
/// P7: the number, and the text names ids that stand at 01's places. P11, P13: the crate panics.
#[test]
fn the_worked_tree_by_the_crate() {
    let Some(iceberg) = iceberg() else { return };
    for Named { title, case, .. } in named().into_iter().filter(|one| one.title.starts_with('P')) {
        let paper = answer(&case);
        let worked = title.split(':').next().expect("a title has a number");
        match (worked, iceberg.verdict(&case)) {
            ("P11" | "P13", said) => assert!(matches!(said, Verdict::Panicked { .. }), "{title}"),
            ("P5", Verdict::Answer(said)) => {
                assert!(Expected::Last(vec![1, 4, 5, 3, 8, 9, 10, 12], 12).met_by(&said));
            }
            ("P6", Verdict::Refused { number: 8, text, .. }) => {
                assert!(text.contains("visits.element.day: 11 and 7"), "{text}");
            }
            ("P7", Verdict::Refused { number: 8, text, .. }) => {
                assert!(text.contains("floor: 12 and 11"), "{text}");
            }
            ("P10", said) => {
                let at = matches!(said, Verdict::Refused { number: 20, place: Some(3), .. });
                assert!(at, "{said:?}");
            }
            ("P2", Verdict::Refused { number: 18, .. }) => {}
            (_, said) => assert_eq!(said, Verdict::Answer(paper), "{title}"),
        }
    }
}

/// What 01 lists as a departure is none: through the builder every record is tested for 7.
/// Only the bare reassigner leaves elements, keys and values untested.
#[test]
fn renumbering_through_the_builder_tests_every_record() {
    let Some(iceberg) = iceberg() else { return };
    let twice = [list_of(1, "a", prim(2, "element")), list_of(3, "b", prim(2, "element"))];
    let case = renumbering(&twice, &[], 1);
    assert_eq!(number(iceberg, &case), 7);
    assert_eq!(iceberg.renumbered_without_builder(&case), Some(vec![1, 3, 2, 4]));
}

#[test]
fn the_builder_tests_7_then_9_then_8() {
    let Some(iceberg) = iceberg() else { return };
    let names = renumbering(&[prim(1, "a"), prim(2, "a")], &[7], 1);
    assert_eq!(number(iceberg, &names), 9);
    assert_eq!(answer(&names).refusal().map(|r| r.number), Some(8));
    let both = renumbering(&[prim(1, "a"), prim(1, "a")], &[7], 1);
    assert_eq!(number(iceberg, &both), 7);
}

/// What the builder says of a base with one identifier, and that the text refuses it too.
fn refused_identifier(iceberg: Iceberg, base: &[Node], id: i32, said: &str) {
    let case = renumbering(base, &[id], 1);
    let Verdict::Refused { number: 9, text, base: true, .. } = iceberg.verdict(&case) else {
        panic!("the builder refuses {id} for: {said}")
    };
    assert!(text.contains(said), "{text}");
    assert!(Expected::Refused(9, 5, 0).met_by(&answer(&case)), "{id}");
}

fn of_type(code: u32, mut column: Node) -> Node {
    column.type_code = code;
    column
}

/// 02, 4/13: each condition is the builder's own, by its own words.
#[test]
fn the_builder_asks_each_condition_of_an_identifier() {
    let Some(iceberg) = iceberg() else { return };
    let held = |id| vec![required(prim(id, "i"))];
    let base = [
        prim(1, "optional"),
        strukt(2, "opt", held(3)),
        required(list_of(4, "l", required(strukt(5, "element", held(6))))),
        required(map_of(7, "m", required(prim(8, "key")), required(prim(9, "value")))),
        required(strukt(
            10,
            "st",
            vec![strukt(11, "o", vec![required(strukt(12, "t", held(13)))])],
        )),
        of_type(5, required(prim(14, "float"))),
        of_type(6, required(prim(15, "double"))),
        required(list_of(16, "e", required(prim(17, "element")))),
    ];
    let optional = "must not be nested in an optional field";
    let nested = "must not be nested in NestedField";
    let float = "cannot be a float or double type";
    for (id, said) in [
        (99, "field does not exist"),
        (1, "is an optional field"),
        (2, "is an optional field"),
        (3, optional),
        (4, "not a primitive type field"),
        (5, "not a primitive type field"),
        (6, nested),
        (7, "not a primitive type field"),
        (8, nested),
        (9, nested),
        (10, "not a primitive type field"),
        (13, optional),
        (14, float),
        (15, float),
        (17, nested),
    ] {
        refused_identifier(iceberg, &base, id, said);
    }
}

/// What the builder takes, and so does the text: any other type code, a default, and required
/// structs on all levels above.
#[test]
fn the_builder_takes_other_identifiers() {
    let Some(iceberg) = iceberg() else { return };
    let mut column = required(prim(16, "i"));
    column.flags |= judge::DEFAULT;
    let deep = (1..16).fold(column, |inside, id| required(strukt(id, "s", vec![inside])));
    let taken = |base: &[Node], id: i32| {
        let case = renumbering(base, &[id, id], 1);
        assert_eq!(iceberg.verdict(&case), Verdict::Answer(answer(&case)), "{id}");
    };
    taken(&[deep], 16);
    for code in [0, INT, LONG, DATE, TIMESTAMP, 10, 65_541, decimal(9, 2), u32::MAX] {
        taken(&[of_type(code, required(prim(1, "a")))], 1);
    }
}

/// The rebuilt tree is asked the same: an identifier's id that is given again is that of the new
/// column.
#[test]
fn an_identifiers_id_given_again_is_asked_by_the_builder() {
    let Some(iceberg) = iceberg() else { return };
    let base = [prim(1, "a"), required(strukt(2, "s", vec![required(prim(3, "i"))]))];
    let again = |column: Node| update_of(&base, &[3], 2, &["s"], &[(None, column)]);
    let mut fits = required(prim(0, "n"));
    fits.flags |= judge::DEFAULT;
    let list = Node { kind: judge::LIST, inside: vec![prim(0, "element")], ..fits.clone() };
    for (column, said) in [
        (prim(0, "n"), "is an optional field"),
        (of_type(5, fits.clone()), "cannot be a float or double type"),
        (of_type(6, fits.clone()), "cannot be a float or double type"),
        (list, "not a primitive type field"),
    ] {
        let case = again(column);
        let Verdict::Refused { number: 9, text, base: false, .. } = iceberg.verdict(&case) else {
            panic!("the builder refuses it: {said}")
        };
        assert!(text.contains(said), "{text}");
        assert!(Expected::Refused(9, 5, 0).met_by(&answer(&case)), "{said}");
    }
    let case = again(fits);
    assert_eq!(iceberg.verdict(&case), Verdict::Answer(answer(&case)));
    assert!(Expected::Last(vec![1, 3], 3).met_by(&answer(&case)));
}

/// A column keeps its type code through the crate, whatever it is.
#[test]
fn every_type_code_comes_back() {
    let Some(iceberg) = iceberg() else { return };
    let digits = [(1, 0), (1, 1), (9, 2), (38, 0), (38, 38), (39, 0), (0, 0), (2, 3), (255, 255)];
    let decimals = digits.map(|(precision, scale)| decimal(precision, scale));
    let codes = (0..11).chain([255, 256, 65_541, 1 << 17, 1 << 24, u32::MAX]).chain(decimals);
    let base: Vec<Node> =
        codes.enumerate().map(|(k, c)| of_type(c, prim(k as i32, &format!("{k}")))).collect();
    let case = renumbering(&base, &[], 1);
    assert_eq!(iceberg.verdict(&case), Verdict::Answer(answer(&case)));
}

/// 02, 3/13: what the crate says where the port gives 22. It accepts, and the column is nowhere;
/// or it meets a later refusal.
#[test]
fn an_addition_to_a_dropped_parent_is_nowhere() {
    let Some(iceberg) = iceberg() else { return };
    let x = || prim(0, "x");
    let smallest =
        update_of(&[strukt(1, "node", vec![])], &[], 1, &["node"], &[(Some("node"), x())]);
    let nothing = Answer::Updated { records: vec![], names: vec![], last_id: 2, visited: 1 };
    assert_eq!(iceberg.verdict(&smallest), Verdict::Answer(nothing));
    let fixed = [required(strukt(1, "node", vec![required(prim(5, "cost"))]))];
    let t = the_tree();
    let taken = update_of(&t, &[], 10, &["visits"], &[(Some("visits"), prim(0, "day"))]);
    let identifier = update_of(&fixed, &[5], 5, &["node"], &[(Some("node"), x())]);
    let next = update_of(&t, &[], 10, &["node"], &[(Some("node"), x()), (None, prim(0, "a.b"))]);
    for (case, said) in [(&taken, 17), (&identifier, 9), (&next, 13)] {
        assert_eq!(number(iceberg, case), said);
    }
    let past = update_of(&t, &[], i32::MAX, &["node"], &[(Some("node"), x())]);
    assert!(matches!(iceberg.verdict(&past), Verdict::Panicked { place: Some(0), .. }));
    for case in [smallest, taken, identifier, next, past] {
        assert!(Expected::Refused(22, 3, 0).met_by(&answer(&case)));
    }
}

/// 02, 5/13: the crate has no edits, and its builder is asked for the tree that they leave.
#[test]
fn the_builder_is_given_the_edited_tree() {
    let Some(iceberg) = iceberg() else { return };
    let base = [required(strukt(1, "s", vec![required(prim(2, "i"))])), prim(3, "b")];
    let asked = |edit| edited(update_of(&base, &[2], 3, &[], &[]), &[edit]);
    for (edit, number, said) in [
        (rename("b", "s"), 8, "multiple fields for name s"),
        (relax("s.i"), 9, "is an optional field"),
        (relax("s"), 9, "must not be nested in an optional field"),
        (relax("x"), 23, "not there"),
    ] {
        let case = asked(edit);
        let Verdict::Refused { number: told, text, base: false, .. } = iceberg.verdict(&case)
        else {
            panic!("it is refused: {said}")
        };
        assert!(told == number && text.contains(said), "{told}: {text}");
        assert_eq!(answer(&case).refusal().map(|r| r.number), Some(number), "{said}");
    }
    for edit in [rename("s.i", "b"), rename("s", "t"), relax("b")] {
        let case = asked(edit);
        assert_eq!(iceberg.verdict(&case), Verdict::Answer(answer(&case)));
    }
}

/// 02, 6/13: the crate has no change of a type, and its builder is asked for the wider one.
#[test]
fn the_builder_is_given_the_widened_tree() {
    let Some(iceberg) = iceberg() else { return };
    let asked = |code: u32, to: u32, ids: &[i32]| {
        let base = [required(of_type(code, prim(1, "a")))];
        by_version(3, edited(update_of(&base, ids, 1, &[], &[]), &[widen("a", to)]))
    };
    let decimals = (decimal(9, 2), decimal(38, 2));
    for (old, new) in [(INT, LONG), (DATE, TIMESTAMP), (DATE, TIMESTAMP_NS), decimals] {
        for ids in [&[][..], &[1]] {
            let case = asked(old, new, ids);
            assert_eq!(iceberg.verdict(&case), Verdict::Answer(answer(&case)), "{old} to {new}");
        }
    }
    // a float is no identifier before, and a double none after
    let case = asked(FLOAT, DOUBLE, &[]);
    assert_eq!(iceberg.verdict(&case), Verdict::Answer(answer(&case)));
    let case = asked(FLOAT, DOUBLE, &[1]);
    let Verdict::Refused { number: 9, text, base: true, .. } = iceberg.verdict(&case) else {
        panic!("the builder refuses a float")
    };
    assert!(text.contains("cannot be a float or double type"), "{text}");
    assert!(Expected::Refused(9, 5, 0).met_by(&answer(&case)));
    let gone = edited(update_of(&[prim(1, "a")], &[], 1, &["a"], &[]), &[widen("a", LONG)]);
    assert_eq!(number(iceberg, &gone), 23);
}

/// Which steps there are is 02's alone: the builder takes any type in a column's place.
#[test]
fn the_crate_has_no_table_of_steps_and_no_version() {
    let Some(iceberg) = iceberg() else { return };
    for (old, new) in [(LONG, INT), (INT, STRING), (decimal(9, 2), decimal(10, 3)), (INT, INT)] {
        let base = [of_type(old, prim(1, "a"))];
        let case = edited(update_of(&base, &[], 1, &[], &[]), &[widen("a", new)]);
        assert_eq!(number(iceberg, &case), 0, "{old} to {new}");
        assert!(Expected::Refused(26, 6, 0).met_by(&answer(&case)), "{old} to {new}");
    }
    let plain = update_of(&the_tree(), &[], 10, &[], &[]);
    let verdicts = [2, 3, 4].map(|version| iceberg.verdict(&by_version(version, plain.clone())));
    assert_eq!(verdicts[0], verdicts[1]);
    assert_eq!(verdicts[1], verdicts[2]);
}

/// P6: without the rename the crate's own update turns the rebuilt tree down.
#[test]
fn a_rename_parts_names_that_meet_in_the_crates_own_update() {
    let Some(iceberg) = iceberg() else { return };
    let added = [(Some("visits"), prim(0, "day"))];
    let case = update_of(&the_tree(), &[], 10, &["visits.element"], &added);
    assert_eq!(number(iceberg, &case), 8);
    let case = edited(case, &[rename("visits.day", "date")]);
    assert_eq!(iceberg.verdict(&case), Verdict::Answer(answer(&case)));
}

#[test]
fn an_update_past_the_largest_id_overflows_at_that_addition() {
    let Some(iceberg) = iceberg() else { return };
    let added = [(None, prim(0, "u")), (None, strukt(0, "v", vec![prim(0, "w")]))];
    let case = update_of(&[prim(1, "a")], &[], i32::MAX - 2, &[], &added);
    let text = "attempt to add with overflow".to_string();
    assert_eq!(iceberg.verdict(&case), Verdict::Panicked { place: Some(1), text });
}

/// Departure 6: the crate enters an element under the fixed word, its inside under its name.
#[test]
fn an_element_named_otherwise() {
    let Some(iceberg) = iceberg() else { return };
    let base = [list_of(1, "l", strukt(2, "item", vec![prim(3, "x")]))];
    let find = |name: &str| match iceberg.verdict(&case(&base, Ask::Name(name.into()))) {
        Verdict::Answer(Answer::Found { id, .. }) => Some(id),
        _ => None,
    };
    assert_eq!(find("l.element"), Some(2));
    assert_eq!(find("l.item"), None);
    assert_eq!(find("l.item.x"), Some(3));
    assert_eq!(find("l.x"), Some(3));
}

#[test]
fn the_crate_has_no_limit_on_levels() {
    let Some(iceberg) = iceberg() else { return };
    let deep = (2..=17).fold(prim(1, "s"), |inside, id| strukt(id, "s", vec![inside]));
    let case = case(&[deep], Ask::Id(1));
    assert_eq!(iceberg.verdict(&case), Verdict::Answer(Answer::Found { id: 1, slot: 16 }));
    assert_eq!(answer(&case).refusal().map(|r| r.number), Some(5));
}

#[test]
fn names_that_are_not_utf8_have_no_counterpart() {
    let Some(iceberg) = iceberg() else { return };
    let mut case = case(&the_tree(), Ask::Id(1));
    case.pool[0] = 0xFF;
    assert_eq!(iceberg.verdict(&case), Verdict::Unfit("a name that is not UTF-8"));
}

/// What the crate finds where case is forgotten.
fn folded(iceberg: Iceberg, base: &[Node], name: &str) -> Option<i32> {
    match iceberg.verdict(&case(base, Ask::Folded(name.into()))) {
        Verdict::Answer(Answer::Found { id, .. }) => Some(id),
        Verdict::Answer(Answer::Nothing) => None,
        other => panic!("{other:?}"),
    }
}

#[test]
fn the_crate_folds_letters_of_all_languages() {
    let Some(iceberg) = iceberg() else { return };
    for (has, asked) in [("\u{c4}", "\u{e4}"), ("\u{e4}", "\u{c4}"), ("\u{212a}", "k")] {
        let base = [prim(1, has)];
        assert_eq!(folded(iceberg, &base, asked), Some(1), "{asked}");
        assert_eq!(answer(&case(&base, Ask::Folded(asked.into()))), Answer::Nothing, "{asked}");
    }
}

/// Each build of a schema has hash maps of its own, so one of two columns comes up as well as the
/// other: two full names, and a full name beside a short one.
#[test]
fn of_two_columns_the_crate_takes_either() {
    let Some(iceberg) = iceberg() else { return };
    let roots = [prim(1, "a"), prim(3, "A")];
    let nested = [list_of(2, "l", strukt(4, "element", vec![prim(1, "a")])), prim(3, "L.a")];
    for (base, asked) in [(&roots[..], "a"), (&nested[..], "l.a")] {
        for id in [1, 3] {
            let taken = (0..1_000).any(|_| folded(iceberg, base, asked) == Some(id));
            assert!(taken, "{id} of {asked}");
        }
    }
}

/// Only the first entered of equal short names is in the crate's map.
#[test]
fn of_equal_short_names_the_crate_takes_the_first_entered() {
    let Some(iceberg) = iceberg() else { return };
    let inner = list_of(5, "1", strukt(3, "element", vec![prim(4, "element")]));
    let base = [list_of(1, "l", strukt(2, "element", vec![inner]))];
    for _ in 0..100 {
        assert_eq!(folded(iceberg, &base, "L.1.Element"), Some(4));
    }
}
