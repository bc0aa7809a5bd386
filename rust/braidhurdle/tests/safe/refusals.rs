//! Every refusal: its words, and an input that meets it through the safe functions.

use crate::t::{ids, keyed, primitive, roots, t};
use braidhurdle::layout::{DOUBLE, FLOAT, MOST_IDENTIFIERS, MOST_SELECTED};
use braidhurdle::{
    Field, FieldId, Mode, Refusal, RefusalKind, RefusalList, Request, RequestRef, Room, Tree, Type,
    c,
};

const SCOPE: &str = include_str!("../../../../docs/01-scope.md");
const REQUESTS: &str = include_str!("../../../../docs/02-change-requests.md");

fn refused(number: u32, list: u32, place: u32) -> Refusal {
    Refusal { number, list, place }
}

/// What an update of T after last id 10 is refused with.
fn update_refusal(request: Request) -> Refusal {
    t().update(&request).expect_err("a refusal")
}

fn request() -> Request {
    Request::new(FieldId(10))
}

fn floor() -> Field {
    Field::primitive("floor", 0)
}

/// Behind `; or` stands what a request of 02 added.
#[test]
fn every_number_up_to_20_has_the_words_of_01s_table() {
    let mut added = vec![];
    for kind in RefusalKind::ALL.iter().filter(|kind| kind.number() <= 20) {
        let number = kind.number();
        let words = refused(number, 0, 0).meaning().split_once("; or ");
        let meaning = words.map_or(refused(number, 0, 0).meaning(), |(meaning, _)| meaning);
        assert!(SCOPE.contains(&format!("| {number} | {meaning}")), "{number}: {meaning}");
        added.extend(words.map(|_| number));
    }
    assert_eq!(added, [9, 13]);
}

#[test]
fn every_number_from_21_on_is_given_by_a_request_of_02() {
    let given = REQUESTS.lines().filter_map(|request| Some(request.split_once("Refusals: ")?.1));
    let words = given.flat_map(|given| given.split(|c: char| !c.is_ascii_digit()));
    let numbers: Vec<u32> = words.filter_map(|word| word.parse().ok()).collect();
    for kind in RefusalKind::ALL.iter().filter(|kind| kind.number() > 20) {
        assert!(numbers.contains(&kind.number()), "{kind:?}");
    }
}

#[test]
fn every_list_up_to_5_has_01s_name_and_the_others_are_given_by_02() {
    for list in RefusalList::ALL {
        let list = list.number();
        let name = refused(3, list, 0).list_name();
        let given = match list {
            0..=5 => SCOPE.contains(&format!("{list} {name}")),
            _ => REQUESTS.contains(&format!("list {list}, place")) && REQUESTS.contains(name),
        };
        assert!(given, "{list}: {name}");
    }
}

#[test]
fn a_refusal_is_told_apart_by_its_kind_and_its_list() {
    let refusal = update_refusal(request().identifiers(&[FieldId(99)]));
    assert_eq!(refusal.kind(), Some(RefusalKind::UnknownIdentifier));
    assert_eq!(refusal.in_list(), Some(RefusalList::Identifiers));
}

#[test]
fn a_refusal_says_number_list_and_place_in_words() {
    assert_eq!(
        refused(8, 4, 6).to_string(),
        "refused 8 at 4 6: a full name equals an earlier one (rebuilt tree, place 6)"
    );
    assert_eq!(
        refused(21, 0, 1).to_string(),
        "refused 21 at 0 1: two columns match at the same level where case is forgotten (base, \
         place 1)"
    );
}

#[test]
fn numbers_that_are_in_no_table_are_shown_all_the_same() {
    assert_eq!(
        refused(0, 99, u32::MAX).to_string(),
        "refused 0 at 99 4294967295: a number that no refusal has (a number that no list has, \
         place 4294967295)"
    );
    assert_eq!((refused(0, 99, 0).kind(), refused(0, 99, 0).in_list()), (None, None));
}

#[test]
fn refusal_1_is_met_by_own_buffers_alone() {
    let numbers = c::prune(&[], &[], &[], 0, &mut [0; 24_575], &mut [0; 32_768]);
    assert_eq!(numbers.accepted(), Err(refused(1, 0, 0)));
    assert_eq!(t().lent().find_ids_in(&[FieldId(7)], &mut []), Err(refused(1, 0, 0)));
}

#[test]
fn refusals_2_to_6_are_met_by_a_tree_alone() {
    let broken = |at: usize, byte: u8| {
        let mut tree = t();
        tree.records[at] = byte;
        tree.check()
    };
    assert_eq!(Tree::new(vec![0; 23], vec![]).check(), Err(refused(2, 0, 0)));
    assert_eq!(broken(24 + 11, 1), Err(refused(3, 0, 1)));
    assert_eq!(broken(9 * 24 + 4, 44), Err(refused(4, 0, 9)));
    assert_eq!(Tree::new(t().records[..9 * 24].to_vec(), t().pool).check(), Err(refused(5, 0, 9)));
    assert_eq!(broken(4 * 24 + 8, 6), Err(refused(6, 0, 4)));
}

#[test]
fn level_17_is_refusal_5() {
    let chain = (1..=17).fold(Field::primitive("x", 0).id(FieldId(0)), |inside, id| {
        Field::structure("x", [inside]).id(FieldId(id))
    });
    let tree = Tree::build(&[chain.inside[0].clone()]).expect("it fits the layout");
    assert_eq!(tree.check(), Err(refused(5, 0, 16)));
    let tree = Tree::build(&chain.inside[0].inside).expect("it fits the layout");
    assert_eq!(tree.check(), Ok(()));
}

#[test]
fn refusals_7_and_8_are_met_by_equal_ids_and_names() {
    let with = |column: Field| {
        let [node, visits, parts] = roots();
        Tree::build(&[node, visits, parts, column]).expect("it fits the layout").check()
    };
    assert_eq!(with(primitive(10, "floor")), Err(refused(7, 0, 10)));
    assert_eq!(with(primitive(11, "visits.element.day")), Err(refused(8, 0, 10)));
}

#[test]
fn refusals_9_to_12_are_met_by_identifiers_and_deletions() -> Result<(), braidhurdle::Overlong> {
    let unknown = request().identifiers(&[FieldId(4), FieldId(99)]);
    assert_eq!(keyed().update(&unknown), Err(refused(9, 5, 1)));
    let mut two = request().add(floor())?;
    two.added_records.extend(two.added_records.clone());
    assert_eq!(update_refusal(two), refused(10, 3, 0));
    assert_eq!(update_refusal(request().drop("node")?.drop("nothing")?), refused(11, 2, 1));
    let serial = request().identifiers(&[FieldId(2)]).drop("node.serial")?;
    assert_eq!(keyed().update(&serial), Err(refused(12, 2, 0)));
    Ok(())
}

/// Is the column of id 1 an identifier, alone and by a renumbering and an update?
fn identifies(roots: &[Field]) -> Result<(), Refusal> {
    let tree = Tree::build(roots).expect("it fits the layout");
    let ids = [FieldId(1)];
    let answers = [
        tree.check_identifiers(&ids),
        tree.renumber(FieldId(7), &ids).map(drop),
        tree.update(&request().identifiers(&ids)).map(drop),
    ];
    assert_eq!(answers, [answers[0]; 3], "{tree}");
    answers[0]
}

#[test]
fn refusal_9_is_met_by_each_condition_alone() {
    let nine = Err(refused(9, 5, 0));
    let column = || Field::primitive("a", 2).id(FieldId(1)).required();
    let named = |name: &str| Field { name: name.into(), ..column() };
    let within = |member: Field| Field::structure("s", [member]).id(FieldId(2));
    assert_eq!(identifies(&[column()]), Ok(()));
    assert_eq!(identifies(&[column().default()]), Ok(()));
    assert_eq!(identifies(&[within(column()).required()]), Ok(()));
    assert_eq!(identifies(&[column().id(FieldId(2))]), nine, "it is not in the tree");
    assert_eq!(identifies(&[Field::structure("a", []).id(FieldId(1)).required()]), nine);
    assert_eq!(identifies(&[Field { required: false, ..column() }]), nine);
    for code in [0, 4, FLOAT, DOUBLE, 7, 65_536 + FLOAT] {
        let allowed = if [FLOAT, DOUBLE].contains(&code) { nine } else { Ok(()) };
        assert_eq!(identifies(&[Field { type_code: code, ..column() }]), allowed, "{code}");
    }
    let list = |element: Field| Field::list("l", element).id(FieldId(3)).required();
    assert_eq!(identifies(&[list(named("element"))]), nine);
    let element = Field { name: "element".into(), ..within(column()).required() };
    assert_eq!(identifies(&[list(element)]), nine);
    let map = |key, value| Field::map("m", key, value).id(FieldId(3)).required();
    assert_eq!(identifies(&[map(named("key"), primitive(4, "value"))]), nine);
    assert_eq!(identifies(&[map(primitive(4, "key"), named("value"))]), nine);
}

/// An optional struct above, at each distance.
#[test]
fn refusal_9_is_met_by_an_optional_struct_however_far_above() {
    let deep = |optional: i32| {
        let column = Field::primitive("a", 2).id(FieldId(1)).required();
        let chain = (2..=16).fold(column, |inside, id| {
            let above = Field::structure("s", [inside]).id(FieldId(id));
            Field { required: id != optional, ..above }
        });
        identifies(&[chain])
    };
    assert_eq!(deep(0), Ok(()));
    for optional in 2..=16 {
        assert_eq!(deep(optional), Err(refused(9, 5, 0)), "{optional}");
    }
}

#[test]
fn refusal_9_is_asked_of_the_rebuilt_tree_too() -> Result<(), braidhurdle::Overlong> {
    let with = |last: i32, column: Field| {
        let request = Request::new(FieldId(last)).identifiers(&[FieldId(4), FieldId(2)]);
        Ok(keyed().update(&request.drop("node")?.add(column)?).map(|answer| ids(&answer.tree)))
    };
    let x = || Field::primitive("x", 2);
    assert_eq!(with(4, x())?, Err(refused(9, 5, 1)), "its column goes");
    // with a last id that is too low its id is given again
    assert_eq!(with(1, x())?, Err(refused(9, 5, 1)), "to an optional column");
    assert_eq!(with(1, x().required().default())?, Ok(vec![4, 2]));
    Ok(())
}

#[test]
fn refusals_13_to_18_are_met_by_additions() -> Result<(), braidhurdle::Overlong> {
    let second = |column: Field| Ok(update_refusal(request().add(floor())?.add(column)?));
    assert_eq!(second(Field::primitive("a.b", 0))?, refused(13, 3, 1));
    assert_eq!(second(Field::primitive("a", 0).required())?, refused(14, 3, 1));
    assert_eq!(update_refusal(request().add_under("nothing", floor())?), refused(15, 3, 0));
    assert_eq!(update_refusal(request().add_under("node.cost", floor())?), refused(16, 3, 0));
    assert_eq!(second(Field::structure("node", []))?, refused(17, 3, 1));
    let last = Request::new(FieldId(i32::MAX)).add(floor())?;
    assert_eq!(update_refusal(last), refused(18, 3, 0));
    Ok(())
}

#[test]
fn a_required_column_with_a_default_is_accepted() -> Result<(), Box<dyn std::error::Error>> {
    let request = request().add(floor().required().default())?;
    assert_eq!(t().update(&request)?.last_id, FieldId(11));
    Ok(())
}

#[test]
fn refusal_19_is_met_by_a_tree_that_grows_past_a_limit() -> Result<(), Box<dyn std::error::Error>> {
    let columns: Vec<Field> = (1..=1_024).map(|id| primitive(id, &format!("c{id}"))).collect();
    let tree = Tree::build(&columns)?;
    let request = Request::new(FieldId(1_024)).add(floor())?;
    assert_eq!(tree.update(&request), Err(refused(19, 4, 0)));
    assert_eq!(tree.update(&request.drop("c7")?)?.last_id, FieldId(1_025));
    Ok(())
}

#[test]
fn refusal_20_is_met_by_a_chosen_map() {
    let parts = [FieldId(3)];
    assert_eq!(t().prune(&parts, Mode::Plain), Err(refused(20, 0, 6)));
    assert!(t().prune(&parts, Mode::Full).is_ok());
}

#[test]
fn refusal_21_is_met_by_two_columns_that_differ_in_case_alone() {
    let [node, visits, parts] = roots();
    let tree = Tree::build(&[node, visits, parts, primitive(11, "NODE")]).expect("it fits");
    assert_eq!(tree.find_folded("Node"), Err(refused(21, 0, 10)));
    assert!(tree.find_folded("Node.Cost").is_ok());
}

#[test]
fn refusal_22_is_met_by_an_addition_to_a_dropped_parent() -> Result<(), braidhurdle::Overlong> {
    let beneath = |dropped: &str, parent: &str| {
        let request = request().drop(dropped)?.add(floor())?.add_under(parent, floor())?;
        Ok(t().update(&request).map(|updated| updated.last_id))
    };
    for (dropped, parent) in [("node", "node"), ("visits", "visits"), ("parts", "parts.value")] {
        assert_eq!(beneath(dropped, parent)?, Err(refused(22, 3, 1)), "{dropped}");
    }
    for (stays, parent) in [("visits.element", "visits"), ("parts.value", "parts")] {
        assert_eq!(beneath(stays, parent)?, Ok(FieldId(12)), "{stays}");
    }
    Ok(())
}

#[test]
fn refusal_23_is_met_by_an_edit_of_no_column_that_stays() -> Result<(), braidhurdle::Overlong> {
    let dropped = || request().drop("node")?.drop("visits.element")?.add(floor());
    for path in ["nothing", "day", "node", "node.cost", "floor", ""] {
        let request = dropped()?.relax("visits")?.rename(path, "x")?;
        assert_eq!(update_refusal(request), refused(23, 6, 1), "{path}");
        assert_eq!(update_refusal(dropped()?.relax(path)?), refused(23, 6, 0), "{path}");
    }
    // a list's element stays although a deletion finds it, and so do its members
    assert!(t().update(&dropped()?.relax("visits.element")?.rename("visits.day", "x")?).is_ok());
    Ok(())
}

#[test]
fn refusal_24_is_met_by_a_role_or_a_second_rename() -> Result<(), braidhurdle::Overlong> {
    for label in ["visits.element", "parts.key", "parts.value"] {
        let request = request().rename("node", "n")?.rename(label, "x")?;
        assert_eq!(update_refusal(request), refused(24, 6, 1), "{label}");
    }
    assert_eq!(update_refusal(request().relax("parts.key")?), refused(24, 6, 0));
    for name in ["n", "node", "a.b"] {
        let request = request().rename("node", "n")?.relax("node")?.rename("node", name)?;
        assert_eq!(update_refusal(request), refused(24, 6, 2), "{name}");
    }
    for relaxed in ["visits.element", "parts.value", "node"] {
        assert!(t().update(&request().relax(relaxed)?.relax(relaxed)?).is_ok(), "{relaxed}");
    }
    Ok(())
}

#[test]
fn refusals_24_to_26_are_met_by_widenings_and_their_version() -> Result<(), braidhurdle::Overlong> {
    let tree = Tree::build(&[Field::primitive("a", Type::Int).id(FieldId(1))])?;
    let long = request().widen("a", Type::Long)?;
    assert_eq!(tree.update(&long.clone().widen("a", Type::Long)?), Err(refused(24, 6, 1)));
    assert_eq!(tree.update(&request().widen("a", Type::Double)?), Err(refused(26, 6, 0)));
    assert_eq!(update_refusal(request().relax("node")?.widen("node", 3)?), refused(26, 6, 1));
    // an owned request names no version but 2 and 3; a lent one may name any
    let (nothing, mut room) = (request(), Room::boxed());
    let lent = RequestRef { version: 4, ..nothing.lent() };
    assert_eq!(tree.lent().update_in(lent, &mut room).err(), Some(refused(25, 0, 0)));
    Ok(())
}

#[test]
fn refusals_8_9_13_17_and_19_are_met_by_edits() -> Result<(), braidhurdle::Overlong> {
    assert_eq!(update_refusal(request().relax("node")?.rename("node", "a.b")?), refused(13, 6, 1));
    // a name that is taken by a column, or by an addition
    assert_eq!(update_refusal(request().rename("visits", "node")?), refused(8, 4, 3));
    let added = request().add(floor())?.rename("node", "floor")?;
    assert_eq!(update_refusal(added), refused(8, 4, 10));
    // one that is freed is taken for additions all the same
    let freed = request().add(Field::primitive("node", 0))?.rename("node", "n")?;
    assert_eq!(update_refusal(freed), refused(17, 3, 0));
    for relaxed in ["node.serial", "node"] {
        let request = request().identifiers(&[FieldId(4), FieldId(2)]).relax(relaxed)?;
        assert_eq!(keyed().update(&request), Err(refused(9, 5, 1)), "{relaxed}");
    }
    let long: Vec<Field> = (0..128).map(|id| primitive(id, &format!("{id:0>255}"))).collect();
    let tree = Tree::build(&[&long[..], &[primitive(128, "x")]].concat())?;
    let renamed = |bytes: usize| -> Result<_, braidhurdle::Overlong> {
        Ok(tree.update(&request().rename("x", vec![b'x'; bytes])?).map(|updated| updated.last_id))
    };
    assert_eq!(renamed(128)?, Ok(FieldId(10)));
    assert_eq!(renamed(129)?, Err(refused(19, 4, 0)));
    Ok(())
}

#[test]
fn ids_are_counted_up_to_their_limit_and_not_a_byte_is_lost() {
    let seven = |count: usize| vec![FieldId(7); count];
    let pruned = |count: usize| t().prune(&seven(count), Mode::Plain).map(|tree| ids(&tree));
    assert_eq!(pruned(MOST_SELECTED), Ok(vec![2, 6, 7]));
    for count in [MOST_SELECTED + 1, MOST_SELECTED + 2, 9_999] {
        assert_eq!(pruned(count), Err(refused(2, 0, 0)));
    }
    let site = |count: usize| vec![FieldId(4); count];
    let renumbered =
        |count: usize| keyed().renumber(FieldId(3), &site(count)).map(|r| r.identifiers);
    assert_eq!(renumbered(MOST_IDENTIFIERS), Ok(site(MOST_IDENTIFIERS)));
    for count in [MOST_IDENTIFIERS + 1, MOST_IDENTIFIERS + 2, 9_999] {
        assert_eq!(renumbered(count), Err(refused(2, 0, 0)));
    }
}
