//! 01's worked examples, P1 to P13, on T.

use crate::t::{ids, t};
use braidhurdle::{Field, FieldId, Mode, Refusal, Request, Updated};

fn refused(number: u32, list: u32, place: u32) -> Refusal {
    Refusal { number, list, place }
}

/// An optional primitive to add.
fn new(name: &str) -> Field {
    Field::primitive(name, 0)
}

/// A request after T's last id.
fn request() -> Request {
    Request::new(FieldId(10))
}

/// T pruned to one id.
fn pruned(id: i32, mode: Mode) -> Result<Vec<i32>, Refusal> {
    t().prune(&[FieldId(id)], mode).map(|tree| ids(&tree))
}

#[test]
fn p1_renumbering_from_1_goes_level_by_level() {
    let renumbered = t().renumber(FieldId(1), &[]).expect("accepted");
    assert_eq!(ids(&renumbered.tree), [1, 4, 5, 2, 6, 7, 3, 8, 9, 10]);
    assert_eq!(renumbered.identifiers, []);
}

#[test]
fn p2_numbers_end_at_the_largest_id() {
    assert_eq!(t().renumber(FieldId(2_147_483_638), &[]), Err(refused(18, 0, 0)));
    assert!(t().renumber(FieldId(2_147_483_637), &[]).is_ok());
}

#[test]
fn p3_short_names_leave_out_elements_and_values() {
    let found = |name: &str| t().find_name(name).expect("accepted").map(|(id, _)| id.0);
    assert_eq!(found("visits.day"), Some(7));
    assert_eq!(found("parts.price"), Some(10));
    assert_eq!(found("day"), None);
}

#[test]
fn p4_a_dropped_name_is_added_again_under_a_new_id() -> Result<(), Box<dyn std::error::Error>> {
    let request = request().drop("node.cost")?.add_under("node", new("cost"))?;
    let Updated { tree, last_id, .. } = t().update(&request)?;
    assert_eq!(ids(&tree), [1, 4, 11, 2, 6, 7, 3, 8, 9, 10]);
    assert_eq!(last_id, FieldId(11));
    Ok(())
}

#[test]
fn p5_an_addition_to_what_is_dropped_is_refused() -> Result<(), Box<dyn std::error::Error>> {
    let request = request().drop("visits")?.add_under("visits", new("fault"))?.add(new("floor"))?;
    assert_eq!(t().update(&request), Err(refused(22, 3, 0)));
    Ok(())
}

#[test]
fn p6_a_dropped_element_stays_and_its_member_is_met_again() {
    let request = request().drop("visits.element").and_then(|r| r.add_under("visits", new("day")));
    assert_eq!(t().update(&request.expect("it fits")), Err(refused(8, 4, 6)));
}

#[test]
fn p7_one_new_name_twice_is_a_full_name_met_again() {
    let request = request().add(new("floor")).and_then(|r| r.add(new("floor")));
    assert_eq!(t().update(&request.expect("it fits")), Err(refused(8, 4, 11)));
}

#[test]
fn p8_a_chosen_member_keeps_what_is_above_it() {
    assert_eq!(pruned(7, Mode::Plain), Ok(vec![2, 6, 7]));
}

#[test]
fn p9_a_chosen_struct_is_empty_or_full() {
    assert_eq!(pruned(1, Mode::Plain), Ok(vec![1]));
    assert_eq!(pruned(1, Mode::Full), Ok(vec![1, 4, 5]));
}

#[test]
fn p10_a_chosen_list_is_refused() {
    assert_eq!(pruned(2, Mode::Plain), Err(refused(20, 0, 3)));
}

#[test]
fn p11_a_chosen_value_keeps_its_key() {
    assert_eq!(pruned(9, Mode::Plain), Ok(vec![3, 8, 9]));
}

#[test]
fn p12_a_chosen_key_keeps_the_whole_map() {
    assert_eq!(pruned(8, Mode::Plain), Ok(vec![3, 8, 9, 10]));
}

#[test]
fn p13_nothing_chosen_keeps_nothing() {
    assert_eq!(t().prune(&[], Mode::Plain).map(|tree| ids(&tree)), Ok(vec![]));
}
