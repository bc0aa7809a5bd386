//! Room for an answer.

use braidhurdle::{FieldId, Mode, Room};

use crate::t::t;

/// Less than a room has.
const SMALL_STACK: usize = 48 * 1024;

#[test]
fn a_boxed_room_is_built_where_it_stays() {
    let small = std::thread::Builder::new().stack_size(SMALL_STACK);
    let made = small.spawn(Room::boxed).expect("a thread").join();
    let mut room = made.expect("a room is larger than this thread's stack");
    let tree = t();
    let kept = tree.lent().prune_in(&[FieldId(7)], Mode::Plain, &mut room).expect("accepted");
    assert_eq!(kept.to_tree(), tree.prune(&[FieldId(7)], Mode::Plain).expect("accepted"));
}

#[test]
fn a_room_is_shown_without_the_bytes_in_it() {
    let room = Room::boxed();
    assert_eq!(format!("{room:?} {:?}", room.clone()), "Room { .. } Room { .. }");
}
