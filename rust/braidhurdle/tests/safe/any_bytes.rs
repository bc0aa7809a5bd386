//! Any bytes at all get an answer, from any thread, and no answer is refused when it is used.

use braidhurdle::{FieldId, Mode, Request, RequestRef, Room, Tree, TreeRef, Updated, c};
use cases::Random;

use crate::t::t;

/// T with some of its bytes changed, or bytes without any sense.
pub fn any_tree(random: &mut Random) -> Tree {
    if random.chance(1, 3) {
        return Tree::new(random.noise(24), random.noise(40));
    }
    let mut tree = t();
    for _ in 0..random.below(4) {
        let bytes = if random.chance(4, 5) { &mut tree.records } else { &mut tree.pool };
        let at = random.below(bytes.len());
        bytes[at] = *random.pick(&[0, 1, 2, 3, 4, 7, b'.', 254, 255]);
    }
    tree
}

/// An accepted answer is read to its end, and accepted again.
fn used(tree: TreeRef) {
    let columns = tree.columns().expect("an answer is accepted");
    assert_eq!(columns.len(), tree.records.len() / 24);
    assert_eq!(columns.count(), tree.records.len() / 24);
}

#[test]
fn no_bytes_are_without_an_answer() {
    let mut random = Random::new(21);
    let mut room = Room::boxed();
    let mut accepted = 0;
    for _ in 0..40_000 {
        let tree = any_tree(&mut random);
        let id = FieldId(random.below(12) as i32);
        if tree.check().is_ok() {
            used(tree.lent());
            accepted += 1;
        }
        let name = random.noise(3);
        let exact = tree.find_name(&name);
        // what is refused of the tree is refused in either way
        match tree.find_folded(&name) {
            Err(refusal) if refusal.number != 21 => assert_eq!(exact, Err(refusal)),
            _ => assert!(exact.is_ok()),
        }
        let _ = tree.find_parent(id);
        let mode = if random.chance(1, 2) { Mode::Plain } else { Mode::Full };
        let _ = tree.lent().prune_in(&[id], mode, &mut room).map(used);
        let _ = tree.lent().renumber_in(id, &[id], &mut room).map(|answer| used(answer.tree));
        let parts: [Vec<u8>; 6] = [4, 8, 8, 24, 16, 40].map(|unit| random.noise(unit));
        let [identifiers, deletions, additions, added_records, edits, pool] = &parts;
        let request = RequestRef {
            last_id: FieldId(random.any_id()),
            version: *random.pick(&[2, 3, 2, 3, 0, 4, u32::MAX]),
            identifiers,
            deletions,
            additions,
            added_records,
            edits,
            pool,
        };
        let _ = tree.lent().update_in(request, &mut room).map(|answer| used(answer.tree));
    }
    assert!((4_000..36_000).contains(&accepted), "{accepted} accepted");
}

#[test]
fn lists_that_are_only_read_may_share_bytes() {
    let mut random = Random::new(22);
    for _ in 0..2_000 {
        let bytes = any_tree(&mut random).records;
        let copy = |bytes: &[u8]| bytes.to_vec();
        for find in [c::find_name, c::find_folded] {
            let apart = find(&copy(&bytes), &copy(&bytes), &copy(&bytes));
            assert_eq!(find(&bytes, &bytes, &bytes), apart);
        }
        let [mut apart, mut shared] = [0; 2].map(|byte| vec![byte; bytes.len()]);
        let numbers = c::find_ids(&copy(&bytes), &copy(&bytes), &copy(&bytes), &mut apart);
        assert_eq!(c::find_ids(&bytes, &bytes, &bytes, &mut shared), numbers);
        assert_eq!(shared, apart);
    }
    let pool = t().pool;
    let request = RequestRef { pool: &pool, last_id: FieldId(10), ..RequestRef::default() };
    let tree = t();
    let shared = TreeRef::new(&tree.records, &pool);
    assert_eq!(shared.update_in(request, &mut Room::boxed()).map(|a| a.tree.to_tree()), Ok(t()));
}

#[test]
fn many_threads_get_the_same_answers() {
    let work = || {
        (0..200).map(|_| {
            let request = Request::new(FieldId(10)).drop("visits").expect("it fits");
            t().update(&request).expect("accepted")
        })
    };
    let threads: Vec<_> = (0..4).map(|_| std::thread::spawn(move || work().collect())).collect();
    let expected: Vec<Updated> = work().collect();
    for thread in threads {
        let answers: Vec<Updated> = thread.join().expect("no panic");
        assert_eq!(answers, expected);
    }
}

#[test]
fn a_refusal_changes_no_byte_and_an_answer_its_own_alone() {
    let tree = t();
    let (mut records, mut names) = (vec![0xA5; 24_576], vec![0xA5; 32_768]);
    let mut prune = |id: u8| {
        let selected = [id, 0, 0, 0];
        let numbers = c::prune(&tree.records, &tree.pool, &selected, 0, &mut records, &mut names);
        let beyond = (numbers.records as usize * 24, numbers.names as usize);
        assert!(records[beyond.0..].iter().chain(&names[beyond.1..]).all(|byte| *byte == 0xA5));
        numbers
    };
    assert_eq!(prune(2), c::Changed { refusal: 20, place: 3, ..c::Changed::default() });
    assert_eq!(prune(7), c::Changed { records: 3, names: 16, ..c::Changed::default() });
}
