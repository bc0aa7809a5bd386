//! The second judge answers every operation on any bytes, and writes only its answer.

use cases::{Ask, ByJudge, Case, Generator, Numbers, Random, Sizes, answer, outcome};
use judge::{EDIT_BYTES, ENTRY_BYTES, ID_BYTES, OUT_NAMES, OUT_RECORDS, RECORD_BYTES};

fn any_case(random: &mut Random) -> Case {
    let (records, pool) = (random.noise(RECORD_BYTES), random.noise(40));
    let (out_records, out_names) = (OUT_RECORDS, OUT_NAMES);
    let ask = match random.below(9) {
        0 => Ask::Update {
            identifiers: random.noise(ID_BYTES),
            last_id: random.any_id(),
            version: *random.pick(&[0, 2, 3, u32::MAX]),
            deletions: random.noise(ENTRY_BYTES),
            additions: random.noise(ENTRY_BYTES),
            added_records: random.noise(RECORD_BYTES),
            edits: random.noise(EDIT_BYTES),
            request_pool: random.noise(40),
            out_records,
            out_names,
        },
        1 => Ask::Prune { selected: random.noise(ID_BYTES), full: 0, out_records, out_names },
        2 => {
            let identifiers = random.noise(ID_BYTES);
            let out_identifiers = identifiers.len();
            let start = random.any_id();
            Ask::Renumber { identifiers, start, out_records, out_names, out_identifiers }
        }
        3 => Ask::Name(random.noise(3)),
        4 => Ask::Id(random.any_id()),
        5 => Ask::Parent(random.any_id()),
        6 => Ask::Folded(random.noise(3)),
        7 => {
            let ids = random.noise(ID_BYTES);
            let out_slots = ids.len();
            Ask::Ids { ids, out_slots }
        }
        _ => Ask::List,
    };
    Case { records, pool, ask }
}

#[test]
fn any_bytes_have_an_answer() {
    let mut random = Random::new(11);
    let refused = (0..50_000).filter(|_| answer(&any_case(&mut random)).refusal().is_some());
    assert!(refused.count() > 10_000);
}

/// The first bytes of each buffer are the answer's; every other byte is as it was.
#[test]
fn only_the_answer_is_written() {
    let generator = Generator { seed: 12, sizes: Sizes::Usual };
    let fresh = |bytes: usize| (0..bytes).map(|at| (at as u8).wrapping_mul(37) ^ 0xA5);
    for n in 0..9_000 {
        let case = generator.case(n);
        let Some(left) = outcome(&case, &ByJudge) else { continue };
        if let (Numbers::Searched(searched), Ask::Ids { ids, .. }) = (left.numbers, &case.ask) {
            let written = if searched.refusal == 0 { ids.len() } else { 0 };
            let beyond = left.out_slots.iter().copied().zip(fresh(left.out_slots.len()));
            assert!(beyond.skip(written).all(|(now, then)| now == then), "case {n}");
            assert!(searched.refusal == 0 || searched.found == 0, "case {n}");
        }
        let Numbers::Changed(changed) = left.numbers else { continue };
        let written = [changed.records as usize * RECORD_BYTES, changed.names as usize];
        for (buffer, written) in [&left.out_records, &left.out_names].iter().zip(written) {
            let beyond = buffer.iter().copied().zip(fresh(buffer.len())).skip(written);
            assert!(beyond.into_iter().all(|(now, then)| now == then), "case {n}");
        }
        if changed.refusal != 0 || case.update_call().is_none() {
            assert_eq!((changed.last_id, changed.visited), (0, 0), "case {n}");
        }
        if changed.refusal != 0 {
            assert_eq!((changed.records, changed.names), (0, 0), "case {n}");
            let untouched = left.out_identifiers.iter().copied();
            assert!(untouched.eq(fresh(left.out_identifiers.len())), "case {n}");
        }
    }
}
