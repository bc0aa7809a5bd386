//! The stack that an entry uses.

use std::hint::black_box;

use bench::{deepest, marks, stack_used};
use port::{Port, absent};

#[test]
fn an_array_on_the_stack_is_seen_whole() {
    let mut call = || {
        let mut array = [0u8; 30_000];
        black_box(&mut array).fill(1);
    };
    let used = stack_used(&mut call);
    assert!((30_000..32_000).contains(&used), "{used} bytes");
    let nothing = stack_used(&mut || {});
    assert!(nothing < 1_000, "{nothing} bytes");
}

/// What docs/PERFORMANCE.md promises to callers with small stacks.
#[test]
fn every_entry_fits_in_a_stack_of_64_kib() {
    if let Some(why) = absent() {
        println!("the port is not there: {why}");
        return;
    }
    let marks = marks(deepest(), &Port);
    assert_eq!(marks.len(), 8);
    for (entry, bytes) in marks {
        assert!((1_000..64 * 1024).contains(&bytes), "{entry}: {bytes} bytes");
    }
}
