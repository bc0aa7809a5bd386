//! Families of ids: those that schemas have, and those that are built to be bad for a search by id.
//! It goes from the ten lowest bits of an id to a slot, then by one bit more from slot to slot, so
//! ids that share their low bits go deep. Ids of one bucket were bad for the hash of before.

use judge::MOST_RECORDS;

/// The name of a family, and so many ids of it.
pub type Family = (&'static str, fn(usize) -> Vec<i32>);

/// Families with at least 2,048 ids: so a tree has the first half of those that are taken, and not
/// the second.
pub const FAMILIES: [Family; 3] = [
    ("ids from 1 in slot order", from_one),
    ("ids that share their 21 lowest bits", of_top_bits),
    ("ids of one bucket of the hash of before", of_one_bucket),
];

fn from_one(count: usize) -> Vec<i32> {
    (1..).take(count).collect()
}

/// Multiples of 2^22, as many as there are, then the numbers between them.
pub fn of_top_bits(count: usize) -> Vec<i32> {
    let id = |n: u32| (n << 22 | n >> 10 << 21) as i32;
    (0..).map(id).take(count).collect()
}

/// The hash that chose an id's chain before.
fn bucket(id: u32) -> u64 {
    u64::from(id) * 2_654_435_761 / 4_194_304 % 1_024
}

/// So many ids that share a bucket.
pub fn of_one_bucket(count: usize) -> Vec<i32> {
    (1..).filter(|id| bucket(*id as u32) == bucket(1)).take(count).collect()
}

/// The multiples of 2^22 in another order: the numbers from 0, their bits reversed.
pub fn reversed(count: usize) -> Vec<i32> {
    (0u32..).map(|n| n.reverse_bits() as i32).take(count).collect()
}

/// The slots that a search meets at most: one for the ten lowest bits, one for each of the others.
const MOST_MET: usize = 23;

/// Ids in rows of 23, each row in a bucket of its own. Each id agrees with the last of its row in
/// one bit more than the id before it, and so stands one link below that.
pub fn in_chains() -> Vec<i32> {
    let id = |n: usize| match (n / MOST_MET, n % MOST_MET) {
        (bucket, 22) => bucket,
        (bucket, depth) => bucket | 1 << (10 + depth),
    };
    (0..MOST_RECORDS).map(|n| id(n) as u32 as i32).collect()
}

/// So many of the ids that a search of those meets last.
pub fn at_chain_ends(count: usize) -> Vec<i32> {
    (0..(MOST_RECORDS / MOST_MET) as i32).cycle().take(count).collect()
}
