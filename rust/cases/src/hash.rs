//! The hash of full names, words that share one, and a model of the port's budget: chains of names
//! are walked until it is spent, and then names are sorted instead (crates/index_full_names).

use std::collections::{HashMap, HashSet};
use std::sync::LazyLock;

use judge::Tree;

const FACTOR: u32 = 16_777_619;

/// What the port spends on the chains of a tree before it sorts.
const BUDGET: usize = 4_096;

/// The hash of a name, carried on from a seed: `hash_on` of crates/index_names.
pub fn hash(name: &[u8], seed: u32) -> u32 {
    name.iter()
        .fold(seed, |h, x| h.wrapping_add(u32::from(*x)).wrapping_add(1).wrapping_mul(FACTOR))
}

/// The n-th word of so many letters, from 64 of them.
pub fn word(n: usize, letters: usize) -> Vec<u8> {
    let letter = |at: usize| b'0' + (n >> (6 * at) & 63) as u8;
    (0..letters).rev().map(letter).collect()
}

/// So many words of eight letters that share a hash. The last three letters are looked up: what
/// they add to the hash is what the first five leave open. It is the hash of no letter, so words
/// that are joined share it too.
pub fn words_of_one_hash(count: usize) -> Vec<Vec<u8>> {
    let ends: HashMap<u32, usize> = (0..1 << 18).map(|n| (hash(&word(n, 3), 0), n)).collect();
    let carried = FACTOR.wrapping_pow(3);
    let name = |n: usize| {
        let start = word(n, 5);
        let open = 0u32.wrapping_sub(hash(&start, 0).wrapping_mul(carried));
        ends.get(&open).map(|end| [start, word(*end, 3)].concat())
    };
    (0..1 << 30).filter_map(name).take(count).collect()
}

/// Some of them, for cases. Joined they share their hash, so few are enough.
pub static WORDS: LazyLock<Vec<Vec<u8>>> = LazyLock::new(|| words_of_one_hash(64));

/// The sixteen bits that the index keeps of a hash, and the chain that they choose.
pub fn tag(hash: u32) -> u16 {
    (u64::from(hash) * 2_654_435_761 >> 16) as u16
}

pub fn bucket(tag: u16) -> usize {
    usize::from(tag / 64)
}

/// How much of the budget is left behind the chains of a tree, up to the first name that stands
/// twice; none where it is spent before, so that the port sorts the names.
pub fn budget_left(tree: &Tree) -> Option<usize> {
    let mut chains: HashMap<usize, Vec<u16>> = HashMap::new();
    let (mut earlier, mut left) = (HashSet::new(), BUDGET);
    for slot in 0..tree.rows.len() {
        let name = tree.full_name(slot);
        let tag = tag(hash(&name, 0));
        let chain = chains.entry(bucket(tag)).or_default();
        let price = chain.iter().map(|other| if *other == tag { 33 } else { 1 }).sum();
        left = left.checked_sub(price)?;
        if !earlier.insert(name) {
            break;
        }
        chain.push(tag);
    }
    Some(left)
}
