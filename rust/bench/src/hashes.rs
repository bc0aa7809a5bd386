//! Names that the hash of the index can't tell apart. They must be sought on purpose.

use std::collections::HashMap;
use std::sync::LazyLock;

use cases::{bucket, hash, tag, words_of_one_hash};
use judge::MOST_RECORDS;

fn text(word: Vec<u8>) -> String {
    String::from_utf8(word).expect("letters")
}

/// The n-th word of so many letters, from 64 of them.
pub fn word(n: usize, letters: usize) -> String {
    text(cases::word(n, letters))
}

/// As many words of eight letters as a tree has records, all of one hash.
pub static WORDS: LazyLock<Vec<String>> =
    LazyLock::new(|| words_of_one_hash(MOST_RECORDS).into_iter().map(text).collect());

/// So many names, each made of a word of four letters, whose tags share a chain. There are 64 such
/// tags, and each comes as late as it can.
pub fn names_of_one_chain(count: usize, name: impl Fn(&str) -> String) -> Vec<String> {
    let mut times: HashMap<u16, usize> = HashMap::new();
    let mut turn = |name: &String| {
        let times = times.entry(tag(hash(name.as_bytes(), 0))).or_default();
        *times += 1;
        *times
    };
    let names = (0..1 << 24).map(|n| name(&word(n, 4)));
    let of_one = names.filter(|name| bucket(tag(hash(name.as_bytes(), 0))) == 0).take(count);
    let mut names: Vec<(usize, String)> = of_one.map(|name| (turn(&name), name)).collect();
    names.sort_by_key(|(turn, _)| *turn);
    names.into_iter().map(|(_, name)| name).collect()
}
