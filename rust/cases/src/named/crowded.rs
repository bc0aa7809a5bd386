//! Full names of one hash, at the edge of the budget for chains: behind it the port sorts them. The
//! first word of a title says which way it is.

use super::*;
use crate::build::{edited, rename};
use crate::hash::{WORDS, budget_left};
use judge::Tree;

/// So many names of one hash spend less than the budget, and one more spends it.
const WITHIN: usize = 16;

pub fn put(all: &mut Cases) {
    let word = |word: &'static Vec<u8>| str::from_utf8(word).expect("letters");
    let words: Vec<&str> = WORDS[..32].iter().map(word).collect();
    edge(all, &words);
    repeats(all, &words);
    cuts(all, &words);
    levels(all, &words);
    rebuilt(all, &words);
    most(all, &words);
}

/// Roots with these names, and ids from 1.
fn roots(names: &[&str]) -> Vec<Node> {
    (1..).zip(names).map(|(id, name)| p(id, name)).collect()
}

fn owned(names: &[String]) -> Vec<Node> {
    roots(&names.iter().map(String::as_str).collect::<Vec<_>>())
}

/// The ids from 1 on.
fn counted(count: i32) -> Expected {
    Expected::Ids((1..=count).collect())
}

fn edge(all: &mut Cases, words: &[&str]) {
    for (way, count) in [("chained", WITHIN), ("sorted", WITHIN + 1)] {
        let base = roots(&words[..count]);
        let last = words[count - 1];
        let mut put = |what: &str, case: Case, expected: Expected| {
            all.put_beside(&format!("{way}: {count} names of one hash, {what}"), case, expected);
        };
        let (id, slot) = (count as i32, count as u32 - 1);
        put("the first is sought", name(&base, words[0]), Expected::Found(1, 0));
        put("the last is sought", name(&base, last), Expected::Found(id, slot));
        put("another is sought", name(&base, words[count]), Expected::Nothing);
        put("one byte more is sought", name(&base, &format!("{last}x")), Expected::Nothing);
        put("one byte less is sought", name(&base, &last[..7]), Expected::Nothing);
        put("one byte is another", name(&base, &format!("{}~", &last[..7])), Expected::Nothing);
        put("they are renumbered", renumber(&base, &[], 1), counted(id));
        put("the last is kept", prune(&base, &[id]), ids(&[id]));
        put("no change", update(&base, id, &[], &[]), counted(id));
        put("what is not there is dropped", update(&base, id, &[words[count]], &[]), {
            refused(11, 2, 0)
        });
    }
    // 136 are left: three and two names of other hashes cost all but four of it, and the rest goes
    // where any names meet in a bucket
    let longer = |word: &&str, end: &str| format!("{word}{end}");
    let mut names: Vec<String> = words[..WITHIN].iter().map(|word| longer(word, "")).collect();
    names.extend(words[..3].iter().map(|word| longer(word, "x")));
    names.extend(words[..2].iter().map(|word| longer(word, "yy")));
    let left = |names: &[String]| budget_left(&Tree::of(&owned(names)));
    let mut number = 0;
    while left(&names) != Some(0) {
        number += 1;
        names.push(format!("n{number}"));
        if left(&names).is_none() {
            names.pop();
        }
    }
    let mut put = |title: &str, names: &[String]| {
        let last = names.len() - 1;
        let found = Expected::Found(last as i32 + 1, last as u32);
        all.put_beside(title, name(&owned(names), &names[last]), found);
    };
    put("chained: the budget is spent to nothing, the last is sought", &names);
    let spends = |name: &String| left(&[&names[..], &[name.clone()]].concat()).is_none();
    let more = (number + 1..).map(|number| format!("n{number}")).find(spends);
    names.extend(more);
    put("sorted: the same and one that costs more than nothing", &names);
}

/// 8: the lowest place is told.
fn repeats(all: &mut Cases, words: &[&str]) {
    let mut put = |title: &str, names: &[&str], place: u32| {
        let base = roots(names);
        let last = names.len() as i32;
        all.put_beside(title, id(&base, 1), refused(8, 0, place));
        let title = format!("{title}, in an update");
        all.put_beside(&title, update(&base, last, &[], &[]), refused(8, 0, place));
    };
    let again = |count: usize, name: usize| [&words[..count], &[words[name]]].concat();
    put("chained: 8 at the last slot of 16", &again(WITHIN - 1, 0), 15);
    put("sorted: 8 at the last slot of 17, with the first", &again(WITHIN, 0), 16);
    put("sorted: 8 at the last slot of 17, with the one before", &again(WITHIN, 15), 16);
    put("sorted: 8 at the last slot of 33", &again(32, 7), 32);
    let mut names = again(32, 7);
    names.insert(20, words[3]);
    put("sorted: 8, two names stand twice", &names, 20);
    names.insert(25, words[3]);
    put("sorted: 8, three names are equal", &names, 20);
    let mut names = again(32, 7);
    names.insert(20, words[30]);
    put("sorted: 8, an earlier slot has the name of a later one", &names, 31);
}

/// The same bytes, cut at other places.
fn cuts(all: &mut Cases, words: &[&str]) {
    let [a, b, c, d] = [words[20], words[21], words[22], words[23]];
    let joined = |parts: &[&str]| parts.join(".");
    let mut put = |title: &str, more: Vec<Node>, expected: Expected| {
        let mut base = roots(&words[..WITHIN + 1]);
        base.extend(more);
        all.put_beside(title, renumber(&base, &[], 1), expected.clone());
        let title = format!("{title}, in an update");
        all.put_beside(&title, update(&base, 200, &[], &[]), expected);
    };
    let leaf = || p(90, &joined(&[a, b]));
    let strukt = || s(91, a, vec![p(92, b)]);
    put("sorted: 8 of a root that is cut otherwise", vec![strukt(), leaf()], refused(8, 0, 19));
    put("sorted: 8 of a member that is cut otherwise", vec![leaf(), strukt()], refused(8, 0, 19));
    let one = || s(93, &joined(&[a, b]), vec![p(94, c)]);
    let other = |last: &str| s(95, a, vec![p(96, &joined(&[b, last]))]);
    put("sorted: 8, 'a.b' above 'c' and 'a' above 'b.c'", vec![one(), other(c)], {
        refused(8, 0, 20)
    });
    put("sorted: 'a.b' above 'c' and 'a' above 'b.d'", vec![one(), other(d)], Expected::Count(21));
    let two = vec![strukt(), s(97, c, vec![p(98, b)])];
    put("sorted: the same member in two structs", two, Expected::Count(21));
    let element = s(102, "element", vec![p(103, b)]);
    let list = || vec![l(101, a, element.clone()), p(104, &joined(&[a, b]))];
    put("sorted: a short name that a root has as full name", list(), Expected::Count(21));
    let mut base = roots(&words[..WITHIN + 1]);
    base.extend(list());
    let title = "sorted: a full name hides a short one";
    all.put_beside(title, name(&base, &joined(&[a, b])), Expected::Found(104, 20));
    base.pop();
    let title = "sorted: found by a short name";
    all.put_beside(title, name(&base, &joined(&[a, b])), Expected::Found(103, 19));
    base.push(p(105, ""));
    all.put_beside("sorted: an empty name", name(&base, ""), Expected::Found(105, 20));
}

/// 8 of names whose comparisons are remembered at one level, and asked for at another: in structs
/// whose names reach over both levels.
fn levels(all: &mut Cases, words: &[&str]) {
    let mut words = words[..WITHIN + 2].to_vec();
    words.sort_by_key(|word| word.bytes().rev().collect::<Vec<u8>>());
    let others = words[1..].iter().zip(0..);
    let over = others.map(|(word, n)| s(20 + n, &format!("{word}.x"), vec![p(50 + n, "m")]));
    let over: Vec<Node> = over.collect();
    let mut put = |title: &str, inside: Vec<Node>, again: &str| {
        let more = [s(1, words[0], inside), p(2, &format!("{}.{again}", words[0]))];
        let base = [&over[..], &more].concat();
        let last = Tree::of(&base).rows.len() as u32 - 1;
        all.put_beside(title, update(&base, 200, &[], &[]), refused(8, 0, last));
    };
    let strukt = |id: i32, name: &str| s(id, name, vec![p(id + 1, "m")]);
    let [cut, y, z] = [p(3, "x.m"), strukt(4, "y"), strukt(6, "z")];
    put("sorted: 8, the outer level is remembered", vec![cut.clone(), y.clone()], "y.m");
    put("sorted: 8, the inner level is remembered", vec![y, z, cut], "x.m");
}

/// The base is in chains, the rebuilt tree is not, or the other way round.
fn rebuilt(all: &mut Cases, words: &[&str]) {
    let (within, past) = (roots(&words[..WITHIN]), roots(&words[..WITHIN + 1]));
    let (more, last) = (words[WITHIN], words[WITHIN - 1]);
    let add = |name: &str| [(None, p(0, name))];
    let title = "sorted: an addition spends the budget";
    all.put_beside(title, update(&within, 16, &[], &add(more)), counted(17));
    let title = "sorted: a deletion leaves names in chains";
    all.put_beside(title, update(&past, 17, &[more], &[]), counted(16));
    let mut exchanged: Vec<i32> = (1..=15).collect();
    exchanged.extend([17, 18]);
    let title = "sorted: the name of what is dropped is given again";
    let again = update(&past, 17, &[last], &add(last));
    all.put_beside(title, again, last_of(&exchanged));
    let title = "sorted: 8 of the rebuilt tree by a rename";
    let renamed = edited(update(&past, 17, &[], &[]), &[rename(more, words[3])]);
    all.put_beside(title, renamed, refused(8, 4, 16));
    let title = "sorted: 8 of the rebuilt tree by a rename of the first";
    let renamed = edited(update(&past, 17, &[], &[]), &[rename(words[0], more)]);
    all.put_beside(title, renamed, refused(8, 4, 16));
    let (a, b) = (words[20], words[21]);
    let mut base = past.clone();
    base.extend([s(30, a, vec![]), p(31, &format!("{a}.{b}"))]);
    let met = update(&base, 31, &[], &[(Some(a), p(0, b))]);
    all.put_beside("sorted: 8 of the rebuilt tree by another cut", met, refused(8, 4, 19));
}

fn last_of(ids: &[i32]) -> Expected {
    last(ids, *ids.last().expect("there are some"))
}

/// As many as a tree can have: two words joined have the same hash.
fn most(all: &mut Cases, words: &[&str]) {
    let pair = |n: usize| format!("{}{}", words[n / 32], words[n % 32]);
    let mut names: Vec<String> = (0..1_024).map(pair).collect();
    let found = Expected::Found(1_024, 1_023);
    let title = "sorted: 1,024 names of one hash, the last is sought";
    all.put_beside(title, name(&owned(&names), &names[1_023]), found);
    names[1_023] = names[0].clone();
    let title = "sorted: 1,024 names of one hash, 8 at the last slot";
    all.put_beside(title, id(&owned(&names), 1), refused(8, 0, 1_023));
}
