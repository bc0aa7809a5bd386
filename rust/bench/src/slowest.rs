//! A search for slow trees: a tree is changed at random, and stays changed where that takes more
//! steps. The steps are a model's (`Steps`), so a seed gives the same tree on any machine.

use cases::Random;
use judge::{LEVELS, MOST_RECORDS, NAME_SUM, Node, STRUCT, Tree};

use crate::hashes::WORDS;
use crate::names::{Bad, bad_roots, bad_structs};
use crate::schemas::{SCHEMAS, numbered, schema};
use crate::steps::{Spelt, Steps};

/// The longest own name.
const LONGEST: usize = 255;

/// What is to take long.
#[derive(Clone, Copy, Debug, PartialEq, Eq)]
pub enum Goal {
    /// 8.
    Names,
    /// The search for one full name.
    Search,
}

/// A tree, with the steps that 8 takes and those of the dearest search, and the slot that it finds.
#[derive(Clone)]
pub struct Slow {
    pub start: &'static str,
    pub roots: Vec<Node>,
    pub steps: [Steps; 2],
    pub dearest: usize,
}

impl Slow {
    /// None where the tree is above a limit, or is refused with 8.
    fn of(start: &'static str, roots: Vec<Node>) -> Option<Slow> {
        within_limits(&roots).then_some(())?;
        let (names, (search, dearest)) = Spelt::of(&roots).steps()?;
        Some(Slow { start, roots, steps: [names, search], dearest })
    }

    pub fn sum(&self, goal: Goal) -> u64 {
        self.steps[goal as usize].sum()
    }
}

/// The trees that a search starts from: the schemas, and those that are known to be bad.
pub fn starts() -> Vec<Bad> {
    let schemas = SCHEMAS.iter().map(|(name, _)| (*name, schema(name, MOST_RECORDS)));
    schemas.chain(bad_roots()).chain(bad_structs(MOST_RECORDS)).collect()
}

/// From each start so many rounds; the tree before them, and the slowest one behind them.
pub fn slowest(goal: Goal, rounds: u64, seed: u64) -> Vec<[Slow; 2]> {
    let climb = |(n, (start, roots)): (usize, Bad)| {
        let first = Slow::of(start, roots).expect("it is accepted");
        let mut slow = first.clone();
        let mut random = Random::nth(seed, n as u64);
        for _ in 0..rounds {
            let mut roots = slow.roots.clone();
            for _ in 0..=random.below(3) {
                change(&mut roots, &mut random);
            }
            let changed = Slow::of(start, roots);
            slow = changed.filter(|tree| tree.sum(goal) >= slow.sum(goal)).unwrap_or(slow);
        }
        [first, Slow { roots: numbered(slow.roots), ..slow }]
    };
    starts().into_iter().enumerate().map(climb).collect()
}

fn within_limits(roots: &[Node]) -> bool {
    let tree = Tree::of(roots);
    let names = tree.rows.iter().map(|row| row.name.len());
    tree.rows.len() <= MOST_RECORDS
        && names.clone().sum::<usize>() <= NAME_SUM
        && names.into_iter().all(|bytes| (1..=LONGEST).contains(&bytes))
        && tree.rows.iter().all(|row| row.level <= LEVELS)
}

/// A change of one record, or of all that stand at the same place below a root.
enum Change<'a> {
    /// The name starts with this word.
    Word(&'a str),
    /// The name has so many bytes.
    Length(usize),
    /// The name has a dot at this place.
    Dot(usize),
    /// What is behind the last dot of a struct's name goes to the names inside it, or back.
    CutBefore,
    CutBehind,
    /// The record changes places with this one of its row.
    Swap(usize),
    /// What is inside goes into a struct of the same name, or out of the only one.
    Deeper,
    Shallower,
    /// Another one beside it, whose name starts with this word.
    Twin(&'a str),
    Drop,
}

fn change(roots: &mut Vec<Node>, random: &mut Random) {
    let path = place(roots, random);
    let word = &random.pick(&WORDS)[..];
    if random.chance(1, 8) {
        return copy(roots, path[0], word, random);
    }
    let change = match random.below(10) {
        0 => Change::Word(word),
        1 => Change::Length(*random.pick(&[1, 2, 3, 4, 7, 8, 15, 16, 31, 32, 47, 63, 127, 255])),
        2 => Change::Dot(random.below(64)),
        3 => Change::CutBefore,
        4 => Change::CutBehind,
        5 => Change::Swap(random.below(64)),
        6 => Change::Deeper,
        7 => Change::Shallower,
        8 => Change::Twin(word),
        _ => Change::Drop,
    };
    let alike = random.chance(1, 2);
    for root in 0..roots.len() {
        if alike || root == path[0] {
            let path = [&[root], &path[1..]].concat();
            change_at(roots, &path, &change);
        }
    }
}

/// The way to a member, of the root or of structs: a place in each row.
fn place(roots: &[Node], random: &mut Random) -> Vec<usize> {
    let (mut row, mut path) = (roots, vec![]);
    loop {
        let at = random.below(row.len());
        path.push(at);
        let inside = &row[at].inside;
        if row[at].kind != STRUCT || inside.is_empty() || random.chance(1, 8) {
            return path;
        }
        row = inside;
    }
}

/// A copy of a root tree behind it, whose name starts with another word; the last roots make room.
fn copy(roots: &mut Vec<Node>, at: usize, word: &str, random: &mut Random) {
    let mut twin = roots[at].clone();
    start_with(&mut twin.name, word);
    roots.insert(at + random.below(2), twin);
    while Tree::of(roots).rows.len() > MOST_RECORDS {
        roots.pop();
    }
}

fn start_with(name: &mut Vec<u8>, word: &str) {
    let bytes = name.len().min(word.len());
    name.splice(..bytes, word.bytes());
}

fn change_at(roots: &mut Vec<Node>, path: &[usize], change: &Change) {
    let (at, above) = path.split_last().expect("a member has a place");
    let mut row = roots;
    for up in above {
        match row.get_mut(*up) {
            Some(node) if node.kind == STRUCT => row = &mut node.inside,
            _ => return,
        }
    }
    if let Some(node) = row.get_mut(*at) {
        match change {
            Change::Word(word) => start_with(&mut node.name, word),
            Change::Length(bytes) => node.name.resize(*bytes, b'x'),
            Change::Dot(place) if !node.name.is_empty() => {
                let place = place % node.name.len();
                node.name[place] = if node.name[place] == b'.' { b'x' } else { b'.' };
            }
            Change::CutBefore => cut_before(node),
            Change::CutBehind => cut_behind(node),
            Change::Swap(with) => {
                let with = with % row.len();
                row.swap(*at, with);
            }
            Change::Deeper if node.kind == STRUCT => {
                let inside = std::mem::take(&mut node.inside);
                let name = node.name.clone();
                node.inside = vec![Node { name, inside, ..node.clone() }];
            }
            Change::Shallower if node.kind == STRUCT && node.inside.len() == 1 => {
                node.inside = node.inside.remove(0).inside;
            }
            Change::Twin(word) => {
                let mut twin = node.clone();
                start_with(&mut twin.name, word);
                row.insert(*at, twin);
            }
            Change::Drop if row.len() > 1 => {
                row.remove(*at);
            }
            _ => {}
        }
    }
}

/// `a.b` with `c` inside becomes `a` with `b.c`: full names stay.
fn cut_before(node: &mut Node) {
    let dot = node.name.iter().rposition(|byte| *byte == b'.');
    if let (STRUCT, Some(dot @ 1..)) = (node.kind, dot) {
        let behind = node.name.split_off(dot).split_off(1);
        for member in &mut node.inside {
            member.name.splice(..0, [&behind[..], b"."].concat());
        }
    }
}

/// The other way, where all names inside begin alike.
fn cut_behind(node: &mut Node) {
    let first = node.inside.first().and_then(|first| {
        let dot = first.name.iter().position(|byte| *byte == b'.')?;
        Some(first.name[..=dot].to_vec())
    });
    let Some(front) = first.filter(|_| node.kind == STRUCT) else { return };
    if node.inside.iter().all(|member| member.name.starts_with(&front)) {
        node.name.push(b'.');
        node.name.extend_from_slice(&front[..front.len() - 1]);
        node.inside.iter_mut().for_each(|member| drop(member.name.drain(..front.len())));
    }
}
