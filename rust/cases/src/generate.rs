//! The seeded generator: the n-th case of a seed.

use std::collections::HashSet;

use judge::{
    DEFAULT, LEVELS, LIST, MAP, MOST_DELETIONS, MOST_RECORDS, MOST_SELECTED, Node, REQUIRED, Tree,
};

use crate::build::{Addition, ask_of, by_version, prune_by, renumber_by, request, update_by};
use crate::case::{Ask, Case};
use crate::crowded::crowded;
use crate::damage::damage;
use crate::dropped::dropped_parent;
use crate::edges::edge;
use crate::edits::{self, damage_edit, editing, with_edits};
use crate::folded::folded;
use crate::identifiers::{give_floats, renumbering, updating};
use crate::ids::{many_ids, turn_ids};
use crate::random::Random;
use crate::trees::{Shape, column, identifiers, lay, name, parents, size, tree};
use crate::widenings::{self, version, widening};

/// The operations' words, in the order in which cases of a seed take turns: 01's, then 02's.
pub const OPERATIONS: [&str; 9] =
    ["update", "prune", "renumber", "name", "id", "parent", "list", "folded", "ids"];

/// How many of them are 01's. Their cases are counted among themselves, and those of any other
/// operation for themselves, so that no case changes where an operation is added.
const FIRST: u64 = 7;

/// Sets the row of updates that add beneath what they drop apart from the others; so for cases of
/// identifiers, for the types of columns, for updates with edits, for edits beside the rest, for
/// updates that widen, for the versions of the others, and for names that crowd their chains.
const DROPPED_PARENT: u64 = 3 << 40;
const IDENTIFIERS: u64 = 4 << 40;
const TYPES: u64 = 5 << 40;
const EDITS: u64 = 6 << 40;
const EDITS_BESIDE: u64 = 7 << 40;
const WIDENINGS: u64 = 8 << 40;
const VERSIONS: u64 = 9 << 40;
const CROWDED: u64 = 10 << 40;

/// How large the trees are.
#[derive(Clone, Copy, Debug, PartialEq, Eq)]
pub enum Sizes {
    /// A few records, for the recorded list; no edge that needs many.
    Small,
    /// Mostly up to 40 records, edges of every limit, and now and then more than 900 records.
    Usual,
}

/// Cases from a seed. Case n depends on the seed, n and the sizes alone.
#[derive(Clone, Copy, Debug)]
pub struct Generator {
    pub seed: u64,
    pub sizes: Sizes,
}

/// How a case was made.
#[derive(Clone, Copy, Debug, PartialEq, Eq, PartialOrd, Ord)]
pub enum Origin {
    /// From a random tree, and left so.
    Whole,
    /// From a random tree, with one list damaged after it.
    Damaged,
    /// At a limit or one past it.
    Edge,
    /// Of names that crowd their chains, left so or damaged.
    Crowded,
}

/// The cases of a seed that a run puts.
#[derive(Clone, Copy, Debug, PartialEq, Eq)]
pub enum Batch {
    /// As they are made.
    Made,
    /// The same with their ids turned, so that they share their bits.
    Turned,
    /// Of names that crowd their chains.
    Crowded,
}

/// What is said behind the number of a case.
impl std::fmt::Display for Batch {
    fn fmt(&self, f: &mut std::fmt::Formatter<'_>) -> std::fmt::Result {
        f.write_str(match self {
            Batch::Made => "",
            Batch::Turned => ", ids turned",
            Batch::Crowded => ", names crowded",
        })
    }
}

impl Generator {
    /// The n-th case; the operations take turns.
    pub fn case(&self, n: u64) -> Case {
        self.made(n).0
    }

    /// The n-th case where ids share their bits, and how it was made: the same case with its ids
    /// turned.
    pub fn turned(&self, n: u64) -> (Case, Origin) {
        let (mut case, origin) = self.made(n);
        turn_ids(&mut Random::nth(!self.seed, n), &mut case);
        (case, origin)
    }

    /// The n-th case of names that crowd their chains, from a row of its own; the operations take
    /// turns.
    pub fn crowded(&self, n: u64) -> (Case, Origin) {
        let mut random = Random::nth(self.seed ^ CROWDED, n);
        let operation = OPERATIONS[(n % OPERATIONS.len() as u64) as usize];
        let mut case = crowded(&mut random, operation);
        if random.chance(1, 12) {
            damage(&mut random, &mut case);
        }
        (case, Origin::Crowded)
    }

    /// The n-th case of a batch, and how it was made.
    pub fn of(&self, batch: Batch, n: u64) -> (Case, Origin) {
        match batch {
            Batch::Made => self.made(n),
            Batch::Turned => self.turned(n),
            Batch::Crowded => self.crowded(n),
        }
    }

    /// The n-th update that adds beneath what it drops, from a row of its own.
    pub fn dropped_parent(&self, n: u64) -> Case {
        let mut random = Random::nth(self.seed ^ DROPPED_PARENT, n);
        let shape = self.shape(&mut random);
        dropped_parent(&mut random, shape)
    }

    /// The n-th update or renumbering in a row of its own, whose identifiers are mostly refused.
    pub fn identifiers(&self, operation: &str, n: u64) -> Case {
        self.identified(operation, n).0
    }

    fn identified(&self, operation: &str, n: u64) -> (Case, Origin) {
        let update = operation == "update";
        let mut random = Random::nth(self.seed ^ IDENTIFIERS ^ u64::from(update), n);
        let shape = self.shape(&mut random);
        let make = if update { updating } else { renumbering };
        let mut case = make(&mut random, shape);
        if self.sizes == Sizes::Usual && random.chance(1, 12) {
            damage(&mut random, &mut case);
            return (case, Origin::Damaged);
        }
        (case, Origin::Whole)
    }

    /// The n-th update with edits, from a row of its own.
    pub fn edits(&self, n: u64) -> Case {
        self.edited(n).0
    }

    fn edited(&self, n: u64) -> (Case, Origin) {
        let mut random = Random::nth(self.seed ^ EDITS, n);
        let usual = self.sizes == Sizes::Usual;
        if usual && random.chance(1, 25) {
            return (edits::edge(&mut random), Origin::Edge);
        }
        let shape = self.shape(&mut random);
        let mut case = editing(&mut random, shape);
        if random.chance(1, 6) {
            damage_edit(&mut random, &mut case);
            return (case, Origin::Damaged);
        }
        (case, Origin::Whole)
    }

    /// The n-th update that widens, from a row of its own.
    pub fn widenings(&self, n: u64) -> Case {
        self.widened(n).0
    }

    fn widened(&self, n: u64) -> (Case, Origin) {
        let mut random = Random::nth(self.seed ^ WIDENINGS, n);
        if self.sizes == Sizes::Usual && random.chance(1, 25) {
            return (widenings::edge(&mut random), Origin::Edge);
        }
        let shape = self.shape(&mut random);
        let mut case = widening(&mut random, shape);
        if random.chance(1, 8) {
            damage_edit(&mut random, &mut case);
            return (case, Origin::Damaged);
        }
        (case, Origin::Whole)
    }

    fn shape(&self, random: &mut Random) -> Shape {
        let records = match self.sizes {
            Sizes::Small => 5,
            Sizes::Usual if random.chance(1, 200) => MOST_RECORDS,
            Sizes::Usual => *random.pick(&[6, 12, 24, 40]),
        };
        let distinct = !random.chance(1, 12);
        Shape { records, levels: LEVELS, distinct }
    }

    /// The n-th case, and how it was made.
    pub fn made(&self, n: u64) -> (Case, Origin) {
        let turns = OPERATIONS.len() as u64;
        let (round, turn) = (n / turns, n % turns);
        // the recorded list has them apart, so that its other cases stay
        if self.sizes == Sizes::Small {
            return self.taking_turns(round, turn);
        }
        let operation = OPERATIONS[turn as usize];
        let versioned =
            |case: Case| by_version(version(&mut Random::nth(self.seed ^ VERSIONS, n), 60), case);
        let identified = ["update", "renumber"].contains(&operation) && round % 6 == 2;
        let (mut case, origin) = match (operation, round % 6) {
            ("update", 1) => {
                let (case, origin) = self.edited(round);
                return (versioned(case), origin);
            }
            ("update", 4) => return self.widened(round),
            ("update", 5) => (self.dropped_parent(round), Origin::Whole),
            _ if identified => self.identified(operation, round),
            _ => self.taking_turns(round, turn),
        };
        if !identified {
            give_floats(&mut Random::nth(self.seed ^ TYPES, n), &mut case);
        }
        if operation == "update" {
            case = versioned(case);
            let mut random = Random::nth(self.seed ^ EDITS_BESIDE, n);
            if origin != Origin::Edge && random.chance(1, 12) {
                let widens = random.chance(1, 3);
                case = with_edits(&mut random, case, 2, widens);
            }
        }
        (case, origin)
    }

    fn taking_turns(&self, round: u64, turn: u64) -> (Case, Origin) {
        let operation = OPERATIONS[turn as usize];
        let mut random = match turn < FIRST {
            true => Random::nth(self.seed, round * FIRST + turn),
            false => Random::nth(self.seed ^ turn << 32, round),
        };
        // of an update's cases fewer take turns
        let usual = self.sizes == Sizes::Usual;
        let few = usual && operation == "update";
        if usual && random.chance(1, if few { 25 } else { 40 }) {
            return (edge(&mut random, operation), Origin::Edge);
        }
        let shape = self.shape(&mut random);
        let mut case = plain(&mut random, operation, shape);
        if random.chance(1, if few { 4 } else { 6 }) {
            damage(&mut random, &mut case);
            return (case, Origin::Damaged);
        }
        (case, Origin::Whole)
    }
}

fn plain(random: &mut Random, operation: &str, shape: Shape) -> Case {
    match operation {
        "update" => update(random, shape),
        "prune" => prune(random, shape),
        "renumber" => renumber(random, shape),
        "folded" => folded(random, shape),
        "ids" => many_ids(random, shape),
        other => {
            let roots = tree(random, shape);
            let base = lay(random, &roots);
            let rows = Tree::of(&roots);
            let ask = match other {
                "name" => Ask::Name(path(random, &rows)),
                "id" => Ask::Id(asked_id(random, &rows)),
                "parent" => Ask::Parent(asked_id(random, &rows)),
                _ => Ask::List,
            };
            ask_of(base, ask)
        }
    }
}

fn asked_id(random: &mut Random, tree: &Tree) -> i32 {
    if tree.rows.is_empty() || random.chance(1, 8) {
        return *random.pick(&[-1, 0, 1, i32::MAX, i32::MIN]);
    }
    random.pick(&tree.rows).id
}

/// A full or a short name of some record; equal short names often.
fn hit(random: &mut Random, tree: &Tree) -> Vec<u8> {
    if random.chance(1, 2) {
        let twins = equal_short_names(tree);
        if !twins.is_empty() {
            return random.pick(&twins).clone();
        }
    }
    let slot = random.below(tree.rows.len());
    if random.chance(1, 2) { tree.full_name(slot) } else { tree.short_name(slot) }
}

/// The short names that two records have and no full name hides.
fn equal_short_names(tree: &Tree) -> Vec<Vec<u8>> {
    if tree.rows.len() > 100 {
        return vec![];
    }
    let slots = 0..tree.rows.len();
    let full: HashSet<Vec<u8>> = slots.clone().map(|slot| tree.full_name(slot)).collect();
    let mut seen = HashSet::new();
    let short = slots.map(|slot| tree.short_name(slot));
    short.filter(|name| !seen.insert(name.clone()) && !full.contains(name)).collect()
}

/// A name to look up: one of the tree's, or a near miss.
fn path(random: &mut Random, tree: &Tree) -> Vec<u8> {
    if tree.rows.is_empty() {
        return name(random);
    }
    let mut path = hit(random, tree);
    match random.below(24) {
        0 => path = [path, b".".to_vec(), name(random)].concat(),
        1 => path = random.pick(&tree.rows).name.clone(),
        2 => path = name(random),
        // the last character whole, so that the path stays UTF-8
        3 => while path.pop().is_some_and(|byte| byte & 0xC0 == 0x80) {},
        4 => path = vec![],
        5 => path = [path, b".element".to_vec()].concat(),
        _ => {}
    }
    path
}

/// A path to something that can take members, if there is one.
fn parent_path(random: &mut Random, tree: &Tree) -> Option<Vec<u8>> {
    let fit = parents(tree);
    if fit.is_empty() {
        return None;
    }
    let slot = *random.pick(&fit);
    Some(if random.chance(1, 2) { tree.full_name(slot) } else { tree.short_name(slot) })
}

fn update(random: &mut Random, shape: Shape) -> Case {
    let mut base = tree(random, shape);
    let mut ids = identifiers(random, &mut base);
    let rows = Tree::of(&base);
    if !rows.rows.is_empty() && random.chance(1, 15) {
        // any record, which mostly can't be one
        ids.push(random.pick(&rows.rows).id);
    }
    // most requests get far
    let tame = random.chance(3, 4);
    let most = if shape.records > 5 && random.chance(1, 30) { 64 } else { 3 };
    let mut deletions = deletions(random, &rows, &ids, tame, most);
    let added = added(random, &rows, tame, most);
    let mut last_id = last_id(random, &rows, added.iter().map(|a| size(&a.column)).sum());
    // an identifier goes with the struct above it, and its id may be handed out again
    let below = |row: &&judge::Row| row.parent.is_some() && ids.contains(&row.id);
    let nested: Vec<&judge::Row> = rows.rows.iter().filter(below).collect();
    if !nested.is_empty() && random.chance(1, 10) {
        let row = *random.pick(&nested);
        deletions.truncate(MOST_DELETIONS - 1);
        deletions.push(rows.full_name(row.parent.expect("it is nested")));
        last_id = row.id.saturating_sub(1 + random.below(2) as i32);
    }
    if random.chance(1, 20) {
        ids.push(random.any_id());
    }
    let laid = lay(random, &base);
    let mut bytes = request(&deletions, &added);
    if random.chance(1, 20) {
        // roots and additions differ in number (10)
        let shorter = bytes[1].len().saturating_sub(8);
        bytes[1].truncate(shorter);
    }
    update_by(laid, &ids, last_id, bytes)
}

/// Paths of columns to delete; those of a tame request are found, and no identifiers.
pub fn deletions(
    random: &mut Random,
    rows: &Tree,
    identifiers: &[i32],
    tame: bool,
    most: usize,
) -> Vec<Vec<u8>> {
    let mut deletions = vec![];
    for _ in 0..random.below(most + 1) {
        let identifier = rows.rows.iter().position(|row| identifiers.contains(&row.id));
        if let Some(slot) = identifier
            && !tame
            && random.chance(1, 3)
        {
            deletions.push(rows.full_name(slot));
        } else if !tame {
            deletions.push(path(random, rows));
        } else if !rows.rows.is_empty() {
            let slot = random.below(rows.rows.len());
            let by_full = random.chance(1, 2);
            if !identifiers.contains(&rows.rows[slot].id) {
                let name = if by_full { rows.full_name(slot) } else { rows.short_name(slot) };
                deletions.push(name);
            }
        }
    }
    deletions
}

/// Columns to add; those of a tame request can stand where they are to.
pub fn added(random: &mut Random, rows: &Tree, tame: bool, most: usize) -> Vec<Addition> {
    let mut added = vec![];
    for _ in 0..random.below(most + 1) {
        let mut new = fresh(random, if most > 3 { 5 } else { 3 });
        let path = match random.below(3) {
            0 => None,
            _ if tame => parent_path(random, rows),
            _ => Some(path(random, rows)),
        };
        if tame {
            made_tame(random, &mut new);
        }
        added.push(Addition { path, column: new });
    }
    added
}

/// A column to add, of at most so many records.
pub fn fresh(random: &mut Random, records: usize) -> Node {
    let mut left = 1 + random.below(records);
    let (levels, nesting) = (1 + random.below(4), random.below(4));
    let mut new = column(random, None, levels, &mut left, nesting);
    // ids of the additions tree are ignored
    new.id = random.any_id();
    new
}

/// A column that 13 and 14 let pass.
pub fn made_tame(random: &mut Random, new: &mut Node) {
    if new.name.contains(&b'.') || random.chance(1, 2) {
        new.name = format!("new{}", random.below(12)).into_bytes();
    }
    if new.flags & REQUIRED != 0 {
        new.flags |= DEFAULT;
    }
}

/// The last id that is given, where so many records are added.
pub fn last_id(random: &mut Random, rows: &Tree, added: usize) -> i32 {
    let top = rows.rows.iter().map(|row| row.id).max().unwrap_or(0);
    match random.below(12) {
        // may hand out ids again
        0 => top.saturating_sub(random.below(4) as i32),
        // the edge of 18
        1 => i32::MAX - random.below(added + 2) as i32,
        2 => *random.pick(&[-1, 0, -2, i32::MIN, -(added as i32)]),
        _ if top > i32::MAX - 100 => 2_000_000_000,
        _ => top,
    }
}

fn prune(random: &mut Random, shape: Shape) -> Case {
    let roots = tree(random, shape);
    let selected = selected(random, &Tree::of(&roots));
    let full = random.chance(1, 3);
    let laid = lay(random, &roots);
    let mut case = prune_by(laid, &selected, full);
    if let Ask::Prune { full, .. } = &mut case.ask {
        // any number but 0 is full
        if *full == 1 && random.chance(1, 4) {
            *full = *random.pick(&[2, 256, u32::MAX]);
        }
    }
    case
}

/// Some of the tree's ids, some unknown, some twice.
fn selected(random: &mut Random, tree: &Tree) -> Vec<i32> {
    let (times, out_of) = *random.pick(&[(0, 1), (1, 20), (1, 8), (1, 4), (1, 2), (1, 1)]);
    // half the time no list or map is chosen directly
    let leaves = random.chance(1, 2);
    let fits = |row: &&judge::Row| !leaves || (row.kind != LIST && row.kind != MAP);
    let mut ids: Vec<i32> = vec![];
    for row in tree.rows.iter().filter(fits) {
        if random.chance(times, out_of) {
            ids.push(row.id);
        }
    }
    if ids.is_empty() && !tree.rows.is_empty() && random.chance(3, 4) {
        ids.push(random.pick(&tree.rows).id);
    }
    if random.chance(1, 4) {
        ids.extend([random.any_id(), *random.pick(&[-1, 0, i32::MAX])]);
    }
    if !ids.is_empty() && random.chance(1, 4) {
        let again = *random.pick(&ids);
        ids.push(again);
    }
    ids.truncate(MOST_SELECTED);
    ids
}

fn renumber(random: &mut Random, shape: Shape) -> Case {
    let mut roots = tree(random, shape);
    let mut ids = identifiers(random, &mut roots);
    if random.chance(1, 20) {
        ids.push(random.any_id());
    }
    let count: usize = roots.iter().map(size).sum();
    let start = match random.below(4) {
        // the edge of 18
        0 => (i32::MAX - count as i32 - 2).saturating_add(random.below(5) as i32),
        1 => *random.pick(&[0, -1, i32::MIN, i32::MAX, -(count as i32)]),
        2 => random.any_id(),
        _ => 1,
    };
    let laid = lay(random, &roots);
    let mut case = renumber_by(laid, &ids, start);
    if let Ask::Renumber { out_identifiers, .. } = &mut case.ask {
        // room beyond what is needed, or a byte too little (1)
        match random.below(12) {
            0 => *out_identifiers += 1 + random.below(9),
            1 => *out_identifiers = out_identifiers.saturating_sub(1),
            _ => {}
        }
    }
    case
}
