//! Of refusal 9: which condition an identifier breaks (02, 4/13), and the shapes that tell it.

use judge::{DOUBLE, FLOAT, LEVELS, LIST, MAP, PRIMITIVE, REQUIRED, STRUCT, Tree, read_tree};

use crate::case::{Answer, Ask, Case, answer};
use crate::shapes::ids_of;
use crate::trees::path_up;

/// A condition that an identifier breaks. A record above it has a distance: 0 is the nearest.
#[derive(Clone, Copy, Debug, PartialEq, Eq, PartialOrd, Ord)]
pub enum Broken {
    /// Its id is not in the tree.
    Absent,
    /// It is a struct, a list or a map.
    Struct,
    List,
    Map,
    Optional,
    Float,
    Double,
    /// An element, key or value is on the way up to it, or it is one itself.
    UnderList(usize),
    UnderKey(usize),
    UnderValue(usize),
    /// A struct above it is optional.
    UnderOptional(usize),
}

/// The tree in which an identifier breaks a condition.
#[derive(Clone, Copy, Debug, PartialEq, Eq, PartialOrd, Ord)]
pub enum Of {
    /// An update's base.
    Base,
    /// The tree that an update would answer.
    Rebuilt,
    /// The base of a renumbering.
    Renumbered,
}

/// Every condition that an id breaks as an identifier of a tree.
pub fn broken(tree: &Tree, id: i32) -> Vec<Broken> {
    let Some(slot) = tree.rows.iter().position(|row| row.id == id) else {
        return vec![Broken::Absent];
    };
    let row = &tree.rows[slot];
    let mut all = vec![];
    match row.kind {
        PRIMITIVE if row.type_code == FLOAT => all.push(Broken::Float),
        PRIMITIVE if row.type_code == DOUBLE => all.push(Broken::Double),
        STRUCT => all.push(Broken::Struct),
        LIST => all.push(Broken::List),
        MAP => all.push(Broken::Map),
        _ => {}
    }
    if row.flags & REQUIRED == 0 {
        all.push(Broken::Optional);
    }
    let path = path_up(tree, slot);
    for (far, pair) in path.windows(2).enumerate() {
        let (below, up) = (pair[0], &tree.rows[pair[1]]);
        match up.kind {
            LIST => all.push(Broken::UnderList(far)),
            MAP if up.children[0] == below => all.push(Broken::UnderKey(far)),
            MAP => all.push(Broken::UnderValue(far)),
            _ if up.flags & REQUIRED == 0 => all.push(Broken::UnderOptional(far)),
            _ => {}
        }
    }
    all
}

/// The first of the identifiers that breaks a condition, with all that it breaks.
fn first_broken(tree: &Tree, identifiers: &[i32]) -> Option<(usize, Vec<Broken>)> {
    let each = identifiers.iter().map(|id| broken(tree, *id)).enumerate();
    each.into_iter().find(|(_, broken)| !broken.is_empty())
}

/// The identifiers that a case lends.
fn identifiers_of(case: &Case) -> Vec<i32> {
    match &case.ask {
        Ask::Update { identifiers, .. } | Ask::Renumber { identifiers, .. } => ids_of(identifiers),
        _ => vec![],
    }
}

fn base_of(case: &Case) -> Option<Tree> {
    read_tree(&case.records, &case.pool, judge::BASE).ok()
}

/// Does an identifier break a condition in the base itself?
pub fn base_breaks_9(case: &Case) -> bool {
    base_of(case).is_some_and(|tree| first_broken(&tree, &identifiers_of(case)).is_some())
}

/// Of a case that is refused with 9: in which tree, the place, and all that this identifier breaks.
pub fn broken_in(case: &Case) -> Option<(Of, usize, Vec<Broken>)> {
    let identifiers = identifiers_of(case);
    let base = first_broken(&base_of(case)?, &identifiers);
    match (&case.ask, base) {
        (Ask::Renumber { .. }, Some((place, all))) => Some((Of::Renumbered, place, all)),
        (_, Some((place, all))) => Some((Of::Base, place, all)),
        (_, None) => {
            let (place, all) = first_broken(&rebuilt(case)?, &identifiers)?;
            Some((Of::Rebuilt, place, all))
        }
    }
}

/// The tree that an update would answer if it had no identifiers.
fn rebuilt(case: &Case) -> Option<Tree> {
    let mut free = case.clone();
    let Ask::Update { identifiers, .. } = &mut free.ask else { return None };
    identifiers.clear();
    let Answer::Updated { records, names, .. } = answer(&free) else { return None };
    read_tree(&records, &names, judge::REBUILT).ok()
}

/// The shapes of 9 in one kind of tree; each of the first rows has this one condition broken.
macro_rules! shapes_of_9 {
    ($of:literal) => {
        [
            concat!($of, ": 9 for an id that is not there"),
            concat!($of, ": 9 for a struct"),
            concat!($of, ": 9 for a list"),
            concat!($of, ": 9 for a map"),
            concat!($of, ": 9 for an optional column"),
            concat!($of, ": 9 for a float"),
            concat!($of, ": 9 for a double"),
            concat!($of, ": 9 for an element"),
            concat!($of, ": 9 for a key"),
            concat!($of, ": 9 for a value"),
            concat!($of, ": 9 for an optional struct right above"),
            concat!($of, ": 9 for a list that is the second above"),
            concat!($of, ": 9 for a map that is the second above"),
            concat!($of, ": 9 for an optional struct that is the second above"),
            concat!($of, ": 9 for a list that is farther above"),
            concat!($of, ": 9 for a map that is farther above"),
            concat!($of, ": 9 for an optional struct that is farther above"),
            concat!($of, ": 9 for a list, the first of 16 levels"),
            concat!($of, ": 9 for a map, the first of 16 levels"),
            concat!($of, ": 9 for an optional struct, the first of 16 levels"),
            concat!($of, ": 9 for two conditions at once"),
            concat!($of, ": 9 for the second identifier or a later one"),
            concat!($of, ": 9 for the first identifier of two that break one"),
        ]
    };
}

/// They start with the operation's word, as all shapes do.
pub static SHAPES_OF_9: [[&str; 23]; 3] = [
    shapes_of_9!("update: the base"),
    shapes_of_9!("update: the rebuilt tree"),
    shapes_of_9!("renumber"),
];

/// What a shape says of a condition that is broken alone.
fn words(broken: Broken) -> &'static str {
    match broken {
        Broken::Absent => "an id that is not there",
        Broken::Struct => "a struct",
        Broken::List => "a list",
        Broken::Map => "a map",
        Broken::Optional => "an optional column",
        Broken::Float => "a float",
        Broken::Double => "a double",
        Broken::UnderList(0) => "an element",
        Broken::UnderKey(0) => "a key",
        Broken::UnderValue(0) => "a value",
        Broken::UnderOptional(0) => "an optional struct right above",
        Broken::UnderList(1) => "a list that is the second above",
        Broken::UnderKey(1) | Broken::UnderValue(1) => "a map that is the second above",
        Broken::UnderOptional(1) => "an optional struct that is the second above",
        Broken::UnderList(FIRST) => "a list, the first of 16 levels",
        Broken::UnderKey(FIRST) | Broken::UnderValue(FIRST) => "a map, the first of 16 levels",
        Broken::UnderOptional(FIRST) => "an optional struct, the first of 16 levels",
        Broken::UnderList(_) => "a list that is farther above",
        Broken::UnderKey(_) | Broken::UnderValue(_) => "a map that is farther above",
        Broken::UnderOptional(_) => "an optional struct that is farther above",
    }
}

/// How far the first of 16 levels is above the last.
const FIRST: usize = LEVELS - 2;

/// The shapes of a case that is refused with 9.
pub fn nine_shapes(case: &Case, met: &mut impl FnMut(&'static str, bool)) {
    let Some((of, place, all)) = broken_in(case) else { return };
    let mut nine = |what: &str, is: bool| {
        let words = format!(": 9 for {what}");
        let shape = SHAPES_OF_9[of as usize].iter().find(|shape| shape.ends_with(&words));
        met(shape.expect("it is listed"), is);
    };
    if let [alone] = all[..] {
        nine(words(alone), true);
    }
    nine("two conditions at once", all.len() > 1);
    nine("the second identifier or a later one", place > 0);
    let tree = if of == Of::Rebuilt { rebuilt(case) } else { base_of(case) };
    let rest = identifiers_of(case).split_off(place + 1);
    let more = tree.is_some_and(|tree| first_broken(&tree, &rest).is_some());
    nine("the first identifier of two that break one", more);
}
