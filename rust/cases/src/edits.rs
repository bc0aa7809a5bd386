//! Updates with edits (02, 5/13): renames and relaxings that pass, and such as break each rule,
//! beside deletions and additions. Widenings stand by themselves.

use judge::{
    Change, EDIT_BYTES, Edit, INT, LIST, LONG, MAP, MOST_ADDITIONS, MOST_DELETIONS, MOST_EDITS,
    NAME_SUM, Names, Node, POOL_BYTES, PRIMITIVE, REQUIRED, Tree, read_paths, read_tree,
};

use crate::build::{Addition, edited, packed, prim, relax, rename, request, update_by};
use crate::case::{Ask, Case};
use crate::damage::damage;
use crate::generate::{added, deletions, last_id};
use crate::random::Random;
use crate::shapes::ids_of;
use crate::trees::{Shape, each, held, identifiers, lay, name, path_up, size, sized, tree};

/// An update with edits.
pub fn editing(random: &mut Random, shape: Shape) -> Case {
    let case = changing(random, shape, |_, _, _| ());
    let most = most_edits(random, shape);
    with_edits(random, case, most, false)
}

/// How many edits an update has at most.
pub fn most_edits(random: &mut Random, shape: Shape) -> usize {
    if shape.records > 5 && random.chance(1, 30) { MOST_EDITS } else { 4 }
}

/// An update without edits, whose deletions and additions mostly pass. Its columns are typed: those
/// of the base, of which some are identifiers, and those that are added.
pub fn changing(
    random: &mut Random,
    shape: Shape,
    typed: impl Fn(&mut Random, &mut [Node], &[i32]),
) -> Case {
    let mut base = tree(random, shape);
    let ids = identifiers(random, &mut base);
    typed(random, &mut base, &ids);
    let rows = Tree::of(&base);
    let (mut gone, mut new) = (vec![], vec![]);
    if random.chance(5, 6) {
        gone = deletions(random, &rows, &ids, true, if shape.records > 5 { 3 } else { 1 });
        new = added(random, &rows, true, 2);
        new.iter_mut().for_each(|a| typed(random, std::slice::from_mut(&mut a.column), &[]));
    }
    let last_id = last_id(random, &rows, new.iter().map(|a| size(&a.column)).sum());
    update_by(lay(random, &base), &ids, last_id, request(&gone, &new))
}

/// An update with edits of its base, if that can be read. Most of them widen, if any may.
pub fn with_edits(random: &mut Random, case: Case, most: usize, widens: bool) -> Case {
    let Some(about) = About::of(&case) else { return case };
    let edits = about.edits(random, most, widens);
    edited(case, &edits)
}

/// What edits can speak of: the base, its identifiers, what is dropped, the names of what is added,
/// and the version.
pub struct About {
    pub rows: Tree,
    pub identifiers: Vec<i32>,
    pub dropped: Vec<usize>,
    pub added: Vec<Vec<u8>>,
    pub version: u32,
}

impl About {
    pub fn of(case: &Case) -> Option<About> {
        let call = case.update_call()?;
        let rows = read_tree(call.records, call.pool, judge::BASE).ok()?;
        let paths = read_paths(call.deletions, call.request_pool, judge::DELETIONS).ok()?;
        let names = Names::of(&rows);
        let dropped = paths.iter().flatten().filter_map(|path| names.find(path)).collect();
        let added = read_tree(call.added_records, call.request_pool, judge::ADDED).ok()?;
        let added = added.roots.iter().map(|root| added.rows[*root].name.clone()).collect();
        let (identifiers, version) = (ids_of(call.identifiers), call.version);
        Some(About { rows, identifiers, dropped, added, version })
    }

    pub fn goes(&self, slot: usize) -> bool {
        let is = |slot: &usize| !held(&self.rows, *slot) && self.dropped.contains(slot);
        path_up(&self.rows, slot).iter().any(is)
    }

    pub fn is_key(&self, slot: usize) -> bool {
        let above = self.rows.rows[slot].parent.map(|above| &self.rows.rows[above]);
        above.is_some_and(|above| above.kind == MAP && above.children[0] == slot)
    }

    fn siblings(&self, slot: usize) -> &[usize] {
        match self.rows.rows[slot].parent {
            None => &self.rows.roots,
            Some(above) => &self.rows.rows[above].children,
        }
    }

    pub fn path(&self, random: &mut Random, slot: usize) -> Vec<u8> {
        // another column may have that name too
        if random.chance(1, 3) { self.rows.short_name(slot) } else { self.rows.full_name(slot) }
    }

    /// Some slot of these, if there is one.
    pub fn some(&self, random: &mut Random, is: impl Fn(usize) -> bool) -> Option<usize> {
        let fit: Vec<usize> = (0..self.rows.rows.len()).filter(|slot| is(*slot)).collect();
        if fit.is_empty() { None } else { Some(*random.pick(&fit)) }
    }

    fn edits(&self, random: &mut Random, most: usize, widens: bool) -> Vec<Edit> {
        // most requests get far; of those that widen there are more ways not to
        let tame = random.chance(if widens { 2 } else { 3 }, 5);
        let count = if most > 4 { most - random.below(2) } else { 1 + random.below(most) };
        let mut edits: Vec<Edit> = vec![];
        // the slots that are renamed, and those that are widened
        let (mut renamed, mut widened) = (vec![], vec![]);
        while edits.len() < count {
            let wrong = !tame && random.chance(1, 2);
            let widen = widens && random.chance(3, 4);
            let more = match (wrong, widen) {
                (true, false) => self.wrong(random, &edits),
                (false, false) => self.right(random, &mut renamed),
                (true, true) => self.no_step(random),
                (false, true) => self.step(random, &mut renamed, &mut widened),
            };
            edits.extend(more.unwrap_or_else(|| vec![self.any(random)]));
        }
        edits.truncate(MOST_EDITS);
        edits
    }

    /// An edit that passes, if any column stays.
    fn any(&self, random: &mut Random) -> Edit {
        let slot = self.some(random, |slot| !self.goes(slot) && !self.is_key(slot));
        slot.map_or_else(
            || relax("nothing"),
            |slot| Edit { path: self.rows.full_name(slot), change: Change::Relax },
        )
    }

    /// Edits that pass, or two columns that meet.
    fn right(&self, random: &mut Random, renamed: &mut Vec<usize>) -> Option<Vec<Edit>> {
        if random.chance(1, 3) { self.relaxing(random) } else { self.renaming(random, renamed) }
    }

    fn relaxing(&self, random: &mut Random) -> Option<Vec<Edit>> {
        let fits = |slot: usize| !self.goes(slot) && !self.is_key(slot);
        let required = |slot: usize| self.rows.rows[slot].flags & REQUIRED != 0;
        let identifier = |slot: usize| self.leads_to_an_identifier(slot);
        let slot = match random.below(9) {
            // 9 asks of it afterwards
            0 => self.some(random, identifier),
            1..=5 => self.some(random, |s| fits(s) && required(s) && !identifier(s)),
            6 | 7 => self.some(random, |s| fits(s) && held(&self.rows, s)),
            _ => self.some(random, |s| fits(s) && !identifier(s)),
        };
        let slot = slot.or_else(|| self.some(random, fits))?;
        let once = Edit { path: self.path(random, slot), change: Change::Relax };
        let times = if random.chance(1, 8) { 2 } else { 1 };
        Some(vec![once; times])
    }

    fn renaming(&self, random: &mut Random, renamed: &mut Vec<usize>) -> Option<Vec<Edit>> {
        let stays = |slot: usize| !self.goes(slot);
        let free = |s: usize| stays(s) && !held(&self.rows, s) && !renamed.contains(&s);
        let own = |slot: usize| &self.rows.rows[slot].name;
        let plain = |slot: usize| free(slot) && !own(slot).contains(&b'.');
        let before = |slot: usize| renamed.contains(&slot);
        let which = random.below(16);
        // a sibling whose name it gets: one that stays, is dropped, is renamed before it, or after it
        let pair = match which {
            0 | 1 => self.siblings_by(random, free, stays),
            2 | 3 => self.siblings_by(random, free, |s| !stays(s)),
            4 => self.siblings_by(random, free, before),
            5..=7 => self.siblings_by(random, plain, plain),
            _ => None,
        };
        let (slot, name) = match pair {
            Some((slot, other)) => (slot, own(other).clone()),
            None => {
                let identifier = |slot: usize| free(slot) && self.is_identifier(slot);
                let slot = if which == 8 { self.some(random, identifier) } else { None };
                let slot = slot.or_else(|| self.some(random, free))?;
                let name = match which {
                    9 if !self.added.is_empty() => random.pick(&self.added).clone(),
                    10 => vec![],
                    11 => vec![b'a' + random.below(26) as u8; 255],
                    12 => own(slot).clone(),
                    13 => name(random),
                    _ => fresh(random),
                };
                (slot, name)
            }
        };
        let to = |random: &mut Random, slot: usize, name: &[u8]| Edit {
            path: self.path(random, slot),
            change: Change::Rename(name.iter().copied().filter(|byte| *byte != b'.').collect()),
        };
        let mut edits = vec![to(random, slot, &name)];
        renamed.push(slot);
        if let (5..=7, Some((_, other))) = (which, pair) {
            edits.push(to(random, other, own(slot)));
            renamed.push(other);
        }
        if random.chance(1, 5) {
            let path = self.path(random, slot);
            edits.insert(random.below(2), Edit { path, change: Change::Relax });
        }
        Some(edits)
    }

    /// Two siblings, if there are such.
    fn siblings_by(
        &self,
        random: &mut Random,
        one: impl Fn(usize) -> bool,
        other: impl Fn(usize) -> bool,
    ) -> Option<(usize, usize)> {
        let beside = |slot: usize| {
            self.siblings(slot).iter().copied().filter(move |s| *s != slot).filter(|s| other(*s))
        };
        let slot = self.some(random, |slot| one(slot) && beside(slot).next().is_some())?;
        let others: Vec<usize> = beside(slot).collect();
        Some((slot, *random.pick(&others)))
    }

    pub fn is_identifier(&self, slot: usize) -> bool {
        self.identifiers.contains(&self.rows.rows[slot].id)
    }

    /// Is it an identifier, or a record above one?
    fn leads_to_an_identifier(&self, slot: usize) -> bool {
        let beneath = |s: &usize| path_up(&self.rows, *s).contains(&slot);
        (slot..self.rows.rows.len()).filter(|s| self.is_identifier(*s)).any(|s| beneath(&s))
    }

    /// Edits that break a rule: 23, 24 or 13.
    fn wrong(&self, random: &mut Random, before: &[Edit]) -> Option<Vec<Edit>> {
        let change = match random.below(3) {
            0 => Change::Relax,
            _ => Change::Rename(fresh(random)),
        };
        let any = |random: &mut Random| self.some(random, |_| true);
        Some(match random.below(13) {
            0 => {
                let mut path = any(random).map_or(vec![], |slot| self.rows.full_name(slot));
                path.extend(*random.pick(&[&b"."[..], b"x", b".element", b""]));
                vec![Edit { path, change }]
            }
            which @ 1..=4 => {
                let beneath = |slot: usize| which < 3 || !self.dropped.contains(&slot);
                let slot = self.some(random, |slot| self.goes(slot) && beneath(slot))?;
                vec![Edit { path: self.rows.full_name(slot), change }]
            }
            // a column that is added, or a name that is new
            5 if !self.added.is_empty() => {
                vec![Edit { path: random.pick(&self.added).clone(), change }]
            }
            5 | 6 => {
                let new = |edit: &Edit| match &edit.change {
                    Change::Rename(name) => Some(name.clone()),
                    Change::Relax | Change::Widen(_) => None,
                };
                vec![Edit { path: before.iter().find_map(new)?, change }]
            }
            7 | 8 => {
                let slot = self.some(random, |slot| held(&self.rows, slot))?;
                let own = self.rows.rows[slot].name.clone();
                let name = if random.chance(1, 2) { own } else { fresh(random) };
                vec![Edit { path: self.rows.full_name(slot), change: Change::Rename(name) }]
            }
            9 | 10 => {
                let slot = self.some(random, |slot| self.is_key(slot))?;
                vec![Edit { path: self.rows.full_name(slot), change: Change::Relax }]
            }
            11 => {
                let slot = self.some(random, |s| !self.goes(s) && !held(&self.rows, s))?;
                let path = self.rows.full_name(slot);
                let one = Edit { path: path.clone(), change: Change::Rename(fresh(random)) };
                let other = Edit { path, change: Change::Rename(fresh(random)) };
                if random.chance(1, 2) { vec![one.clone(), one] } else { vec![one, other] }
            }
            _ => {
                let slot = self.some(random, |s| !self.goes(s))?;
                let name = random.pick(&[&b"."[..], b"a.b", b".a", b"a."]).to_vec();
                vec![Edit { path: self.path(random, slot), change: Change::Rename(name) }]
            }
        })
    }
}

/// A name that the base mostly has not.
pub fn fresh(random: &mut Random) -> Vec<u8> {
    format!("other{}", random.below(40)).into_bytes()
}

/// Damages one edit of a case: a byte that is a number for another, or a part past its pool.
pub fn damage_edit(random: &mut Random, case: &mut Case) {
    let Ask::Update { edits, request_pool, .. } = &mut case.ask else { return };
    let count = edits.len() / EDIT_BYTES;
    if count == 0 || random.chance(1, 8) {
        return damage(random, case);
    }
    let edit = &mut edits[random.below(count) * EDIT_BYTES..][..EDIT_BYTES];
    let past = request_pool.len() as u32 + random.below(2) as u32;
    match random.below(8) {
        0 => edit[6] = *random.pick(&[0, 1, 2, 3, 4, 255]),
        1 => edit[7] = 1 + random.below(255) as u8,
        2 => edit[8 + random.below(5)] = 1 + random.below(255) as u8,
        3 => edit[13 + random.below(3)] = 1 << random.below(8),
        4 => edit[..4].copy_from_slice(&past.to_le_bytes()),
        5 => edit[8..12].copy_from_slice(&past.to_le_bytes()),
        6 => edit[4 + random.below(2)] = random.below(256) as u8,
        _ => {
            let byte = random.below(EDIT_BYTES);
            edit[byte] ^= 1 << random.below(8);
        }
    }
}

/// Edits at a limit or one past it.
pub fn edge(random: &mut Random) -> Case {
    let past = random.below(2);
    match random.below(5) {
        0 => {
            let base: Vec<Node> = (0..70).map(|n| prim(n, &format!("n{n}"))).collect();
            let case = update_by(packed(&base), &[], 100, request(&[], &[]));
            let edits: Vec<Edit> = (0..MOST_EDITS + past)
                .map(|n| {
                    if n % 3 == 0 {
                        relax("n1")
                    } else {
                        rename(&format!("n{n}"), &format!("m{n}"))
                    }
                })
                .collect();
            edited(case, &edits)
        }
        1 => {
            let base = vec![prim(1, "a")];
            let case = update_by(packed(&base), &[], 100, request(&[], &[]));
            let mut case = edited(case, &[relax("a"), rename("a", "b")]);
            if let Ask::Update { edits, .. } = &mut case.ask {
                edits.truncate(EDIT_BYTES + random.below(EDIT_BYTES));
            }
            case
        }
        2 => name_sum(random, past),
        3 => {
            let last = if random.chance(1, 2) { rename("a", "c") } else { relax("b") };
            pool(past, last)
        }
        _ => full(random, false),
    }
}

/// A rename that makes the sum of name lengths 32,768 or one more, alone or by what it leaves to an
/// addition.
fn name_sum(random: &mut Random, past: usize) -> Case {
    let long = |k: usize| format!("{k:0255}");
    let mut roots: Vec<Node> = (0..128).map(|k| prim(k, &long(k as usize))).collect();
    roots.push(prim(200, "x"));
    let left = NAME_SUM - 128 * 255 + past;
    let taken = if random.chance(1, 2) { 0 } else { 1 + random.below(left) };
    let column = prim(0, &"z".repeat(taken));
    let added = if taken == 0 { vec![] } else { vec![Addition { path: None, column }] };
    let case = update_by(packed(&roots), &[], 500, request(&[], &added));
    edited(case, &[rename("x", &"y".repeat(left - taken))])
}

/// A request pool of 32,768 bytes or one more, of which an edit has the last.
pub fn pool(past: usize, last: Edit) -> Case {
    let mut base = [prim(1, "a"), prim(2, "b")];
    base.iter_mut().for_each(|column| column.type_code = INT);
    let mut case = update_by(packed(&base), &[], 5, request(&[], &[]));
    if let Ask::Update { request_pool, .. } = &mut case.ask {
        let name = if let Change::Rename(name) = &last.change { name.len() } else { 0 };
        request_pool.resize(POOL_BYTES + past - last.path.len() - name, b'z');
    }
    edited(case, &[last])
}

/// 64 deletions, 64 additions and 64 edits of a large tree. What is a primitive is widened, if it
/// may.
pub fn full(random: &mut Random, widens: bool) -> Case {
    let records = 901 + random.below(60);
    let mut base = sized(random, records, 8);
    if widens {
        each(&mut base, &mut |node| {
            node.type_code = if node.kind == PRIMITIVE { INT } else { 0 };
        });
    }
    let rows = Tree::of(&base);
    let roots = &rows.roots;
    // what is dropped stands in one half of the roots, what is edited in the other
    let (gone, stay) = roots.split_at(roots.len() / 2);
    let dropped: Vec<Vec<u8>> =
        (0..MOST_DELETIONS).map(|k| rows.full_name(gone[k % gone.len()])).collect();
    let addition = |k: usize| Addition { path: None, column: prim(0, &format!("new{k}")) };
    let added: Vec<Addition> = (0..MOST_ADDITIONS).map(addition).collect();
    let kinds = |slot: &usize| rows.rows[*slot].kind < LIST && !held(&rows, *slot);
    let under = stay[0]..rows.rows.len();
    let edits: Vec<Edit> = under
        .filter(kinds)
        .take(MOST_EDITS)
        .map(|slot| Edit {
            path: rows.full_name(slot),
            change: match random.chance(1, 2) {
                _ if widens && rows.rows[slot].kind == PRIMITIVE => Change::Widen(LONG),
                true => Change::Relax,
                false => Change::Rename(format!("edited{slot}").into_bytes()),
            },
        })
        .collect();
    let top = rows.rows.iter().map(|row| row.id).max().unwrap_or(0);
    let last_id = if top > i32::MAX - 100 { 1_500_000_000 } else { top };
    edited(update_by(packed(&base), &[], last_id, request(&dropped, &added)), &edits)
}
