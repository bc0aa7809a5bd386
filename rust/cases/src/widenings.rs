//! Updates that widen types (02, 6/13): by steps that their version has, and such as break each
//! rule, beside deletions, additions and other edits.

use judge::{
    BOOLEAN, Change, DATE, DOUBLE, EDIT_BYTES, Edit, FLOAT, INT, LIST, LONG, MAP, MOST_EDITS, Node,
    PRIMITIVE, STRING, STRUCT, TIMESTAMP, TIMESTAMP_NS, VERSIONS,
};

use crate::build::{
    by_version, decimal, edited, packed, prim, relax, rename, request, update_by, widen,
};
use crate::case::{Ask, Case};
use crate::edits::{About, changing, fresh, full, most_edits, pool, with_edits};
use crate::random::Random;
use crate::trees::{Shape, each, held};

/// An update that widens.
pub fn widening(random: &mut Random, shape: Shape) -> Case {
    let case = changing(random, shape, give_types);
    let case = by_version(version(random, 30), case);
    let most = most_edits(random, shape);
    with_edits(random, case, most, true)
}

/// The version that an update names: 2 as often as 3, and once in so many times one that is none.
pub fn version(random: &mut Random, out_of: usize) -> u32 {
    match random.chance(1, out_of) {
        true => *random.pick(&[0, 1, 4, u32::MAX, 256 + 2, (1 << 24) + 3]),
        false => *random.pick(&VERSIONS),
    }
}

/// Types for all primitives. Seldom an identifier is a float or a double, which 9 refuses.
fn give_types(random: &mut Random, roots: &mut [Node], identifiers: &[i32]) {
    each(roots, &mut |node| {
        if node.kind == PRIMITIVE {
            node.type_code = code(random);
            let float = [FLOAT, DOUBLE].contains(&node.type_code);
            if float && identifiers.contains(&node.id) && random.chance(1, 2) {
                node.type_code = INT;
            }
        }
    });
}

/// A type code; most can be widened.
fn code(random: &mut Random) -> u32 {
    match random.below(16) {
        0..=2 => INT,
        3 | 4 => FLOAT,
        5..=7 => DATE,
        8..=11 => some_decimal(random),
        12 | 13 => *random.pick(&[BOOLEAN, LONG, DOUBLE, TIMESTAMP, TIMESTAMP_NS, STRING]),
        _ => outside(random),
    }
}

fn some_decimal(random: &mut Random) -> u32 {
    let precision = match random.below(4) {
        0 => *random.pick(&[1, 2]),
        1 => *random.pick(&[37, 38]),
        _ => 1 + random.below(38) as u32,
    };
    let scale = match random.below(4) {
        0 => 0,
        1 => precision,
        _ => random.below(precision as usize + 1) as u32,
    };
    decimal(precision, scale)
}

/// A code that the table has not; most are near to one that it has.
fn outside(random: &mut Random) -> u32 {
    let precision = 1 + random.below(38) as u32;
    let scale = random.below(precision as usize + 1) as u32;
    match random.below(8) {
        0 => decimal(0, random.below(2) as u32),
        1 | 2 => decimal(39, scale),
        3 | 4 => decimal(precision, precision + 1),
        5 => decimal(precision, scale) ^ 1 << *random.pick(&[15, 16, 17, 24, 31]),
        6 => *random.pick(&[INT, FLOAT, DATE]) | 1 << *random.pick(&[8, 15, 16, 24, 31]),
        _ => *random.pick(&[0, 10, 255, 256, u32::MAX]),
    }
}

impl About {
    fn code(&self, slot: usize) -> u32 {
        self.rows.rows[slot].type_code
    }

    /// The codes that the version lets a column get; 3 stands for a version that is none.
    fn wider(&self, slot: usize) -> Vec<u32> {
        match self.code(slot) {
            INT => vec![LONG],
            FLOAT => vec![DOUBLE],
            DATE if self.version != 2 => vec![TIMESTAMP, TIMESTAMP_NS],
            other => judge::decimal(other).map_or(vec![], |(precision, scale)| {
                (precision + 1..=38).map(|higher| decimal(higher, scale)).collect()
            }),
        }
    }

    /// A step from a column's code: of decimals often the shortest or the longest.
    fn wider_code(&self, random: &mut Random, slot: usize) -> Option<u32> {
        let codes = self.wider(slot);
        match random.below(3) {
            0 => codes.first().copied(),
            1 => codes.last().copied(),
            _ if codes.is_empty() => None,
            _ => Some(*random.pick(&codes)),
        }
    }

    /// A widening that passes, of a column that is not widened yet; beside it a rename or a
    /// relaxing of the same column.
    pub fn step(
        &self,
        random: &mut Random,
        renamed: &mut Vec<usize>,
        widened: &mut Vec<usize>,
    ) -> Option<Vec<Edit>> {
        let free = |s: usize| !self.goes(s) && !widened.contains(&s) && !self.wider(s).is_empty();
        let slot = match random.below(6) {
            0 => self.some(random, |s| held(&self.rows, s) && free(s)),
            1 => self.some(random, |s| self.is_identifier(s) && free(s)),
            2 => self.some(random, |s| self.is_key(s) && free(s)),
            _ => None,
        };
        let slot = slot.or_else(|| self.some(random, free))?;
        let to = self.wider_code(random, slot)?;
        widened.push(slot);
        let mut edits = vec![Edit { path: self.path(random, slot), change: Change::Widen(to) }];
        if random.chance(1, 4) && !self.is_key(slot) && !self.is_identifier(slot) {
            let path = self.path(random, slot);
            edits.insert(random.below(2), Edit { path, change: Change::Relax });
        }
        if random.chance(1, 4) && !held(&self.rows, slot) && !renamed.contains(&slot) {
            renamed.push(slot);
            let edit =
                Edit { path: self.path(random, slot), change: Change::Rename(fresh(random)) };
            edits.insert(random.below(edits.len() + 1), edit);
        }
        Some(edits)
    }

    /// Widenings that break a rule: 23, 24 or 26.
    pub fn no_step(&self, random: &mut Random) -> Option<Vec<Edit>> {
        let kind = |slot: usize| self.rows.rows[slot].kind;
        let primitive = |slot: usize| !self.goes(slot) && kind(slot) == PRIMITIVE;
        let (slot, to) = match random.below(22) {
            0 => {
                let slot = self.some(random, |_| true)?;
                let path = [self.path(random, slot), b"x".to_vec()].concat();
                return Some(vec![Edit { path, change: Change::Widen(code(random)) }]);
            }
            1..=4 => (self.some(random, |slot| self.goes(slot))?, code(random)),
            5..=8 => return self.twice(random),
            9 | 10 => {
                let other = *random.pick(&[STRUCT, LIST, MAP]);
                let slot = self.some(random, |slot| !self.goes(slot) && kind(slot) == other)?;
                (slot, *random.pick(&[0, INT, LONG]))
            }
            which => {
                let slot = self.some(random, primitive)?;
                let to = match which {
                    11 => self.code(slot),
                    12 => outside(random),
                    13 => code(random),
                    _ => not_wider(random, self.version, self.code(slot)),
                };
                (slot, to)
            }
        };
        Some(vec![Edit { path: self.rows.full_name(slot), change: Change::Widen(to) }])
    }

    /// Two widenings of one column, of which the first passes; between them may stand another edit.
    fn twice(&self, random: &mut Random) -> Option<Vec<Edit>> {
        let slot = self.some(random, |s| !self.goes(s) && !self.wider(s).is_empty())?;
        let first = self.wider_code(random, slot)?;
        let second = match random.below(4) {
            0 => first,
            1 => self.wider_code(random, slot)?,
            // from where the first leads
            2 => judge::decimal(first).map_or(first, |(p, s)| decimal(p + 1, s)),
            _ => code(random),
        };
        let path = self.rows.full_name(slot);
        let mut edits = [first, second]
            .map(|to| Edit { path: path.clone(), change: Change::Widen(to) })
            .to_vec();
        if random.chance(1, 3) && !self.is_key(slot) {
            let change = match held(&self.rows, slot) || random.chance(1, 2) {
                true => Change::Relax,
                false => Change::Rename(fresh(random)),
            };
            edits.insert(random.below(2), Edit { path, change });
        }
        Some(edits)
    }
}

/// A code that is near to a column's, and that a version does not let it get.
fn not_wider(random: &mut Random, version: u32, old: u32) -> u32 {
    match (old, judge::decimal(old)) {
        (LONG, _) => *random.pick(&[INT, INT, DOUBLE, TIMESTAMP]),
        (DOUBLE, _) => *random.pick(&[FLOAT, FLOAT, decimal(38, 0)]),
        (TIMESTAMP, _) => *random.pick(&[DATE, TIMESTAMP_NS]),
        (TIMESTAMP_NS, _) => *random.pick(&[DATE, TIMESTAMP]),
        (DATE, _) if version == 2 => *random.pick(&[TIMESTAMP, TIMESTAMP_NS]),
        (BOOLEAN..=STRING, _) => *random.pick(&[DOUBLE, DATE, STRING, decimal(38, 0), old]),
        (_, Some((precision, scale))) => {
            let other = *random.pick(&[scale + 1, scale.saturating_sub(1), 0, precision]);
            match random.below(8) {
                0 | 1 => decimal(precision, other),
                2 => decimal((precision + 1).min(38), scale + 1),
                3 => decimal(38, other),
                4 => decimal(precision - 1, scale.min(precision - 1)),
                5 => decimal(39, scale),
                6 => decimal(precision + 1, precision + 2),
                _ => *random.pick(&[DOUBLE, LONG, 256 * (precision + 1) + scale]),
            }
        }
        _ => {
            let more = old.wrapping_add(256);
            *random.pick(&[more, LONG, DOUBLE, TIMESTAMP, decimal(38, old & 255)])
        }
    }
}

/// Widenings at a limit or one past it.
pub fn edge(random: &mut Random) -> Case {
    let past = random.below(2);
    let case = match random.below(4) {
        0 => {
            let codes = [(INT, LONG), (FLOAT, DOUBLE), (decimal(1, 1), decimal(38, 1))];
            let mut base: Vec<Node> = (0..70).map(|n| prim(n, &format!("n{n}"))).collect();
            base.iter_mut().zip(0..).for_each(|(column, n)| column.type_code = codes[n % 3].0);
            let count = MOST_EDITS + past;
            // all widen, or some do something else
            let others = random.chance(1, 2);
            let edit = |n: usize| match n % 4 {
                1 if others => relax(&format!("n{n}")),
                2 if others => rename(&format!("n{n}"), &format!("m{n}")),
                _ => widen(&format!("n{n}"), codes[n % 3].1),
            };
            let edits: Vec<Edit> = (0..count).map(edit).collect();
            edited(update_by(packed(&base), &[], 100, request(&[], &[])), &edits)
        }
        1 => {
            let case = update_by(packed(&[prim(1, "a")]), &[], 100, request(&[], &[]));
            let mut case = edited(case, &[relax("a"), widen("a", LONG)]);
            if let Ask::Update { edits, .. } = &mut case.ask {
                edits.truncate(EDIT_BYTES + random.below(EDIT_BYTES));
            }
            case
        }
        2 => pool(past, widen("b", LONG)),
        _ => full(random, true),
    };
    by_version(version(random, 30), case)
}
