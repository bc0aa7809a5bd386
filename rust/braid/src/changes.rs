//! What an update does to each column, for words. The library decides; this tells it again.

use braidhurdle::names::shown;
use braidhurdle::{Column, Field, FieldId, Kind, Tree};

use crate::arguments::Addition;
use crate::edits::{Change, Edit};
use crate::types;

/// What is asked of an update, as people say it.
#[derive(Clone, Copy)]
pub struct Asked<'a> {
    pub last_id: FieldId,
    /// The format version, be it known or not.
    pub version: u32,
    /// The path of each deletion.
    pub dropped: &'a [Vec<u8>],
    pub added: &'a [Addition<Field>],
    pub edits: &'a [Edit],
}

/// An update of which every path finds its column.
pub struct Changes<'a> {
    columns: Vec<Column<'a>>,
    /// The slot that each deletion finds.
    pub drops: Vec<usize>,
    /// Each addition, with its new ids, and the slot of the struct that receives it; none is the
    /// root.
    adds: Vec<(Option<usize>, Field)>,
    /// Each edit, with the slot that it finds.
    edits: Vec<(usize, &'a Edit)>,
}

impl<'a> Changes<'a> {
    /// None where the tree is refused or a path leads nowhere.
    pub fn of(tree: &'a Tree, asked: Asked<'a>) -> Option<Changes<'a>> {
        let columns: Vec<Column> = tree.columns().ok()?.collect();
        let find = |path: &Vec<u8>| Some(tree.find_name(path).ok()??.1.0 as usize);
        let drops = asked.dropped.iter().map(find).collect::<Option<_>>()?;
        let mut last = asked.last_id;
        let mut adds = vec![];
        for Addition { what, under } in asked.added {
            let above = match under {
                Some(path) => Some(receiver(&columns, find(path)?)?),
                None => None,
            };
            adds.push((above, numbered(what, &mut last)));
        }
        let edits = asked.edits.iter().map(|edit| Some((find(&edit.path)?, edit)));
        let edits = edits.collect::<Option<_>>()?;
        Some(Changes { columns, drops, adds, edits })
    }

    /// The slot of the struct that receives an addition; none is the root.
    pub fn receiver(&self, addition: usize) -> Option<usize> {
        self.adds[addition].0
    }

    /// The outermost dropped member that takes a column with it, which may be the column itself.
    pub fn taken_by(&self, slot: usize) -> Option<usize> {
        let column = &self.columns[slot];
        let above = column.parent.map(|(_, above)| above.0 as usize);
        let outer = above.and_then(|above| self.taken_by(above));
        let is_member = above.is_none_or(|above| self.columns[above].kind == Kind::Struct);
        outer.or((is_member && self.drops.contains(&slot)).then_some(slot))
    }

    /// The first edit that relaxes the column of a slot.
    pub fn relaxing(&self, slot: usize) -> Option<usize> {
        let relaxes = |edit: &Edit| matches!(edit.change, Change::Relax);
        self.edits.iter().position(|(at, edit)| *at == slot && relaxes(edit))
    }

    /// The id of the column that an edit renames.
    pub fn renames(&self, edit: usize) -> Option<FieldId> {
        let (slot, edit) = self.edits[edit];
        edit.new_name().map(|_| self.columns[slot].id)
    }

    /// The own name of a column in the end.
    fn name(&self, slot: usize) -> &[u8] {
        self.edits_of(slot).find_map(Edit::new_name).unwrap_or(self.columns[slot].name)
    }

    /// The type code of a column in the end.
    fn type_code(&self, slot: usize) -> u32 {
        self.edits_of(slot).find_map(Edit::new_code).unwrap_or(self.columns[slot].type_code)
    }

    fn edits_of(&self, slot: usize) -> impl Iterator<Item = &'a Edit> + '_ {
        self.edits.iter().filter(move |(at, _)| *at == slot).map(|(_, edit)| *edit)
    }

    /// The full name of a column in the end.
    fn full_name(&self, slot: usize) -> Vec<u8> {
        match self.columns[slot].parent {
            Some((_, above)) => joined(&self.full_name(above.0 as usize), self.name(slot)),
            None => self.name(slot).to_vec(),
        }
    }

    /// The roots of the tree that the library would write, were it not refused.
    pub fn rebuilt(&self) -> Vec<Field> {
        self.members(None)
    }

    fn members(&self, above: Option<usize>) -> Vec<Field> {
        let stays = |slot: &usize| self.taken_by(*slot).is_none();
        let mut members: Vec<Field> =
            self.children(above).filter(stays).map(|slot| self.field(slot)).collect();
        let added = self.adds.iter().filter(|(under, _)| *under == above);
        members.extend(added.map(|(_, field)| field.clone()));
        members
    }

    fn field(&self, slot: usize) -> Field {
        let column = &self.columns[slot];
        let inside = match column.kind {
            Kind::Struct => self.members(Some(slot)),
            _ => self.children(Some(slot)).map(|child| self.field(child)).collect(),
        };
        let Column { id, kind, default, attribute, .. } = *column;
        let (name, type_code) = (self.name(slot).to_vec(), self.type_code(slot));
        let required = column.required && self.relaxing(slot).is_none();
        Field { id, name, kind, required, default, type_code, attribute, inside }
    }

    fn children(&self, above: Option<usize>) -> impl Iterator<Item = usize> + '_ {
        let of = move |slot: &usize| self.columns[*slot].parent.map(|(_, p)| p.0 as usize) == above;
        (above.map_or(0, |above| above + 1)..self.columns.len()).filter(of)
    }

    /// A line for each column that was dropped, stays although a deletion finds it, was added, or
    /// was edited.
    pub fn lines(&self) -> String {
        let mut lines = String::new();
        for (nth, slot) in self.drops.iter().enumerate() {
            if !self.drops[..nth].contains(slot) {
                lines += &self.drop_line(*slot);
            }
        }
        for (under, field) in &self.adds {
            add_lines(under.map(|slot| self.full_name(slot)), field, &mut lines);
        }
        for (nth, (slot, edit)) in self.edits.iter().enumerate() {
            lines += &self.edit_line(nth, *slot, &edit.change);
        }
        lines
    }

    fn drop_line(&self, slot: usize) -> String {
        let told = self.told(slot);
        match self.taken_by(slot) {
            Some(outer) if outer == slot => match self.inside(slot) {
                0 => format!("dropped {told}\n"),
                1 => format!("dropped {told}, and 1 column inside it\n"),
                inside => format!("dropped {told}, and {inside} columns inside it\n"),
            },
            Some(outer) => format!("dropped {told}, with {}\n", self.told(outer)),
            None => {
                let above = self.columns[slot].parent.expect("a root is a member").1.0 as usize;
                let of = self.columns[above].kind;
                let own = String::from_utf8_lossy(self.columns[slot].name);
                let whole = self.told(above);
                format!("stays {told}: a {of}'s {own} is not dropped alone; drop {whole}\n")
            }
        }
    }

    fn edit_line(&self, nth: usize, slot: usize, change: &Change) -> String {
        let (told, column) = (self.told(slot), &self.columns[slot]);
        match change {
            Change::Rename(name) if name == column.name => {
                format!("stays {told}: it has this name already\n")
            }
            Change::Rename(_) => format!("renamed {told} to {}\n", shown(&self.full_name(slot))),
            Change::Relax if column.required && self.relaxing(slot) == Some(nth) => {
                format!("relaxed {told}\n")
            }
            Change::Relax => format!("stays {told}: it is optional already\n"),
            Change::Widen(code) => {
                let [old, new] = [column.type_code, *code].map(types::named);
                format!("widened {told} from {old} to {new}\n")
            }
        }
    }

    /// How many columns stand inside another.
    fn inside(&self, slot: usize) -> usize {
        let level = self.columns[slot].level;
        self.columns[slot + 1..].iter().take_while(|column| column.level > level).count()
    }

    /// A column's id and full name.
    fn told(&self, slot: usize) -> String {
        let column = &self.columns[slot];
        format!("{} {}", column.id, shown(&column.full_name()))
    }
}

/// A name below another.
fn joined(above: &[u8], name: &[u8]) -> Vec<u8> {
    [above, b".", name].concat()
}

/// A line for an added column, and for each inside it.
fn add_lines(above: Option<Vec<u8>>, field: &Field, lines: &mut String) {
    let name = match above {
        Some(above) => joined(&above, &field.name),
        None => field.name.clone(),
    };
    *lines += &format!("added {} {}\n", field.id, shown(&name));
    for child in &field.inside {
        add_lines(Some(name.clone()), child, lines);
    }
}

/// The slot of the struct that takes what is added under a column: the column itself, a list's
/// element or a map's value.
pub fn receiver(columns: &[Column], slot: usize) -> Option<usize> {
    let last_child = || {
        let below =
            |column: &Column| column.parent.is_some_and(|(_, above)| above.0 as usize == slot);
        columns.iter().rposition(below)
    };
    let at = if columns[slot].kind == Kind::Struct { slot } else { last_child()? };
    (columns[at].kind == Kind::Struct).then_some(at)
}

/// A column to add with its new ids, in preorder from the last id + 1.
fn numbered(field: &Field, last: &mut FieldId) -> Field {
    *last = FieldId(last.0.wrapping_add(1));
    let id = *last;
    let inside = field.inside.iter().map(|child| numbered(child, last)).collect();
    Field { id, inside, ..field.clone() }
}
