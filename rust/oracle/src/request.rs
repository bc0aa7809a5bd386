//! An update's request, as the crate's own action.

use std::sync::Arc;

use judge::{Change, EDIT_BYTES, ENTRY_BYTES, Edit, Node, RELAX, RENAME, STRUCT, WIDEN};

use crate::fields::{Unfit, field, nodes, text};
use crate::spec::Schema;
use crate::table::Table;
use crate::transaction::AddColumn;
use crate::transaction::action::TransactionAction;
use crate::transaction::update_schema::UpdateSchemaAction;
use crate::{Result, TableUpdate};

/// 01's request, unpacked.
#[derive(Clone)]
pub struct Request {
    pub deletions: Vec<Vec<u8>>,
    /// The parent's path, none for the root, and the new column.
    pub additions: Vec<(Option<Vec<u8>>, Node)>,
}

type Path = Option<Vec<u8>>;

fn paths(bytes: &[u8], pool: &[u8]) -> std::result::Result<Vec<Path>, Unfit> {
    if !bytes.len().is_multiple_of(ENTRY_BYTES) {
        return Err("no whole number of entries");
    }
    bytes.chunks_exact(ENTRY_BYTES).map(|entry| path(entry, pool)).collect()
}

fn path(e: &[u8], pool: &[u8]) -> std::result::Result<Path, Unfit> {
    let offset = u32::from_le_bytes([e[0], e[1], e[2], e[3]]) as usize;
    let length = u16::from_le_bytes([e[4], e[5]]) as usize;
    match (e[6], e[7]) {
        (0, 0) if offset == 0 && length == 0 => Ok(None),
        (1, 0) => match pool.get(offset..offset + length) {
            Some(path) => Ok(Some(path.to_vec())),
            None => Err("a path outside its pool"),
        },
        _ => Err("a byte rule of an entry"),
    }
}

/// The edits of these bytes.
pub fn edits(bytes: &[u8], pool: &[u8]) -> std::result::Result<Vec<Edit>, Unfit> {
    if !bytes.len().is_multiple_of(EDIT_BYTES) {
        return Err("no whole number of edits");
    }
    bytes.chunks_exact(EDIT_BYTES).map(|edit| one_edit(edit, pool)).collect()
}

fn one_edit(e: &[u8], pool: &[u8]) -> std::result::Result<Edit, Unfit> {
    let word = |at: usize| u32::from_le_bytes([e[at], e[at + 1], e[at + 2], e[at + 3]]) as usize;
    let part = |offset: usize, length: usize| {
        pool.get(offset..offset + length).map(<[u8]>::to_vec).ok_or("an edit outside its pool")
    };
    let path = part(word(0), u16::from_le_bytes([e[4], e[5]]).into())?;
    let change = match (e[6], e[12]) {
        (RENAME, length) => Change::Rename(part(word(8), length.into())?),
        (RELAX, 0) if word(8) == 0 => Change::Relax,
        (WIDEN, 0) => Change::Widen(word(8) as u32),
        _ => return Err("a byte rule of an edit"),
    };
    match (e[7], &e[13..]) {
        (0, [0, 0, 0]) => Ok(Edit { path, change }),
        _ => Err("a byte rule of an edit"),
    }
}

impl Request {
    /// The request of these bytes.
    pub fn new(
        deletions: &[u8],
        additions: &[u8],
        added_records: &[u8],
        pool: &[u8],
    ) -> std::result::Result<Request, Unfit> {
        let roots = nodes(added_records, pool)?;
        let parents = paths(additions, pool)?;
        if roots.len() != parents.len() {
            return Err("roots differ from additions");
        }
        let deletions = paths(deletions, pool)?.into_iter().collect::<Option<_>>();
        Ok(Request {
            deletions: deletions.ok_or("a deletion without a path")?,
            additions: parents.into_iter().zip(roots).collect(),
        })
    }

    /// The first so many deletions, then additions.
    pub fn first(&self, entries: usize) -> Request {
        let deletions = entries.min(self.deletions.len());
        Request {
            deletions: self.deletions[..deletions].to_vec(),
            additions: self.additions[..entries - deletions].to_vec(),
        }
    }

    /// The same request with other names for the added members, which no other column has: longer
    /// than a record's, and without a dot. Answers the true names too, in preorder.
    pub fn with_other_names(&self) -> (Request, Vec<Vec<u8>>) {
        fn rename(node: &mut Node, member: bool, names: &mut Vec<Vec<u8>>) {
            names.push(node.name.clone());
            if member {
                node.name = format!("{:0256}", names.len()).into_bytes();
            }
            let members = node.kind == STRUCT;
            node.inside.iter_mut().for_each(|child| rename(child, members, names));
        }
        let (mut other, mut names) = (self.clone(), vec![]);
        other.additions.iter_mut().for_each(|(_, column)| rename(column, true, &mut names));
        (other, names)
    }

    /// Records in the additions tree.
    pub fn added(&self) -> usize {
        fn size(node: &Node) -> usize {
            1 + node.inside.iter().map(size).sum::<usize>()
        }
        self.additions.iter().map(|(_, column)| size(column)).sum()
    }

    /// The crate's action.
    pub fn action(&self) -> std::result::Result<Action, Unfit> {
        let mut action = UpdateSchemaAction::new();
        for path in &self.deletions {
            action = action.delete_column(text(path)?);
        }
        for (path, column) in &self.additions {
            action = action.add_column(add_column(path.as_deref(), column)?);
        }
        Ok(Action(Arc::new(action)))
    }
}

/// `AddColumn` has private fields, and its builder's type changes with each setter.
fn add_column(path: Option<&[u8]>, column: &Node) -> std::result::Result<AddColumn, Unfit> {
    let f = field(column)?;
    let new = AddColumn::builder()
        .name(f.name.clone())
        .required(f.required)
        .field_type(*f.field_type.clone());
    let parent = path.map(text).transpose()?;
    Ok(match (parent, f.doc.clone(), f.initial_default.clone()) {
        (None, None, None) => new.build(),
        (None, None, Some(i)) => new.initial_default(i).build(),
        (None, Some(d), None) => new.doc(d).build(),
        (None, Some(d), Some(i)) => new.doc(d).initial_default(i).build(),
        (Some(p), None, None) => new.parent(p).build(),
        (Some(p), None, Some(i)) => new.parent(p).initial_default(i).build(),
        (Some(p), Some(d), None) => new.parent(p).doc(d).build(),
        (Some(p), Some(d), Some(i)) => new.parent(p).doc(d).initial_default(i).build(),
    })
}

/// An action that can be committed again and again.
pub struct Action(Arc<UpdateSchemaAction>);

impl Action {
    /// The schema out of `commit`.
    pub fn commit(&self, table: &Table) -> Result<Schema> {
        let mut done = futures::executor::block_on(self.0.clone().commit(table))?;
        match done.take_updates().into_iter().next() {
            Some(TableUpdate::AddSchema { schema }) => Ok(schema),
            _ => unreachable!("commit gives the schema first"),
        }
    }
}
