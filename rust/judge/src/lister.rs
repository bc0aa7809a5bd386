//! The lister: a line for each record, or the line of a refusal.

use crate::answer::Refusal;
use crate::lookup::base;

/// The lister's bytes: slot, id, parent id or `-`, full name; each line ends with a
/// newline. Names stand as they are.
pub fn list(records: &[u8], pool: &[u8]) -> Result<Vec<u8>, Refusal> {
    let tree = base(records, pool)?;
    let mut lines = vec![];
    for (slot, row) in tree.rows.iter().enumerate() {
        let parent = row.parent.map_or("-".to_string(), |p| tree.rows[p].id.to_string());
        lines.extend(format!("{slot} {} {parent} ", row.id).into_bytes());
        lines.extend(tree.full_name(slot));
        lines.push(b'\n');
    }
    Ok(lines)
}
