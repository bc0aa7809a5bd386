//! From an accepted tree to bytes: names packed in record order from offset 0.

use crate::answer::Changed;
use crate::layout::RECORD_BYTES;
use crate::tree::Tree;

/// Writes the tree to the front of the buffers and answers the counts; the bytes beyond
/// stay as they are.
pub fn write(tree: &Tree, last_id: i32, records: &mut [u8], names: &mut [u8]) -> Changed {
    let mut offset = 0;
    for (row, r) in tree.rows.iter().zip(records.chunks_exact_mut(RECORD_BYTES)) {
        r.fill(0);
        r[0..4].copy_from_slice(&row.id.to_le_bytes());
        r[4..8].copy_from_slice(&(offset as u32).to_le_bytes());
        r[8] = row.name.len() as u8;
        r[9] = row.kind;
        r[10] = row.flags;
        r[12..14].copy_from_slice(&(row.children.len() as u16).to_le_bytes());
        r[16..20].copy_from_slice(&row.type_code.to_le_bytes());
        r[20..24].copy_from_slice(&row.attribute.to_le_bytes());
        names[offset..offset + row.name.len()].copy_from_slice(&row.name);
        offset += row.name.len();
    }
    let records = tree.rows.len() as u32;
    Changed { records, names: offset as u32, last_id, ..Changed::default() }
}
