//! Trees and requests made by hand.

use judge::{
    Change, DECIMAL, EDIT_BYTES, Edit, ID_BYTES, LIST, MAP, Node, OUT_NAMES, OUT_RECORDS,
    PRIMITIVE, RECORD_BYTES, RELAX, RENAME, STRUCT, WIDEN,
};

use crate::case::{Ask, Case};

fn node(id: i32, name: &str, kind: u8, inside: Vec<Node>) -> Node {
    let name = name.as_bytes().to_vec();
    Node { id, name, kind, flags: 0, type_code: 0, attribute: 0, inside }
}

/// An optional primitive.
pub fn prim(id: i32, name: &str) -> Node {
    node(id, name, PRIMITIVE, vec![])
}

/// An optional struct of these members.
pub fn strukt(id: i32, name: &str, members: Vec<Node>) -> Node {
    node(id, name, STRUCT, members)
}

/// An optional list; the element should be named so.
pub fn list_of(id: i32, name: &str, element: Node) -> Node {
    node(id, name, LIST, vec![element])
}

/// An optional map; key and value should be named so.
pub fn map_of(id: i32, name: &str, key: Node, value: Node) -> Node {
    node(id, name, MAP, vec![key, value])
}

/// 01's tree T.
pub fn the_tree() -> Vec<Node> {
    let mut key = prim(8, "key");
    key.flags = judge::REQUIRED;
    vec![
        strukt(1, "node", vec![prim(4, "button"), prim(5, "cost")]),
        list_of(2, "visits", strukt(6, "element", vec![prim(7, "day")])),
        map_of(3, "parts", key, strukt(9, "value", vec![prim(10, "price")])),
    ]
}

/// The record bytes of one node; the offset is where its name stands.
pub fn record_bytes(node: &Node, offset: usize) -> [u8; RECORD_BYTES] {
    let mut r = [0; RECORD_BYTES];
    r[0..4].copy_from_slice(&node.id.to_le_bytes());
    r[4..8].copy_from_slice(&(offset as u32).to_le_bytes());
    r[8] = u8::try_from(node.name.len()).expect("a name has at most 255 bytes");
    r[9] = node.kind;
    r[10] = node.flags;
    r[12..14].copy_from_slice(&(node.inside.len() as u16).to_le_bytes());
    r[16..20].copy_from_slice(&node.type_code.to_le_bytes());
    r[20..24].copy_from_slice(&node.attribute.to_le_bytes());
    r
}

/// Writes trees behind what a pool holds; `place` says where a name stands in it.
pub fn laid_out(
    roots: &[Node],
    pool: &mut Vec<u8>,
    place: &mut impl FnMut(&mut Vec<u8>, &[u8]) -> usize,
) -> Vec<u8> {
    let mut records = vec![];
    for root in roots {
        let offset = place(pool, &root.name);
        records.extend(record_bytes(root, offset));
        records.extend(laid_out(&root.inside, pool, place));
    }
    records
}

/// At the end of the pool.
pub fn at_the_end(pool: &mut Vec<u8>, name: &[u8]) -> usize {
    pool.extend_from_slice(name);
    pool.len() - name.len()
}

/// Records and pool, with the names packed in record order.
pub fn packed(roots: &[Node]) -> (Vec<u8>, Vec<u8>) {
    let mut pool = vec![];
    let records = laid_out(roots, &mut pool, &mut at_the_end);
    (records, pool)
}

/// A path entry.
pub fn entry(offset: usize, length: usize, has_path: u8) -> [u8; 8] {
    let mut e = [0; 8];
    e[0..4].copy_from_slice(&(offset as u32).to_le_bytes());
    e[4..6].copy_from_slice(&(length as u16).to_le_bytes());
    e[6] = has_path;
    e
}

/// A list of ids.
pub fn id_bytes(ids: &[i32]) -> Vec<u8> {
    ids.iter().flat_map(|id| id.to_le_bytes()).collect()
}

/// A column to add, and the path of its parent; none is the root.
#[derive(Clone, Debug)]
pub struct Addition {
    pub path: Option<Vec<u8>>,
    pub column: Node,
}

/// Additions from paths and columns.
pub fn additions(of: &[(Option<&str>, Node)]) -> Vec<Addition> {
    let addition = |(path, column): &(Option<&str>, Node)| Addition {
        path: path.map(|p| p.as_bytes().to_vec()),
        column: column.clone(),
    };
    of.iter().map(addition).collect()
}

/// The bytes of a request: deletions, additions, added records, request pool. Paths come
/// first in the pool, then the new names.
pub fn request(deletions: &[Vec<u8>], added: &[Addition]) -> [Vec<u8>; 4] {
    let mut pool = vec![];
    let mut put = |path: Option<&[u8]>| match path {
        None => entry(0, 0, 0),
        Some(path) => entry(at_the_end(&mut pool, path), path.len(), 1),
    };
    let d = deletions.iter().flat_map(|path| put(Some(path))).collect();
    let a = added.iter().flat_map(|addition| put(addition.path.as_deref())).collect();
    let roots: Vec<Node> = added.iter().map(|addition| addition.column.clone()).collect();
    let records = laid_out(&roots, &mut pool, &mut at_the_end);
    [d, a, records, pool]
}

/// An update of a base made by hand.
pub fn update_of(
    base: &[Node],
    identifiers: &[i32],
    last_id: i32,
    deletions: &[&str],
    added: &[(Option<&str>, Node)],
) -> Case {
    let deletions: Vec<Vec<u8>> = deletions.iter().map(|d| d.as_bytes().to_vec()).collect();
    let bytes = request(&deletions, &additions(added));
    update_by(packed(base), identifiers, last_id, bytes)
}

/// An update by version 2, with buffers of the least size.
pub fn update_by(
    (records, pool): (Vec<u8>, Vec<u8>),
    identifiers: &[i32],
    last_id: i32,
    [deletions, additions, added_records, request_pool]: [Vec<u8>; 4],
) -> Case {
    let ask = Ask::Update {
        identifiers: id_bytes(identifiers),
        last_id,
        version: 2,
        deletions,
        additions,
        added_records,
        edits: vec![],
        request_pool,
        out_records: OUT_RECORDS,
        out_names: OUT_NAMES,
    };
    Case { records, pool, ask }
}

/// An edit that gives a column another name.
pub fn rename(path: &str, name: &str) -> Edit {
    Edit { path: path.into(), change: Change::Rename(name.into()) }
}

/// An edit that makes a column optional.
pub fn relax(path: &str) -> Edit {
    Edit { path: path.into(), change: Change::Relax }
}

/// An edit that gives a column another type.
pub fn widen(path: &str, code: u32) -> Edit {
    Edit { path: path.into(), change: Change::Widen(code) }
}

/// The same update by the steps of another version.
pub fn by_version(version: u32, mut case: Case) -> Case {
    let Ask::Update { version: named, .. } = &mut case.ask else {
        panic!("only an update names a version")
    };
    *named = version;
    case
}

/// The code of a decimal.
pub fn decimal(precision: u32, scale: u32) -> u32 {
    DECIMAL + 256 * precision + scale
}

/// The bytes of an edit: where its path stands, what it does, where its new name starts or its type
/// code, and the new name's length.
fn edit_entry(path: (usize, usize), what: u8, word: u32, length: usize) -> [u8; EDIT_BYTES] {
    let mut e = [0; EDIT_BYTES];
    e[..8].copy_from_slice(&entry(path.0, path.1, what));
    e[8..12].copy_from_slice(&word.to_le_bytes());
    e[12] = u8::try_from(length).expect("a name has at most 255 bytes");
    e
}

/// An update with more edits; their paths and new names stand at the end of its request pool.
pub fn edited(mut case: Case, more: &[Edit]) -> Case {
    let Ask::Update { edits, request_pool, .. } = &mut case.ask else {
        panic!("only an update has edits")
    };
    for Edit { path, change } in more {
        let path = (at_the_end(request_pool, path), path.len());
        edits.extend(match change {
            Change::Relax => edit_entry(path, RELAX, 0, 0),
            Change::Widen(code) => edit_entry(path, WIDEN, *code, 0),
            Change::Rename(name) => {
                let start = at_the_end(request_pool, name);
                edit_entry(path, RENAME, start as u32, name.len())
            }
        });
    }
    case
}

/// A pruning with buffers of the least size.
pub fn prune_by((records, pool): (Vec<u8>, Vec<u8>), selected: &[i32], full: bool) -> Case {
    let ask = Ask::Prune {
        selected: id_bytes(selected),
        full: full.into(),
        out_records: OUT_RECORDS,
        out_names: OUT_NAMES,
    };
    Case { records, pool, ask }
}

/// A renumbering with buffers of the least size.
pub fn renumber_by((records, pool): (Vec<u8>, Vec<u8>), identifiers: &[i32], start: i32) -> Case {
    let ask = Ask::Renumber {
        identifiers: id_bytes(identifiers),
        start,
        out_records: OUT_RECORDS,
        out_names: OUT_NAMES,
        out_identifiers: 4 * identifiers.len(),
    };
    Case { records, pool, ask }
}

/// A look-up of many ids, with a buffer of the least size.
pub fn ids_by((records, pool): (Vec<u8>, Vec<u8>), ids: &[i32]) -> Case {
    let ask = Ask::Ids { ids: id_bytes(ids), out_slots: ID_BYTES * ids.len() };
    Case { records, pool, ask }
}

/// Any other look-up, or the lister.
pub fn ask_of((records, pool): (Vec<u8>, Vec<u8>), ask: Ask) -> Case {
    Case { records, pool, ask }
}
