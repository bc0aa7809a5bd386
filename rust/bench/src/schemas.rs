//! The named schemas. Each has exactly the records asked for, ids from 1 in slot order, and
//! a required primitive `ident` as its first root, so that it can be an identifier.

use cases::{list_of, map_of, prim, strukt};
use judge::{LEVELS, Node, REQUIRED};

/// The names of the schemas, with what they are.
pub const SCHEMAS: [(&str, &str); 4] = [
    ("flat", "primitives at the root"),
    ("tables", "the button node's nested tables: structs, lists and maps of structs"),
    ("levels", "chains of structs, sixteen levels deep"),
    ("equal", "structs whose names all have one length"),
];

/// The schema of a name with so many records.
pub fn schema(name: &str, records: usize) -> Vec<Node> {
    let mut roots = required(vec![prim(0, "ident")]);
    let mut left = records - 1;
    while left > 0 {
        let root = match name {
            "tables" => table(roots.len(), left),
            "levels" => level(roots.len(), left.min(LEVELS)),
            "equal" => equal(roots.len(), left),
            _ => prim(0, &format!("column_{}", roots.len())),
        };
        left -= size(&root);
        roots.push(root);
    }
    numbered(roots)
}

/// The same with ids from 1 in slot order.
pub fn numbered(roots: Vec<Node>) -> Vec<Node> {
    with_ids(roots, 1..)
}

/// The same with these ids in slot order.
pub fn with_ids(mut roots: Vec<Node>, ids: impl IntoIterator<Item = i32>) -> Vec<Node> {
    number(&mut roots, &mut ids.into_iter());
    roots
}

/// The same with every record required.
pub fn required(mut roots: Vec<Node>) -> Vec<Node> {
    for node in &mut roots {
        node.flags |= REQUIRED;
        node.inside = required(std::mem::take(&mut node.inside));
    }
    roots
}

fn size(node: &Node) -> usize {
    1 + node.inside.iter().map(size).sum::<usize>()
}

fn number(nodes: &mut [Node], ids: &mut impl Iterator<Item = i32>) {
    for node in nodes {
        node.id = ids.next().expect("an id for each record");
        number(&mut node.inside, ids);
    }
}

/// One of T's three roots with a number, or primitives where it doesn't fit.
fn table(at: usize, left: usize) -> Node {
    let day = || strukt(0, "element", vec![prim(0, "day"), prim(0, "count")]);
    let price = || strukt(0, "value", vec![prim(0, "price")]);
    match at % 3 {
        0 if left >= 3 => {
            strukt(0, &format!("node_{at}"), vec![prim(0, "button"), prim(0, "cost")])
        }
        1 if left >= 4 => list_of(0, &format!("visits_{at}"), day()),
        2 if left >= 4 => map_of(0, &format!("parts_{at}"), prim(0, "key"), price()),
        _ => prim(0, &format!("floor_{at}")),
    }
}

/// Structs in each other, with a leaf in the innermost.
pub fn level(at: usize, levels: usize) -> Node {
    let inner = (1..levels).fold(prim(0, "leaf"), |inside, n| match n == levels - 1 {
        true => strukt(0, &format!("chain_{at}"), vec![inside]),
        false => strukt(0, "inner", vec![inside]),
    });
    if levels == 1 { prim(0, &format!("chain_{at}")) } else { inner }
}

fn equal(at: usize, left: usize) -> Node {
    let members = (1..left.min(32)).map(|n| prim(0, &format!("member{n:04}"))).collect();
    strukt(0, &format!("struct{at:04}"), members)
}
