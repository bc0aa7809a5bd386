//! Updates in which nearly all records stand inside one struct. Where it is dropped they are tested
//! like any others, and not visited; where it is added all are visited.

use cases::{prim, strukt, update_of};
use judge::{MOST_RECORDS, Node};

use crate::rows::{Row, row};
use crate::schemas::{numbered, schema};

/// The schemas that are put into a struct.
pub const INSIDE: [&str; 2] = ["flat", "tables"];

/// The struct is dropped, and added. With the identifier beside it there are so many records.
pub fn inside(name: &str, records: usize) -> [Row; 2] {
    let mut columns = schema(name, records - 1);
    let identifier = columns.remove(0);
    let whole = strukt(0, "whole", columns);
    let single = prim(0, "single");
    let update = |gone: &Node, come: &Node| {
        let base = numbered(vec![identifier.clone(), gone.clone()]);
        let name = str::from_utf8(&gone.name).expect("it is plain");
        update_of(&base, &[1], MOST_RECORDS as i32, &[name], &[(None, come.clone())])
    };
    [
        row("the struct dropped, a primitive added", update(&whole, &single)),
        row("a primitive dropped, the struct added", update(&single, &whole)),
    ]
}
