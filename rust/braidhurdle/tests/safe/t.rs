//! 01's tree T, and a tree with columns that identify, of which T has none.

use braidhurdle::{Field, FieldId, Tree};

/// An optional primitive.
pub fn primitive(id: i32, name: &str) -> Field {
    Field::primitive(name, 0).id(FieldId(id))
}

/// The roots of T.
pub fn roots() -> [Field; 3] {
    let node = Field::structure("node", [primitive(4, "button"), primitive(5, "cost")]);
    let element = Field::structure("element", [primitive(7, "day")]).id(FieldId(6));
    let value = Field::structure("value", [primitive(10, "price")]).id(FieldId(9));
    [
        node.id(FieldId(1)),
        Field::list("visits", element).id(FieldId(2)),
        Field::map("parts", primitive(8, "key").required(), value).id(FieldId(3)),
    ]
}

/// T.
pub fn t() -> Tree {
    Tree::build(&roots()).expect("T fits the layout")
}

/// A tree whose `node.serial` 2 and `site` 4 can be identifiers.
pub fn keyed() -> Tree {
    let node = [primitive(2, "serial").required(), primitive(3, "cost")];
    let node = Field::structure("node", node).id(FieldId(1)).required();
    Tree::build(&[node, primitive(4, "site").required()]).expect("it fits the layout")
}

/// The ids of an accepted tree, in slot order.
pub fn ids(tree: &Tree) -> Vec<i32> {
    tree.columns().expect("an accepted tree").map(|column| column.id.0).collect()
}
