//! 01's records and pool, and the two directions between them and the crate's fields. It
//! reads and writes bytes by itself, so that a slip of the second judge shows.
//!
//! A type code of 02's table is the crate's own type, and any other code c is `Fixed(c)`. Attribute
//! 0 is no doc, n is the doc "n". The default flag is some default. So every record can be told
//! again from its field.

use std::sync::Arc;

use judge::{BOOLEAN, DATE, DECIMAL, DOUBLE, FLOAT, INT, LONG, STRING, TIMESTAMP, TIMESTAMP_NS};
use judge::{DEFAULT, LIST, MAP, Node, PRIMITIVE, RECORD_BYTES, REQUIRED, STRUCT};

use crate::spec::{
    ListType, Literal, MapType, NestedField, NestedFieldRef, PrimitiveType, StructType, Type,
};

/// Why bytes have no counterpart in the crate.
pub type Unfit = &'static str;

/// The root trees of a record list.
pub fn nodes(records: &[u8], pool: &[u8]) -> Result<Vec<Node>, Unfit> {
    if !records.len().is_multiple_of(RECORD_BYTES) {
        return Err("no whole number of records");
    }
    let mut at = 0;
    let mut roots = vec![];
    while at < records.len() {
        roots.push(node(records, pool, &mut at, 0)?);
    }
    Ok(roots)
}

fn node(records: &[u8], pool: &[u8], at: &mut usize, depth: usize) -> Result<Node, Unfit> {
    if depth > 64 {
        return Err("too deep");
    }
    let r = records.get(*at..*at + RECORD_BYTES).ok_or("records past the end")?;
    *at += RECORD_BYTES;
    let word = |i: usize| u32::from_le_bytes([r[i], r[i + 1], r[i + 2], r[i + 3]]);
    let offset = word(4) as usize;
    let name = pool.get(offset..offset + r[8] as usize).ok_or("a name outside its pool")?.to_vec();
    let children = u16::from_le_bytes([r[12], r[13]]);
    let by_kind = match r[9] {
        PRIMITIVE => children == 0,
        STRUCT => word(16) == 0,
        LIST => children == 1 && word(16) == 0,
        MAP => children == 2 && word(16) == 0,
        _ => false,
    };
    if !by_kind || r[10] > 3 || r[11] != 0 || r[14] != 0 || r[15] != 0 {
        return Err("a byte rule of a record");
    }
    let inside =
        (0..children).map(|_| node(records, pool, at, depth + 1)).collect::<Result<_, _>>()?;
    let id = word(0) as i32;
    Ok(Node {
        id,
        name,
        kind: r[9],
        flags: r[10],
        type_code: word(16),
        attribute: word(20),
        inside,
    })
}

/// Records and names, packed in record order.
pub fn bytes(roots: &[Node]) -> (Vec<u8>, Vec<u8>) {
    let (mut records, mut names) = (vec![], vec![]);
    roots.iter().for_each(|root| put(root, &mut records, &mut names));
    (records, names)
}

fn put(n: &Node, records: &mut Vec<u8>, names: &mut Vec<u8>) {
    records.extend(n.id.to_le_bytes());
    records.extend((names.len() as u32).to_le_bytes());
    records.extend([n.name.len() as u8, n.kind, n.flags, 0]);
    records.extend((n.inside.len() as u16).to_le_bytes());
    records.extend([0, 0]);
    records.extend(n.type_code.to_le_bytes());
    records.extend(n.attribute.to_le_bytes());
    names.extend_from_slice(&n.name);
    n.inside.iter().for_each(|child| put(child, records, names));
}

/// A name or path as the crate takes it.
pub fn text(bytes: &[u8]) -> Result<String, Unfit> {
    String::from_utf8(bytes.to_vec()).map_err(|_| "a name that is not UTF-8")
}

/// The crate's fields for root trees.
pub fn fields(nodes: &[Node]) -> Result<Vec<NestedFieldRef>, Unfit> {
    nodes.iter().map(field).collect()
}

/// The types of the table, but for decimals.
const TYPES: [(u32, PrimitiveType); 9] = [
    (BOOLEAN, PrimitiveType::Boolean),
    (INT, PrimitiveType::Int),
    (LONG, PrimitiveType::Long),
    (DATE, PrimitiveType::Date),
    (FLOAT, PrimitiveType::Float),
    (DOUBLE, PrimitiveType::Double),
    (TIMESTAMP, PrimitiveType::Timestamp),
    (TIMESTAMP_NS, PrimitiveType::TimestampNs),
    (STRING, PrimitiveType::String),
];

/// The crate's type for a type code.
fn primitive(code: u32) -> PrimitiveType {
    if let Some((_, own)) = TYPES.iter().find(|(known, _)| *known == code) {
        return own.clone();
    }
    let digits = code.checked_sub(DECIMAL).map(|digits| (digits / 256, digits % 256));
    match digits {
        Some((precision @ 1..=38, scale)) if scale <= precision => {
            PrimitiveType::Decimal { precision, scale }
        }
        _ => PrimitiveType::Fixed(code.into()),
    }
}

/// The type code of a type that [`primitive`] gives.
fn code_of(given: &PrimitiveType) -> u32 {
    if let Some((code, _)) = TYPES.iter().find(|(_, own)| own == given) {
        return *code;
    }
    match given {
        PrimitiveType::Decimal { precision, scale } => DECIMAL + 256 * precision + scale,
        PrimitiveType::Fixed(length) if primitive(*length as u32) == *given => *length as u32,
        other => panic!("no such type was given: {other}"),
    }
}

/// The crate's field for a node.
pub fn field(n: &Node) -> Result<NestedFieldRef, Unfit> {
    let field_type = match n.kind {
        PRIMITIVE => Type::Primitive(primitive(n.type_code)),
        STRUCT => Type::Struct(StructType::new(fields(&n.inside)?)),
        LIST => Type::List(ListType { element_field: field(&n.inside[0])? }),
        _ => Type::Map(MapType {
            key_field: field(&n.inside[0])?,
            value_field: field(&n.inside[1])?,
        }),
    };
    Ok(Arc::new(NestedField {
        id: n.id,
        name: text(&n.name)?,
        required: n.flags & REQUIRED != 0,
        field_type: Box::new(field_type),
        doc: (n.attribute != 0).then(|| n.attribute.to_string()),
        initial_default: (n.flags & DEFAULT != 0).then(|| Literal::int(1)),
        write_default: None,
    }))
}

/// The nodes of the crate's fields.
pub fn nodes_of(fields: &[NestedFieldRef]) -> Vec<Node> {
    fields.iter().map(|f| node_of(f)).collect()
}

fn node_of(f: &NestedField) -> Node {
    let (kind, type_code, inside) = match f.field_type.as_ref() {
        Type::Primitive(primitive) => (PRIMITIVE, code_of(primitive), vec![]),
        Type::Struct(s) => (STRUCT, 0, nodes_of(s.fields())),
        Type::List(l) => (LIST, 0, vec![node_of(&l.element_field)]),
        Type::Map(m) => (MAP, 0, vec![node_of(&m.key_field), node_of(&m.value_field)]),
    };
    let required = if f.required { REQUIRED } else { 0 };
    let default = if f.initial_default.is_some() { DEFAULT } else { 0 };
    Node {
        id: f.id,
        name: f.name.clone().into_bytes(),
        kind,
        flags: required | default,
        type_code,
        attribute: f.doc.as_deref().map_or(0, |doc| doc.parse().expect("the doc is a number")),
        inside,
    }
}

/// The ids of a list of ids.
pub fn ids(bytes: &[u8]) -> Result<Vec<i32>, Unfit> {
    if !bytes.len().is_multiple_of(4) {
        return Err("no whole number of ids");
    }
    Ok(bytes.chunks_exact(4).map(|b| i32::from_le_bytes([b[0], b[1], b[2], b[3]])).collect())
}
