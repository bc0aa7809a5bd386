//! Rename and relax (02, 5/13). Its readings have their numbers in docs/DECISIONS.md.

use super::*;
use crate::build::{edited, relax, rename, the_tree};
use judge::{Change, EDIT_BYTES, Edit};

pub fn put(all: &mut Cases) {
    what_changes(all);
    pairs_on_one_column(all);
    roles(all);
    paths(all);
    what_goes(all);
    names(all);
    beside_additions(all);
    identifiers(all);
    bytes(all);
    limits(all);
    order_in_one_edit(all);
    order_of_edits(all);
    after_additions(all);
    before_the_rebuilt_tree(all);
    before_the_base(all);
}

/// An update with these edits and nothing else.
fn editing(base: &[Node], edits: &[Edit]) -> Case {
    edited(update(base, 10, &[], &[]), edits)
}

/// The same with deletions.
fn editing_beside(base: &[Node], drop: &[&str], edits: &[Edit]) -> Case {
    edited(update(base, 10, drop, &[]), edits)
}

fn columns(columns: &[(i32, &str, u8)]) -> Expected {
    Expected::Columns(
        columns.iter().map(|(id, name, flags)| (*id, name.to_string(), *flags)).collect(),
    )
}

/// Two roots: one is required and has a default, one is optional.
fn two() -> Vec<Node> {
    vec![required(with_default(p(1, "a"))), p(2, "b")]
}

/// A list and a map whose insides are required.
fn held() -> Vec<Node> {
    let list = l(1, "l", required(p(2, "element")));
    vec![list, m(3, "m", required(p(4, "key")), required(p(5, "value")))]
}

/// A list of structs with a member `a`.
fn structs() -> Vec<Node> {
    vec![l(1, "l", s(2, "element", vec![p(3, "a")]))]
}

fn what_changes(all: &mut Cases) {
    let title = "5/13: a rename keeps the flags";
    all.put(title, editing(&two(), &[rename("a", "c")]), columns(&[(1, "c", 3), (2, "b", 0)]));
    for flags in 0..4 {
        let mut base = [p(1, "a")];
        base[0].flags = flags;
        let title = "5/13: relaxing clears one flag";
        all.put(title, editing(&base, &[relax("a")]), columns(&[(1, "a", flags & 2)]));
    }
    let kinds = [
        required(s(1, "s", vec![required(p(2, "x"))])),
        required(l(3, "l", required(p(4, "element")))),
        required(m(5, "m", required(p(6, "key")), required(p(7, "value")))),
    ];
    let edits = ["s", "l", "m"].map(relax);
    let inside = [(2, "x"), (4, "element"), (6, "key"), (7, "value")];
    let shown = |of: [(i32, &str); 3]| {
        let [s, l, m] = of.map(|(id, name)| (id, name.to_string(), 0));
        let [x, e, k, v] = inside.map(|(id, name)| (id, name.to_string(), 1));
        Expected::Columns(vec![s, x, l, e, m, k, v])
    };
    let title = "5/13: any kind is relaxed, and its inside stays";
    all.put(title, editing(&kinds, &edits), shown([(1, "s"), (3, "l"), (5, "m")]));
    let both = [relax("s"), relax("l"), relax("m"), rename("s", "n")];
    let title = "5/13: any kind is renamed, and its inside stays";
    all.put(title, editing(&kinds, &both), shown([(1, "n"), (3, "l"), (5, "m")]));
    let edits = [rename("l", "k"), rename("m", "n"), relax("l"), relax("m"), relax("s")];
    all.put(title, editing(&kinds, &edits), shown([(1, "s"), (3, "k"), (5, "n")]));
    let mut rich = p(1, "a");
    (rich.type_code, rich.attribute, rich.flags) = (u32::MAX, 77, 3);
    let case = editing(&[rich], &[rename("a", "b"), relax("a")]);
    all.put("5/13: type code and attribute stay", case, columns(&[(1, "b", 2)]));
    let case = but(editing(&two(), &[rename("a", "c")]), |case| {
        if let Ask::Update { last_id, .. } = &mut case.ask {
            *last_id = i32::MIN;
        }
    });
    all.put("5/13: an edit consumes no id", case, last(&[1, 2], i32::MIN));
}

/// Every pair of edits on one column, as a root, a member, an element, a key and a value.
fn pairs_on_one_column(all: &mut Cases) {
    let member = [s(9, "s", vec![required(with_default(p(1, "a")))])];
    let roots = two();
    for (base, path) in [(&roots[..], "a"), (&member[..], "s.a")] {
        let kinds = [rename(path, "c"), rename(path, "d"), rename(path, "a"), relax(path)];
        for one in &kinds {
            for other in &kinds {
                let expected = match (&one.change, &other.change) {
                    (Change::Rename(_), Change::Rename(_)) => refused(24, 6, 1),
                    (Change::Rename(name), _) | (_, Change::Rename(name)) => {
                        pair(base, str::from_utf8(name).expect("a letter"))
                    }
                    _ => pair(base, "a"),
                };
                let case = editing(base, &[one.clone(), other.clone()]);
                all.put("5/13: two edits of one column", case, expected);
            }
        }
    }
    let relaxed = |id: i32| {
        let flags = |at: i32| u8::from(at != 1 && at != 3 && at != id);
        let names = [(1, "l"), (2, "element"), (3, "m"), (4, "key"), (5, "value")];
        columns(&names.map(|(at, name)| (at, name, flags(at))))
    };
    for (path, id) in [("l.element", 2), ("m.key", 4), ("m.value", 5)] {
        let own = path.rsplit('.').next().expect("a name");
        let kinds = [rename(path, "c"), rename(path, own), relax(path)];
        for (at, one) in kinds.iter().enumerate() {
            for (next, other) in kinds.iter().enumerate() {
                let expected = match (at == 2 && id != 4, next == 2) {
                    (false, _) => refused(24, 6, 0),
                    (true, false) => refused(24, 6, 1),
                    (true, true) => relaxed(id),
                };
                let case = editing(&held(), &[one.clone(), other.clone()]);
                all.put("5/13: two edits of an element, key or value", case, expected);
            }
        }
    }
}

/// What a pair with a relaxing leaves of `a`, which had both flags.
fn pair(base: &[Node], name: &str) -> Expected {
    match base.len() {
        1 => columns(&[(9, "s", 0), (1, name, 2)]),
        _ if name == "a" => columns(&[(1, "a", 2), (2, "b", 0)]),
        _ => columns(&[(1, name, 2), (2, "b", 0)]),
    }
}

fn roles(all: &mut Cases) {
    let optional = [m(1, "m", p(2, "key"), p(3, "value"))];
    let title = "reading 181: an optional key is not relaxed either";
    all.put(title, editing(&optional, &[relax("m.key")]), refused(24, 6, 0));
    let t = the_tree();
    for path in ["visits.element", "parts.key", "parts.value"] {
        let case = editing(&t, &[rename(path, "x")]);
        all.put("5/13: no rename of an element, key or value", case, refused(24, 6, 0));
    }
    for name in ["element", "key", "value"] {
        let path = format!("s.{name}");
        let base = [s(1, "s", vec![required(p(2, name))]), required(p(3, name))];
        let edits = [rename(name, "x"), relax(name), rename(&path, "y"), relax(&path)];
        let expected = columns(&[(1, "s", 0), (2, "y", 0), (3, "x", 0)]);
        all.put("5/13: a member with such a name is a member", editing(&base, &edits), expected);
        let case = editing(&[p(1, "a")], &[rename("a", name)]);
        all.put("5/13: a column may get such a name", case, columns(&[(1, name, 0)]));
    }
    let keys = [m(1, "m", s(2, "key", vec![required(p(3, "k"))]), p(4, "value"))];
    let case = editing(&keys, &[rename("m.key.k", "x"), relax("m.key.k")]);
    let shown = [(1, "m", 0), (2, "key", 0), (3, "x", 0), (4, "value", 0)];
    all.put("5/13: what is inside a key is edited", case, columns(&shown));
    let deep = [l(1, "l", l(2, "element", required(p(3, "element"))))];
    let case = editing(&deep, &[relax("l.element.element")]);
    let shown = [(1, "l", 0), (2, "element", 0), (3, "element", 0)];
    all.put("5/13: an element of an element", case, columns(&shown));
}

/// Paths look in the base as it was.
fn paths(all: &mut Cases) {
    let title = "reading 183: a path looks in the base as it was";
    all.put(title, editing(&two(), &[rename("a", "c"), relax("c")]), refused(23, 6, 1));
    let case = editing(&two(), &[rename("a", "c"), relax("a")]);
    all.put(title, case, columns(&[(1, "c", 2), (2, "b", 0)]));
    let both = [required(p(1, "a")), required(p(2, "b"))];
    let case = editing(&both, &[rename("a", "b"), rename("b", "c"), relax("b")]);
    all.put(title, case, columns(&[(1, "b", 1), (2, "c", 0)]));
    let node = [required(s(1, "s", vec![required(p(2, "x"))]))];
    let case = editing(&node, &[rename("s", "t"), rename("s.x", "y")]);
    all.put(title, case, columns(&[(1, "t", 1), (2, "y", 1)]));
    let case = editing(&node, &[rename("s", "t"), relax("t.x")]);
    all.put(title, case, refused(23, 6, 1));
    let added = update(&two(), 10, &[], &[(None, p(0, "c"))]);
    let title = "reading 183: what is added is not edited";
    all.put(title, edited(added.clone(), &[relax("c")]), refused(23, 6, 0));
    all.put(title, edited(added, &[rename("c", "d")]), refused(23, 6, 0));
    let again = update(&two(), 10, &["a"], &[(None, p(0, "a"))]);
    all.put(title, edited(again, &[relax("a")]), refused(23, 6, 0));
    let t = the_tree();
    let title = "5/13: full and short names";
    let edits = [rename("visits.day", "hour"), rename("parts.value.price", "sum")];
    let shown = [
        (1, "node", 0),
        (4, "button", 0),
        (5, "cost", 0),
        (2, "visits", 0),
        (6, "element", 0),
        (7, "hour", 0),
        (3, "parts", 0),
        (8, "key", 1),
        (9, "value", 0),
        (10, "sum", 0),
    ];
    all.put(title, editing(&t, &edits), columns(&shown));
    let twice = [rename("visits.day", "hour"), rename("visits.element.day", "date")];
    let title = "5/13: a second rename by the other name";
    all.put(title, editing(&t, &twice), refused(24, 6, 1));
    for path in ["day", "visits.", "visits.element.", "", "Visits", "visits.element.day.x"] {
        all.put("5/13: nothing is found", editing(&t, &[relax(path)]), refused(23, 6, 0));
    }
    let case = editing(&[required(p(1, ""))], &[relax(""), rename("", "a")]);
    all.put("5/13: the path of no bytes", case, columns(&[(1, "a", 0)]));
    let case = editing(&[], &[relax("a")]);
    all.put("5/13: an empty base", case, refused(23, 6, 0));
    let dotted = [required(p(1, "a.b")), s(2, "c", vec![required(p(3, "b"))])];
    let case = editing(&dotted, &[relax("a.b"), rename("a.b", "d")]);
    all.put("5/13: a name with a dot", case, columns(&[(1, "d", 0), (2, "c", 0), (3, "b", 1)]));
}

/// 23 for what is dropped as a member or stands beneath it.
fn what_goes(all: &mut Cases) {
    let t = the_tree();
    let title = "reading 184: what goes is not edited";
    for (dropped, path) in [
        ("node", "node"),
        ("node", "node.cost"),
        ("node.cost", "node.cost"),
        ("visits", "visits.element"),
        ("visits", "visits.day"),
        ("parts", "parts.key"),
        ("parts", "parts.value"),
        ("parts", "parts.price"),
    ] {
        for edit in [relax(path), rename(path, "x")] {
            all.put(title, editing_beside(&t, &[dropped], &[edit]), refused(23, 6, 0));
        }
    }
    let sixteen = vec!["s"; 16].join(".");
    for levels in [1, 8, 15, 16] {
        let dropped = vec!["s"; levels].join(".");
        let case = editing_beside(&[chain(16)], &[&dropped], &[relax(&sixteen)]);
        all.put("reading 184: each distance", case, refused(23, 6, 0));
    }
    let title = "reading 184: a dropped element, key or value stays";
    let edits = [relax("l.element"), rename("l.a", "b")];
    let case = editing_beside(&structs(), &["l.element"], &edits);
    all.put(title, case, columns(&[(1, "l", 0), (2, "element", 0), (3, "b", 0)]));
    let case = editing_beside(
        &held(),
        &["m.value", "m.key", "l.element"],
        &[relax("m.value"), relax("l.element")],
    );
    let shown = [(1, "l", 0), (2, "element", 0), (3, "m", 0), (4, "key", 1), (5, "value", 0)];
    all.put(title, case, columns(&shown));
    let case = editing_beside(&held(), &["m.key"], &[relax("m.key")]);
    all.put(title, case, refused(24, 6, 0));
    let keyed = [m(1, "m", s(2, "key", vec![required(p(3, "k"))]), p(4, "value"))];
    let case = editing_beside(&keyed, &["m.key"], &[relax("m.key.k")]);
    let shown = [(1, "m", 0), (2, "key", 0), (3, "k", 0), (4, "value", 0)];
    all.put(title, case, columns(&shown));
    let case = editing_beside(&structs(), &["l.element", "l.a"], &[relax("l.a")]);
    all.put("reading 184: an element and a member", case, refused(23, 6, 0));
    let beside = [s(1, "a", vec![p(2, "x"), required(p(3, "y"))]), required(p(4, "z"))];
    let case = editing_beside(&beside, &["a.x"], &[relax("a.y"), rename("a", "b"), relax("z")]);
    let shown = [(1, "b", 0), (3, "y", 0), (4, "z", 0)];
    all.put("5/13: what is dropped beside is no reason", case, columns(&shown));
    let ids = [s(1 << 22, "a", vec![]), required(p(2 << 22, "b")), p(i32::MIN, "c")];
    let case = editing_beside(&ids, &["a", "c"], &[relax("b")]);
    all.put("5/13: ids that share their low bits", case, columns(&[(2 << 22, "b", 0)]));
}

fn names(all: &mut Cases) {
    let title = "reading 182: the present name is a name";
    all.put(title, editing(&two(), &[rename("a", "a")]), columns(&[(1, "a", 3), (2, "b", 0)]));
    let title = "reading 182: a second rename, to whatever name";
    let edits = [rename("a", "a"), relax("a"), rename("b", "c"), rename("a", "a")];
    all.put(title, editing(&two(), &edits), refused(24, 6, 3));
    let title = "reading 187: an empty name is a name";
    all.put(title, editing(&two(), &[rename("a", "")]), columns(&[(1, "", 3), (2, "b", 0)]));
    let case = editing(&two(), &[rename("a", ""), rename("b", "")]);
    all.put(title, case, refused(8, 4, 1));
    let title = "reading 185: two columns exchange names";
    let case = editing(&two(), &[rename("a", "b"), rename("b", "a")]);
    all.put(title, case, columns(&[(1, "b", 3), (2, "a", 0)]));
    let three = [p(1, "a"), p(2, "b"), p(3, "c")];
    let case = editing(&three, &[rename("a", "b"), rename("b", "c"), rename("c", "a")]);
    all.put(title, case, columns(&[(1, "b", 0), (2, "c", 0), (3, "a", 0)]));
    let title = "5/13: onto a sibling";
    all.put(title, editing(&two(), &[rename("a", "b")]), refused(8, 4, 1));
    all.put(title, editing(&two(), &[rename("b", "a")]), refused(8, 4, 1));
    let members = [s(1, "s", vec![p(2, "a"), p(3, "b")]), p(4, "z")];
    all.put(title, editing(&members, &[rename("s.a", "b")]), refused(8, 4, 2));
    let case = editing(&members, &[rename("s.a", "z")]);
    let shown = [(1, "s", 0), (2, "z", 0), (3, "b", 0), (4, "z", 0)];
    all.put("5/13: a name of another struct", case, columns(&shown));
    let title = "5/13: onto a dropped sibling";
    let case = editing_beside(&two(), &["a"], &[rename("b", "a")]);
    all.put(title, case, columns(&[(2, "a", 0)]));
    let case = editing_beside(&members, &["s.b"], &[rename("s.a", "b")]);
    all.put(title, case, columns(&[(1, "s", 0), (2, "b", 0), (4, "z", 0)]));
    let dotted = [p(1, "a.b"), s(2, "c", vec![p(3, "b")])];
    let title = "5/13: full names meet across dots";
    all.put(title, editing(&dotted, &[rename("c", "a")]), refused(8, 4, 2));
    let case = editing(&dotted, &[rename("c", "a"), rename("a.b", "x")]);
    all.put(title, case, columns(&[(1, "x", 0), (2, "a", 0), (3, "b", 0)]));
    let listed = [p(1, "k.element"), l(2, "l", p(3, "element"))];
    all.put(title, editing(&listed, &[rename("l", "k")]), refused(8, 4, 2));
    let case = editing(&two(), &[rename("a", "B"), rename("b", "A")]);
    all.put("5/13: names that differ in case", case, columns(&[(1, "B", 3), (2, "A", 0)]));
    let bytes = Edit { path: b"a".to_vec(), change: Change::Rename(vec![0xFF, 0, 0xC3]) };
    let case = editing(&two(), &[bytes]);
    all.put("5/13: a new name that is not UTF-8", case, ids(&[1, 2]));
    let twin = [structs(), vec![p(4, "l.a")]].concat();
    let case = editing(&twin, &[rename("l.a", "b")]);
    let shown = [(1, "l", 0), (2, "element", 0), (3, "a", 0), (4, "b", 0)];
    all.put("5/13: a full name hides a short one", case, columns(&shown));
}

/// Edits come after the additions.
fn beside_additions(all: &mut Cases) {
    let adding = |path: Option<&str>, name: &str| update(&two(), 10, &[], &[(path, p(0, name))]);
    let title = "reading 185: a name that a rename frees is taken";
    all.put(title, edited(adding(None, "a"), &[rename("a", "c")]), refused(17, 3, 0));
    let members = [s(1, "s", vec![p(2, "a")])];
    let under = |name: &str| update(&members, 10, &[], &[(Some("s"), p(0, name))]);
    all.put(title, edited(under("a"), &[rename("s.a", "b")]), refused(17, 3, 0));
    let title = "reading 185: a name that a rename takes is free";
    all.put(title, edited(adding(None, "c"), &[rename("a", "c")]), refused(8, 4, 2));
    all.put(title, edited(under("b"), &[rename("s.a", "b")]), refused(8, 4, 2));
    let case = edited(under("b"), &[rename("s", "t"), rename("s.a", "c")]);
    all.put("5/13: beside an addition", case, columns(&[(1, "t", 0), (2, "c", 0), (11, "b", 0)]));
    let title = "5/13: an addition's parent is found by its old name";
    let by_new = update(&members, 10, &[], &[(Some("t"), p(0, "b"))]);
    all.put(title, edited(by_new, &[rename("s", "t")]), refused(15, 3, 0));
    let title = "5/13: a deletion's path is the old one";
    all.put(title, editing_beside(&two(), &["c"], &[rename("a", "c")]), refused(11, 2, 0));
    let title = "5/13: an edit can part names that meet";
    let case = update(&the_tree(), 10, &["visits.element"], &[(Some("visits"), p(0, "day"))]);
    let mut known = vec![1, 4, 5, 2, 6, 7, 11, 3, 8, 9, 10];
    all.put(
        title,
        edited(case, &[rename("visits.day", "date")]),
        Expected::Last(known.clone(), 11),
    );
    let case = update(&the_tree(), 10, &["node"], &[(None, s(0, "node", vec![p(0, "cost")]))]);
    known = vec![2, 6, 7, 3, 8, 9, 10, 11, 12];
    all.put(
        "5/13: beside a new root in a dropped one's place",
        edited(case, &[rename("visits", "calls"), relax("parts")]),
        Expected::Last(known, 12),
    );
    let again =
        update(&[required(p(1, "a")), required(p(2, "b"))], 0, &["a"], &[(None, p(0, "d"))]);
    let case = edited(again.clone(), &[rename("b", "c")]);
    let title = "5/13: an added column with a dropped one's id is not edited";
    all.put(title, case, columns(&[(2, "c", 1), (1, "d", 0)]));
    all.put(title, edited(again, &[relax("a")]), refused(23, 6, 0));
}

/// 9 of the rebuilt tree, since nothing else asks of identifiers.
fn identifiers(all: &mut Cases) {
    let keyed = super::identifiers::keyed();
    let editing = |ids: &[i32], edits: &[Edit]| edited(update_of(&keyed, ids, 10, &[], &[]), edits);
    let title = "reading 188: an identifier is not relaxed";
    all.put(title, editing(&[2, 5], &[relax("site")]), refused(9, 5, 0));
    all.put(title, editing(&[2, 5], &[relax("node.cost")]), refused(9, 5, 1));
    all.put(title, editing(&[2, 5, 5], &[relax("node.cost")]), refused(9, 5, 1));
    let title = "reading 188: nor is a struct above it";
    all.put(title, editing(&[2, 5], &[relax("node")]), refused(9, 5, 1));
    let title = "5/13: an identifier is renamed";
    let edits = [rename("site", "place"), rename("node.cost", "price"), rename("node", "board")];
    let shown = [(1, "board", 1), (5, "price", 1), (4, "button", 0), (2, "place", 1)];
    all.put(title, editing(&[2, 5], &edits), columns(&shown));
    let title = "5/13: what stands beside an identifier is relaxed";
    let shown = [(1, "node", 0), (5, "cost", 0), (4, "button", 0), (2, "site", 1)];
    all.put(title, editing(&[2], &[relax("node"), relax("node.cost")]), columns(&shown));
    let path = |levels: usize| vec!["s"; levels].join(".");
    let deep = (2..=16).fold(required(p(1, "s")), |inside, id| required(s(id, "s", vec![inside])));
    for level in [1, 2, 15, 16] {
        let case = update_of(std::slice::from_ref(&deep), &[1], 20, &[], &[]);
        let title = "reading 188: at each distance";
        all.put(title, edited(case, &[relax(&path(level))]), refused(9, 5, 0));
    }
}

/// An update whose edits are changed in one byte.
fn with_byte(edits: &[Edit], at: usize, byte: usize, value: u8) -> Case {
    but(editing(&two(), edits), |case| edits_of(case)[at * EDIT_BYTES + byte] = value)
}

/// 3 and 4 of an edit.
fn bytes(all: &mut Cases) {
    let both = [rename("a", "c"), relax("b")];
    let title = "5/13: 3 of an edit";
    for at in [0, 1] {
        for (byte, value) in [
            (6, 0),
            (6, 3),
            (6, 4),
            (6, 255),
            (7, 1),
            (7, 128),
            (13, 1),
            (14, 1),
            (15, 1),
            (15, 128),
        ] {
            // what relaxes has no name, so with 3 it widens to code 0 since 6/13
            let (title, number) = match (at, byte, value) {
                (1, 6, 3) => ("6/13: 3 is no broken byte but widens", 26),
                _ => (title, 3),
            };
            all.put(title, with_byte(&both, at, byte, value), refused(number, 6, at as u32));
        }
    }
    for byte in 8..13 {
        let title = "5/13: 3 of one that relaxes and has a new name";
        all.put(title, with_byte(&both, 1, byte, 1), refused(3, 6, 1));
    }
    // the pool holds a, c and b
    let title = "5/13: 4 of a path";
    for at in [0, 1] {
        for (byte, value) in [(0, 3), (1, 1), (2, 1), (3, 128), (4, 4), (5, 1)] {
            all.put(title, with_byte(&both, at, byte, value), refused(4, 6, at as u32));
        }
    }
    let title = "5/13: 4 of a new name";
    for (byte, value) in [(8, 3), (8, 4), (9, 1), (10, 1), (11, 255), (12, 3), (12, 255)] {
        all.put(title, with_byte(&both, 0, byte, value), refused(4, 6, 0));
    }
    let ends = |path: [u8; 2], name: [u8; 2]| {
        but(editing(&[p(1, ""), p(2, "acb")], &[rename("a", "cb")]), |case| {
            let edits = edits_of(case);
            (edits[0], edits[4], edits[8], edits[12]) = (path[0], path[1], name[0], name[1]);
        })
    };
    let title = "5/13: parts that end with the pool";
    all.put(title, ends([3, 0], [0, 1]), columns(&[(1, "a", 0), (2, "acb", 0)]));
    all.put(title, ends([0, 3], [3, 0]), refused(8, 4, 1));
    all.put(title, ends([0, 3], [1, 2]), columns(&[(1, "", 0), (2, "cb", 0)]));
    all.put(title, ends([0, 3], [0, 3]), columns(&[(1, "", 0), (2, "acb", 0)]));
    all.put(title, ends([4, 0], [0, 1]), refused(4, 6, 0));
    all.put(title, ends([0, 3], [4, 0]), refused(4, 6, 0));
    all.put(title, ends([1, 3], [4, 0]), refused(4, 6, 0));
    let long = "n".repeat(300);
    let deep = [s(1, &long[..255], vec![required(p(2, &long[..44]))])];
    let path = format!("{}.{}", &long[..255], &long[..44]);
    let case = editing(&deep, &[relax(&path)]);
    let title = "5/13: a path of 300 bytes";
    all.put(title, case, columns(&[(1, &long[..255], 0), (2, &long[..44], 0)]));
}

fn limits(all: &mut Cases) {
    let base: Vec<Node> = (0..65).map(|n| required(p(n, &format!("n{n}")))).collect();
    let many = |count: usize| -> Vec<Edit> {
        (0..count).map(|n| rename(&format!("n{n}"), &format!("m{n}"))).collect()
    };
    let shown = |count: i32| {
        let name = |n: i32| if n < count { format!("m{n}") } else { format!("n{n}") };
        Expected::Columns((0..65).map(|n| (n, name(n), 1)).collect())
    };
    all.put("5/13: 64 edits", editing(&base, &many(64)), shown(64));
    all.put("5/13: 65 edits", editing(&base, &many(65)), refused(2, 0, 0));
    let case = editing(&two(), &vec![relax("b"); 64]);
    all.put("5/13: 64 edits of one column", case, columns(&[(1, "a", 3), (2, "b", 0)]));
    let mut last = vec![relax("a"); 64];
    last[63] = rename("a", "x.y");
    all.put("5/13: the last of 64", editing(&two(), &last), refused(13, 6, 63));
    let title = "5/13: edits that are not whole";
    let one = [rename("a", "c")];
    all.put(
        title,
        but(editing(&two(), &one), |case| edits_of(case).truncate(15)),
        refused(2, 0, 0),
    );
    all.put(title, but(editing(&two(), &one), |case| edits_of(case).push(0)), refused(2, 0, 0));
    let mut past = editing(&base, &many(64));
    edits_of(&mut past).push(0);
    all.put(title, past, refused(2, 0, 0));
    let name = "n".repeat(255);
    let case = editing(&two(), &[rename("a", &name)]);
    all.put("5/13: a new name of 255 bytes", case, columns(&[(1, &name, 3), (2, "b", 0)]));
    // 128 names of 255 bytes are windows of one pool; the last is short
    let long = |edits: &[Edit], added: usize| {
        let mut base: Vec<Node> = (0..128).map(|n| p(n, &format!("{n:03}"))).collect();
        base.push(p(128, "x"));
        let add = [(None, p(0, &"y".repeat(added)))];
        let case = update(&base, 200, &[], if added == 0 { &[] } else { &add });
        edited(
            but(case, |case| {
                case.pool = (0..382u32).map(|n| (n * 7 % 251) as u8 | 0x80).chain([b'x']).collect();
                for slot in 0..128 {
                    let record = &mut case.records[slot * 24..];
                    record[4..8].copy_from_slice(&(slot as u32).to_le_bytes());
                    record[8] = 255;
                }
                case.records[128 * 24 + 4..][..4].copy_from_slice(&382u32.to_le_bytes());
            }),
            edits,
        )
    };
    let to = |bytes: usize| rename("x", &"z".repeat(bytes));
    all.put("5/13: a name sum of 32,768 by a rename", long(&[to(128)], 0), Expected::Count(129));
    all.put(
        "reading 189: a name sum of 32,769 by a rename",
        long(&[to(129)], 0),
        refused(19, 4, 0),
    );
    all.put("5/13: a name sum with an addition", long(&[to(1)], 128), refused(19, 4, 0));
    let small = but(editing(&two(), &vec![relax("a"); 65]), |case| {
        if let Ask::Update { out_names, .. } = &mut case.ask {
            *out_names = 0;
        }
    });
    all.put("1 before 2 of the edits", small, refused(1, 0, 0));
}

/// 23, 24 and 13 of one edit.
fn order_in_one_edit(all: &mut Cases) {
    let t = the_tree();
    let gone = |edit: Edit| editing_beside(&t, &["visits", "parts", "node.cost"], &[edit]);
    for path in ["visits.element", "parts.key", "parts.value"] {
        all.put("23 before 24", gone(rename(path, "x")), refused(23, 6, 0));
    }
    all.put("23 before 24", gone(relax("parts.key")), refused(23, 6, 0));
    all.put("23 before 13", gone(rename("node.cost", "a.b")), refused(23, 6, 0));
    all.put("23 before 13", gone(rename("nothing", "a.b")), refused(23, 6, 0));
    all.put("23 before 24 and 13", gone(rename("visits.element", ".")), refused(23, 6, 0));
    let case = editing(&t, &[rename("visits.element", "a.b")]);
    all.put("24 before 13", case, refused(24, 6, 0));
    let case = editing(&two(), &[rename("a", "c"), rename("a", "c.d")]);
    all.put("24 before 13", case, refused(24, 6, 1));
    let title = "reading 186: 13 of an edit has list 6";
    for name in [".", "a.", ".a", "a.b", "...."] {
        all.put(title, editing(&two(), &[rename("a", name)]), refused(13, 6, 0));
    }
    let dotted = editing(&[p(1, "a.b")], &[rename("a.b", "a.b")]);
    all.put("5/13: 13 though the name is the present one", dotted, refused(13, 6, 0));
    let other = editing(&two(), &[rename("a", "a:b"), rename("b", "/")]);
    let shown = columns(&[(1, "a:b", 3), (2, "/", 0)]);
    all.put("5/13: bytes beside the dot", other, shown);
}

/// Edits are taken one at a time.
fn order_of_edits(all: &mut Cases) {
    let t = the_tree();
    let faulty = [
        (23, relax("nothing")),
        (23, rename("visits.day", "x")),
        (24, rename("parts.value", "x")),
        (24, relax("parts.key")),
        (13, rename("parts", "a.b")),
    ];
    for (number, one) in &faulty {
        for (_, other) in faulty.iter().filter(|(_, other)| other != one) {
            let edits = [relax("node"), one.clone(), other.clone()];
            let case = editing_beside(&t, &["visits"], &edits);
            all.put("edits one at a time", case, refused(*number, 6, 1));
        }
    }
    let edits = [rename("node", "x"), rename("node", "y"), rename("node", "z")];
    all.put("of two second renames the first", editing(&t, &edits), refused(24, 6, 1));
    let edits = [rename("node", "a.b"), rename("node", "y")];
    all.put(
        "13 of the first rename before 24 of the second",
        editing(&t, &edits),
        refused(13, 6, 0),
    );
}

/// Deletions, then additions, then edits.
fn after_additions(all: &mut Cases) {
    let t = the_tree();
    let faulty = [(23, relax("nothing")), (24, relax("parts.key")), (13, rename("parts", "a.b"))];
    for (number, edit) in &faulty {
        let edit = std::slice::from_ref(edit);
        let one = |last_id: i32, path: Option<&str>, column: Node| {
            edited(update(&t, last_id, &["node"], &[(None, p(0, "x")), (path, column)]), edit)
        };
        let title = format!("an addition before {number} of an edit");
        for (first, case) in [
            (13, one(10, None, p(0, "a.b"))),
            (14, one(10, None, required(p(0, "a")))),
            (15, one(10, Some("no"), p(0, "a"))),
            (16, one(10, Some("visits.day"), p(0, "a"))),
            (22, one(10, Some("node"), p(0, "a"))),
            (17, one(10, None, p(0, "visits"))),
            (18, one(i32::MAX - 1, None, p(0, "a"))),
        ] {
            all.put(&title, case, refused(first, 3, 1));
        }
        let title = format!("a deletion before {number} of an edit");
        let case = edited(update(&t, 10, &["nothing"], &[]), edit);
        all.put(&title, case, refused(11, 2, 0));
        let case = edited(update(&t, 10, &[], &[(None, p(0, "x"))]), edit);
        all.put(&format!("{number} beside an addition"), case, refused(*number, 6, 0));
    }
    let keyed = super::identifiers::keyed();
    let case = edited(update_of(&keyed, &[2], 10, &["site"], &[]), &[relax("nothing")]);
    all.put("12 before 23", case, refused(12, 2, 0));
}

/// Edits, then 19, then 7, 8 and 9 of the rebuilt tree.
fn before_the_rebuilt_tree(all: &mut Cases) {
    let base = [
        required(s(1, "s", vec![required(p(9, "i"))])),
        p(2, "a"),
        m(3, "m", p(4, "key"), p(5, "value")),
    ];
    let deep = vec!["s"; 16].join(".");
    let faulty = [(23, relax("nothing")), (24, rename("m.key", "x")), (13, rename("m", "a.b"))];
    for (number, edit) in &faulty {
        let levels = [chain(16), m(20, "m", p(21, "key"), p(22, "value"))];
        let case = update(&levels, 30, &[], &[(Some(&deep), p(0, "x"))]);
        let case = edited(case, std::slice::from_ref(edit));
        all.put(&format!("{number} of an edit before 19"), case, refused(*number, 6, 0));
        let title = format!("{number} of an edit before the rebuilt tree");
        for case in [
            update(&base, 1, &[], &[(None, p(0, "n"))]),
            update(&base, 20, &[], &[(None, p(0, "n")), (None, p(0, "n"))]),
            update_of(&base, &[9], 20, &["s"], &[]),
        ] {
            let case = edited(case, std::slice::from_ref(edit));
            all.put(&title, case, refused(*number, 6, 0));
        }
    }
    let case = edited(
        update_of(&[chain(16)], &[], 30, &[], &[(Some(&deep), p(0, "x"))]),
        &[rename("s", "t")],
    );
    all.put("5/13: 19 for levels beside an edit", case, refused(19, 4, 0));
    let fresh = |last_id: i32| update_of(&base, &[9], last_id, &[], &[(None, p(0, "n"))]);
    let clash = [rename("a", "m"), relax("s.i")];
    all.put("7 before 8 and 9, by edits", edited(fresh(1), &clash), refused(7, 4, 6));
    all.put("8 before 9, by edits", edited(fresh(20), &clash), refused(8, 4, 3));
    all.put("9 alone, by an edit", edited(fresh(20), &clash[1..]), refused(9, 5, 0));
}

/// 3 and 4 of the edits stand behind those of the additions, before 7 of the base.
fn before_the_base(all: &mut Cases) {
    let t = the_tree();
    let case = || {
        let case = update(&t, 10, &["node.cost"], &[(Some("node"), p(0, "x"))]);
        edited(case, &[rename("visits", "calls"), relax("parts")])
    };
    let three = |case: &mut Case| edits_of(case)[EDIT_BYTES + 7] = 1;
    let four = |case: &mut Case| edits_of(case)[3] = 1;
    let both = but(case(), |case| {
        three(case);
        four(case);
    });
    all.put("3 of a later edit before 4", both, refused(3, 6, 1));
    for fault in [3, 4] {
        let title = |other: &str| format!("{other}: before {fault} of an edit");
        let with = |change: &dyn Fn(&mut Case)| {
            but(case(), |case| {
                if fault == 3 {
                    three(case)
                } else {
                    four(case)
                }
                change(case);
            })
        };
        let place = if fault == 3 { 1 } else { 0 };
        let one = with(&|case| request_of(case)[1][7] = 1);
        all.put(&title("3 of an addition"), one, refused(3, 3, 0));
        let one = with(&|case| request_of(case)[1][3] = 1);
        all.put(&title("4 of an addition"), one, refused(4, 3, 0));
        let one = with(&|case| request_of(case)[0][3] = 1);
        all.put(&title("4 of a deletion"), one, refused(4, 2, 0));
        let one = with(&|case| request_of(case)[2][7] = 1);
        all.put(&title("4 of the additions tree"), one, refused(4, 1, 0));
        let one = with(&|case| case.records[4 * 24 + 8] = 6);
        all.put(&title("6 of the base"), one, refused(6, 0, 4));
        let one = with(&|case| request_of(case)[0].push(0));
        all.put(&title("2 of any list"), one, refused(2, 0, 0));
        let title = |other: &str| format!("{fault} of an edit: before {other}");
        let one = with(&|case| case.records[9 * 24] = 9);
        all.put(&title("7 of the base"), one, refused(fault, 6, place));
        let one = with(&|case| {
            let (from, to) = (24 + 4, 2 * 24 + 4);
            let name: Vec<u8> = case.records[from..from + 5].to_vec();
            case.records[to..to + 5].copy_from_slice(&name);
        });
        all.put(&title("8 of the base"), one, refused(fault, 6, place));
        let one = with(&|case| {
            if let Ask::Update { identifiers, .. } = &mut case.ask {
                *identifiers = vec![99, 0, 0, 0];
            }
        });
        all.put(&title("9 of the base"), one, refused(fault, 6, place));
        let one = with(&|case| request_of(case)[1].clear());
        all.put(&title("10"), one, refused(fault, 6, place));
    }
    let ten = but(case(), |case| {
        request_of(case)[1].clear();
        edits_of(case)[0..4].copy_from_slice(&[0; 4]);
        edits_of(case)[4..6].copy_from_slice(&[0; 2]);
    });
    all.put("10 before 23", ten, refused(10, 3, 0));
    let nine = edited(update_of(&t, &[99], 10, &[], &[]), &[relax("nothing")]);
    all.put("9 of the base before 23", nine, refused(9, 5, 0));
    let length = but(case(), |case| {
        edits_of(case).pop();
        case.records[11] = 1;
    });
    all.put("2 of the edits before 3 of the base", length, refused(2, 0, 0));
}
