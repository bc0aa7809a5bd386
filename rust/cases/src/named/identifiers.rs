//! The columns that can be identifiers (02, 4/13).

use super::*;
use crate::build::id_bytes;
use crate::shapes::ids_in;
use judge::{DOUBLE, FLOAT};

pub fn put(all: &mut Cases) {
    of_the_column(all);
    of_what_is_above(all);
    each_distance(all);
    which_identifier(all);
    what_passes(all);
    given_again(all);
    other_trees(all);
    order(all);
}

/// A required struct of a required column and an optional one, with a required column beside it.
pub fn keyed() -> Vec<Node> {
    let node = s(1, "node", vec![required(p(5, "cost")), p(4, "button")]);
    vec![required(node), required(p(2, "site"))]
}

/// A required list, and a required map, whose insides are required too.
fn key_list(element: Node) -> Node {
    required(l(31, "l", required(element)))
}

fn key_map() -> Node {
    required(m(31, "m", required(p(32, "key")), required(p(33, "value"))))
}

/// So many required structs, one in the other, then what the innermost holds.
fn held_by(structs: i32, inside: Node) -> Node {
    (1..=structs).fold(inside, |inside, id| required(s(id, "s", vec![inside])))
}

/// 9 of the base, told by an update and by a renumbering.
fn breaks_at(all: &mut Cases, title: &str, place: u32, base: &[Node], identifiers: &[i32]) {
    all.put(title, update_of(base, identifiers, 10, &[], &[]), refused(9, 5, place));
    all.put(title, renumber(base, identifiers, 1), refused(9, 5, place));
}

/// Accepted by an update that changes nothing, and by a renumbering.
fn accepts(all: &mut Cases, title: &str, base: &[Node], identifiers: &[i32]) {
    let known = ids_in(&packed(base).0);
    let as_it_was = Expected::Last(known.clone(), 10);
    all.put(title, update_of(base, identifiers, 10, &[], &[]), as_it_was);
    all.put(title, renumber(base, identifiers, 1), Expected::Count(known.len()));
}

fn of_the_column(all: &mut Cases) {
    let title = "reading 168: a renumbering asks it too";
    breaks_at(all, title, 0, &keyed(), &[99]);
    breaks_at(all, title, 0, &keyed(), &[1]);
    breaks_at(all, title, 0, &keyed(), &[4]);
    breaks_at(all, "4/13: a list is no identifier", 0, &[key_list(p(32, "element"))], &[31]);
    breaks_at(all, "4/13: a map is no identifier", 0, &[key_map()], &[31]);
    let empty = [required(s(1, "a", vec![]))];
    breaks_at(all, "4/13: a struct without members is none", 0, &empty, &[1]);
    for (code, title) in [(FLOAT, "4/13: no float"), (DOUBLE, "4/13: no double")] {
        breaks_at(all, title, 0, &[of_type(code, required(p(1, "a")))], &[1]);
    }
    let default = [with_default(p(1, "a"))];
    breaks_at(all, "4/13: a default makes no column required", 0, &default, &[1]);
}

fn of_what_is_above(all: &mut Cases) {
    let title = "reading 170: no element, key or value";
    breaks_at(all, title, 0, &[key_list(p(32, "element"))], &[32]);
    breaks_at(all, title, 0, &[key_map()], &[32]);
    breaks_at(all, title, 0, &[key_map()], &[33]);
    let inner = required(s(33, "t", vec![required(p(34, "a"))]));
    let far = [held_by(1, key_list(s(32, "element", vec![inner])))];
    breaks_at(all, "4/13: a list farther above", 0, &far, &[34]);
    let member = |id| required(s(id, "", vec![required(p(id + 10, "a"))]));
    let (mut key, mut value) = (member(32), member(33));
    (key.name, value.name) = (b"key".to_vec(), b"value".to_vec());
    let map = [required(m(31, "m", key, value))];
    breaks_at(all, "4/13: a map farther above", 0, &map, &[42]);
    breaks_at(all, "4/13: a map farther above", 0, &map, &[43]);
    let optional = [l(31, "l", s(32, "element", vec![required(p(34, "a"))]))];
    breaks_at(all, "4/13: an optional list of optional structs", 0, &optional, &[34]);
    let title = "4/13: an optional struct above";
    let a = || required(p(32, "a"));
    breaks_at(all, title, 0, &[s(31, "o", vec![a()])], &[32]);
    breaks_at(all, title, 0, &[s(31, "o", vec![held_by(1, a())])], &[32]);
    breaks_at(all, title, 0, &[s(31, "o", vec![held_by(14, a())])], &[32]);
    let default = [with_default(s(31, "o", vec![a()]))];
    breaks_at(all, "4/13: a default makes no struct required", 0, &default, &[32]);
}

/// 16 levels, of which one is not as it should be.
fn each_distance(all: &mut Cases) {
    for above in 0..15 {
        let column = || held_by(above, required(p(32, "a")));
        let around =
            |node: Node| (16 + above..30).fold(node, |n, id| required(s(id, "s", vec![n])));
        let title = "4/13: an optional struct at each distance";
        let base = [around(s(31, "o", vec![column()]))];
        all.put(title, renumber(&base, &[32], 1), refused(9, 5, 0));
        let mut element = column();
        element.name = b"element".to_vec();
        let title = "4/13: a list at each distance";
        let base = [around(required(l(31, "l", element)))];
        all.put(title, renumber(&base, &[32], 1), refused(9, 5, 0));
    }
}

fn which_identifier(all: &mut Cases) {
    let title = "reading 171: the first identifier, whichever condition it breaks";
    breaks_at(all, title, 1, &keyed(), &[5, 4, 99]);
    breaks_at(all, title, 1, &keyed(), &[2, 99, 4]);
    breaks_at(all, title, 2, &keyed(), &[2, 5, 1, 4]);
    let mut many = vec![2; 64];
    many[63] = 4;
    breaks_at(all, "4/13: the last of 64", 63, &keyed(), &many);
    breaks_at(all, "4/13: one that is given twice", 0, &keyed(), &[4, 4]);
    let two = [of_type(FLOAT, p(1, "a")), s(2, "o", vec![of_type(DOUBLE, p(3, "b"))])];
    breaks_at(all, "4/13: several conditions at once", 0, &two, &[3, 1]);
}

fn what_passes(all: &mut Cases) {
    let title = "reading 169: any other type code";
    for code in [0, 4, 7, 10, 261, 1_280, 65_541, 5 << 24, u32::MAX] {
        accepts(all, title, &[of_type(code, required(p(1, "a")))], &[1]);
    }
    accepts(all, "4/13: a default is no reason", &[with_default(required(p(1, "a")))], &[1]);
    let deep = [held_by(15, required(p(31, "a")))];
    accepts(all, "4/13: 15 required structs above", &deep, &[31]);
    accepts(all, "4/13: one may be given twice", &keyed(), &[5, 2, 5]);
    accepts(all, "4/13: no identifier", &keyed(), &[]);
    let mut beside = keyed();
    beside.push(s(7, "o", vec![of_type(FLOAT, p(8, "f"))]));
    beside.push(l(9, "l", of_type(DOUBLE, p(10, "element"))));
    accepts(all, "4/13: what stands beside is no reason", &beside, &[5, 2]);
    let named = [required(s(1, "element", vec![required(p(2, "key"))]))];
    accepts(all, "4/13: a struct that is called element", &named, &[2]);
    let drop = update_of(&keyed(), &[5, 2, 5], 10, &["node.button"], &[]);
    all.put("4/13: a column beside is dropped", drop, last(&[1, 5, 2], 10));
    let ends = [required(s(-1, "a", vec![required(p(i32::MIN, "b"))])), required(p(i32::MAX, "c"))];
    accepts(all, "4/13: negative ids and both ends", &ends, &[i32::MIN, i32::MAX]);
    breaks_at(all, "4/13: -1 is a struct", 1, &ends, &[i32::MIN, -1]);
}

/// `node` 1 { `cost` 5 } goes, and 5 is given to what is added.
fn again(column: Node) -> Case {
    let base = [required(s(1, "node", vec![required(p(5, "cost"))])), p(2, "z")];
    update_of(&base, &[5], 4, &["node"], &[(None, column)])
}

/// The same where what is added is the first member of a struct or the like, with 5 for it.
fn again_inside(column: Node) -> Case {
    but(again(column), |case| {
        if let Ask::Update { last_id, .. } = &mut case.ask {
            *last_id = 3;
        }
    })
}

fn given_again(all: &mut Cases) {
    let fits = || required(with_default(p(0, "x")));
    let title = "reading 29: an id that is given again is that of the new column";
    all.put(title, again(p(0, "x")), refused(9, 5, 0));
    all.put(title, again(with_default(p(0, "x"))), refused(9, 5, 0));
    all.put(title, again(of_type(DOUBLE, fits())), refused(9, 5, 0));
    all.put(title, again(of_type(FLOAT, fits())), refused(9, 5, 0));
    all.put(title, again(of_type(3, fits())), last(&[2, 5], 5));
    let whole = |node: Node| required(with_default(node));
    all.put(title, again(whole(s(0, "x", vec![]))), refused(9, 5, 0));
    all.put(title, again(whole(l(0, "x", required(p(0, "element"))))), refused(9, 5, 0));
    let map = || whole(m(0, "x", required(p(0, "key")), required(p(0, "value"))));
    all.put(title, again(map()), refused(9, 5, 0));
    let title = "reading 29: given again inside what is added";
    let member = || required(p(0, "y"));
    all.put(title, again_inside(whole(s(0, "x", vec![member()]))), last(&[2, 4, 5], 5));
    all.put(title, again_inside(s(0, "x", vec![member()])), refused(9, 5, 0));
    all.put(title, again_inside(whole(s(0, "x", vec![p(0, "y")]))), refused(9, 5, 0));
    let element = || required(p(0, "element"));
    all.put(title, again_inside(whole(l(0, "x", element()))), refused(9, 5, 0));
    all.put(title, again_inside(map()), refused(9, 5, 0));
}

/// The new column stands beneath a record of the base.
fn other_trees(all: &mut Cases) {
    let node = required(s(1, "node", vec![required(p(50, "cost"))]));
    let fits = || required(with_default(p(0, "x")));
    let under = |parent: Node, path: &str, expected: Expected, all: &mut Cases, title: &str| {
        let case =
            update_of(&[node.clone(), parent], &[50], 49, &["node"], &[(Some(path), fits())]);
        all.put(title, case, expected);
    };
    let title = "4/13: given again beneath a record of the base";
    let inner = || required(s(3, "t", vec![]));
    under(required(s(2, "s", vec![inner()])), "s.t", last(&[2, 3, 50], 50), all, title);
    under(s(2, "s", vec![]), "s", refused(9, 5, 0), all, title);
    under(s(2, "s", vec![inner()]), "s.t", refused(9, 5, 0), all, title);
    let element = || required(s(3, "element", vec![]));
    under(required(l(2, "s", element())), "s", refused(9, 5, 0), all, title);
    let map =
        || required(m(2, "s", required(s(3, "key", vec![])), required(s(4, "value", vec![]))));
    under(map(), "s", refused(9, 5, 0), all, title);
    under(map(), "s.key", refused(9, 5, 0), all, title);
    let gone = update_of(&keyed(), &[2, 5], 10, &["node"], &[]);
    all.put("4/13: the column goes with its struct", gone, refused(9, 5, 1));
    let both = update_of(&keyed(), &[4, 5], 10, &["node"], &[]);
    all.put("4/13: the base before the rebuilt tree", both, refused(9, 5, 0));
    let base = [required(p(5, "a")), s(1, "o", vec![required(p(6, "b"))])];
    let dropped = update_of(&base, &[5, 6], 10, &["o"], &[]);
    all.put("4/13: what the base breaks, though the column goes", dropped, refused(9, 5, 1));
}

/// 7, 8 and 9 of the base, then 10; 18 of a renumbering comes later.
fn order(all: &mut Cases) {
    let case = renumber(&[p(1, "a"), p(1, "b")], &[1], 1);
    all.put("4/13: 7 before 9", case, refused(7, 0, 1));
    let case = renumber(&[p(1, "a"), p(2, "a")], &[1], 1);
    all.put("4/13: 8 before 9", case, refused(8, 0, 1));
    let case = renumber(&[p(1, "a")], &[1], i32::MAX);
    all.put("4/13: 9 before 18 of a renumbering", case, refused(9, 5, 0));
    let case = update_of(&[p(1, "a")], &[1], 10, &["nothing"], &[]);
    all.put("4/13: 9 before 11", case.clone(), refused(9, 5, 0));
    let case = but(case, |case| *request_of(case)[1] = vec![0; 8]);
    all.put("4/13: 9 before 10", case, refused(9, 5, 0));
    let case = update_of(&[p(1, "a")], &[1], 10, &["a"], &[]);
    all.put("4/13: 9 before 12", case, refused(9, 5, 0));
    let case = but(update(&[p(1, "a")], 10, &["a"], &[]), |case| {
        request_of(case)[0][7] = 1;
        if let Ask::Update { identifiers, .. } = &mut case.ask {
            *identifiers = id_bytes(&[1]);
        }
    });
    all.put("4/13: 3 of a deletion before 9", case, refused(3, 2, 0));
    let case = but(again(p(0, "x")), |case| {
        let [_, _, _, pool] = request_of(case);
        *pool.last_mut().expect("the name x") = b'z';
    });
    all.put("4/13: 17 before 9 of the rebuilt tree", case, refused(17, 3, 0));
}
