//! No additions to a dropped parent (02, 3/13). Its readings have their numbers in
//! docs/DECISIONS.md.

use super::*;
use crate::build::the_tree;

pub fn put(all: &mut Cases) {
    smallest(all);
    each_distance(all);
    through_lists_and_maps(all);
    what_stays(all);
    members_by_place(all);
    several(all);
    at_the_root(all);
    order(all);
    numbers(all);
    as_before(all);
}

/// One optional primitive under this path.
fn under<'a>(path: &'a str, name: &str) -> (Option<&'a str>, Node) {
    (Some(path), p(0, name))
}

/// A list of structs that have a struct: ids 1 to 4.
fn struct_in_list() -> [Node; 1] {
    [l(1, "l", s(2, "element", vec![s(3, "s", vec![p(4, "a")])]))]
}

/// A map with struct key and struct value: ids 1 to 5.
fn struct_key() -> [Node; 1] {
    [m(1, "m", s(2, "key", vec![p(3, "k")]), s(4, "value", vec![p(5, "v")]))]
}

fn smallest(all: &mut Cases) {
    let empty = [s(1, "node", vec![])];
    let case = update(&empty, 1, &["node"], &[under("node", "x")]);
    all.put("3/13: the receiving struct is dropped", case, refused(22, 3, 0));
    let t = the_tree();
    let title = "3/13: the list or map of the receiving struct is dropped";
    for (dropped, path) in [
        ("visits", "visits"),
        ("visits", "visits.element"),
        ("parts", "parts"),
        ("parts", "parts.value"),
    ] {
        let case = update(&t, 10, &[dropped], &[under(path, "x")]);
        all.put(title, case, refused(22, 3, 0));
    }
    let case = update(&struct_key(), 5, &["m"], &[under("m.key", "x")]);
    all.put("reading 164: the map of a struct key is dropped", case, refused(22, 3, 0));
    let case = update(&t, 10, &["visits", "visits"], &[under("visits", "x")]);
    all.put("3/13: dropped twice", case, refused(22, 3, 0));
    let inner = s(0, "x", vec![p(0, "y"), l(0, "z", p(0, "element"))]);
    let case = update(&t, 10, &["node"], &[(Some("node"), inner)]);
    all.put("3/13: an addition of several records", case, refused(22, 3, 0));
}

/// Sixteen levels of structs: any one of them is dropped, and the last or the one above it
/// receives.
fn each_distance(all: &mut Cases) {
    let path = |levels: usize| vec!["s"; levels].join(".");
    for level in 1..=16 {
        let case = update(&[chain(16)], 16, &[&path(level)], &[under(&path(16), "x")]);
        all.put("3/13: each distance above the last level", case, refused(22, 3, 0));
    }
    let case = update(&[chain(16)], 16, &[&path(16)], &[under(&path(15), "x")]);
    let run: Vec<i32> = (1..16).chain([17]).collect();
    all.put("reading 164: what is dropped below is no reason", case, Expected::Last(run, 17));
    let case = update(&[chain(16)], 16, &[&path(2)], &[under(&path(1), "x")]);
    all.put("reading 164: what is dropped below is no reason", case, last(&[1, 17], 17));
    let beside = [s(1, "a", vec![s(2, "b", vec![]), s(3, "c", vec![])]), s(4, "d", vec![])];
    let case = update(&beside, 4, &["a.b", "d"], &[under("a.c", "x")]);
    all.put("reading 164: what is dropped beside is no reason", case, last(&[1, 3, 5], 5));
}

fn through_lists_and_maps(all: &mut Cases) {
    let inside = s(4, "value", vec![l(5, "l", s(6, "element", vec![p(7, "a")]))]);
    let base = [s(1, "s", vec![m(2, "m", s(3, "key", vec![]), inside)]), p(8, "z")];
    for dropped in ["s", "s.m", "s.m.l"] {
        let case = update(&base, 8, &[dropped], &[under("s.m.l", "x")]);
        all.put("3/13: through values and elements", case, refused(22, 3, 0));
    }
    for dropped in ["s", "s.m"] {
        let case = update(&base, 8, &[dropped], &[under("s.m.key", "x")]);
        all.put("3/13: through a key", case, refused(22, 3, 0));
    }
    let case = update(&base, 8, &["s.m.l"], &[under("s.m", "x"), under("s.m.key", "x")]);
    all.put("3/13: beside a dropped list", case, last(&[1, 2, 3, 10, 4, 9, 8], 10));
    let lists = [l(1, "a", l(2, "element", l(3, "element", s(4, "element", vec![]))))];
    let deepest = "a.element.element.element";
    let case = update(&lists, 4, &["a"], &[under(deepest, "x")]);
    all.put("3/13: a list of lists is dropped", case, refused(22, 3, 0));
    let case =
        update(&lists, 4, &["a.element", "a.element.element", deepest], &[under(deepest, "x")]);
    all.put("3/13: elements of elements stay", case, last(&[1, 2, 3, 4, 5], 5));
}

fn what_stays(all: &mut Cases) {
    let t = the_tree();
    let case = update(&t, 10, &["visits.element"], &[under("visits", "x")]);
    let ids = [1, 4, 5, 2, 6, 7, 11, 3, 8, 9, 10];
    all.put("3/13: a dropped element is no reason", case, last(&ids, 11));
    let case = update(&t, 10, &["parts.value"], &[under("parts", "x")]);
    let ids = [1, 4, 5, 2, 6, 7, 3, 8, 9, 10, 11];
    all.put("3/13: a dropped value is no reason", case, last(&ids, 11));
    let case = update(&struct_key(), 5, &["m.key"], &[under("m.key", "x")]);
    all.put("3/13: a dropped key is no reason", case, last(&[1, 2, 3, 6, 4, 5], 6));
    let case = update(&struct_key(), 5, &["m.value"], &[under("m.key", "x")]);
    all.put("3/13: nor is the value beside the key", case, last(&[1, 2, 3, 6, 4, 5], 6));
    let base = struct_in_list();
    let case = update(&base, 4, &["l.element"], &[under("l.s", "x")]);
    all.put("reading 164: a dropped element above is no reason", case, last(&[1, 2, 3, 4, 5], 5));
    for also in ["l", "l.s"] {
        let case = update(&base, 4, &["l.element", also], &[under("l.s", "x")]);
        all.put("reading 164: an element and a member", case, refused(22, 3, 0));
    }
    let case = update(&base, 4, &["l.element", "l.s"], &[under("l", "x")]);
    all.put("reading 164: an element and a member below it", case, last(&[1, 2, 5], 5));
    let key = s(2, "key", vec![s(3, "s", vec![])]);
    let base = [m(1, "m", key, s(4, "value", vec![s(5, "s", vec![])]))];
    let title = "reading 164: a dropped key or value above is no reason";
    let case = update(&base, 5, &["m.key", "m.value"], &[under("m.key.s", "x")]);
    all.put(title, case, last(&[1, 2, 3, 6, 4, 5], 6));
    let case = update(&base, 5, &["m.key", "m.value"], &[under("m.s", "x")]);
    all.put(title, case, last(&[1, 2, 3, 4, 5, 6], 6));
}

/// A member is one by its place, and not by its name; it is dropped by its id, and not by a name
/// or by some bits.
fn members_by_place(all: &mut Cases) {
    for name in ["element", "key", "value"] {
        let path = format!("s.{name}");
        let base = [s(1, "s", vec![s(2, name, vec![])]), s(3, name, vec![])];
        let title = "3/13: a member with such a name is a member";
        let case = update(&base, 3, &[name], &[under(name, "x")]);
        all.put(title, case, refused(22, 3, 0));
        let case = update(&base, 3, &[&path], &[under(&path, "x")]);
        all.put(title, case, refused(22, 3, 0));
        let case = update(&base, 3, &[name], &[under(&path, "x")]);
        all.put("3/13: another with its name is dropped", case, last(&[1, 2, 4], 4));
    }
    let base = [s(1 << 22, "a", vec![]), s(2 << 22, "b", vec![]), s(i32::MIN, "c", vec![])];
    let case = update(&base, 5, &["a", "c"], &[under("b", "x")]);
    all.put("3/13: ids that share their low bits", case, last(&[2 << 22, 6], 6));
    let ends = [s(-1, "a", vec![s(i32::MAX, "b", vec![s(i32::MIN, "c", vec![])])])];
    for dropped in ["a", "a.b", "a.b.c"] {
        let case = update(&ends, 5, &[dropped], &[under("a.b.c", "x")]);
        all.put("3/13: negative ids and both ends", case, refused(22, 3, 0));
    }
    let case = update(&struct_in_list(), 4, &["l.s"], &[under("l.element.s", "x")]);
    all.put("3/13: by a short and by a full name", case, refused(22, 3, 0));
    let case = update(&[s(1, "", vec![])], 1, &[""], &[under("", "x")]);
    all.put("3/13: the path of no bytes", case, refused(22, 3, 0));
    let dotted = [s(1, "a.b", vec![]), s(2, "a", vec![s(3, "c", vec![])])];
    let case = update(&dotted, 3, &["a.b"], &[under("a", "x")]);
    all.put("3/13: a dot in a name is no level", case, last(&[2, 3, 4], 4));
}

fn several(all: &mut Cases) {
    let t = the_tree();
    let title = "3/13: the place is the addition";
    for place in 0..4 {
        let mut added: Vec<(Option<&str>, Node)> =
            ["a", "b", "c", "d"].iter().map(|name| (None, p(0, name))).collect();
        added[place] = under("visits", "fault");
        all.put(title, update(&t, 10, &["visits"], &added), refused(22, 3, place as u32));
    }
    let names: Vec<String> = (0..64).map(|n| format!("n{n}")).collect();
    let mut added: Vec<(Option<&str>, Node)> =
        names.iter().map(|name| under("node", name)).collect();
    added[63].0 = Some("parts");
    all.put("3/13: the last of 64", update(&t, 10, &["parts"], &added), refused(22, 3, 63));
    let added = [under("node", "x"), under("visits", "x"), under("parts", "x")];
    let case = update(&t, 10, &["parts", "visits"], &added);
    all.put("3/13: of two the first", case, refused(22, 3, 1));
}

fn at_the_root(all: &mut Cases) {
    let t = the_tree();
    let case = update(&t, 10, &["node", "visits", "parts"], &[(None, p(0, "x"))]);
    all.put("reading 163: nothing is above the root", case, last(&[11], 11));
    let case = update(&t, 10, &["node"], &[(None, s(0, "node", vec![p(0, "cost")]))]);
    all.put("3/13: a new root in a dropped one's place", case, {
        last(&[2, 6, 7, 3, 8, 9, 10, 11, 12], 12)
    });
}

/// 13 to 16, 22, 17, 18 of one addition; then the next addition; then the rebuilt tree.
fn order(all: &mut Cases) {
    let t = the_tree();
    let one = |last_id: i32, path: &str, column: Node| {
        update(&t, last_id, &["node", "visits"], &[(Some(path), column)])
    };
    all.put("13 before 22", one(10, "node", p(0, "a.b")), refused(13, 3, 0));
    all.put("14 before 22", one(10, "node", required(p(0, "a"))), refused(14, 3, 0));
    all.put("15 beside a dropped member", one(10, "node.x", p(0, "a")), refused(15, 3, 0));
    let title = "reading 161: 16 before 22";
    all.put(title, one(10, "node.cost", p(0, "a")), refused(16, 3, 0));
    all.put(title, one(10, "visits.day", p(0, "a")), refused(16, 3, 0));
    let title = "reading 161: 22 before 17";
    all.put(title, one(10, "visits", p(0, "day")), refused(22, 3, 0));
    let base = struct_in_list();
    all.put(title, update(&base, 4, &["l"], &[under("l.s", "a")]), refused(22, 3, 0));
    all.put("reading 161: 22 before 18", one(i32::MAX, "node", p(0, "a")), refused(22, 3, 0));
    all.put("22 before 17 and 18", one(i32::MAX, "visits", p(0, "day")), refused(22, 3, 0));
    let both = |added: &[(Option<&str>, Node)]| update(&t, 10, &["node"], added);
    let case = both(&[under("node", "a"), (None, p(0, "a.b"))]);
    all.put("22 of one addition before 13 of the next", case, refused(22, 3, 0));
    let case = both(&[(None, p(0, "parts")), under("node", "a")]);
    all.put("17 of one addition before 22 of the next", case, refused(17, 3, 0));
    let case = update(&t, i32::MAX, &["node"], &[(None, p(0, "a")), under("node", "a")]);
    all.put("18 of one addition before 22 of the next", case, refused(18, 3, 0));
    let fixed = [required(s(1, "node", vec![required(p(5, "cost"))])), p(2, "z")];
    let case = update_of(&fixed, &[5], 5, &["node", "node.cost"], &[under("node", "a")]);
    all.put("12 before 22", case, refused(12, 2, 1));
    let case = update_of(&fixed, &[5], 5, &["node"], &[under("node", "a")]);
    all.put("22 before 9 of the rebuilt tree", case, refused(22, 3, 0));
    let case = both(&[(None, p(0, "a")), (None, p(0, "a")), under("node", "a")]);
    all.put("22 before 8 of the rebuilt tree", case, refused(22, 3, 2));
    let case = update(&t, 1, &["node"], &[(None, p(0, "a")), under("node", "a")]);
    all.put("22 before 7 of the rebuilt tree", case, refused(22, 3, 1));
    let path = vec!["s"; 16].join(".");
    let added = [under(&path, "a"), under("z", "a")];
    let case = update(&[chain(16), s(17, "z", vec![])], 17, &["z"], &added);
    all.put("22 before 19", case, refused(22, 3, 1));
}

/// What the last id says where nothing is nowhere.
fn numbers(all: &mut Cases) {
    let base = [s(1, "s", vec![]), p(9, "k")];
    let added = [under("s", "x"), (None, p(0, "y")), (None, p(0, "z"))];
    let case = update(&base, i32::MAX - 1, &[], &added);
    all.put("reading 40: the first addition that would pass", case, refused(18, 3, 1));
    let case = update(&base, 20, &["k"], &added);
    all.put("reading 43: every id consumed is in the tree", case, last(&[1, 21, 22, 23], 23));
    let case = update(&base, i32::MAX, &["s"], &[]);
    all.put("3/13: no addition, no 22", case, last(&[9], i32::MAX));
}

/// What a dropped member changed before, it changes still.
fn as_before(all: &mut Cases) {
    let t = the_tree();
    let title = "reading 162: what is dropped and stays frees its names";
    let case = update(&struct_key(), 5, &["m.key"], &[under("m.key", "k")]);
    all.put(title, case, refused(8, 4, 3));
    let case = update(&t, 10, &["parts.value"], &[under("parts", "price")]);
    all.put(title, case, refused(8, 4, 10));
    let title = "reading 162: a dropped element above frees no names";
    let case = update(&struct_in_list(), 4, &["l.element"], &[under("l.s", "a")]);
    all.put(title, case, refused(17, 3, 0));
    let case = update(&t, 10, &["node.cost", "visits"], &[under("node", "cost")]);
    all.put("3/13: a dropped member frees its name", case, last(&[1, 4, 11, 3, 8, 9, 10], 11));
}
