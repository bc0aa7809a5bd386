//! Widening types (02, 6/13). Its readings have their numbers in docs/DECISIONS.md.

use super::*;
use crate::build::{by_version, decimal, edited, relax, rename, the_tree, widen};
use judge::{DATE, DOUBLE, EDIT_BYTES, Edit, FLOAT, INT, LONG, STRING, TIMESTAMP, TIMESTAMP_NS};

pub fn put(all: &mut Cases) {
    every_pair(all);
    decimals(all);
    outside_the_table(all);
    what_changes(all);
    roles(all);
    no_primitives(all);
    three_things(all);
    second_widenings(all);
    paths(all);
    what_goes(all);
    beside_additions(all);
    identifiers(all);
    bytes(all);
    limits(all);
    versions(all);
    before_the_version(all);
    behind_the_version(all);
    order_of_edits(all);
    after_additions(all);
    before_the_rebuilt_tree(all);
}

/// One column with this type.
fn one(code: u32) -> [Node; 1] {
    [of_type(code, p(1, "a"))]
}

/// An update with these edits and nothing else.
fn widening(version: u32, base: &[Node], edits: &[Edit]) -> Case {
    widening_beside(version, base, &[], edits)
}

/// The same with deletions.
fn widening_beside(version: u32, base: &[Node], drop: &[&str], edits: &[Edit]) -> Case {
    by_version(version, edited(update(base, 10, drop, &[]), edits))
}

fn typed(columns: &[(i32, &str, u8, u32)]) -> Expected {
    let column =
        |(id, name, flags, code): &(i32, &str, u8, u32)| (*id, name.to_string(), *flags, *code);
    Expected::Typed(columns.iter().map(column).collect())
}

/// What a step of the one column gives.
fn steps(all: &mut Cases, title: &str, version: u32, old: u32, new: u32, allowed: bool) {
    let case = widening(version, &one(old), &[widen("a", new)]);
    let expected = if allowed { typed(&[(1, "a", 0, new)]) } else { refused(26, 6, 0) };
    all.put(title, case, expected);
}

/// Each code of the table, decimals, and codes outside it; to each of them, by both versions.
fn every_pair(all: &mut Cases) {
    let [nine, ten, more] = [9, 10, 38].map(|precision| decimal(precision, 2));
    let others = [nine, ten, decimal(10, 3), more, 0, 10, decimal(39, 2)];
    let codes: Vec<u32> = (1..=9).chain(others).collect();
    let of_2 = [(INT, LONG), (FLOAT, DOUBLE), (nine, ten), (nine, more), (ten, more)];
    let added_by_3 = [(DATE, TIMESTAMP), (DATE, TIMESTAMP_NS)];
    for version in [2, 3] {
        for old in &codes {
            for new in &codes {
                let step = (*old, *new);
                let allowed = of_2.contains(&step) || version == 3 && added_by_3.contains(&step);
                let title = format!("6/13: {old} to {new} by version {version}");
                steps(all, &title, version, *old, *new, allowed);
            }
        }
    }
}

fn decimals(all: &mut Cases) {
    for version in [2, 3] {
        let title = "6/13: a decimal to a higher precision, its scale at either end";
        for (old, new) in [
            ((1, 0), (2, 0)),
            ((1, 0), (38, 0)),
            ((1, 1), (2, 1)),
            ((1, 1), (38, 1)),
            ((37, 0), (38, 0)),
            ((37, 37), (38, 37)),
        ] {
            let [old, new] = [old, new].map(|(precision, scale)| decimal(precision, scale));
            steps(all, title, version, old, new, true);
        }
    }
    // each precision to the next, and each to the highest
    let base: Vec<Node> =
        (1..38).map(|k| of_type(decimal(k, 0), p(k as i32, &format!("n{k}")))).collect();
    for (title, higher) in [
        ("6/13: each precision to the next", (|k| k + 1) as fn(u32) -> u32),
        ("6/13: each precision to the highest", |_| 38),
    ] {
        let edits: Vec<Edit> =
            (1..38).map(|k| widen(&format!("n{k}"), decimal(higher(k), 0))).collect();
        let column = |k: u32| (k as i32, format!("n{k}"), 0, decimal(higher(k), 0));
        let expected = Expected::Typed((1..38).map(column).collect());
        all.put(title, widening(2, &base, &edits), expected);
    }
    steps(all, "reading 199: to the same code", 2, INT, INT, false);
    steps(all, "reading 199: to the same code", 2, decimal(9, 2), decimal(9, 2), false);
    let not = |all: &mut Cases, title: &str, old: (u32, u32), new: (u32, u32)| {
        let [old, new] = [old, new].map(|(precision, scale)| decimal(precision, scale));
        steps(all, title, 3, old, new, false);
    };
    let title = "6/13: a decimal of another scale, or of no higher precision";
    for new in [(10, 1), (10, 3), (9, 1), (9, 3), (8, 2), (2, 2), (38, 0), (38, 38), (10, 10)] {
        not(all, title, (9, 2), new);
    }
    for (old, new) in [((1, 0), (1, 1)), ((1, 1), (1, 0)), ((38, 38), (38, 0)), ((38, 0), (1, 0))] {
        not(all, title, old, new);
    }
    let title = "reading 200: a code that is no decimal by the table has no step";
    for (old, new) in [
        ((39, 2), (40, 2)),
        ((40, 2), (38, 2)),
        ((2, 3), (3, 3)),
        ((0, 0), (1, 0)),
        ((0, 0), (38, 0)),
        ((1, 2), (2, 2)),
        ((1, 2), (38, 2)),
        ((37, 38), (38, 38)),
        ((38, 39), (39, 39)),
        ((254, 0), (255, 0)),
        ((38, 255), (39, 255)),
    ] {
        not(all, title, old, new);
    }
    let title = "6/13: a decimal to what is none by the table";
    for (old, new) in [
        ((38, 0), (39, 0)),
        ((38, 38), (39, 38)),
        ((9, 2), (39, 2)),
        ((9, 2), (255, 2)),
        ((9, 2), (1, 2)),
        ((9, 2), (0, 2)),
    ] {
        not(all, title, old, new);
    }
}

fn outside_the_table(all: &mut Cases) {
    let title = "reading 198: a code outside the table is no step";
    for code in [10, 0, 255, 256 + LONG, LONG << 8, 65_536 + LONG, LONG << 24, u32::MAX] {
        steps(all, title, 3, INT, code, false);
    }
    // each bit that is no part of the code
    for bit in [8, 15, 16, 17, 24, 31] {
        let title = "6/13: codes that are those of a step but for one bit";
        let more = 1 << bit;
        for (old, new) in [(INT, LONG), (FLOAT, DOUBLE), (DATE, TIMESTAMP)] {
            steps(all, title, 3, old | more, new | more, false);
        }
        // bit 8 is a digit's
        if bit > 8 {
            let [old, new] = [9, 10].map(|precision| decimal(precision, 2));
            steps(all, title, 3, old ^ more, new ^ more, false);
            steps(all, title, 3, old, new ^ more, false);
        }
    }
}

fn what_changes(all: &mut Cases) {
    for flags in 0..4 {
        let mut base = one(INT);
        (base[0].flags, base[0].attribute) = (flags, 77);
        let case = widening(2, &base, &[widen("a", LONG)]);
        all.put("6/13: flags and attribute stay", case, typed(&[(1, "a", flags, LONG)]));
    }
    let case = but(widening(2, &one(INT), &[widen("a", LONG)]), |case| {
        if let Ask::Update { last_id, .. } = &mut case.ask {
            *last_id = i32::MIN;
        }
    });
    all.put("6/13: a widening consumes no id", case, last(&[1], i32::MIN));
    let old = [INT, FLOAT, DATE, DATE, decimal(9, 2), STRING];
    let base: Vec<Node> =
        old.iter().zip(1..).map(|(code, id)| of_type(*code, p(id, &format!("n{id}")))).collect();
    let new = [LONG, DOUBLE, TIMESTAMP, TIMESTAMP_NS, decimal(38, 2)];
    let mut edits: Vec<Edit> =
        new.iter().zip(1..).map(|(code, id)| widen(&format!("n{id}"), *code)).collect();
    let column = |(code, id): (&u32, i32)| (id, format!("n{id}"), 0, *code);
    let whole = |codes: &[u32]| Expected::Typed(codes.iter().zip(1..).map(column).collect());
    let every = [&new[..], &[STRING]].concat();
    let title = "6/13: every step in one update";
    all.put(title, widening(3, &base, &edits), whole(&every));
    edits.reverse();
    all.put(title, widening(3, &base, &edits), whole(&every));
    let title = "6/13: every step in one update, by version 2";
    all.put(title, widening(2, &base, &edits), refused(26, 6, 1));
}

/// A list, a map, and lists and structs in them, with an int in each role.
fn of_each_role() -> Vec<Node> {
    let int = |id: i32, name: &str| of_type(INT, p(id, name));
    vec![
        int(1, "a"),
        s(2, "s", vec![int(3, "b")]),
        l(4, "l", int(5, "element")),
        m(6, "m", int(7, "key"), int(8, "value")),
        l(9, "n", l(10, "element", int(11, "element"))),
        m(12, "k", s(13, "key", vec![int(14, "c")]), s(15, "value", vec![int(16, "d")])),
    ]
}

fn roles(all: &mut Cases) {
    let base = of_each_role();
    let shown = |widened: &[i32]| {
        let tree = judge::Tree::of(&base);
        let code = |row: &judge::Row| match widened.contains(&row.id) {
            true => LONG,
            false => row.type_code,
        };
        let name = |row: &judge::Row| String::from_utf8_lossy(&row.name).into_owned();
        let column = |row: &judge::Row| (row.id, name(row), 0, code(row));
        Expected::Typed(tree.rows.iter().map(column).collect())
    };
    let paths = [
        ("a", 1),
        ("s.b", 3),
        ("l.element", 5),
        ("m.key", 7),
        ("m.value", 8),
        ("n.element.element", 11),
        ("k.key.c", 14),
        ("k.d", 16),
    ];
    for (path, id) in paths {
        let case = widening(2, &base, &[widen(path, LONG)]);
        all.put("6/13: any role is widened", case, shown(&[id]));
        let title = "6/13: any role is widened once";
        let case = widening(2, &base, &[widen(path, LONG), widen(path, LONG)]);
        all.put(title, case, refused(24, 6, 1));
        let case = widening(2, &base, &[widen(path, DOUBLE)]);
        all.put("6/13: no role has other steps", case, refused(26, 6, 0));
    }
    let edits = paths.map(|(path, _)| widen(path, LONG));
    let case = widening(2, &base, &edits);
    all.put("6/13: every role in one update", case, shown(&paths.map(|(_, id)| id)));
    let keys = [m(1, "m", required(of_type(INT, p(2, "key"))), p(3, "value"))];
    let case = widening(2, &keys, &[widen("m.key", LONG)]);
    let expected = typed(&[(1, "m", 0, 0), (2, "key", 1, LONG), (3, "value", 0, 0)]);
    all.put("6/13: a required key is widened", case, expected);
    let case = widening(2, &keys, &[widen("m.key", LONG), relax("m.key")]);
    all.put("6/13: a widened key is not relaxed", case, refused(24, 6, 1));
    let case = widening(2, &keys, &[widen("m.key", LONG), rename("m.key", "k")]);
    all.put("6/13: a widened key is not renamed", case, refused(24, 6, 1));
}

fn no_primitives(all: &mut Cases) {
    let base = of_each_role();
    for path in ["s", "l", "m", "n.element", "k.key", "k.value"] {
        for code in [0, INT, LONG] {
            let case = widening(3, &base, &[widen(path, code)]);
            all.put("6/13: no struct, list or map is widened", case, refused(26, 6, 0));
        }
    }
}

/// Three edits in each order.
fn orders(edits: [Edit; 3]) -> Vec<Vec<Edit>> {
    let order = [[0, 1, 2], [0, 2, 1], [1, 0, 2], [1, 2, 0], [2, 0, 1], [2, 1, 0]];
    order.map(|places| places.map(|at| edits[at].clone()).to_vec()).to_vec()
}

fn three_things(all: &mut Cases) {
    let base = [required(with_default(of_type(INT, p(1, "a"))))];
    let member = [s(9, "s", base.to_vec())];
    for edits in orders([rename("a", "b"), relax("a"), widen("a", LONG)]) {
        let title = "reading 202: a rename, a relaxing and a widening of one column";
        all.put(title, widening(2, &base, &edits), typed(&[(1, "b", 2, LONG)]));
    }
    for edits in orders([rename("s.a", "b"), relax("s.a"), widen("s.a", LONG)]) {
        let title = "reading 202: and of a member";
        let expected = typed(&[(9, "s", 0, 0), (1, "b", 2, LONG)]);
        all.put(title, widening(3, &member, &edits), expected);
    }
    let title = "reading 202: a relaxing any number of times";
    let edits = [relax("a"), widen("a", LONG), relax("a"), rename("a", "b"), relax("a")];
    all.put(title, widening(2, &base, &edits), typed(&[(1, "b", 2, LONG)]));
    // every pair of edits, of which the last is no step
    let kinds = [rename("a", "c"), relax("a"), widen("a", LONG), widen("a", STRING)];
    let is = |edit: &Edit| kinds.iter().position(|kind| kind == edit).expect("one of them");
    for one in &kinds {
        for other in &kinds {
            let expected = match (is(one), is(other)) {
                (3, _) => refused(26, 6, 0),
                (0, 0) | (2, 2 | 3) => refused(24, 6, 1),
                (_, 3) => refused(26, 6, 1),
                (first, second) => {
                    let has = |kind: usize| first == kind || second == kind;
                    let name = if has(0) { "c" } else { "a" };
                    let flags = if has(1) { 2 } else { 3 };
                    typed(&[(1, name, flags, if has(2) { LONG } else { INT })])
                }
            };
            let case = widening(2, &base, &[one.clone(), other.clone()]);
            all.put("6/13: two edits of one column", case, expected);
        }
    }
}

fn second_widenings(all: &mut Cases) {
    let twice = |version: u32, old: u32, first: u32, second: u32| {
        widening(version, &one(old), &[widen("a", first), widen("a", second)])
    };
    let title = "reading 201: 24 of a second widening before its 26";
    all.put(title, twice(2, INT, LONG, STRING), refused(24, 6, 1));
    for second in [INT, 0, u32::MAX, decimal(39, 2)] {
        all.put(title, twice(2, INT, LONG, second), refused(24, 6, 1));
    }
    let title = "reading 201: a first one whose step is none is 26";
    all.put(title, twice(2, INT, STRING, LONG), refused(26, 6, 0));
    let title = "6/13: a second widening, to whatever code";
    all.put(title, twice(2, INT, LONG, LONG), refused(24, 6, 1));
    all.put(title, twice(3, DATE, TIMESTAMP, TIMESTAMP_NS), refused(24, 6, 1));
    all.put(title, twice(3, DATE, TIMESTAMP_NS, TIMESTAMP), refused(24, 6, 1));
    let [old, next, last] = [9, 10, 11].map(|precision| decimal(precision, 2));
    all.put(title, twice(2, old, next, last), refused(24, 6, 1));
    all.put(title, twice(2, old, last, next), refused(24, 6, 1));
    let title = "6/13: a second widening behind other edits";
    let two = [one(INT), [of_type(FLOAT, p(2, "b"))]].concat();
    let edits =
        [widen("a", LONG), rename("a", "c"), relax("a"), widen("b", DOUBLE), widen("a", LONG)];
    all.put(title, widening(2, &two, &edits), refused(24, 6, 4));
    let mut deep = the_tree();
    deep[1].inside[0].inside[0].type_code = INT;
    let edits = [widen("visits.day", LONG), widen("visits.element.day", LONG)];
    let title = "6/13: a second widening by the other name";
    all.put(title, widening(2, &deep, &edits), refused(24, 6, 1));
    let edits = [widen("a", LONG), widen("a", LONG), widen("a", LONG)];
    let title = "6/13: of two second widenings the first";
    all.put(title, widening(2, &one(INT), &edits), refused(24, 6, 1));
    let alike =
        [s(1, "s", one(INT).map(|c| Node { id: 2, ..c }).to_vec()), of_type(INT, p(3, "a"))];
    let case = widening(2, &alike, &[widen("a", LONG), widen("s.a", LONG)]);
    let expected = typed(&[(1, "s", 0, 0), (2, "a", 0, LONG), (3, "a", 0, LONG)]);
    all.put("6/13: two columns of one name", case, expected);
}

/// Paths look in the base as it was.
fn paths(all: &mut Cases) {
    let title = "6/13: a path looks in the base as it was";
    let edits = [rename("a", "b"), widen("b", LONG)];
    all.put(title, widening(2, &one(INT), &edits), refused(23, 6, 1));
    let edits = [rename("a", "b"), widen("a", LONG)];
    all.put(title, widening(2, &one(INT), &edits), typed(&[(1, "b", 0, LONG)]));
    let two = [of_type(INT, p(1, "a")), of_type(FLOAT, p(2, "b"))];
    let swap = [rename("a", "b"), rename("b", "a")];
    let edits = [&swap[..], &[widen("a", LONG), widen("b", DOUBLE)]].concat();
    let expected = typed(&[(1, "b", 0, LONG), (2, "a", 0, DOUBLE)]);
    all.put(title, widening(2, &two, &edits), expected);
    let edits = [&swap[..], &[widen("b", LONG)]].concat();
    all.put(title, widening(2, &two, &edits), refused(26, 6, 2));
    for path in ["b", "A", "", "a.", "a.a"] {
        let case = widening(2, &one(INT), &[widen(path, LONG)]);
        all.put("6/13: nothing is found", case, refused(23, 6, 0));
    }
    let mut deep = the_tree();
    deep[1].inside[0].inside[0].type_code = INT;
    let case = widening(2, &deep, &[widen("visits.day", LONG)]);
    all.put("6/13: a short name", case, ids(&[1, 4, 5, 2, 6, 7, 3, 8, 9, 10]));
}

/// 23 for what is dropped as a member or stands beneath it.
fn what_goes(all: &mut Cases) {
    let base = of_each_role();
    let title = "6/13: what goes is not widened";
    for (dropped, path) in [
        ("a", "a"),
        ("s", "s.b"),
        ("s.b", "s.b"),
        ("l", "l.element"),
        ("m", "m.key"),
        ("m", "m.value"),
        ("k", "k.key.c"),
        ("k.d", "k.d"),
    ] {
        for code in [LONG, STRING] {
            let case = widening_beside(2, &base, &[dropped], &[widen(path, code)]);
            all.put(title, case, refused(23, 6, 0));
        }
    }
    for path in ["s", "k.key"] {
        let dropped = path.split('.').next().expect("a name");
        let case = widening_beside(2, &base, &[dropped], &[widen(path, LONG)]);
        all.put("6/13: a struct that goes is not found", case, refused(23, 6, 0));
    }
    let title = "6/13: a dropped element, key or value is widened, since it stays";
    let held = [
        l(1, "l", of_type(INT, p(2, "element"))),
        m(3, "m", of_type(INT, p(4, "key")), of_type(INT, p(5, "value"))),
    ];
    let paths = ["l.element", "m.key", "m.value"];
    let edits = paths.map(|path| widen(path, LONG));
    let expected = typed(&[
        (1, "l", 0, 0),
        (2, "element", 0, LONG),
        (3, "m", 0, 0),
        (4, "key", 0, LONG),
        (5, "value", 0, LONG),
    ]);
    all.put(title, widening_beside(2, &held, &paths, &edits), expected);
    let inside = [l(1, "l", s(2, "element", vec![of_type(INT, p(3, "a")), p(4, "b")]))];
    let case = widening_beside(2, &inside, &["l.element", "l.b"], &[widen("l.a", LONG)]);
    let expected = typed(&[(1, "l", 0, 0), (2, "element", 0, 0), (3, "a", 0, LONG)]);
    all.put("6/13: and so is what is inside it", case, expected);
}

fn beside_additions(all: &mut Cases) {
    let two = [of_type(INT, p(1, "a")), of_type(INT, p(2, "b"))];
    let new = |name: &str| of_type(INT, p(0, name));
    let adding = update(&two, 10, &[], &[(None, new("c"))]);
    let case = edited(adding.clone(), &[widen("a", LONG)]);
    let expected = typed(&[(1, "a", 0, LONG), (2, "b", 0, INT), (11, "c", 0, INT)]);
    all.put("6/13: an added column keeps its type", case, expected);
    let title = "6/13: what is added is not widened";
    all.put(title, edited(adding, &[widen("c", LONG)]), refused(23, 6, 0));
    let again = update(&two, 10, &["a"], &[(None, new("a"))]);
    all.put(title, edited(again, &[widen("a", LONG)]), refused(23, 6, 0));
    let title = "6/13: nor is one that has a dropped one's id";
    let same = update(&two, 0, &["a"], &[(None, new("d"))]);
    let expected = typed(&[(2, "b", 0, LONG), (1, "d", 0, INT)]);
    all.put(title, edited(same.clone(), &[widen("b", LONG)]), expected);
    all.put(title, edited(same, &[widen("a", LONG)]), refused(23, 6, 0));
    let node = [s(1, "s", vec![of_type(INT, p(2, "a"))])];
    let under = update(&node, 10, &[], &[(Some("s"), new("b"))]);
    let case = edited(under, &[widen("s.a", LONG)]);
    let expected = typed(&[(1, "s", 0, 0), (2, "a", 0, LONG), (11, "b", 0, INT)]);
    all.put("6/13: beside an addition under a struct", case, expected);
    let wide = update(&one(INT), 10, &[], &[(None, of_type(LONG, p(0, "b")))]);
    let expected = typed(&[(1, "a", 0, INT), (11, "b", 0, LONG)]);
    all.put("6/13: any type is added", by_version(3, wide), expected);
}

fn identifiers(all: &mut Cases) {
    let asking = |version: u32, base: &[Node], ids: &[i32], edits: &[Edit]| {
        by_version(version, edited(update_of(base, ids, 10, &[], &[]), edits))
    };
    let key = |id: i32, name: &str, code: u32| required(of_type(code, p(id, name)));
    let title = "6/13: an int identifier widened to long stays one";
    let int = [key(1, "a", INT)];
    all.put(title, asking(2, &int, &[1], &[widen("a", LONG)]), typed(&[(1, "a", 1, LONG)]));
    let node = [required(s(2, "s", int.to_vec()))];
    let expected = typed(&[(2, "s", 1, 0), (1, "a", 1, LONG)]);
    all.put(title, asking(3, &node, &[1, 1], &[widen("s.a", LONG)]), expected);
    let long = [key(1, "a", LONG)];
    all.put(title, asking(2, &long, &[1], &[]), typed(&[(1, "a", 1, LONG)]));
    for (old, new) in [(DATE, TIMESTAMP), (DATE, TIMESTAMP_NS), (decimal(9, 2), decimal(38, 2))] {
        let case = asking(3, &[key(1, "a", old)], &[1], &[widen("a", new)]);
        all.put("6/13: any other identifier stays one", case, typed(&[(1, "a", 1, new)]));
    }
    let title = "6/13: float widened to double can't become an identifier";
    let float = [key(1, "a", FLOAT)];
    all.put(title, asking(2, &float, &[1], &[widen("a", DOUBLE)]), refused(9, 5, 0));
    all.put(title, asking(2, &[key(1, "a", DOUBLE)], &[1], &[]), refused(9, 5, 0));
    let both = [key(1, "a", FLOAT), key(2, "b", INT)];
    let edits = [widen("a", DOUBLE), widen("b", LONG)];
    all.put(title, asking(3, &both, &[2, 1], &edits), refused(9, 5, 1));
    let expected = typed(&[(1, "a", 1, DOUBLE), (2, "b", 1, LONG)]);
    let title = "6/13: a float beside an identifier is widened";
    all.put(title, asking(3, &both, &[2], &edits), expected);
    let title = "6/13: 9 of the base before 26";
    all.put(title, asking(2, &float, &[1], &[widen("a", LONG)]), refused(9, 5, 0));
    let title = "6/13: an identifier that is widened and relaxed";
    let edits = [widen("a", LONG), relax("a")];
    all.put(title, asking(2, &int, &[1], &edits), refused(9, 5, 0));
    let title = "6/13: an identifier that is widened and renamed";
    let edits = [rename("a", "b"), widen("a", LONG)];
    all.put(title, asking(2, &int, &[1], &edits), typed(&[(1, "b", 1, LONG)]));
}

/// 3 and 4 of an edit that widens.
fn bytes(all: &mut Cases) {
    let two = [of_type(INT, p(1, "a")), of_type(INT, p(2, "b"))];
    let with_byte = |at: usize, byte: usize, value: u8| {
        but(widening(2, &two, &[widen("a", LONG), widen("b", LONG)]), |case| {
            edits_of(case)[at * EDIT_BYTES + byte] = value;
        })
    };
    for at in [0, 1] {
        let title = "reading 203: 3 of a widening with a new name's length";
        for value in [1, 255] {
            all.put(title, with_byte(at, 12, value), refused(3, 6, at as u32));
        }
        let title = "6/13: 3 of a widening";
        for (byte, value) in [(6, 0), (6, 4), (6, 5), (6, 255), (7, 1), (13, 1), (14, 1), (15, 128)]
        {
            all.put(title, with_byte(at, byte, value), refused(3, 6, at as u32));
        }
        // a relaxing has no code
        all.put(title, with_byte(at, 6, 2), refused(3, 6, at as u32));
        let title = "6/13: 4 of a widening's path";
        // the pool holds a and b
        for (byte, value) in [(0, 2), (1, 1), (3, 128), (4, 3), (5, 1)] {
            all.put(title, with_byte(at, byte, value), refused(4, 6, at as u32));
        }
        let title = "reading 203: a code is no part of the pool";
        for byte in [8, 9, 10, 11] {
            all.put(title, with_byte(at, byte, 255), refused(26, 6, at as u32));
        }
    }
    let title = "reading 203: a code is no part of the pool";
    steps(all, title, 2, INT, decimal(9, 2), false);
    steps(all, title, 2, INT, u32::MAX, false);
    steps(all, title, 2, decimal(9, 2), decimal(10, 2), true);
    let empty = widening(2, &[of_type(INT, p(1, ""))], &[widen("", LONG)]);
    let title = "6/13: a path of no bytes, and an empty pool";
    all.put(title, empty, typed(&[(1, "", 0, LONG)]));
    let both = but(widening(2, &two, &[widen("a", LONG), widen("b", LONG)]), |case| {
        edits_of(case)[3] = 1;
        edits_of(case)[EDIT_BYTES + 12] = 1;
    });
    all.put("6/13: 3 of a later widening before 4", both, refused(3, 6, 1));
}

fn limits(all: &mut Cases) {
    let base: Vec<Node> = (0..65).map(|n| of_type(INT, p(n, &format!("n{n}")))).collect();
    let many =
        |count: usize| -> Vec<Edit> { (0..count).map(|n| widen(&format!("n{n}"), LONG)).collect() };
    let column = |n: i32| (n, format!("n{n}"), 0, if n < 64 { LONG } else { INT });
    let expected = Expected::Typed((0..65).map(column).collect());
    all.put("6/13: 64 widenings", widening(2, &base, &many(64)), expected);
    all.put("6/13: 65 widenings", widening(2, &base, &many(65)), refused(2, 0, 0));
    let mut last = many(64);
    last[63] = widen("n63", DOUBLE);
    all.put("6/13: 26 of the last of 64", widening(2, &base, &last), refused(26, 6, 63));
    last[63] = widen("n0", LONG);
    all.put("6/13: 24 of the last of 64", widening(2, &base, &last), refused(24, 6, 63));
}

/// A base, and an update of it in which a widening stands beside a deletion and an addition.
fn asked() -> Case {
    let mut t = the_tree();
    t[1].inside[0].inside[0].type_code = INT;
    let case = update(&t, 10, &["node.cost"], &[(Some("node"), p(0, "x"))]);
    edited(case, &[widen("visits.day", LONG), relax("parts")])
}

/// Versions that are none.
const UNKNOWN: [u32; 14] = [
    0,
    1,
    4,
    5,
    255,
    256 + 2,
    256 + 3,
    2 << 8,
    3 << 8,
    3 << 16,
    2 << 24,
    (1 << 31) + 2,
    u32::MAX - 1,
    u32::MAX,
];

fn versions(all: &mut Cases) {
    let t = the_tree();
    let plain = || update(&t, 10, &[], &[]);
    let title = "reading 197: 25 of an update that asks for nothing";
    all.put(title, by_version(4, plain()), refused(25, 0, 0));
    for version in UNKNOWN {
        let title = "6/13: an unknown version";
        all.put(title, by_version(version, update(&[], 0, &[], &[])), refused(25, 0, 0));
        let case = widening(version, &one(INT), &[widen("a", LONG)]);
        all.put("6/13: an unknown version, and a widening", case, refused(25, 0, 0));
    }
    for version in [2, 3] {
        let title = "6/13: a version, and nothing else is asked for";
        let known = [1, 4, 5, 2, 6, 7, 3, 8, 9, 10];
        all.put(title, by_version(version, plain()), last(&known, 10));
        let case = by_version(version, update(&[], 0, &[], &[]));
        all.put(title, case, last(&[], 0));
    }
    let title = "6/13: versions change nothing but steps";
    let shown = [1, 4, 11, 2, 6, 7, 3, 8, 9, 10];
    for version in [2, 3] {
        all.put(title, by_version(version, asked()), last(&shown, 11));
    }
}

/// 1 and 2 come before 25.
fn before_the_version(all: &mut Cases) {
    let with = |change: &dyn Fn(&mut Case)| by_version(4, but(asked(), change));
    for names in [true, false] {
        let small = with(&|case| {
            if let Ask::Update { out_records, out_names, .. } = &mut case.ask {
                *(if names { out_names } else { out_records }) -= 1;
            }
        });
        all.put("1 before 25", small, refused(1, 0, 0));
    }
    let title = "2 before 25";
    for list in 0..3 {
        let case = with(&|case| request_of(case)[list].push(0));
        all.put(title, case, refused(2, 0, 0));
    }
    all.put(title, with(&|case| edits_of(case).push(0)), refused(2, 0, 0));
    all.put(title, with(&|case| case.records.push(0)), refused(2, 0, 0));
    let identifiers = with(&|case| {
        if let Ask::Update { identifiers, .. } = &mut case.ask {
            identifiers.push(0);
        }
    });
    all.put(title, identifiers, refused(2, 0, 0));
}

/// 25 comes before all else: each of these is refused otherwise by version 3.
fn behind_the_version(all: &mut Cases) {
    let t = the_tree();
    let with = |change: &dyn Fn(&mut Case)| but(asked(), change);
    let adding = |last_id: i32, path: Option<&str>, column: Node| {
        update(&t, last_id, &["node"], &[(path, column)])
    };
    let editing = |edit: Edit| edited(update(&t, 10, &["node"], &[]), &[edit]);
    let deep = vec!["s"; 16].join(".");
    let keyed = super::identifiers::keyed();
    let faults = [
        ("3 of the base", with(&|case| case.records[11] = 1)),
        ("4 of the base", with(&|case| case.records[7] = 1)),
        ("5 of the base", with(&|case| case.records[12] = 9)),
        ("6 of the base", with(&|case| case.records[4 * 24 + 8] = 6)),
        ("3 of the additions tree", with(&|case| request_of(case)[2][11] = 1)),
        ("4 of the additions tree", with(&|case| request_of(case)[2][7] = 1)),
        ("3 of a deletion", with(&|case| request_of(case)[0][7] = 1)),
        ("4 of a deletion", with(&|case| request_of(case)[0][3] = 1)),
        ("3 of an addition", with(&|case| request_of(case)[1][7] = 1)),
        ("4 of an addition", with(&|case| request_of(case)[1][3] = 1)),
        ("3 of an edit", with(&|case| edits_of(case)[7] = 1)),
        ("4 of an edit", with(&|case| edits_of(case)[3] = 1)),
        ("7 of the base", with(&|case| case.records[9 * 24] = 9)),
        ("8 of the base", update(&[p(1, "a"), p(2, "a")], 10, &[], &[])),
        ("9 of the base", update_of(&t, &[99], 10, &[], &[])),
        ("10", with(&|case| request_of(case)[1].clear())),
        ("11", update(&t, 10, &["nothing"], &[])),
        ("12", update_of(&keyed, &[2], 10, &["site"], &[])),
        ("13", adding(10, None, p(0, "a.b"))),
        ("14", adding(10, None, required(p(0, "a")))),
        ("15", adding(10, Some("no"), p(0, "a"))),
        ("16", adding(10, Some("visits.day"), p(0, "a"))),
        ("22", adding(10, Some("node"), p(0, "a"))),
        ("17", adding(10, None, p(0, "visits"))),
        ("18", adding(i32::MAX, None, p(0, "a"))),
        ("23", editing(widen("node", LONG))),
        ("24", editing(relax("parts.key"))),
        ("13 of an edit", editing(rename("parts", "a.b"))),
        ("26", editing(widen("parts", LONG))),
        ("19", update(&[chain(16)], 30, &[], &[(Some(&deep), p(0, "x"))])),
        ("7 of the rebuilt tree", update(&t, 1, &[], &[(None, p(0, "x"))])),
        ("8 of the rebuilt tree", update(&t, 10, &[], &[(None, p(0, "x")), (None, p(0, "x"))])),
        ("9 of the rebuilt tree", update_of(&keyed, &[5], 10, &["node"], &[])),
    ];
    for (fault, case) in faults {
        all.put(&format!("25 before {fault}"), by_version(4, case), refused(25, 0, 0));
    }
}

/// Edits are taken one at a time, and in one of them 23, 24 and 26 in this order.
fn order_of_edits(all: &mut Cases) {
    let mut t = the_tree();
    t[0].inside[0].type_code = INT;
    let faulty = [
        (23, widen("nothing", STRING)),
        (23, widen("visits.day", STRING)),
        (23, widen("visits", STRING)),
        (24, rename("parts.value", "x")),
        (13, rename("parts", "a.b")),
        (26, widen("node", LONG)),
        (26, widen("node.cost", LONG)),
    ];
    for (number, one) in &faulty {
        for (_, other) in faulty.iter().filter(|(_, other)| other != one) {
            let edits = [widen("node.button", LONG), one.clone(), other.clone()];
            let case = widening_beside(2, &t, &["visits"], &edits);
            all.put("6/13: edits one at a time", case, refused(*number, 6, 1));
        }
    }
    let title = "6/13: 23 before 26";
    for (_, edit) in faulty.iter().filter(|(number, _)| *number == 23) {
        let case = widening_beside(3, &t, &["visits"], std::slice::from_ref(edit));
        all.put(title, case, refused(23, 6, 0));
    }
}

/// Deletions, then additions, then edits.
fn after_additions(all: &mut Cases) {
    let t = the_tree();
    let edit = [widen("visits.day", STRING)];
    let one = |last_id: i32, path: Option<&str>, column: Node| {
        edited(update(&t, last_id, &["node"], &[(None, p(0, "x")), (path, column)]), &edit)
    };
    for (first, case) in [
        (13, one(10, None, p(0, "a.b"))),
        (14, one(10, None, required(p(0, "a")))),
        (15, one(10, Some("no"), p(0, "a"))),
        (16, one(10, Some("visits.day"), p(0, "a"))),
        (22, one(10, Some("node"), p(0, "a"))),
        (17, one(10, None, p(0, "visits"))),
        (18, one(i32::MAX - 1, None, p(0, "a"))),
    ] {
        all.put("an addition before 26 of an edit", case, refused(first, 3, 1));
    }
    let case = edited(update(&t, 10, &["nothing"], &[]), &edit);
    all.put("a deletion before 26 of an edit", case, refused(11, 2, 0));
    let case = edited(update(&t, 10, &[], &[(None, p(0, "x"))]), &edit);
    all.put("26 beside an addition", case, refused(26, 6, 0));
    let case = but(edited(update(&t, 10, &[], &[(None, p(0, "x"))]), &edit), |case| {
        request_of(case)[1].clear();
    });
    all.put("10 before 26", case, refused(10, 3, 0));
    let keyed = super::identifiers::keyed();
    let case = edited(update_of(&keyed, &[2], 10, &["site"], &[]), &[widen("node", LONG)]);
    all.put("12 before 26", case, refused(12, 2, 0));
}

/// 26, then 19, then 7, 8 and 9 of the rebuilt tree.
fn before_the_rebuilt_tree(all: &mut Cases) {
    let base = [required(s(1, "s", vec![required(p(9, "i"))])), of_type(INT, p(2, "a"))];
    let deep = vec!["s"; 16].join(".");
    let levels = [chain(16), of_type(INT, p(20, "a"))];
    let faults = [
        (19, update(&levels, 30, &[], &[(Some(&deep), p(0, "x"))]), refused(19, 4, 0)),
        (7, update(&base, 1, &[], &[(None, p(0, "n"))]), refused(7, 4, 3)),
        (8, update(&base, 20, &[], &[(None, p(0, "n")), (None, p(0, "n"))]), refused(8, 4, 4)),
        (9, update_of(&base, &[9], 20, &["s"], &[]), refused(9, 5, 0)),
    ];
    for (number, case, expected) in faults {
        let title = format!("26 before {number} of the rebuilt tree");
        all.put(&title, edited(case.clone(), &[widen("a", STRING)]), refused(26, 6, 0));
        let title = format!("{number} of the rebuilt tree beside a widening");
        all.put(&title, edited(case, &[widen("a", LONG)]), expected);
    }
    let met = [of_type(INT, p(1, "a")), of_type(LONG, p(2, "b"))];
    let edits = [widen("a", LONG), rename("a", "b")];
    all.put("8 of a rename beside a widening", widening(2, &met, &edits), refused(8, 4, 1));
}
