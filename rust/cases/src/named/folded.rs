//! The look-up that forgets case (02, 1/13). Its readings have their numbers in docs/DECISIONS.md.

use super::*;
use crate::build::the_tree;

pub fn put(all: &mut Cases) {
    in_the_worked_tree(all);
    letters(all);
    any_bytes(all);
    full_names(all);
    short_names(all);
    full_before_short(all);
    order(all);
    exact_as_before(all);
}

fn in_the_worked_tree(all: &mut Cases) {
    let t = the_tree();
    all.put("1/13: as the fitters type it", folding(&t, "Node.Cost"), Expected::Found(5, 2));
    all.put("1/13: as it is spelt", folding(&t, "node.cost"), Expected::Found(5, 2));
    all.put("1/13: an element", folding(&t, "Visits.ELEMENT"), Expected::Found(6, 4));
    all.put("1/13: inside an element", folding(&t, "visits.Element.day"), Expected::Found(7, 5));
    all.put("1/13: an element is left out", folding(&t, "VISITS.Day"), Expected::Found(7, 5));
    all.put("1/13: a key", folding(&t, "Parts.Key"), Expected::Found(8, 7));
    all.put("1/13: a value is left out", folding(&t, "parts.PRICE"), Expected::Found(10, 9));
    all.put("1/13: no name by itself", folding(&t, "DAY"), Expected::Nothing);
    all.put("1/13: a part of a name", folding(&t, "NOD"), Expected::Nothing);
    all.put("1/13: a name and more", folding(&t, "NODES"), Expected::Nothing);
    all.put("1/13: a name and a dot", folding(&t, "NODE."), Expected::Nothing);
}

fn letters(all: &mut Cases) {
    let (upper, lower) = ("ABCDEFGHIJKLMNOPQRSTUVWXYZ", "abcdefghijklmnopqrstuvwxyz");
    let title = "1/13: all letters fold, both ways";
    for (has, asked) in [(upper, lower), (lower, upper), ("AZaz", "azAZ")] {
        all.put(title, folding(&[p(1, has)], asked), Expected::Found(1, 0));
    }
    let title = "reading 147: what stands beside the letters does not fold";
    for (has, asked) in [("@[", "`{"), ("`{", "@["), ("@", "`"), ("[", "{"), ("]^_", "}~\u{7f}")] {
        all.put(title, folding(&[p(1, has)], asked), Expected::Nothing);
    }
    let apart = [p(1, "`"), p(2, "@"), p(3, "{"), p(4, "[")];
    all.put(title, folding(&apart, "@"), Expected::Found(2, 1));
    all.put(title, folding(&apart, "["), Expected::Found(4, 3));
    let title = "reading 147: digits, blanks and dots do not fold";
    all.put(title, folding(&[p(1, "1 .")], "\u{11}\0\u{e}"), Expected::Nothing);
    let title = "reading 147: no letter above 127 folds";
    for (has, asked) in [("\u{c4}", "\u{e4}"), ("\u{e4}", "\u{c4}"), ("\u{212a}", "k")] {
        all.put(title, folding(&[p(1, has)], asked), Expected::Nothing);
    }
    all.put(title, folding(&[p(1, "\u{c4}a")], "\u{c4}A"), Expected::Found(1, 0));
    let apart = [p(1, "\u{e4}"), p(2, "\u{c4}")];
    all.put(title, folding(&apart, "\u{c4}"), Expected::Found(2, 1));
}

fn any_bytes(all: &mut Cases) {
    let raw = |has: &[u8], asked: &[u8]| {
        but(folding(&[p(1, "..")], ""), |case| {
            (case.pool, case.ask) = (has.to_vec(), Ask::Folded(asked.to_vec()));
        })
    };
    let title = "1/13: names that are not UTF-8";
    all.put(title, raw(b"\xC1a", b"\xC1A"), Expected::Found(1, 0));
    all.put(title, raw(b"\xC1a", b"\xE1a"), Expected::Nothing);
    let empty = [s(1, "", vec![p(2, ""), p(3, "a")]), s(4, "b", vec![p(5, "")])];
    all.put("1/13: an empty name", folding(&empty, ""), Expected::Found(1, 0));
    all.put("1/13: a member of an empty name", folding(&empty, ".A"), Expected::Found(3, 2));
    all.put("1/13: an empty member", folding(&empty, "B."), Expected::Found(5, 4));
    all.put("1/13: no empty name", folding(&[p(1, "a")], ""), Expected::Nothing);
    all.put("1/13: an empty tree", folding(&[], "a"), Expected::Nothing);
    let long = folding(&[p(1, "a")], &"A".repeat(33_000));
    all.put("1/13: a name asked for has no limit", long, Expected::Nothing);
    let (upper, lower) = ("A".repeat(255), "a".repeat(255));
    let inmost = p(16, &upper);
    let deep = (1..16).rev().fold(inmost, |inside, id| s(id, &upper, vec![inside]));
    let longest = folding(&[deep], &[&lower[..]; 16].join("."));
    all.put("1/13: the longest name", longest, Expected::Found(16, 15));
}

fn full_names(all: &mut Cases) {
    let title = "reading 146: an exact match beside another";
    let two = [p(1, "a"), p(2, "A")];
    all.put(title, folding(&two, "a"), refused(21, 0, 1));
    all.put(title, folding(&two, "A"), refused(21, 0, 1));
    let title = "21: the second one's slot";
    all.put(title, folding(&[p(1, "b"), p(2, "A"), p(3, "a")], "a"), refused(21, 0, 2));
    all.put(title, folding(&[p(1, "A"), p(2, "b"), p(3, "a")], "A"), refused(21, 0, 2));
    let three = [p(1, "aa"), p(2, "aA"), p(3, "Aa")];
    all.put("21: the second of three", folding(&three, "AA"), refused(21, 0, 1));
    let pairs = [s(1, "s", vec![p(2, "x")]), s(3, "S", vec![p(4, "X")])];
    all.put("21: structs", folding(&pairs, "s"), refused(21, 0, 2));
    all.put("21: their members", folding(&pairs, "S.x"), refused(21, 0, 3));
    let (nested, dotted) = (s(1, "a", vec![p(2, "b")]), p(3, "A.b"));
    let title = "21: a dotted name and a nested one";
    all.put(title, folding(&[nested.clone(), dotted.clone()], "a.B"), refused(21, 0, 2));
    all.put(title, folding(&[dotted, nested], "a.B"), refused(21, 0, 2));
    let key = [m(1, "m", p(2, "key"), p(3, "value")), p(4, "M.KEY")];
    all.put("21: a dotted name and a key", folding(&key, "m.key"), refused(21, 0, 3));
    let elsewhere = [s(1, "s", vec![p(2, "a")]), p(3, "A")];
    all.put("1/13: a member elsewhere", folding(&elsewhere, "a"), Expected::Found(3, 2));
    let mut most: Vec<Node> = (1..1_024).map(|id| p(id, &format!("c{id}"))).collect();
    most.push(p(1_024, "C1"));
    all.put("21: the last slot", folding(&most, "c1"), refused(21, 0, 1_023));
}

/// A list of structs of these members.
fn list_with(name: &str, members: Vec<Node>) -> Node {
    l(1, name, s(2, "element", members))
}

fn short_names(all: &mut Cases) {
    let alone = [list_with("l", vec![p(3, "a")]), p(4, "l.element.b")];
    all.put("1/13: a short name alone", folding(&alone, "L.A"), Expected::Found(3, 2));
    let two = || vec![p(3, "a"), p(4, "A")];
    all.put("21: under an element", folding(&[list_with("l", two())], "l.A"), refused(21, 0, 3));
    let value = [m(1, "m", p(2, "key"), s(5, "value", two()))];
    all.put("21: under a value", folding(&value, "M.a"), refused(21, 0, 4));
    let key = [m(1, "m", s(2, "key", two()), p(5, "value"))];
    all.put("1/13: a key is not left out", folding(&key, "M.a"), Expected::Nothing);
    all.put("21: under a key", folding(&key, "M.KEY.a"), refused(21, 0, 3));
    let title = "reading 145: equal short names, the second by its slot";
    let (dotted, nested) = (p(3, "x.y"), l(4, "x", s(5, "element", vec![p(6, "y")])));
    for members in [vec![dotted.clone(), nested.clone()], vec![nested, dotted]] {
        all.put(title, folding(&[list_with("l", members)], "L.X.Y"), refused(21, 0, 5));
    }
    let inner = |name: &str| l(5, name, s(3, "element", vec![p(4, "element")]));
    let base = [list_with("l", vec![inner("1")])];
    all.put(title, folding(&base, "l.1.element"), refused(21, 0, 4));
    all.put("exact: the first entered", name(&base, "l.1.element"), Expected::Found(4, 4));
    let title = "reading 145: equal short names without letters";
    let members = vec![p(3, "2.3"), l(4, "2", s(5, "element", vec![p(6, "3")]))];
    all.put(title, folding(&[list_with("1", members)], "1.2.3"), refused(21, 0, 5));
}

fn full_before_short(all: &mut Cases) {
    let title = "reading 148: a full name hides short ones";
    let short = || list_with("l", vec![p(3, "a"), p(4, "A")]);
    all.put(title, folding(&[short(), p(5, "L.a")], "l.A"), Expected::Found(5, 4));
    all.put(title, folding(&[p(5, "L.a"), short()], "l.A"), Expected::Found(5, 0));
    let one = [list_with("l", vec![p(3, "a")]), p(4, "L.A")];
    all.put("reading 148: and an exact short one", folding(&one, "l.a"), Expected::Found(4, 3));
    all.put("exact: the short one", name(&one, "l.a"), Expected::Found(3, 2));
    let two = [list_with("l", vec![p(3, "a")]), p(4, "L.A"), p(5, "l.A")];
    all.put("21: two full names beside a short one", folding(&two, "l.a"), refused(21, 0, 4));
}

/// 21 comes after 2 to 8, wherever they stand.
fn order(all: &mut Cases) {
    let base = || vec![p(1, "a"), p(2, "A"), s(3, "s", vec![])];
    let damaged = |change: fn(&mut Case)| but(folding(&base(), "a"), change);
    all.put("2 before 21", damaged(|case| case.records.push(0)), refused(2, 0, 0));
    all.put("3 before 21", damaged(|case| case.records[2 * 24 + 11] = 1), refused(3, 0, 2));
    all.put("4 before 21", damaged(|case| case.records[2 * 24 + 7] = 1), refused(4, 0, 2));
    all.put("5 before 21", damaged(|case| case.records[2 * 24 + 12] = 1), refused(5, 0, 3));
    let item = [p(1, "a"), p(2, "A"), l(3, "l", p(4, "item"))];
    all.put("6 before 21", folding(&item, "a"), refused(6, 0, 3));
    all.put("7 before 21", damaged(|case| case.records[2 * 24] = 1), refused(7, 0, 2));
    let again = [p(1, "a"), p(2, "A"), p(3, "a")];
    all.put("8 before 21", folding(&again, "a"), refused(8, 0, 2));
}

fn exact_as_before(all: &mut Cases) {
    let t = the_tree();
    all.put("exact: case counts", name(&t, "Node.Cost"), Expected::Nothing);
    let two = [p(1, "a"), p(2, "A")];
    all.put("exact: one of two", name(&two, "A"), Expected::Found(2, 1));
    all.put("exact: a deletion of one of two", update(&two, 2, &["A"], &[]), last(&[1], 2));
    all.put("exact: 11 in another case", update(&t, 10, &["Node"], &[]), refused(11, 2, 0));
    let under = update(&t, 10, &[], &[(Some("Node"), p(0, "x"))]);
    all.put("exact: 15 in another case", under, refused(15, 3, 0));
    let beside = update(&two, 2, &[], &[(None, p(0, "AA")), (None, p(0, "aa"))]);
    all.put("exact: no 17 and no 8 in another case", beside, last(&[1, 2, 3, 4], 4));
}
