//! What iceberg's own code decided where 01 is open.

use super::*;
use crate::build::the_tree;

pub fn put(all: &mut Cases) {
    ids_again(all);
    dropped(all);
    dots(all);
    empty_names(all);
    numbering(all);
    structs(all);
}

fn ids_again(all: &mut Cases) {
    let t = the_tree();
    let again = [(Some("node"), p(0, "cost"))];
    let case = update(&t, 4, &["node.cost"], &again);
    all.put("a low last id hands out an id again", case, last(&[1, 4, 5, 2, 6, 7, 3, 8, 9, 10], 5));
    let case = update(&t, 3, &["node.cost"], &again);
    all.put("and 7 if its holder still stands", case, refused(7, 4, 2));
    let case = update(&[p(5, "a")], -2, &[], &[(None, p(0, "u")), (None, p(0, "v"))]);
    all.put("-1 and 0 are handed out", case, last(&[5, -1, 0], 0));
    let base = [p(1, "a"), required(s(2, "s", vec![required(p(3, "i"))]))];
    let nested = required(with_default(s(0, "n", vec![required(p(0, "x"))])));
    let case = update_of(&base, &[3], 1, &["s"], &[(None, nested)]);
    all.put("an identifier's id handed out inside an added struct", case, last(&[1, 2, 3], 3));
    let case = update(&t, i32::MAX, &["node"], &[]);
    all.put("no addition, no 18", case, last(&[2, 6, 7, 3, 8, 9, 10], i32::MAX));
}

fn dropped(all: &mut Cases) {
    let t = the_tree();
    let paths = ["node", "node", "node.cost", "visits.day", "visits.element.day"];
    all.put(
        "deletions may repeat and overlap",
        update(&t, 10, &paths, &[]),
        last(&[2, 6, 3, 8, 9, 10], 10),
    );
    let twice = || s(0, "z", vec![p(0, "q"), p(0, "q")]);
    let case = update(&t, 10, &["node"], &[(Some("node"), twice()), (Some("node"), twice())]);
    all.put("what would be nowhere is tested for no 7 or 8", case, refused(22, 3, 0));
    let case = update(&t, 10, &[], &[(Some("node"), twice())]);
    all.put("what stays is", case, refused(8, 4, 5));
    let base = [
        l(1, "l", s(2, "element", vec![p(3, "x")])),
        m(4, "m", s(5, "key", vec![p(6, "k")]), s(7, "value", vec![p(8, "v")])),
    ];
    let case = update(&base, 8, &["m.value"], &[(Some("m"), p(0, "v"))]);
    all.put("a dropped value takes no name", case, refused(8, 4, 8));
    let case = update(&base, 8, &["m.value", "m.v"], &[(Some("m"), p(0, "v"))]);
    all.put("the old member goes, the new one comes", case, last(&[1, 2, 3, 4, 5, 6, 7, 9], 9));
    let case = update(&base, 8, &["l.element", "l"], &[]);
    all.put("the list goes with its dropped element", case, last(&[4, 5, 6, 7, 8], 8));
    let case = update(&t, 10, &["visits.day", "parts.price"], &[]);
    all.put("deletions by short names", case, last(&[1, 4, 5, 2, 6, 3, 8, 9], 10));
    let nested =
        l(1, "a", s(2, "element", vec![l(3, "b", s(4, "element", vec![p(5, "element")]))]));
    let case = update(&[nested], 9, &["a.b.element"], &[]);
    all.put(
        "a deletion by an equal short name drops the first entered",
        case,
        last(&[1, 2, 3, 4], 9),
    );
}

fn dots(all: &mut Cases) {
    let base = [p(1, "a.b"), s(2, "a", vec![])];
    let case = update(&base, 3, &["a.b"], &[(Some("a"), p(0, "b"))]);
    all.put("a dotted root makes room", case, last(&[2, 4], 4));
    let case = update(&base, 3, &[], &[(None, p(0, "."))]);
    all.put("13 for a dot alone", case, refused(13, 3, 0));
    let deep = s(0, "n", vec![p(0, "x.y"), p(0, "..")]);
    let case = update(&base, 3, &[], &[(None, deep)]);
    all.put("dots deeper down", case, last(&[1, 2, 4, 5, 6], 6));
    let el = [p(1, "a.element"), l(2, "a", p(3, "element"))];
    all.put("a root named like an element", id(&el, 1), refused(8, 0, 2));
    all.put("a dotted root is found", name(&base, "a.b"), Expected::Found(1, 0));
}

fn empty_names(all: &mut Cases) {
    let base = [s(1, "", vec![p(2, ""), p(3, "a")]), s(4, "b", vec![p(5, "")])];
    let case = update(&base, 5, &[], &[(Some(""), p(0, "n")), (None, p(0, "n"))]);
    all.put("the path of no bytes, and no path", case, last(&[1, 2, 3, 6, 4, 5, 7], 7));
    all.put("17 for an empty name", update(&base, 5, &[], &[(None, p(0, ""))]), refused(17, 3, 0));
    let case = update(&base, 5, &[""], &[(None, p(0, ""))]);
    all.put("an empty name freed", case, last(&[4, 5, 6], 6));
    let case = update(&base, 5, &[], &[(Some("b"), p(0, ""))]);
    all.put("17 for an empty member", case, refused(17, 3, 0));
    let clash = [s(1, "", vec![p(2, "")]), p(3, ".")];
    all.put("8 between a dot and two empty names", id(&clash, 1), refused(8, 0, 2));
    all.put("no empty name", name(&[p(1, "a")], ""), Expected::Nothing);
}

fn numbering(all: &mut Cases) {
    let key = s(2, "key", vec![p(3, "a"), l(4, "b", p(5, "element"))]);
    let value = s(6, "value", vec![p(7, "c")]);
    let base = [m(1, "m", key, value), p(8, "z")];
    let case = renumber(&base, &[], 1);
    all.put("a key's inside before the value", case, ids(&[1, 3, 4, 5, 6, 7, 8, 2]));
    let base = [required(s(7, "s", vec![required(p(8, "i"))])), required(p(9, "j"))];
    let case = renumber(&base, &[9, 8, 9], 1);
    all.put("identifiers in the order given", case, ids(&[1, 3, 2]));
    let base = [required(p(-1, "a"))];
    all.put("-1 renumbered to -1", renumber(&base, &[-1, -1], -1), ids(&[-1]));
    let twice = [l(1, "a", p(2, "element")), l(3, "b", p(2, "element"))];
    all.put("7 for elements when renumbering", renumber(&twice, &[], 1), refused(7, 0, 3));
    let case = renumber(&[chain(16)], &[], 100);
    let run: Vec<i32> = (100..116).collect();
    all.put("sixteen levels renumbered", case, Expected::Ids(run));
}

fn structs(all: &mut Cases) {
    let st = [s(1, "s", vec![p(2, "a"), s(3, "b", vec![p(4, "c")])])];
    all.put("a chosen struct keeps what it yielded", prune(&st, &[1, 4]), ids(&[1, 3, 4]));
    all.put("a chosen struct in full mode", prune_full(&st, &[1, 4]), ids(&[1, 2, 3, 4]));
    all.put("a member in full mode", prune_full(&st, &[4]), ids(&[1, 3, 4]));
    let ends = [s(-1, "a", vec![p(0, "x")]), p(i32::MIN, "z")];
    all.put("-1 chosen", prune(&ends, &[-1]), ids(&[-1]));
    all.put("0 chosen", prune(&ends, &[0]), ids(&[-1, 0]));
    all.put("the least id chosen", prune(&ends, &[i32::MIN]), ids(&[i32::MIN]));
    all.put("an empty base pruned", prune_full(&[], &[1]), ids(&[]));
    let deep =
        [p(1, "a"), m(2, "m", m(3, "key", p(4, "key"), s(5, "value", vec![])), p(6, "value"))];
    all.put("where Rust panics inside a key", prune(&deep, &[1, 5]), ids(&[1]));
    all.put(
        "an empty base takes a column",
        update(&[], 0, &[], &[(None, p(0, "n"))]),
        last(&[1], 1),
    );
}
