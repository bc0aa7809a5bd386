//! P1 to P13 on 01's tree T, P5 as 02 amends it.

use super::*;
use crate::build::the_tree;

/// T's ids in slot order.
const IN_ORDER: [i32; 10] = [1, 4, 5, 2, 6, 7, 3, 8, 9, 10];

pub fn put(all: &mut Cases) {
    one_to_thirteen(all);
    listed_and_found(all);
}

fn one_to_thirteen(all: &mut Cases) {
    let t = the_tree();
    all.put("P1: renumber from 1", renumber(&t, &[], 1), ids(&IN_ORDER));
    all.put("P2: renumber past the edge", renumber(&t, &[], 2_147_483_638), refused(18, 0, 0));
    let edge = 2_147_483_636;
    let moved: Vec<i32> = IN_ORDER.iter().map(|id| edge + id).collect();
    all.put("P2: renumber up to the edge", renumber(&t, &[], edge + 1), ids(&moved));
    all.put("P3: a list's element is left out", name(&t, "visits.day"), Expected::Found(7, 5));
    all.put("P3: a map's value is left out", name(&t, "parts.price"), Expected::Found(10, 9));
    all.put("P3: no name by itself", name(&t, "day"), Expected::Nothing);
    all.put(
        "P4: drop and add again",
        update(&t, 10, &["node.cost"], &[(Some("node"), p(0, "cost"))]),
        last(&[1, 4, 11, 2, 6, 7, 3, 8, 9, 10], 11),
    );
    all.put(
        "P5: an addition beneath a dropped member is refused (02, 3/13)",
        update(&t, 10, &["visits"], &[(Some("visits"), p(0, "fault")), (None, p(0, "floor"))]),
        refused(22, 3, 0),
    );
    all.put(
        "P6: a dropped element stays, and its members take no name",
        update(&t, 10, &["visits.element"], &[(Some("visits"), p(0, "day"))]),
        refused(8, 4, 6),
    );
    all.put(
        "P7: one name twice at the root",
        update(&t, 10, &[], &[(None, p(0, "floor")), (None, p(0, "floor"))]),
        refused(8, 4, 11),
    );
    all.put("P8: choose 7", prune(&t, &[7]), ids(&[2, 6, 7]));
    all.put("P9: choose 1", prune(&t, &[1]), ids(&[1]));
    all.put("P9: choose 1, full", prune_full(&t, &[1]), ids(&[1, 4, 5]));
    all.put("P10: choose 2", prune(&t, &[2]), refused(20, 0, 3));
    all.put("P11: choose 9", prune(&t, &[9]), ids(&[3, 8, 9]));
    all.put("P12: choose 8", prune(&t, &[8]), ids(&[3, 8, 9, 10]));
    all.put("P13: choose nothing", prune(&t, &[]), ids(&[]));
    all.put("P13: choose nothing, full", prune_full(&t, &[]), ids(&[]));
}

fn listed_and_found(all: &mut Cases) {
    let t = the_tree();
    let visits = [l(2, "visits", s(6, "element", vec![p(7, "day")]))];
    let lines = "0 2 - visits\n1 6 2 visits.element\n2 7 6 visits.element.day\n";
    all.put("P8's answer, listed", list(&visits), Expected::Lines(lines));
    for (slot, id_) in IN_ORDER.iter().enumerate() {
        all.put("T: every id is found", id(&t, *id_), Expected::Found(*id_, slot as u32));
    }
    for (of, above, slot) in [(4, 1, 0), (6, 2, 3), (7, 6, 4), (8, 3, 6), (9, 3, 6), (10, 9, 8)] {
        all.put("T: the record above", parent(&t, of), Expected::Found(above, slot));
    }
}
