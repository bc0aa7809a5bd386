//! Cases at a limit and one past it.

use judge::{
    LEVELS, MOST_ADDITIONS, MOST_ASKED, MOST_DELETIONS, MOST_IDENTIFIERS, MOST_RECORDS,
    MOST_SELECTED, NAME_SUM, Node, OUT_NAMES, OUT_RECORDS, POOL_BYTES, REQUIRED,
};

use crate::build::{
    Addition, ask_of, ids_by, packed, prim, prune_by, renumber_by, request, strukt, update_by,
};
use crate::case::{Ask, Case};
use crate::random::Random;
use crate::shapes::ids_in;
use crate::trees::{Shape, chain, give_ids, part_names, sized, tree};

/// A case of an operation with one limit at its edge or one past it.
pub fn edge(random: &mut Random, operation: &str) -> Case {
    let past = random.below(2);
    if operation == "update" && random.chance(1, 4) {
        return rebuilt(random, past);
    }
    match random.below(15) {
        0..=3 => buffers(random, operation),
        4..=6 => levels(random, operation, past),
        7..=9 => lists(random, operation, past),
        10 => name_sum(random, operation, past),
        11 | 12 => pool(random, operation, past),
        _ => records(random, operation, past),
    }
}

/// The operation on a base, with little else asked.
pub fn plainly(random: &mut Random, operation: &str, base: (Vec<u8>, Vec<u8>)) -> Case {
    let id = if random.chance(1, 2) { 1 } else { random.any_id() };
    match operation {
        "update" => update_by(base, &[], 2_000_000, request(&[], &[])),
        "prune" => prune_by(base, &[id, 1, 2], true),
        "renumber" => renumber_by(base, &[], 1),
        "name" => ask_of(base, Ask::Name(b"a".to_vec())),
        "folded" => ask_of(base, Ask::Folded(b"a".to_vec())),
        "id" => ask_of(base, Ask::Id(id)),
        "ids" => {
            // from the last on, since that is an edge too
            let mut asked: Vec<i32> = ids_in(&base.0).into_iter().rev().collect();
            asked.truncate(MOST_ASKED - 1);
            asked.push(id);
            ids_by(base, &asked)
        }
        "parent" => ask_of(base, Ask::Parent(id)),
        _ => ask_of(base, Ask::List),
    }
}

fn small(random: &mut Random) -> Vec<Node> {
    tree(random, Shape { records: 6, levels: 4, distinct: true })
}

/// refusal 1 and just not: buffers one below, at, and one above their size.
fn buffers(random: &mut Random, operation: &str) -> Case {
    let base = packed(&small(random));
    let mut case = plainly(random, operation, base);
    let mut near = |size: &mut usize, least: usize| {
        *size = (least + random.below(3)).saturating_sub(1);
    };
    match &mut case.ask {
        Ask::Update { out_records, out_names, .. } | Ask::Prune { out_records, out_names, .. } => {
            near(out_records, OUT_RECORDS);
            near(out_names, OUT_NAMES);
        }
        Ask::Renumber { identifiers, out_records, out_names, out_identifiers, .. } => {
            near(out_records, OUT_RECORDS);
            near(out_names, OUT_NAMES);
            near(out_identifiers, identifiers.len());
        }
        Ask::Ids { ids, out_slots } => near(out_slots, ids.len()),
        _ => {}
    }
    case
}

/// A chain of 16 or 17 levels, with an identifier at its end where there can be one; for an update
/// also in the additions tree, or by an addition deep down in the base.
fn levels(random: &mut Random, operation: &str, past: usize) -> Case {
    if ["update", "renumber"].contains(&operation) && random.chance(1, 3) {
        return deep_identifier(random, operation, past);
    }
    let mut deep = vec![chain(random, LEVELS + past)];
    give_ids(random, &mut deep);
    part_names(&mut deep);
    if operation != "update" || random.chance(1, 3) {
        return plainly(random, operation, packed(&deep));
    }
    deep[0].name = b"fresh".to_vec();
    deep[0].flags = 0;
    let column = deep.remove(0);
    update_by(packed(&[]), &[], 5, request(&[], &[Addition { path: None, column }]))
}

/// An identifier of level 16 or 17, with required structs above it; now and then one is optional.
fn deep_identifier(random: &mut Random, operation: &str, past: usize) -> Case {
    let (mut node, levels) = (prim(0, "s"), LEVELS + past);
    let optional = random.below(4 * levels);
    for level in 1..=levels {
        if level != optional {
            node.flags = REQUIRED;
        }
        if level < levels {
            node = strukt(0, "s", vec![node]);
        }
    }
    let mut deep = vec![node];
    give_ids(random, &mut deep);
    let base = packed(&deep);
    let ids = ids_in(&base.0);
    let identifiers = vec![ids[levels - 1]; 1 + random.below(MOST_IDENTIFIERS)];
    match operation {
        "update" => update_by(base, &identifiers, 2_000_000, request(&[], &[])),
        _ => renumber_by(base, &identifiers, 1),
    }
}

/// Every list of the operation at its count and one past it, or a byte too long.
fn lists(random: &mut Random, operation: &str, past: usize) -> Case {
    let mut base = vec![prim(1, "a"), prim(2, "b")];
    let which = random.below(4);
    let many = |most: usize, here: bool| if here { most + past } else { most };
    let mut case = match operation {
        "update" => {
            base[0].flags = REQUIRED;
            let identifiers = vec![1; many(MOST_IDENTIFIERS, which == 0)];
            let deletions = vec![b"b".to_vec(); many(MOST_DELETIONS, which == 1)];
            let addition = |k| Addition { path: None, column: prim(0, &format!("n{k}")) };
            let added: Vec<Addition> =
                (0..many(MOST_ADDITIONS, which == 2)).map(addition).collect();
            update_by(packed(&base), &identifiers, 2, request(&deletions, &added))
        }
        "prune" => prune_by(packed(&base), &vec![2; many(MOST_SELECTED, true)], false),
        "renumber" => {
            base[0].flags = REQUIRED;
            renumber_by(packed(&base), &vec![1; many(MOST_IDENTIFIERS, true)], 1)
        }
        "ids" => {
            let asked: Vec<i32> = (0..many(MOST_ASKED, true) as i32).collect();
            ids_by(packed(&base), &asked)
        }
        other => plainly(random, other, packed(&base)),
    };
    if which == 3 {
        let extra = random.below(2);
        case.records.extend(vec![0; extra]);
    }
    case
}

/// Names of 255 bytes and a last one, in all 32,768 bytes or one more.
fn name_sum(random: &mut Random, operation: &str, past: usize) -> Case {
    let whole = NAME_SUM / 255;
    let name = |k: usize, length: usize| {
        let mut name = format!("{k:0length$}");
        name.truncate(length);
        name
    };
    let mut roots: Vec<Node> = (0..whole).map(|k| prim(k as i32, &name(k + 1, 255))).collect();
    roots.push(prim(-1, &name(0, NAME_SUM - whole * 255 + past)));
    let (records, mut pool) = packed(&roots);
    // one past the sum with a pool that passes: the first byte is shared
    if past == 1 {
        pool.pop();
    }
    plainly(random, operation, (records, pool))
}

/// A pool of 32,768 bytes or one more, few of them used.
fn pool(random: &mut Random, operation: &str, past: usize) -> Case {
    let (records, mut pool) = packed(&small(random));
    let mut case = plainly(random, operation, (records, pool.clone()));
    match &mut case.ask {
        Ask::Update { request_pool, .. } if random.chance(1, 2) => {
            request_pool.resize(POOL_BYTES + past, b'z');
        }
        _ => {
            pool.resize(POOL_BYTES + past, b'z');
            case.pool = pool;
        }
    }
    case
}

/// 1,024 records or one more, in the base or in the additions tree.
fn records(random: &mut Random, operation: &str, past: usize) -> Case {
    if operation != "update" || random.chance(1, 2) {
        let roots = sized(random, MOST_RECORDS + past, LEVELS);
        return plainly(random, operation, packed(&roots));
    }
    let column = strukt(0, "fresh", sized(random, MOST_RECORDS - 1 + past, LEVELS - 1));
    update_by(packed(&[]), &[], 5, request(&[], &[Addition { path: None, column }]))
}

/// A rebuilt tree at a limit or one past it: records, levels or name sum (19); or records with as
/// many visited as can be.
fn rebuilt(random: &mut Random, past: usize) -> Case {
    let fresh = |path: Option<&str>, name: &str| Addition {
        path: path.map(|p| p.as_bytes().to_vec()),
        column: prim(0, name),
    };
    match random.below(4) {
        0 => {
            let roots = sized(random, MOST_RECORDS - 1, LEVELS);
            let added: Vec<Addition> =
                (0..1 + past).map(|k| fresh(None, &format!("fresh{k}"))).collect();
            update_by(packed(&roots), &[], 10_000, request(&[], &added))
        }
        1 => {
            let mut deep = strukt(1, "s", vec![]);
            let mut path = String::from("s");
            for id in 2..(LEVELS + past) as i32 {
                deep = strukt(id, "s", vec![deep]);
                path.push_str(".s");
            }
            update_by(packed(&[deep]), &[], 50, request(&[], &[fresh(Some(&path), "x")]))
        }
        2 => most_visited(random, past),
        _ => {
            let long = |k: usize| format!("{k:0255}");
            let roots: Vec<Node> = (0..128).map(|k| prim(k, &long(k as usize))).collect();
            let name = "x".repeat(NAME_SUM - 128 * 255 + past);
            update_by(packed(&roots), &[], 500, request(&[], &[fresh(None, &name)]))
        }
    }
}

/// A base of 1,024 records, of which 64 members are dropped, with or without an inside; what is
/// added makes 1,024 records again, or one more.
fn most_visited(random: &mut Random, past: usize) -> Case {
    let inside = *random.pick(&[0, MOST_RECORDS / MOST_DELETIONS - 1]);
    let members = || (0..inside).map(|at| prim(0, &format!("m{at}"))).collect();
    let name = |at: usize| format!("dropped_{at}");
    let dropped = (0..MOST_DELETIONS).map(|at| strukt(0, &name(at), members()));
    let stay = MOST_RECORDS - MOST_DELETIONS * (1 + inside);
    let mut base: Vec<Node> = dropped.chain(sized(random, stay, LEVELS)).collect();
    give_ids(random, &mut base);
    let deletions: Vec<Vec<u8>> = (0..MOST_DELETIONS).map(|at| name(at).into_bytes()).collect();
    let column = strukt(0, "fresh", sized(random, MOST_RECORDS - stay - 1 + past, LEVELS - 1));
    update_by(packed(&base), &[], 10_000, request(&deletions, &[Addition { path: None, column }]))
}
