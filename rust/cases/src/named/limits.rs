//! Limits at their edge and one past it.

use super::*;
use crate::build::entry;

/// So many optional primitives with names of two letters.
fn flat(count: i32) -> Vec<Node> {
    let letter = |n: i32| char::from(b'a' + n as u8);
    let name =
        |n: i32| format!("{}{}", char::from_digit(n as u32 / 26 % 36, 36).unwrap(), letter(n % 26));
    let wide = |n: i32| if n < 936 { name(n) } else { format!("x{}", name(n)) };
    (0..count).map(|n| p(n + 1, &wide(n))).collect()
}

pub fn put(all: &mut Cases) {
    records(all);
    pools(all);
    counts(all);
    buffers(all);
    rebuilt(all);
}

fn records(all: &mut Cases) {
    all.put("1,024 records", id(&flat(1_024), 1_024), Expected::Found(1_024, 1_023));
    all.put("1,025 records", id(&flat(1_025), 1), refused(2, 0, 0));
    let wide = s(0, "n", flat(1_024));
    all.put(
        "1,025 records in the additions tree",
        update(&[], 0, &[], &[(None, wide)]),
        refused(2, 0, 0),
    );
    let full = update(&flat(1_024), 1_024, &["0a"], &[(None, p(0, "n"))]);
    all.put("reading 44: 1,024 records, one dropped and one added", full, Expected::Count(1_024));
    let past = update(&flat(1_024), 1_024, &[], &[(None, p(0, "n"))]);
    all.put("19: 1,025 records", past, refused(19, 4, 0));
}

fn pools(all: &mut Cases) {
    let pool = |bytes: usize| but(id(&[p(1, "a")], 1), |case| case.pool.resize(bytes, b'a'));
    all.put("a pool of 32,768 bytes", pool(32_768), Expected::Found(1, 0));
    all.put("a pool of 32,769 bytes", pool(32_769), refused(2, 0, 0));
    let request = but(update(&[], 0, &[], &[]), |case| request_of(case)[3].resize(32_769, b'a'));
    all.put("a request pool of 32,769 bytes", request, refused(2, 0, 0));
}

fn counts(all: &mut Cases) {
    let base = [required(p(1, "a")), p(2, "b")];
    let columns = |count: usize| -> Vec<(Option<&str>, Node)> {
        (0..count).map(|n| (None, p(0, &format!("n{n}")))).collect()
    };
    let many = |identifiers: usize, deletions: usize, additions: usize| {
        update_of(&base, &vec![1; identifiers], 2, &vec!["b"; deletions], &columns(additions))
    };
    all.put("64 identifiers, 64 deletions, 64 additions", many(64, 64, 64), Expected::Count(65));
    all.put("65 identifiers", many(65, 0, 0), refused(2, 0, 0));
    all.put("65 deletions", many(0, 65, 0), refused(2, 0, 0));
    all.put("65 additions", many(0, 0, 65), refused(2, 0, 0));
    all.put("1,024 selected ids", prune(&base, &[2; 1_024]), ids(&[2]));
    all.put("1,025 selected ids", prune(&base, &[2; 1_025]), refused(2, 0, 0));
    let members = s(3, "s", (0..300).map(|n| p(n + 10, &format!("m{n}"))).collect());
    all.put("300 members, a count of two bytes", prune(&[members], &[3, 309]), ids(&[3, 309]));
}

fn buffers(all: &mut Cases) {
    let sizes = |records: usize, names: usize| {
        but(update(&[p(1, "a")], 1, &[], &[]), |case| {
            if let Ask::Update { out_records, out_names, .. } = &mut case.ask {
                (*out_records, *out_names) = (records, names);
            }
        })
    };
    all.put("1 of an update: records", sizes(24_575, 32_768), refused(1, 0, 0));
    all.put("1 of an update: names", sizes(24_576, 32_767), refused(1, 0, 0));
    all.put("larger buffers", sizes(24_600, 40_000), last(&[1], 1));
    let rooms = |records: usize, names: usize, identifiers: usize| {
        but(renumber(&[required(p(1, "a"))], &[1, 1], 5), |case| {
            if let Ask::Renumber { out_records, out_names, out_identifiers, .. } = &mut case.ask {
                (*out_records, *out_names, *out_identifiers) = (records, names, identifiers);
            }
        })
    };
    all.put("1 of a renumbering: records", rooms(24_575, 32_768, 8), refused(1, 0, 0));
    all.put("1 of a renumbering: names", rooms(24_576, 32_767, 8), refused(1, 0, 0));
    all.put("1 of a renumbering: identifiers", rooms(24_576, 32_768, 7), refused(1, 0, 0));
    all.put("larger room for identifiers", rooms(24_576, 32_768, 99), ids(&[5]));
}

fn rebuilt(all: &mut Cases) {
    let deep = "s.s.s.s.s.s.s.s.s.s.s.s.s.s.s";
    let at =
        |levels: i32, path: &str| update(&[chain(levels)], 20, &[], &[(Some(path), p(0, "x"))]);
    let mut sixteen: Vec<i32> = (1..=15).collect();
    sixteen.push(21);
    all.put("19: 16 levels pass", at(15, deep), last(&sixteen, 21));
    all.put("19: 17 levels", at(16, &format!("{deep}.s")), refused(19, 4, 0));
    // records that share one name of 255 bytes, in lists so that full names differ
    let long = |name: &str| {
        let base: Vec<Node> = (0..128).map(|n| p(n, &format!("{n:03}"))).collect();
        but(update(&base, 200, &[], &[(None, p(0, name))]), |case| {
            // each name is a window of 255 bytes in a pool of 382
            case.pool = (0..382u32).map(|n| (n * 7 % 251) as u8 | 0x80).collect();
            for slot in 0..128 {
                let record = &mut case.records[slot * 24..];
                record[4..8].copy_from_slice(&(slot as u32).to_le_bytes());
                record[8] = 255;
            }
        })
    };
    all.put("19: a name sum of 32,769", long(&"n".repeat(129)), refused(19, 4, 0));
    all.put("19: a name sum of 32,768 passes", long(&"n".repeat(128)), Expected::Count(129));
    let path = but(update(&[p(1, "a")], 1, &["a"], &[]), |case| {
        let [deletions, _, _, pool] = request_of(case);
        *deletions = entry(2, 0, 1).to_vec();
        pool.push(b'a');
    });
    all.put("4: an empty path at the pool's end", path, refused(11, 2, 0));
}
