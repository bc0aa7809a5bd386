//! The benchmark: for each schema, size and operation the port's time, the time of iceberg's
//! own code from the same bytes (build and operation), how many times the port is faster, and
//! a plain copy of the same bytes; of an update also the records visited, and the time for each.
//! Then the same for updates in which nearly all records stand inside one struct, and for trees
//! that are built to be bad, for the index, for the look-up that forgets case, for additions and
//! for identifiers far down; updates with edits, widenings among them, beside the same ones
//! without; searches by id beside a linear scan; the stack that each entry uses. Words behind the
//! command choose parts of that.

use std::hint::black_box;
use std::process::ExitCode;

use bench::{
    Beside, Call, FAMILIES, INSIDE, LINKED, Room, Row, SCHEMAS, SIZES, Search, deepest, editing,
    inside, marks, rows, searches, times, widening, worst_folded, worst_identifiers, worst_ids,
    worst_names, worst_parents,
};
use oracle::Iceberg;
use port::Port;

/// The parts besides the schemas.
const PARTS: [&str; 10] = [
    "inside",
    "ids",
    "names",
    "folded",
    "parents",
    "identifiers",
    "edits",
    "widenings",
    "searches",
    "stack",
];

fn main() -> ExitCode {
    let parts: Vec<&str> = SCHEMAS.iter().map(|(name, _)| *name).chain(PARTS).collect();
    let asked: Vec<String> = std::env::args().skip(1).collect();
    if let Some(word) = asked.iter().find(|word| !parts.contains(&word.as_str())) {
        eprintln!("there is no part {word}, only {}", parts.join(", "));
        return ExitCode::from(2);
    }
    let wanted = |part: &str| asked.is_empty() || asked.iter().any(|word| word == part);
    println!("microseconds of processor time of one call, best of 50 rounds; {}", machine());
    if cfg!(debug_assertions) {
        println!(
            "this is no release build, so its times say nothing: cargo run --profile bench -p bench"
        );
    }
    let iceberg = match oracle::judge() {
        Ok(iceberg) => Some(iceberg),
        Err(why) => {
            println!("iceberg's own code is not there: {why}");
            None
        }
    };
    if let Some(why) = port::absent() {
        println!("the port is not there: {why}");
    }
    let mut each = vec![];
    for (schema, what) in SCHEMAS.iter().filter(|(schema, _)| wanted(schema)) {
        println!("\n{schema}: {what}");
        each.extend(table(SIZES.into_iter().flat_map(|size| rows(schema, size)), iceberg));
    }
    if !each.is_empty() {
        each.sort_by(f64::total_cmp);
        let [least, median, most] = [0, each.len() / 2, each.len() - 1].map(|at| each[at]);
        println!(
            "\nns each of these {} updates: least {least:.1}, median {median:.1}, most {most:.1}",
            each.len()
        );
    }
    if wanted("inside") {
        for schema in INSIDE {
            println!("\ninside: {schema}, nearly all records inside one struct");
            table(SIZES.into_iter().flat_map(|size| inside(schema, size)), iceberg);
        }
    }
    if wanted("ids") {
        println!("\nids: built to be bad for the search by id");
        table(worst_ids().into_iter().flatten(), iceberg);
    }
    if wanted("names") {
        println!("\nnames: built to be bad for the index of names, beside an ordinary tree");
        besides(worst_names(), iceberg);
    }
    if wanted("folded") {
        println!(
            "\nfolded: built to be bad for the look-up that forgets case, beside the exact one"
        );
        table(worst_folded().into_iter().flatten(), iceberg);
    }
    if wanted("parents") {
        println!("\nparents: built to be bad for the walk up from an addition's struct (22)");
        table(worst_parents(), iceberg);
    }
    if wanted("identifiers") {
        println!("\nidentifiers: built to be bad for the walk up from an identifier (9)");
        table(worst_identifiers(), iceberg);
    }
    let without = "beside the same update without edits, which is what the crate is asked for";
    if wanted("edits") {
        println!("\nedits: {without}");
        besides(editing(), iceberg);
    }
    if wanted("widenings") {
        println!("\nwidenings, and other edits of the same primitives: {without}");
        besides(widening(), iceberg);
    }
    if wanted("searches") {
        searching(iceberg);
    }
    if wanted("stack") && port::absent().is_none() {
        println!("\nstack: bytes, the most of all cases tried");
        marks(deepest(), &Port).iter().for_each(|(entry, bytes)| println!("{bytes:>7} {entry}"));
    }
    ExitCode::SUCCESS
}

/// Prints a table. The nanoseconds of its accepted updates, for each record visited.
fn table(rows: impl IntoIterator<Item = Row>, iceberg: Option<Iceberg>) -> Vec<f64> {
    println!(
        "{:>7} {:45}{:>12}{:>12}{:>9}{:>9}{:>9}{:>9}",
        "records", "", "ours", "iceberg", "times", "copy", "visited", "ns each"
    );
    let rows: Vec<Row> = rows.into_iter().collect();
    let calls: Vec<Option<Call>> = rows.iter().flat_map(|row| calls(row, iceberg)).collect();
    let mut all = vec![];
    for (row, times) in rows.iter().zip(times(&calls).chunks(3)) {
        let records = row.case.records.len() / judge::RECORD_BYTES;
        let visits = visits(row, times[0]);
        println!("{records:>7} {:45}{}{}", row.what, figures(times), shown_visits(visits));
        all.extend(visits.map(|(_, each)| each));
    }
    all
}

/// The records that an accepted update visits, as the port tells them, and nanoseconds for each.
fn visits(row: &Row, ours: Option<f64>) -> Option<(u32, f64)> {
    let ours = ours?;
    let visited = Room::default().visited(&row.case, &Port)?;
    Some((visited, ours / f64::from(visited)))
}

fn shown_visits(visits: Option<(u32, f64)>) -> String {
    visits.map_or("".into(), |(visited, each)| format!("{visited:>9}{each:>9.1}"))
}

/// A table for each row that others are told beside: how many times each takes as long. Where the
/// crate is not asked for a row, its time is that of the last one above for which it is.
fn besides(all: Vec<Beside>, iceberg: Option<Iceberg>) {
    for Beside { of, rows } in all {
        println!("\n{of}");
        println!(
            "{:>7} {:45}{:>12}{:>9}{:>12}{:>9}{:>9}{:>9}",
            "records", "", "ours", "as long", "iceberg", "times", "visited", "ns each"
        );
        let calls: Vec<Option<Call>> = rows.iter().flat_map(|row| calls(row, iceberg)).collect();
        let times = times(&calls);
        let mut theirs = None;
        for (row, each) in rows.iter().zip(times.chunks(3)) {
            let (ours, records) = (each[0], row.case.records.len() / judge::RECORD_BYTES);
            theirs = each[1].or(theirs);
            let shown = |time: Option<f64>| time.map_or("-".into(), |t| format!("{:.3}", t / 1e3));
            let longer = ours
                .zip(times[0])
                .map_or("-".into(), |(this, first)| format!("{:.2}", this / first));
            println!(
                "{records:>7} {:45}{:>12}{longer:>9}{:>12}{:>9}{}",
                row.what,
                shown(ours),
                shown(theirs),
                ratio(ours, theirs),
                shown_visits(visits(row, ours))
            );
        }
    }
}

/// A table for each family of ids, of a flat and of a nested schema.
fn searching(iceberg: Option<Iceberg>) {
    println!("\nsearches: by id, beside a linear scan of the same records; here in nanoseconds");
    if !LINKED {
        println!("the search alone is not there: tools/staticlib index_timed makes its archive");
    }
    for (schema, family) in ["flat", "tables"].iter().flat_map(|s| FAMILIES.map(|f| (s, f))) {
        println!("\n{schema}, {}", family.0);
        println!(
            "{:>7} {:45}{:>12}{:>12}{:>9}{:>12}{:>9}",
            "records", "", "ours", "scan", "times", "iceberg", "times"
        );
        let rows: Vec<Search> =
            SIZES.into_iter().flat_map(|size| searches(schema, family, size)).collect();
        let calls: Vec<Option<Call>> = rows.iter().flat_map(|row| row.calls(iceberg)).collect();
        for (row, times) in rows.iter().zip(times(&calls).chunks(4)) {
            let records = row.case.records.len() / judge::RECORD_BYTES;
            let one = |time: f64| time / f64::from(row.rounds());
            let ours = times[0].map(|time| one(time - times[1].unwrap_or(0.0)));
            let [scan, theirs] = [times[2], times[3]].map(|time| time.map(one));
            let shown = |time: Option<f64>| time.map_or("-".into(), |t| format!("{t:.2}"));
            println!(
                "{records:>7} {:45}{:>12}{:>12}{:>9}{:>12}{:>9}",
                row.what,
                shown(ours),
                shown(scan),
                ratio(ours, scan),
                shown(theirs),
                ratio(ours, theirs)
            );
        }
    }
}

fn machine() -> String {
    let cores = std::thread::available_parallelism().map_or(1, usize::from);
    format!("{} {}, {cores} cores", std::env::consts::OS, std::env::consts::ARCH)
}

/// The port's call, the crate's and a copy. The port's answer is looked at first.
fn calls(row: &Row, iceberg: Option<Iceberg>) -> [Option<Call<'_>>; 3] {
    let case = &row.case;
    let ours = port::absent().is_none().then(|| -> Call {
        assert_eq!(Room::default().call(case, &Port), Some(row.refusal), "{}", row.what);
        Box::new(|room| {
            black_box(room.call(case, &Port));
        })
    });
    let theirs = iceberg.zip(row.crate_case()).map(|(iceberg, case)| -> Call {
        Box::new(move |_| {
            black_box(iceberg.operate(&case));
        })
    });
    [ours, theirs, Some(Box::new(|room| room.copy(case)))]
}

fn figures(times: &[Option<f64>]) -> String {
    let shown =
        |time: Option<f64>| time.map_or(format!("{:>12}", "-"), |t| format!("{:>12.3}", t / 1e3));
    let copy = times[2].map_or("-".into(), |t| format!("{:.3}", t / 1e3));
    let ratio = ratio(times[0], times[1]);
    format!("{}{}{ratio:>9}{copy:>9}", shown(times[0]), shown(times[1]))
}

/// How many times ours goes into theirs.
fn ratio(ours: Option<f64>, theirs: Option<f64>) -> String {
    ours.zip(theirs).map_or("-".into(), |(ours, theirs)| match theirs / ours {
        least if least < 0.01 => format!("{least:.4}"),
        less if less < 1.0 => format!("{less:.3}"),
        more => format!("{more:.1}"),
    })
}
