//! What an update and a pruning tell of each column.

use std::collections::BTreeSet;

use cases::Random;

use crate::folder::{Folder, Said};

#[test]
fn every_column_is_told_with_its_fate() {
    let folder = Folder::with_t();
    let arguments = "update T --drop node.cost --drop visits.element --drop parts \
                     --add cost:3 --under node --add fault:2 --under visits --add floor:2 --out U";
    let lines = "\
dropped 5 node.cost
stays 6 visits.element: a list's element is not dropped alone; drop 2 visits
dropped 3 parts, and 3 columns inside it
added 11 node.cost
added 12 visits.element.fault
added 13 floor
last id 13
visited 10 records in the rebuild
";
    assert_eq!(folder.braid(arguments).answer(), lines);
}

#[test]
fn a_key_and_a_value_stay_too() {
    let folder = Folder::with_t();
    let said = folder.braid("update T --drop parts.key --drop parts.value --out U").answer();
    let lines = "stays 8 parts.key: a map's key is not dropped alone; drop 3 parts\n\
                 stays 9 parts.value: a map's value is not dropped alone; drop 3 parts\n\
                 last id 10\nvisited 10 records in the rebuild\n";
    assert_eq!(said, lines);
    assert_eq!(folder.pair("U"), folder.pair("T"));
}

#[test]
fn a_column_inside_a_dropped_one_goes_with_it() {
    let folder = Folder::with_t();
    let arguments = "update T --drop visits.day --drop visits.element --drop visits --drop visits \
                     --out U";
    let lines = "dropped 7 visits.element.day, with 2 visits\n\
                 dropped 6 visits.element, with 2 visits\n\
                 dropped 2 visits, and 2 columns inside it\n\
                 last id 10\nvisited 8 records in the rebuild\n";
    assert_eq!(folder.braid(arguments).answer(), lines);
    folder.piped("make - --out A", b"1 a: struct\n  2 b: struct\n").answer();
    let said = folder.braid("update A --drop a --out B").answer();
    let lines = "dropped 1 a, and 1 column inside it\nlast id 2\nvisited 1 record in the rebuild\n";
    assert_eq!(said, lines);
}

#[test]
fn a_tree_is_told_column_by_column() {
    let folder = Folder::with_t();
    folder.piped("make - --out s", b"1 s: struct\n  2 a: int\n3 t: int\n").answer();
    let said = folder.braid("update T --add-tree s --under visits --out U").answer();
    let lines = "added 11 visits.element.s\nadded 12 visits.element.s.a\n\
                 added 13 visits.element.t\nlast id 13\nvisited 13 records in the rebuild\n";
    assert_eq!(said, lines);
}

/// What is added to a dropped column is nowhere told as added: it is refused, and nothing is
/// written.
#[test]
fn what_is_added_to_a_dropped_column_is_refused() {
    let folder = Folder::with_t();
    folder.piped("make - --out s", b"1 s: struct\n  2 a: int\n3 t: int\n").answer();
    let words = "the receiving struct, or a record above it, is dropped as a member of a struct or \
                 of the root";
    let goes =
        "id 6 slot 4 visits.element: it goes with id 2 slot 3 visits, which deletion 1 drops";
    for (added, place) in
        [("--add-tree s --under visits", 0), ("--add-tree s --add t:2 --under-id 6", 2)]
    {
        let arguments = format!("update T --drop node --drop visits {added} --out V");
        let said = folder.braid(&arguments).refusal();
        assert!(
            said[0].starts_with(&format!("refused 22 at 3 {place}: {words}: addition {place}, "))
        );
        assert!(said[0].ends_with(goes), "{said:?}");
        assert!(!folder.files().contains(&"V.rec".into()), "{arguments}");
    }
}

#[test]
fn columns_are_dropped_by_id_too_in_the_order_given() {
    let folder = Folder::with_t();
    let said =
        folder.braid("update T --drop-id 7 --drop node.cost --drop-id 4,10 --out U").answer();
    let lines = "dropped 7 visits.element.day\ndropped 5 node.cost\ndropped 4 node.button\n\
                 dropped 10 parts.value.price\nlast id 10\nvisited 10 records in the rebuild\n";
    assert_eq!(said, lines);
    // a path may be a number, so --drop never takes it for an id
    folder.piped("make - --out N", b"1 7: struct\n7 a: struct\n").answer();
    for (by, dropped) in [("--drop 7", "1 7"), ("--drop-id 7", "7 a")] {
        let said = folder.braid(&format!("update N {by} --out O --force")).answer();
        let lines = format!("dropped {dropped}\nlast id 7\nvisited 2 records in the rebuild\n");
        assert_eq!(said, lines, "{by}");
    }
    assert_eq!(folder.braid("update N --drop-id 8 --out Q").complaint(1), "no column has id 8\n");
    folder.piped("make - --out M", b"-1 a: struct\n-2 b: struct\n").answer();
    let said = folder.braid("update M --drop-id -1,-2 --out L").answer();
    let lines = "dropped -1 a\ndropped -2 b\nlast id -1\nvisited 2 records in the rebuild\n";
    assert_eq!(said, lines);
}

#[test]
fn a_parent_is_named_by_its_id_too() {
    let folder = Folder::with_t();
    let arguments = "update T --add a:1 --under-id 2 --required --default --add b:1 --under-id 1 \
                     --add c:1 --out U";
    let lines = "added 11 visits.element.a\nadded 12 node.b\nadded 13 c\nlast id 13\n\
                 visited 13 records in the rebuild\n";
    assert_eq!(folder.braid(arguments).answer(), lines);
    assert!(folder.braid("list U").answer().contains("11 a: boolean required default\n"));
    let said = folder.braid("update T --add a:1 --under-id 11 --out V").complaint(1);
    assert_eq!(said, "no column has id 11\n");
}

#[test]
fn an_edited_column_is_told_with_its_new_name_or_why_it_stays() {
    let folder = Folder::with_k();
    let arguments = "update K --drop node.cost --add cost:2 --under node --relax node.serial \
                     --rename node=board --rename-id 2=no --relax-id 4,4 --relax node.serial \
                     --rename site=site --out U";
    let lines = "\
dropped 3 node.cost
added 5 board.cost
relaxed 2 node.serial
renamed 1 node to board
renamed 2 node.serial to board.no
relaxed 4 site
stays 4 site: it is optional already
stays 2 node.serial: it is optional already
stays 4 site: it has this name already
last id 5
visited 5 records in the rebuild
";
    assert_eq!(folder.braid(arguments).answer(), lines);
    let picture = "1 board: struct required\n  2 no: string\n  5 cost: int\n\
                   4 site: int default\n";
    assert_eq!(folder.braid("list U").answer(), picture);
}

#[test]
fn a_new_name_may_be_empty_or_look_like_anything_but_a_path() {
    let folder = Folder::with_t();
    let said = folder
        .run(&["update", "T", "--rename", "node.cost=", "--rename", "node=a b\"", "--out", "U"])
        .answer();
    let name = r#""a b\"""#;
    let below = r#""a b\".""#;
    let renamed = format!("renamed 5 node.cost to {below}\nrenamed 1 node to {name}\n");
    assert_eq!(said, format!("{renamed}last id 10\nvisited 10 records in the rebuild\n"));
    let picture = folder.braid("list U").answer();
    assert!(picture.starts_with(&format!("1 {name}: struct\n  4 button: primitive 0\n  5 \"\": ")));
}

#[test]
fn a_widened_column_is_told_with_both_types_whatever_its_role() {
    let folder = Folder::with_w();
    let arguments = "update W --widen price:long --rename price=cost --relax heat \
                     --widen heat:6 --widen sum:decimal(38,2) --widen s.n:o:long \
                     --widen l.element:long --widen-id 12:3 --widen m.value:decimal(38,0) --out U";
    let lines = "\
widened 1 price from int to long
renamed 1 price to cost
relaxed 2 heat
widened 2 heat from float to double
widened 4 sum from decimal(9,2) to decimal(38,2)
widened 8 \"s.n:o\" from int to long
widened 10 l.element from int to long
widened 12 m.key from int to long
widened 13 m.value from decimal(37,0) to decimal(38,0)
last id 14
visited 14 records in the rebuild
";
    assert_eq!(folder.braid(arguments).answer(), lines);
    let picture = "\
1 cost: long
2 heat: double
3 day: date
4 sum: decimal(38,2)
5 note: string
6 own: primitive 77
7 s: struct
  8 \"n:o\": long
9 l: list
  10 element: long required
11 m: map
  12 key: long required
  13 value: decimal(38,0)
14 full: decimal(38,38)
";
    assert_eq!(folder.braid("list U").answer(), picture);
    for (to, code) in [("timestamp", "7"), ("timestamp_ns", "8")] {
        for to_type in [to, code] {
            let arguments = format!("update W --format-version 3 --widen day:{to_type}");
            let said = folder.braid(&format!("{arguments} --out V --force")).answer();
            let ends = "last id 14\nvisited 14 records in the rebuild\n";
            assert_eq!(said, format!("widened 3 day from date to {to}\n{ends}"));
        }
    }
    folder.draw("N", "-3 c: int\n");
    let said = folder.braid("update N --widen-id -3:long --out M").answer();
    let lines = "widened -3 c from int to long\nlast id -3\nvisited 1 record in the rebuild\n";
    assert_eq!(said, lines);
    let said = folder.braid("update N --widen-id 3:long --out L").complaint(1);
    assert_eq!(said, "no column has id 3\n");
}

/// Without a version it is 2, and what needs no step is the same in both.
#[test]
fn a_version_is_named_or_is_2() {
    let folder = Folder::with_w();
    let asked = "update W --drop s --add x:int --widen price:long --rename day=date";
    folder.braid(&format!("{asked} --out U")).answer();
    for version in ["2", "3"] {
        folder.braid(&format!("{asked} --format-version {version} --out V --force")).answer();
        assert_eq!(folder.pair("V"), folder.pair("U"));
    }
    let said = folder.braid("update W --format-version two --out X").complaint(3);
    assert!(said.contains("'two' for '--format-version <N>'"), "{said}");
}

#[test]
fn an_identifier_may_be_widened() {
    let folder = Folder::with_k();
    let update = "update K --identifiers site,node.serial --widen site:long --out U";
    let lines = "widened 4 site from int to long\nlast id 4\nvisited 4 records in the rebuild\n";
    assert_eq!(folder.braid(update).answer(), lines);
    let said = folder.braid("check U --identifiers site").answer();
    assert!(said.contains("\nidentifier id 4 slot 3 site\n"), "{said}");
}

/// The tree tells which = parts the path from the name.
#[test]
fn a_rename_is_parted_where_a_column_is_named_before_it() {
    let folder = Folder::new();
    folder.draw("X", "1 a: struct\n  2 b=c: primitive 0\n3 d=: primitive 0\n4 =: primitive 0\n");
    let renamed = |edit: &str, line: &str| {
        let said = folder.braid(&format!("update X {edit} --out U --force")).answer();
        let ends = "last id 4\nvisited 4 records in the rebuild\n";
        assert_eq!(said, format!("renamed {line}\n{ends}"), "{edit}");
    };
    renamed("--rename a=x", "1 a to x");
    renamed("--rename a=b=c", "1 a to b=c");
    renamed("--rename a.b=c=d", "2 a.b=c to a.d");
    renamed("--rename a.b=c==d=", "2 a.b=c to a.=d=");
    renamed("--rename d==x", "3 d= to x");
    renamed("--rename ==x", "4 = to x");
    renamed("--rename-id 2==x", "2 a.b=c to a.=x");
    renamed("--rename-id=2=-x", "2 a.b=c to a.-x");
    // no column is named before any of them: the first one
    let said = folder.braid("update X --rename e=f=g --out V").refusal();
    assert!(said[0].contains(": edit 0, rename of \"e\" to \"f=g\""), "{said:?}");
    // columns are named before two of them
    folder.draw("Y", "1 a: struct\n2 a=b: struct\n-3 c: struct\n");
    assert_eq!(
        folder.braid("update Y --rename a=b=c --out V").complaint(3),
        "--rename \"a=b=c\" begins with the names of several columns: \"a\", \"a=b\"; --rename-id \
         ID=NAME tells which is meant\n"
    );
    for (id, line) in [("1=b=c", "1 a to b=c"), ("2=c=", "2 a=b to c="), ("-3=d", "-3 c to d")] {
        let said = folder.braid(&format!("update Y --rename-id {id} --out V --force")).answer();
        let ends = "last id 2\nvisited 3 records in the rebuild\n";
        assert_eq!(said, format!("renamed {line}\n{ends}"));
    }
    for wrong in ["--rename a", "--rename-id 1", "--rename-id a=b", "--rename-id =b"] {
        folder.braid(&format!("update Y {wrong} --out W")).complaint(3);
    }
    let said = folder.braid("update Y --rename-id 9=b --out W").complaint(1);
    assert_eq!(said, "no column has id 9\n");
    assert_eq!(folder.braid("update Y --relax-id 1,9 --out W").complaint(1), said);
    assert!(!folder.files().contains(&"W.rec".into()));
}

#[test]
fn columns_are_kept_by_id_and_by_name() {
    let folder = Folder::with_t();
    let ids = |stem: &str| {
        let lines = folder.braid(&format!("list {stem} --plain")).answer();
        let id = |line: &str| line.split(' ').nth(1).expect("an id").to_string();
        lines.lines().map(id).collect::<Vec<_>>()
    };
    folder.braid("prune T --keep 5,visits.day --out A").answer();
    assert_eq!(ids("A"), ["1", "5", "2", "6", "7"]);
    folder.braid("prune T --keep 5 --keep 7 --out B").answer();
    assert_eq!(folder.pair("B"), folder.pair("A"));
    let said = folder.braid("prune T --keep node.prise --out C").complaint(1);
    assert_eq!(said, "no column is named \"node.prise\"; did you mean parts.value.price?\n");
    assert!(!folder.files().contains(&"C.rec".into()));
}

#[test]
fn ids_that_the_tree_has_not_are_told_by_prune() {
    let folder = Folder::with_t();
    let said = folder.braid("prune T --keep 99,7,-3,99 --out A").answer();
    assert_eq!(said, "not in T: id -3\nnot in T: id 99\nkept 3 of 10 records\n");
}

#[test]
fn identifiers_are_named_too() {
    let folder = Folder::with_k();
    let said = folder.braid("renumber K --from 100 --identifiers node.serial,4 --out U").answer();
    assert_eq!(said, "last id 103\nidentifiers 102,101\n");
    let said = folder.braid("update K --identifiers site --drop site --out V").refusal();
    assert!(said[0].starts_with("refused 12 at 2 0: "), "{said:?}");
}

#[test]
fn quiet_prints_nothing_and_does_the_same() {
    let folder = Folder::with_t();
    for arguments in [
        "update T --drop node --add x:2 --out U",
        "prune T --keep 7,99 --out U",
        "renumber T --from 3 --out U",
        "make T.picture --out U",
    ] {
        std::fs::write(folder.file("T.picture"), folder.braid("list T").answer()).expect("written");
        assert_ne!(folder.braid(&format!("{arguments} --force")).answer(), "");
        let loud = (folder.pair("U"), folder.last("U"));
        assert_eq!(folder.braid(&format!("{arguments} --force --quiet")).answer(), "");
        assert_eq!((folder.pair("U"), folder.last("U")), loud, "{arguments}");
    }
    let said = folder.braid("update T --drop nodes --out V --quiet").refusal();
    assert!(said[0].starts_with("refused 11 at 2 0: "), "{said:?}");
}

/// The ids of the lines that begin with a word.
fn told(said: &str, word: &str) -> BTreeSet<i32> {
    let id = |line: &str| line.strip_prefix(word)?.split([' ', ',']).next()?.parse().ok();
    said.lines().filter_map(id).collect()
}

/// The ids of a tree.
fn ids(folder: &Folder, stem: &str) -> BTreeSet<i32> {
    let lines = folder.braid(&format!("list {stem} --plain")).answer();
    let id = |line: &str| line.split(' ').nth(1).and_then(|id| id.parse().ok());
    lines.lines().filter_map(id).collect()
}

/// The tree's ids inside the columns of these ids, themselves among them.
fn with_inside(folder: &Folder, stem: &str, of: &BTreeSet<i32>) -> BTreeSet<i32> {
    let mut all = of.clone();
    for line in folder.braid(&format!("list {stem} --plain")).answer().lines() {
        let words: Vec<&str> = line.split(' ').collect();
        if words[2].parse().is_ok_and(|parent| all.contains(&parent)) {
            all.insert(words[1].parse().expect("an id"));
        }
    }
    all
}

#[test]
fn what_is_told_is_what_the_library_did() {
    let folder = Folder::with_t();
    let paths = [
        "node",
        "node.button",
        "node.cost",
        "visits",
        "visits.element",
        "visits.day",
        "parts",
        "parts.key",
        "parts.value",
        "parts.price",
    ];
    let parents = ["node", "visits", "parts", "visits.element", "parts.value"];
    let mut random = Random::new(14);
    let (mut accepted, mut refused, mut renames) = (0, 0, 0);
    for case in 0..120 {
        let mut arguments = String::from("update T --out U --force");
        let mut dropped = vec![];
        for _ in 0..1 + random.below(4) {
            dropped.push(paths[random.below(paths.len())]);
            arguments += &format!(" --drop {}", dropped[dropped.len() - 1]);
        }
        // the first addition whose root is dropped: only roots are members above a struct in T
        let mut gone = None;
        for name in 0..random.below(4) {
            arguments += &format!(" --add new{name}:2");
            if random.chance(3, 4) {
                let parent = parents[random.below(parents.len())];
                arguments += &format!(" --under {parent}");
                let root = parent.split('.').next().expect("a root");
                gone = gone.or(dropped.contains(&root).then_some(name));
            }
        }
        // what is renamed is told by its new name, and so is what is added below it
        let stays = |root: &&str| !dropped.contains(root);
        for root in ["node", "visits", "parts"].into_iter().filter(stays) {
            if random.chance(1, 3) {
                arguments += &format!(" --rename {root}=new_{root}");
            }
        }
        let Said { status, out, err } = folder.braid(&arguments);
        if let Some(place) = gone {
            assert!(err.starts_with(&format!("refused 22 at 3 {place}: ")), "{arguments}\n{err}");
            assert_eq!((status, out.len()), (2, 0), "{arguments}");
            refused += 1;
            continue;
        }
        assert_eq!((status, err.as_str()), (0, ""), "case {case}: {arguments}");
        let said = String::from_utf8(out).expect("UTF-8");
        let (before, after) = (ids(&folder, "T"), ids(&folder, "U"));
        let gone: BTreeSet<i32> = before.difference(&after).copied().collect();
        let new: BTreeSet<i32> = after.difference(&before).copied().collect();
        assert_eq!(
            with_inside(&folder, "T", &told(&said, "dropped ")),
            gone,
            "{arguments}\n{said}"
        );
        assert!(told(&said, "stays ").is_subset(&after), "{arguments}\n{said}");
        assert_eq!(told(&said, "added "), new, "{arguments}\n{said}");
        // what is left, and what went by itself
        let with_another = |line: &&str| line.contains(", with ");
        let dropped = said.lines().filter(|line| line.starts_with("dropped "));
        let visited = after.len() + dropped.filter(|line| !with_another(line)).count();
        let ends = format!("\nvisited {visited} records in the rebuild\n");
        assert!(said.ends_with(&ends), "{arguments}\n{said}");
        let last: i32 = folder.last("U").expect("it is kept").trim().parse().expect("a number");
        assert_eq!(new, (11..=last).collect(), "{arguments}\n{said}");
        let renamed = said.lines().filter_map(|line| line.strip_prefix("renamed "));
        renames += renamed.clone().count();
        let added = said.lines().filter_map(|line| line.strip_prefix("added "));
        for line in added.chain(renamed) {
            let (id, names) = line.split_once(' ').expect("an id and a name");
            let name = names.split_once(" to ").map_or(names, |(_, new)| new);
            let found = folder.braid(&format!("find U {name}")).answer();
            assert!(found.starts_with(&format!("id {id} slot ")), "{line}: {found}");
        }
        accepted += 1;
    }
    assert!(accepted > 60 && refused > 10, "{accepted} accepted, {refused} refused");
    assert!(renames > 30, "{renames} renames");
}
