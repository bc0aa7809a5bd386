//! Every subcommand on good trees.

use crate::folder::Folder;
use std::ffi::OsStr;
use std::os::unix::ffi::OsStrExt;

use cases::{packed, prim, strukt};

/// T's picture, as FORMAT.md has it.
const T: &str = "\
1 node: struct
  4 button: primitive 0
  5 cost: primitive 0
2 visits: list
  6 element: struct
    7 day: primitive 0
3 parts: map
  8 key: primitive 0 required
  9 value: struct
    10 price: primitive 0
";

/// The ids of a tree in slot order.
fn ids(folder: &Folder, stem: &str) -> Vec<i32> {
    let lines = folder.run(&["list", "--plain", stem]).answer();
    let id = |line: &str| line.split(' ').nth(1).and_then(|id| id.parse().ok()).expect("an id");
    lines.lines().map(id).collect()
}

#[test]
fn list_prints_the_picture() {
    assert_eq!(Folder::with_t().braid("list T").answer(), T);
}

#[test]
fn plain_lists_the_very_lines_of_the_lister() {
    let folder = Folder::with_t();
    let (records, names) = folder.pair("T");
    let lines = judge::list(&records, &names).expect("T is accepted");
    assert_eq!(folder.braid("list T --plain").answer().into_bytes(), lines);
}

#[test]
fn check_accepts_and_tells_the_size() {
    let said = Folder::with_t().braid("check T").answer();
    assert!(said.starts_with("accepted: 10 records, 48 name bytes\n"), "{said}");
}

#[test]
fn check_accepts_identifiers_and_tells_their_columns() {
    let folder = Folder::with_k();
    let accepted = "accepted: 4 records, 18 name bytes\n";
    let columns = "identifier id 4 slot 3 site\nidentifier id 2 slot 1 node.serial\n";
    for identifiers in ["4,2", "site,node.serial", "site --identifiers 2"] {
        let said = folder.braid(&format!("check K --identifiers {identifiers}")).answer();
        assert_eq!(said, format!("{accepted}{columns}last id 4\n"), "{identifiers}");
    }
    let said = folder.run(&["check", "K", "--identifiers", ""]).answer();
    assert_eq!(said, format!("{accepted}last id 4\n"));
    let said = folder.braid("check K --identifiers site,sites").complaint(1);
    assert_eq!(said, "no column is named \"sites\"; did you mean site?\n");
}

#[test]
fn find_goes_by_full_name_short_name_and_id() {
    let folder = Folder::with_t();
    let day = "id 7 slot 5 visits.element.day\n";
    assert_eq!(folder.braid("find T visits.element.day").answer(), day);
    assert_eq!(folder.braid("find T visits.day").answer(), day);
    assert_eq!(folder.braid("find T --id 7").answer(), day);
}

#[test]
fn find_goes_by_many_ids_in_their_order() {
    let folder = Folder::with_t();
    let lines =
        "id 10 slot 9 parts.value.price\nid 1 slot 0 node\nid 10 slot 9 parts.value.price\n";
    for arguments in ["find T --id 10,1,10", "find --id 10,1 T --id 10", "find T --id=10,1,10"] {
        assert_eq!(folder.braid(arguments).answer(), lines, "{arguments}");
    }
}

#[test]
fn of_many_ids_those_that_no_column_has_are_told_in_their_places() {
    let folder = Folder::with_t();
    let said = folder.braid("find T --id 11,7,-1,3,7");
    let day = "id 7 slot 5 visits.element.day\n";
    assert_eq!(said.status, 1);
    assert_eq!(said.out, format!("{day}id 3 slot 6 parts\n{day}").into_bytes());
    assert_eq!(said.err, "no column has id 11\nno column has id -1\n");
    let said = folder.shell("braid find T --id 11,7,-1,3 2>&1");
    let lines = format!("no column has id 11\n{day}no column has id -1\nid 3 slot 6 parts\n");
    assert_eq!((said.status, said.out), (1, lines.into_bytes()));
    let nothing = "no column has id 11\nno column has id 12\n";
    assert_eq!(folder.braid("find T --id 11,12").complaint(1), nothing);
}

#[test]
fn find_forgets_case_where_it_is_asked_to() {
    let folder = Folder::with_t();
    for arguments in
        ["find T -i Node.Cost", "find -i T NODE.cost", "find T node.cost --ignore-case"]
    {
        assert_eq!(folder.braid(arguments).answer(), "id 5 slot 2 node.cost\n", "{arguments}");
    }
    assert_eq!(folder.braid("find T -i VISITS.Day").answer(), "id 7 slot 5 visits.element.day\n");
    let words = "no column is named \"VISITS.DAI\"; did you mean visits.element.day?\n";
    assert_eq!(folder.braid("find T -i VISITS.DAI").complaint(1), words);
    assert_eq!(folder.braid("find T -i x").complaint(1), "no column is named \"x\"\n");
}

#[test]
fn a_name_that_differs_in_case_alone_is_asked_back() {
    let folder = Folder::with_t();
    for (name, column) in [("Node.Cost", "node.cost"), ("PARTS.PRICE", "parts.value.price")] {
        let words = format!("did you mean {column}? Only `find -i` forgets case\n");
        let said = folder.braid(&format!("find T {name}")).complaint(1);
        assert_eq!(said, format!("no column is named \"{name}\"; {words}"));
    }
    // of two, the first is near
    folder.braid("update T --add COST:3 --under node --out U").answer();
    let words = "no column is named \"node.Cost\"; did you mean node.cost?\n";
    assert_eq!(folder.braid("find U node.Cost").complaint(1), words);
}

#[test]
fn a_look_up_that_finds_nothing_ends_with_status_1() {
    let folder = Folder::with_t();
    let words = "no column is named \"day\"; did you mean visits.element.day?\n";
    assert_eq!(folder.braid("find T day").complaint(1), words);
    assert_eq!(folder.braid("find T --id 11").complaint(1), "no column has id 11\n");
    assert_eq!(folder.braid("parent T 11").complaint(1), "no column has id 11\n");
    assert_eq!(folder.braid("parent T 1").complaint(1), "column 1 is a root\n");
}

#[test]
fn parent_is_the_column_above() {
    let said = Folder::with_t().braid("parent T 7").answer();
    assert_eq!(said, "id 6 slot 4 visits.element\n");
}

#[test]
fn prune_keeps_what_is_chosen() {
    let folder = Folder::with_t();
    let said = folder.braid("prune T --keep 7 --out day").answer();
    assert_eq!(said, "kept 3 of 10 records\n");
    let lines = "0 2 - visits\n1 6 2 visits.element\n2 7 6 visits.element.day\n";
    assert_eq!(folder.braid("list day --plain").answer(), lines);
    folder.braid("prune T --keep 1 --out node").answer();
    assert_eq!(ids(&folder, "node"), [1]);
    folder.braid("prune T --keep 1,1 --full --out whole").answer();
    assert_eq!(ids(&folder, "whole"), [1, 4, 5]);
    let said = folder.run(&["prune", "T", "--keep", "", "--out", "nothing"]).answer();
    assert_eq!(said, "kept 0 of 10 records\n");
    assert_eq!(folder.pair("nothing"), (vec![], vec![]));
    assert_eq!(folder.braid("list nothing").answer(), "");
}

#[test]
fn renumber_tells_the_last_id_and_the_new_identifiers() {
    let folder = Folder::with_t();
    let said = folder.braid("renumber T --from 100 --out fresh").answer();
    assert_eq!(said, "last id 109\n");
    assert_eq!(ids(&folder, "fresh"), [100, 103, 104, 101, 105, 106, 102, 107, 108, 109]);
    let folder = Folder::with_k();
    let said = folder.braid("renumber K --from 100 --identifiers 4,2,4 --out fresh").answer();
    assert_eq!(said, "last id 103\nidentifiers 101,102,101\n");
    assert_eq!(ids(&folder, "fresh"), [100, 102, 103, 101]);
}

#[test]
fn update_drops_and_adds() {
    let folder = Folder::with_t();
    folder.braid("update T --drop node.cost --add cost:0 --under node --out U").answer();
    assert_eq!(ids(&folder, "U"), [1, 4, 11, 2, 6, 7, 3, 8, 9, 10]);
    let arguments = "update T --drop visits --add fault:0 --under node --add floor:0 --out V";
    let ends = "\nlast id 12\nvisited 10 records in the rebuild\n";
    assert!(folder.braid(arguments).answer().ends_with(ends));
    assert_eq!(ids(&folder, "V"), [1, 4, 5, 11, 3, 8, 9, 10, 12]);
}

/// T has 10 records, of which 2 stand inside node, 2 inside visits and 3 inside parts.
#[test]
fn update_tells_how_many_records_it_visited() {
    let folder = Folder::with_t();
    folder.draw("more", "1 s: struct\n  2 a: int\n");
    folder.draw("E", "");
    for (asked, visited) in [
        ("T", "10 records"),
        ("T --rename node=board --relax parts", "10 records"),
        ("T --drop node.cost", "10 records"),
        ("T --drop node", "8 records"),
        ("T --drop node --drop node.cost --drop node", "8 records"),
        ("T --drop node --drop visits --drop parts", "3 records"),
        ("T --drop visits.element --drop parts.key --drop parts.value", "10 records"),
        ("T --drop parts --add-tree more --under visits", "9 records"),
        ("E", "0 records"),
        ("E --add x:int", "1 record"),
    ] {
        let said = folder.braid(&format!("update {asked} --out U --force")).answer();
        let ends = format!("visited {visited} in the rebuild");
        assert_eq!(said.lines().last(), Some(&ends[..]), "{asked}");
    }
    // a refusal rebuilds nothing
    let said = folder.braid("update T --drop node --drop node.prise --out V").refusal();
    assert!(said.iter().all(|line| !line.contains("visited")), "{said:?}");
}

#[test]
fn settings_belong_to_the_addition_before_them() {
    let folder = Folder::with_t();
    let arguments = "update T --add a:1 --required --default --attribute 7 \
                     --add b:4294967295 --under node --add c:d:3 --default --out U";
    folder.braid(arguments).answer();
    let picture = folder.braid("list U").answer();
    let added: Vec<&str> = picture.lines().filter(|line| !T.contains(line)).collect();
    let expected = [
        "  12 b: primitive 4294967295",
        "11 a: boolean required default attribute 7",
        "13 \"c:d\": long default",
    ];
    assert_eq!(added, expected);
}

#[test]
fn a_type_goes_by_its_name_or_its_code() {
    let folder = Folder::with_t();
    let arguments = "update T --add a:timestamp_ns --add b:8 --add c:decimal(9,2) --add d:67842 \
                     --add e:0 --out U";
    folder.braid(arguments).answer();
    let picture = folder.braid("list U").answer();
    let added = "11 a: timestamp_ns\n12 b: timestamp_ns\n13 c: decimal(9,2)\n\
                 14 d: decimal(9,2)\n15 e: primitive 0\n";
    assert!(picture.ends_with(added), "{picture}");
    for (wrong, why) in [
        ("a", "no colon before a type"),
        ("a:integer", "no type has this name: there are boolean, int, long, "),
        ("a:4294967296", "no type has this name: "),
        ("a:", "no type has this name: "),
        ("a:decimal(39,2)", "a decimal is decimal(P,S), its precision P from 1 to 38, its scale S"),
        ("a:decimal(2,3)", "a decimal is decimal(P,S)"),
    ] {
        for option in ["--add", "--widen"] {
            let said = folder.run(&["update", "T", option, wrong, "--out", "V"]).complaint(3);
            assert!(said.contains(why), "{said}");
        }
    }
    let said = folder.braid("update T --widen-id a:long --out V").complaint(3);
    assert!(said.contains("no id before the colon"), "{said}");
}

#[test]
fn a_tree_is_added_root_by_root() {
    let folder = Folder::with_t();
    let (records, names) = packed(&[strukt(1, "s", vec![prim(2, "a")]), prim(3, "b")]);
    folder.put("more", &records, &names);
    folder.braid("update T --add-tree more --under visits --add c:0 --out U").answer();
    assert_eq!(folder.braid("find U visits.s.a").answer(), "id 12 slot 7 visits.element.s.a\n");
    assert_eq!(folder.braid("find U visits.b").answer(), "id 13 slot 8 visits.element.b\n");
    assert_eq!(folder.braid("find U c").answer(), "id 14 slot 13 c\n");
}

#[test]
fn negative_ids_are_arguments_like_any_other() {
    let folder = Folder::with_t();
    assert_eq!(folder.braid("renumber T --from -5 --out low").answer(), "last id 4\n");
    assert_eq!(folder.braid("find low --id -1").answer(), "id -1 slot 2 node.cost\n");
    let both = "id -1 slot 2 node.cost\nid -5 slot 0 node\n";
    assert_eq!(folder.braid("find low --id -1,-5").answer(), both);
    assert_eq!(folder.braid("parent low -1").answer(), "id -5 slot 0 node\n");
    folder.braid("prune low --keep -1,-2 --out less").answer();
    assert_eq!(ids(&folder, "less"), [-5, -2, -1]);
    let said = folder.braid("update less --last-id -1 --add x:0 --out more");
    assert_eq!(said.answer(), "added 0 x\nlast id 0\nvisited 4 records in the rebuild\n");
    let folder = Folder::with_k();
    let said = folder.braid("renumber K --from -5 --identifiers 2,4 --out low").answer();
    assert_eq!(said, "last id -2\nidentifiers -3,-4\n");
    let columns = "identifier id -3 slot 1 node.serial\nidentifier id -4 slot 3 site\n";
    assert!(folder.braid("check low --identifiers -3,-4").answer().contains(columns));
    let said = folder.braid("update low --identifiers -4,-3 --add x:0 --out more");
    assert_eq!(said.answer(), "added -1 x\nlast id -1\nvisited 5 records in the rebuild\n");
}

#[test]
fn names_on_the_command_line_are_bytes() {
    let folder = Folder::new();
    folder.piped("make - --out X", b"1 -x: struct\n2 \"\\xff\": struct\n").answer();
    assert_eq!(folder.braid("find X -- -x").answer(), "id 1 slot 0 -x\n");
    let mut find = folder.command(&["find", "X"]);
    let output = find.arg(OsStr::from_bytes(b"\xff")).output().expect("the tool runs");
    assert_eq!(output.stdout, b"id 2 slot 1 \"\\xff\"\n");
    folder.braid("update X --add=-y:1 --under=-x --out Y").answer();
    assert_eq!(folder.braid("find Y -- -x.-y").answer(), "id 3 slot 1 -x.-y\n");
}

#[test]
fn names_of_which_case_is_forgotten_are_bytes_too() {
    let folder = Folder::new();
    let picture = "1 -x: struct\n2 \"\\xffA\": struct\n3 Ä: struct\n4 @[: struct\n";
    folder.piped("make - --out X", picture.as_bytes()).answer();
    assert_eq!(folder.braid("find X -i -- -X").answer(), "id 1 slot 0 -x\n");
    let mut find = folder.command(&["find", "X", "-i"]);
    let output = find.arg(OsStr::from_bytes(b"\xffa")).output().expect("the tool runs");
    assert_eq!(output.stdout, b"id 2 slot 1 \"\\xffA\"\n");
    // the 26 letters fold, and no others
    assert_eq!(folder.braid("find X -i Ä").answer(), "id 3 slot 2 Ä\n");
    for name in ["ä", "`{"] {
        assert_eq!(folder.run(&["find", "X", "-i", name]).status, 1, "{name}");
    }
}

#[test]
fn make_reads_back_what_list_prints() {
    let folder = Folder::with_t();
    folder.piped("make - --out again", T.as_bytes()).answer();
    assert_eq!(folder.pair("again"), folder.pair("T"));
}
