//! Refusals in words, each with the column that it speaks of and why. 1 and 10 can't be met here:
//! the tool brings its own buffers, and a tree to each addition.

use crate::folder::Folder;
use cases::{list_of, map_of, packed, prim, strukt};
use judge::Node;

/// T with one byte of its records changed, refused with these words.
#[track_caller]
fn damaged(at: usize, value: u8, words: &str) {
    let folder = Folder::with_t();
    let (mut records, names) = folder.pair("T");
    records[at] = value;
    folder.put("T", &records, &names);
    let look_ups = ["list T", "list T --plain", "check T", "find T node", "find T -i node"];
    for arguments in look_ups.into_iter().chain(["find T --id 1,99", "parent T 1"]) {
        assert_eq!(folder.braid(arguments).refusal()[0], format!("refused {words}"));
    }
    refused(&folder, "prune T --keep 1 --out U", words);
    refused(&folder, "renumber T --from 1 --out U", words);
    refused(&folder, "update T --out U", words);
    refused(&folder, "update T --drop-id 1 --out U", words);
    refused(&folder, "update T --add-tree T --out U", words);
}

/// These arguments are refused with these words, and nothing is written.
#[track_caller]
fn refused(folder: &Folder, arguments: &str, words: &str) {
    let before = folder.files();
    let said = folder.braid(arguments).refusal();
    assert_eq!(said[0], format!("refused {words}"), "{arguments}");
    assert_eq!(folder.files(), before, "{arguments}");
}

/// A picture that is no tree, refused with these words.
#[track_caller]
fn drawn(picture: &str, words: &str) {
    let folder = Folder::new();
    let said = folder.piped("make - --out made", picture.as_bytes()).refusal();
    assert_eq!(said[0], format!("refused {words}"));
    assert_eq!(folder.files(), [""; 0]);
}

/// A chain of structs, one in another.
fn chain(levels: i32) -> Node {
    let inside = if levels > 1 { vec![chain(levels - 1)] } else { vec![] };
    strukt(levels, "s", inside)
}

/// What 13 means.
const DOT: &str = "the added column's own name has a dot; or the new name of a rename has one";

#[test]
fn a_broken_byte_is_told_with_its_rule() {
    let broken = "a byte rule of a record or entry is broken";
    let element = format!("3 at 0 4: {broken}: T: id 6 slot 4 visits.element");
    let rule = |at: usize, value: u8, rule: &str| {
        damaged(24 * 4 + at, value, &format!("{element}: {rule}"));
    };
    rule(9, 9, "the kind is 0, 1, 2 or 3; byte 9 is 09");
    rule(10, 4, "the flags are 0, 1, 2 or 3; byte 10 is 04");
    rule(11, 1, "a reserved byte is 0; byte 11 is 01");
    rule(15, 1, "reserved bytes are 0; bytes 14 to 15 are 00 01");
    rule(17, 2, "only a primitive has a type code other than 0; bytes 16 to 19 are 00 02 00 00");
    rule(9, 0, "a primitive has no child, this one has 1; bytes 12 to 13 are 01 00");
    rule(9, 3, "a map has two children, key and value, this one has 1; bytes 12 to 13 are 01 00");
    damaged(
        24 * 3 + 13,
        1,
        &format!(
            "3 at 0 3: {broken}: T: id 2 slot 3 visits: a list has one child, this one has 257; \
             bytes 12 to 13 are 01 01"
        ),
    );
}

#[test]
fn a_picture_is_told_by_its_line() {
    let broken = "a byte rule of a record or entry is broken: standard input";
    drawn(
        "1 a: list\n",
        &format!(
            "3 at 0 0: {broken}, line 1: id 1 slot 0 a: a list has one child, this one has none"
        ),
    );
    drawn(
        "# a remark\n\n1 a: primitive 0\n  2 b: primitive 0\n",
        &format!(
            "3 at 0 0: {broken}, line 3: id 1 slot 0 a: a primitive has no child, this one has 1"
        ),
    );
    drawn(
        "1 a: struct\n\n  2 b: list\n    3 item: primitive 0\n",
        "6 at 0 2: an element, key or value is named otherwise: standard input, line 4: id 3 slot \
         2 a.b.item: a list's child is named \"element\"",
    );
    drawn(
        "1 a: map\n  2 key: struct\n  3 key: struct\n",
        "6 at 0 2: an element, key or value is named otherwise: standard input, line 3: id 3 slot \
         2 a.key: a map's second child is named \"value\"",
    );
    drawn(
        "1 a: map\n  2 value: struct\n  3 key: struct\n",
        "6 at 0 1: an element, key or value is named otherwise: standard input, line 2: id 2 slot \
         1 a.value: a map's first child is named \"key\"",
    );
    drawn(
        "1 a: struct\n\n1 b: struct\n",
        "7 at 0 1: an id equals an earlier one: standard input, line 3: id 1 slot 1 b, and before \
         it line 1: id 1 slot 0 a",
    );
    drawn(
        "1 a: struct\n  2 b: struct\n3 a.b: struct\n",
        "8 at 0 2: a full name equals an earlier one: standard input, line 3: id 3 slot 2 a.b, and \
         before it line 2: id 2 slot 1 a.b",
    );
    let long: String = (0..130).map(|id| format!("{id} {id:0>255}: struct\n")).collect();
    drawn(
        &long,
        "2 at 0 0: a limit on an input count, length or name sum is passed, or a list is no whole \
         number of records: standard input has 33150 bytes in all names together, and may have \
         32768",
    );
    let wide: String = (0..70_000).map(|id| format!("{id} a{id}: struct\n")).collect();
    drawn(
        &wide,
        "2 at 0 0: a limit on an input count, length or name sum is passed, or a list is no whole \
         number of records: standard input has 1025 records, and may have 1024",
    );
}

#[test]
fn a_name_outside_the_pool_is_told_with_its_end() {
    damaged(
        24 * 9 + 8,
        6,
        "4 at 0 9: a name or path has offset + length above its pool's length: T: id 10 slot 9 \
         parts.value.-: its name ends at byte 49 of the pool, which has 48",
    );
}

#[test]
fn counts_past_the_end_are_told_with_those_who_count() {
    let words = "5 at 0 10: level 17 is reached, or counts need records past the end: T: ";
    let value = "id 9 slot 8 parts.value counts 2 below it, and there are 1";
    damaged(24 * 8 + 12, 2, &format!("{words}{value}"));
    let node = "id 1 slot 0 node counts 5 below it, and there are 4";
    damaged(12, 5, &format!("{words}{node}"));
    // who counts too many takes the children of those above it
    let folder = Folder::new();
    let (mut records, names) =
        packed(&[strukt(1, "a", vec![strukt(2, "b", vec![]), prim(3, "c")])]);
    records[24 + 12] = 2;
    folder.put("X", &records, &names);
    refused(
        &folder,
        "check X",
        "5 at 0 3: level 17 is reached, or counts need records past the end: X: id 1 slot 0 a \
         counts 2 below it, and there are 1; X: id 2 slot 1 a.b counts 2 below it, and there are 1",
    );
}

#[test]
fn a_seventeenth_level_is_told_with_its_column() {
    let folder = Folder::new();
    let (records, names) = packed(&[chain(17)]);
    folder.put("deep", &records, &names);
    let words = format!(
        "5 at 0 16: level 17 is reached, or counts need records past the end: deep: id 1 slot 16 \
         {}: it stands at level 17 of at most 16",
        vec!["s"; 17].join("."),
    );
    refused(&folder, "list deep", &words);
}

#[test]
fn a_label_an_id_and_a_full_name_are_told_with_their_columns() {
    damaged(
        24 * 4 + 4,
        14,
        "6 at 0 4: an element, key or value is named otherwise: T: id 6 slot 4 visits.visitse: a \
         list's child is named \"element\"",
    );
    damaged(
        24 * 9,
        1,
        "7 at 0 9: an id equals an earlier one: T: id 1 slot 9 parts.value.price, and before it \
         id 1 slot 0 node",
    );
    let folder = Folder::new();
    let (records, names) = packed(&[prim(1, "a"), prim(2, "b"), prim(3, "a"), prim(4, "a")]);
    folder.put("A", &records, &names);
    refused(
        &folder,
        "check A",
        "8 at 0 2: a full name equals an earlier one: A: id 3 slot 2 a, and before it id 1 slot 0 \
         a",
    );
}

#[test]
fn what_passes_a_limit_is_told_with_the_limit() {
    let limit = "2 at 0 0: a limit on an input count, length or name sum is passed, or a list is \
                 no whole number of records: ";
    let folder = Folder::new();
    let says = |arguments: &str, words: &str| {
        refused(&folder, arguments, &format!("{limit}{words}"));
    };
    folder.put("T", &[0; 23], b"");
    says("list T", "T.rec has 0 whole records and 23 bytes; a record has 24");
    folder.put("T", &[0; 24_600], b"");
    says("list T", "T.rec has more than 1024 records");
    folder.put("T", b"", &[b'x'; 40_000]);
    says("list T", "T.names has more than 32768 bytes");
    let names: Vec<Node> = (0..130).map(|id| prim(id, &format!("{id:0>255}"))).collect();
    let (mut records, _) = packed(&names);
    records.chunks_exact_mut(24).for_each(|record| record[4..8].fill(0));
    folder.put("T", &records, &[b'x'; 255]);
    says("list T", "T has 33150 bytes in all names together, and may have 32768");
    folder.put("T", b"", b"");
    folder.put_last("T", "1\n");
    let ids = vec!["1"; 1_025].join(",");
    let most = "and at most 1024 may be given";
    says(&format!("prune T --keep {ids} --out U"), &format!("1025 chosen ids, {most}"));
    says(&format!("find T --id {ids}"), &format!("1025 ids to find, {most}"));
    let ids = vec!["1"; 65].join(",");
    let most = "and at most 64 may be given";
    let renumber = format!("renumber T --from 1 --identifiers {ids} --out U");
    says(&renumber, &format!("65 identifiers, {most}"));
    let [drops, adds] = ["--drop a ".repeat(65), "--add a:1 ".repeat(66)];
    let edits = ["--rename a=b ".repeat(33), "--relax a ".repeat(34)].concat();
    says(
        &format!("update T {drops} {adds} {edits} --out U"),
        &format!("65 deletions, {most}; 66 additions, {most}; 67 edits, {most}"),
    );
    let (records, names) =
        packed(&[strukt(0, "s", (1..600).map(|id| prim(id, &format!("{id}"))).collect())]);
    folder.put("half", &records, &names);
    says(
        "update T --add-tree half --add-tree half --out U",
        "1200 added columns, and at most 1024 may be given",
    );
    let long: Vec<Node> = (0..50).map(|id| prim(id, &format!("{id:0>255}"))).collect();
    let (records, names) = packed(&[strukt(99, "s", long)]);
    folder.put("long", &records, &names);
    says(
        &format!("update T {} --out U", "--add-tree long ".repeat(3)),
        "38253 bytes of paths and new names, and at most 32768 may be given; 38253 bytes in the \
         added names together, and at most 32768 may be given",
    );
}

#[test]
fn a_file_without_end_is_refused_too() {
    let folder = Folder::new();
    folder.put("Z", b"", b"");
    std::fs::remove_file(folder.file("Z.names")).expect("removed");
    std::os::unix::fs::symlink("/dev/zero", folder.file("Z.names")).expect("a link");
    assert!(folder.braid("check Z").refusal()[0].ends_with(": Z.names has more than 32768 bytes"));
}

/// What 9 means.
const NINE: &str = "an identifier id is not in the tree; or its column, or what stands above that, \
                    breaks a condition";

/// The identifiers of a tree of this picture are refused at a place with these words, by a check,
/// by a renumbering and by an update.
#[track_caller]
fn no_identifier(picture: &str, identifiers: &str, place: usize, words: &str) {
    let folder = Folder::new();
    folder.draw("X", picture);
    let words = format!("9 at 5 {place}: {NINE}: X: identifier {place}, {words}");
    refused(&folder, &format!("check X --identifiers {identifiers}"), &words);
    refused(&folder, &format!("renumber X --from 1 --identifiers {identifiers} --out U"), &words);
    let update = format!("update X --identifiers {identifiers}");
    refused(&folder, &format!("{update} --out U"), &words);
    refused(&folder, &format!("{update} --drop no --add a.b:1 --out U"), &words);
}

#[test]
fn an_identifier_is_told_with_the_condition_that_it_breaks() {
    let a = "id 1 slot 0 a";
    no_identifier("1 a: int required\n", "1,-3", 1, "id -3: no column has it");
    no_identifier("1 a: int\n", "a", 0, &format!("{a}: it is optional"));
    no_identifier("1 a: int default\n", "a", 0, &format!("{a}: it is optional"));
    let float = "it is a float, type code 5";
    no_identifier("1 a: float required\n", "1", 0, &format!("{a}: {float}"));
    let double = "it is a double, type code 6";
    no_identifier("1 a: double required\n", "1", 0, &format!("{a}: {double}"));
    let primitive = "and no primitive";
    no_identifier("1 a: struct required\n", "1", 0, &format!("{a}: it is a struct, {primitive}"));
    let list = "1 a: list required\n  2 element: int required\n";
    no_identifier(list, "a", 0, &format!("{a}: it is a list, {primitive}"));
    let element = "id 2 slot 1 a.element";
    no_identifier(list, "2", 0, &format!("{element}: {a} above it is a list"));
    let map = "1 a: map required\n  2 key: int required\n  3 value: int required\n";
    no_identifier(map, "1", 0, &format!("{a}: it is a map, {primitive}"));
    no_identifier(map, "a.key", 0, &format!("id 2 slot 1 a.key: {a} above it is a map"));
    no_identifier(map, "a.value", 0, &format!("id 3 slot 2 a.value: {a} above it is a map"));
    let within = "1 a: struct\n  2 b: int required\n";
    no_identifier(
        within,
        "a.b",
        0,
        &format!("id 2 slot 1 a.b: {a} above it is an optional struct"),
    );
}

/// The picture of a required primitive with fifteen records above it, of which one is other than a
/// required struct.
fn fifteen_above(other: usize, kind: &str) -> String {
    let (mut picture, mut name) = (String::new(), "n");
    for level in 0..15 {
        let kind_of = if level == other { kind } else { "struct required" };
        picture += &format!("{}{} {name}: {kind_of}\n", "  ".repeat(level), level + 1);
        name = if kind_of.starts_with("list") { "element" } else { "n" };
    }
    picture + &format!("{}16 {name}: int required\n", "  ".repeat(15))
}

#[test]
fn the_record_above_that_is_the_reason_is_told_however_far_it_is() {
    for other in 0..15 {
        let above = format!("id {} slot {other} {}", other + 1, vec!["n"; other + 1].join("."));
        let column = format!("id 16 slot 15 {}", vec!["n"; 16].join("."));
        let words = format!("{column}: {above} above it is an optional struct");
        no_identifier(&fifteen_above(other, "struct"), "16", 0, &words);
        let mut names = ["n"; 16];
        names[other + 1] = "element";
        let column = format!("id 16 slot 15 {}", names.join("."));
        let words = format!("{column}: {above} above it is a list");
        no_identifier(&fifteen_above(other, "list required"), "16", 0, &words);
    }
    let folder = Folder::new();
    folder.draw("X", &fifteen_above(15, ""));
    let column = format!("id 16 slot 15 {}", vec!["n"; 16].join("."));
    let said = folder.braid("check X --identifiers 16").answer();
    assert_eq!(
        said,
        format!("accepted: 16 records, 16 name bytes\nidentifier {column}\nlast id 16\n")
    );
}

#[test]
fn all_conditions_that_an_identifier_breaks_are_told() {
    no_identifier(
        "1 o: struct\n  2 l: list\n    3 element: struct\n      4 r: struct required\n        \
         5 a: double\n",
        "o.l.r.a",
        0,
        "id 5 slot 4 o.l.element.r.a: it is optional; it is a double, type code 6; id 3 slot 2 \
         o.l.element above it is an optional struct; id 2 slot 1 o.l above it is a list; id 1 slot \
         0 o above it is an optional struct",
    );
    no_identifier(
        "1 m: map\n  2 key: struct\n    3 s: struct\n  4 value: int\n",
        "3",
        0,
        "id 3 slot 2 m.key.s: it is a struct, and no primitive; it is optional; id 2 slot 1 m.key \
         above it is an optional struct; id 1 slot 0 m above it is a map",
    );
}

/// Whichever condition it breaks.
#[test]
fn the_first_identifier_that_breaks_a_condition_is_told() {
    let picture = "1 a: int required\n2 b: int\n3 c: float required\n";
    for (identifiers, place, words) in [
        ("1,1,9,2,3", 2, "id 9: no column has it"),
        ("1,3,9,2", 1, "id 3 slot 2 c: it is a float, type code 5"),
        ("b,c", 0, "id 2 slot 1 b: it is optional"),
    ] {
        no_identifier(picture, identifiers, place, words);
    }
}

#[test]
fn an_identifier_that_goes_is_told_with_the_deletion_that_takes_it() {
    let folder = Folder::with_k();
    let words = |goes: &str| format!("9 at 5 1: {NINE}: after the update: identifier 1, {goes}");
    let goes = "id 2 slot 1 node.serial: it goes with id 1 slot 0 node, which deletion 1 drops";
    refused(
        &folder,
        "update K --identifiers 4,2 --drop node.cost --drop node --add x:2 --out U",
        &words(goes),
    );
    // with a last id that is too low its id is given again
    let by_force = "update K --identifiers site,node.serial --drop node.cost --drop node --out U \
                    --last-id 1 --force";
    let last = "since the last id 1 is below it";
    refused(
        &folder,
        &format!("{by_force} --add x:5"),
        &words(&format!(
            "{goes}, and id 2 slot 1 x gets its id, {last}: it is optional; it is a float, type \
             code 5"
        )),
    );
    folder.draw("more", "1 s: list\n  2 element: int required\n");
    let by_force = by_force.replace("--last-id 1", "--last-id 0");
    let element = "id 2 slot 2 s.element";
    refused(
        &folder,
        &format!("{by_force} --add-tree more"),
        &words(&format!(
            "{goes}, and {element} gets its id, since the last id 0 is below it: id 1 slot 1 s \
             above it is a list"
        )),
    );
    let said = folder.braid(&format!("{by_force} --add y:2 --add x:9 --required --default"));
    let ends = "\nadded 2 x\nlast id 2\nvisited 4 records in the rebuild\n";
    assert!(said.answer().ends_with(ends));
}

#[test]
fn more_than_64_identifiers_are_told_by_a_check_too() {
    let limit = "2 at 0 0: a limit on an input count, length or name sum is passed, or a list is \
                 no whole number of records: 65 identifiers, and at most 64 may be given";
    let ids = |count: usize| vec!["4"; count].join(",");
    refused(&Folder::with_k(), &format!("check K --identifiers {}", ids(65)), limit);
    let said = Folder::with_k().braid(&format!("check K --identifiers {}", ids(64))).answer();
    assert_eq!(said.lines().filter(|line| *line == "identifier id 4 slot 3 site").count(), 64);
}

#[test]
fn a_deletion_is_told_with_its_path_and_what_it_finds_or_may_have_meant() {
    let folder = Folder::with_t();
    let update = "update T --drop visits.day";
    let nothing = "11 at 2 1: a deletion finds no column: deletion 1, path";
    for (path, end) in [
        ("node.prise", "; did you mean parts.value.price?"),
        ("day", "; did you mean visits.element.day?"),
        ("buttons", "; did you mean node.button?"),
        ("NODE.Cost", "; did you mean node.cost? Only `find -i` forgets case"),
        ("elevator", ""),
        ("x", ""),
    ] {
        let words = format!("{nothing} \"{path}\"{end}");
        refused(&folder, &format!("{update} --drop {path} --out U"), &words);
    }
    let folder = Folder::with_k();
    for serial in ["--drop node.serial", "--drop-id 2"] {
        refused(
            &folder,
            &format!("update K --identifiers 4,2 --drop node.cost {serial} --out U"),
            "12 at 2 1: a deletion finds an identifier: deletion 1, path \"node.serial\": id 2 \
             slot 1 node.serial, which is identifier 1",
        );
    }
}

#[test]
fn an_addition_is_told_with_its_name_its_parent_and_what_is_in_the_way() {
    let folder = Folder::with_t();
    let says = |added: &str, words: &str| {
        let arguments = format!("update T --add ok:0 {added} --out U");
        refused(&folder, &arguments, words);
    };
    says("--add a.b:0", &format!("13 at 3 1: {DOT}: addition 1, \"a.b\" at the root"));
    says(
        "--add a:0 --under node --required",
        "14 at 3 1: the added column is required, without initial default: addition 1, \"a\" under \
         \"node\"",
    );
    let nothing = "15 at 3 1: the parent path finds nothing: addition 1, \"a\" under";
    says("--add a:0 --under nodes", &format!("{nothing} \"nodes\"; did you mean node?"));
    let new = "this update adds it, and paths are looked up in the tree as it was";
    says("--add a:0 --under ok", &format!("{nothing} \"ok\": {new}"));
    let no_struct = "16 at 3 1: the parent leads to no struct: addition 1, \"a\" under";
    says(
        "--add a:0 --under node.cost",
        &format!("{no_struct} \"node.cost\": id 5 slot 2 node.cost, a primitive"),
    );
    let taken = "17 at 3 1: the name is taken: addition 1,";
    says("--add node:0", &format!("{taken} \"node\" at the root: so is named id 1 slot 0 node"));
    says(
        "--add cost:0 --under node",
        &format!("{taken} \"cost\" under \"node\": so is named id 5 slot 2 node.cost"),
    );
    says(
        "--add price:0 --under parts",
        &format!("{taken} \"price\" under \"parts\": so is named id 10 slot 9 parts.value.price"),
    );
    says(
        &format!("--add a:0 --last-id {}", i32::MAX - 1),
        "18 at 3 1: an id would pass 2,147,483,647: addition 1, \"a\" at the root: new ids up to \
         it: 2; the last id: 2147483646",
    );
}

#[test]
fn an_addition_to_what_is_dropped_is_told_with_the_deletion_that_takes_it() {
    let folder = Folder::with_t();
    let says = |asked: &str, place: u32, words: &str| {
        let means = "the receiving struct, or a record above it, is dropped as a member of a \
                     struct or of the root";
        refused(
            &folder,
            &format!("update T {asked} --out U"),
            &format!("22 at 3 {place}: {means}: addition {place}, {words}"),
        );
    };
    let node = "\"x\" under \"node\": id 1 slot 0 node, which deletion 1 drops";
    says("--drop visits.day --drop node --add x:0 --under node", 0, node);
    says("--drop-id 7,1 --add y:0 --add x:0 --under-id 1", 1, node);
    // the additions behind it are not asked, and the deletion is the first of its column
    says(
        "--drop visits.day --drop node --drop node --add x:0 --under node --add z:0 --under no",
        0,
        node,
    );
    says(
        "--drop visits.element --drop visits.day --drop visits --add fault:2 --under visits",
        0,
        "\"fault\" under \"visits\": id 6 slot 4 visits.element: it goes with id 2 slot 3 visits, \
         which deletion 2 drops",
    );
    says(
        "--drop parts --add fault:2 --under parts.value",
        0,
        "\"fault\" under \"parts.value\": id 9 slot 8 parts.value: it goes with id 3 slot 6 parts, \
         which deletion 0 drops",
    );
    let (records, names) = packed(&[chain(16)]);
    folder.put("deep", &records, &names);
    let path = |levels: usize| vec!["s"; levels].join(".");
    let arguments = format!(
        "update deep --last-id 16 --drop {} --add x:0 --under {} --out U",
        path(2),
        path(16)
    );
    let said = folder.braid(&arguments).refusal();
    let end = format!("{}: it goes with id 15 slot 1 s.s, which deletion 0 drops", path(16));
    assert!(said[0].ends_with(&end), "{said:?}");
}

/// An update of T by these arguments is refused with these words of an edit.
#[track_caller]
fn edit_refused(asked: &str, number: u32, place: u32, words: &str) {
    edit_of(&Folder::with_t(), &format!("update T {asked} --out U"), number, place, words);
}

/// The same of W.
#[track_caller]
fn widening_refused(asked: &str, number: u32, place: u32, words: &str) {
    edit_of(&Folder::with_w(), &format!("update W {asked} --out U"), number, place, words);
}

#[track_caller]
fn edit_of(folder: &Folder, arguments: &str, number: u32, place: u32, words: &str) {
    let means = match number {
        13 => DOT,
        23 => "an edit finds no column that stays",
        24 => "an edit that its column's role forbids, or a second rename or widening of a column",
        _ => "a widening of what is no primitive, or by a step that the version does not allow",
    };
    refused(folder, arguments, &format!("{number} at 6 {place}: {means}: edit {place}, {words}"));
}

#[test]
fn an_edit_that_finds_nothing_is_told_with_what_may_have_been_meant() {
    for (path, end) in [
        ("node.prise", "; did you mean parts.value.price?"),
        ("Node.Cost", "; did you mean node.cost? Only `find -i` forgets case"),
        ("elevator", ""),
        ("", ""),
    ] {
        let words = format!("rename of \"{path}\" to \"x\"{end}");
        edit_refused(&format!("--relax node --rename {path}=x"), 23, 1, &words);
    }
    edit_refused("--relax nodes", 23, 0, "relaxing of \"nodes\"; did you mean node?");
}

#[test]
fn an_edit_of_what_goes_is_told_with_the_deletion_that_takes_it() {
    let node = "id 1 slot 0 node, which deletion 1 drops";
    let drops = "--drop visits.day --drop node --drop node";
    edit_refused(
        &format!("{drops} --rename node=x --relax no"),
        23,
        0,
        &format!("rename of \"node\" to \"x\": {node}"),
    );
    edit_refused(
        &format!("{drops} --relax visits --relax-id 5"),
        23,
        1,
        "relaxing of \"node.cost\": id 5 slot 2 node.cost: it goes with id 1 slot 0 node, which \
         deletion 1 drops",
    );
    edit_refused(
        "--drop visits.element --drop visits --rename-id 7=date",
        23,
        0,
        "rename of \"visits.element.day\" to \"date\": id 7 slot 5 visits.element.day: it goes with \
         id 2 slot 3 visits, which deletion 1 drops",
    );
    // a list's element stays, and so do its members
    let folder = Folder::with_t();
    let said = folder.braid("update T --drop visits.element --rename visits.day=date --out U");
    let renamed = "\nrenamed 7 visits.element.day to visits.element.date\n";
    let ends = format!("{renamed}last id 10\nvisited 10 records in the rebuild\n");
    assert!(said.answer().ends_with(&ends));
}

#[test]
fn an_edit_of_what_is_not_there_yet_is_told_so() {
    let as_it_was = "and paths are looked up in the tree as it was";
    let adds = format!("this update adds it, {as_it_was}");
    edit_refused("--add x:0 --relax x", 23, 0, &format!("relaxing of \"x\": {adds}"));
    edit_refused(
        "--add x:0 --under visits --rename visits=v --rename visits.y=z",
        23,
        1,
        "rename of \"visits.y\" to \"z\"",
    );
    for path in ["v.x", "v.element.x"] {
        edit_refused(
            &format!("--add x:0 --under visits --rename visits=v --relax {path}"),
            23,
            1,
            &format!("relaxing of \"{path}\": {adds}"),
        );
    }
    edit_refused(
        "--rename visits=v --relax v.day",
        23,
        1,
        &format!(
            "relaxing of \"v.day\": that is the new name of id 7 slot 5 visits.element.day, \
             {as_it_was}; edit 0 is a rename of \"visits\" to \"v\""
        ),
    );
}

#[test]
fn an_edit_that_is_forbidden_is_told_with_the_role_or_the_rename_before_it() {
    for (path, label) in [
        ("visits.element", "id 6 slot 4 visits.element: a list's element"),
        ("parts.key", "id 8 slot 7 parts.key: a map's key"),
        ("parts.value", "id 9 slot 8 parts.value: a map's value"),
    ] {
        let words = format!("rename of \"{path}\" to \"a.b\": {label} is not renamed");
        edit_refused(&format!("--relax node --rename {path}=a.b"), 24, 1, &words);
    }
    edit_refused(
        "--relax parts.value --relax visits.element --relax-id 8",
        24,
        2,
        "relaxing of \"parts.key\": id 8 slot 7 parts.key: a map's key is not relaxed",
    );
    for second in ["--rename visits.element.day=e", "--rename-id 7=e"] {
        edit_refused(
            &format!("--relax visits.day --rename visits.day=d {second}"),
            24,
            2,
            "rename of \"visits.element.day\" to \"e\": id 7 slot 5 visits.element.day: edit 1 \
             renames it to \"d\", and a column is renamed once",
        );
    }
}

#[test]
fn a_second_widening_is_told_with_the_first() {
    for (to, named) in [("long", "long"), ("string", "string"), ("77", "type code 77")] {
        widening_refused(
            &format!("--widen-id 1:long --relax price --widen price:{to}"),
            24,
            2,
            &format!(
                "widening of \"price\" to {named}: id 1 slot 0 price: edit 0 widens it to long, \
                 and a column is widened once"
            ),
        );
    }
    // no role forbids it, and a rename is another thing
    widening_refused(
        "--rename price=p --widen m.key:long --widen l.element:long --widen m.key:3",
        24,
        3,
        "widening of \"m.key\" to long: id 12 slot 11 m.key: edit 1 widens it to long, and a \
         column is widened once",
    );
}

#[test]
fn a_step_that_is_none_is_told_with_those_that_there_are() {
    let long = "from int format version 2 has the step to long alone";
    let double = "from float format version 2 has the step to double alone";
    let no_step = "from date format version 2 has no step";
    let by_3 = "from date format version 2 has no step; version 3 has this one";
    let digits = "from decimal(9,2) format version 2 has the steps to decimal(10,2) up to \
                  decimal(38,2) alone";
    let last_digit = "from decimal(37,0) format version 2 has the step to decimal(38,0) alone";
    for (path, told, to, why) in [
        ("price", "id 1 slot 0", "int", "it is int already"),
        ("price", "id 1 slot 0", "string", long),
        ("price", "id 1 slot 0", "double", long),
        ("price", "id 1 slot 0", "10", long),
        ("heat", "id 2 slot 1", "long", double),
        ("day", "id 3 slot 2", "long", no_step),
        ("day", "id 3 slot 2", "timestamp", by_3),
        ("day", "id 3 slot 2", "timestamp_ns", by_3),
        ("sum", "id 4 slot 3", "decimal(9,2)", "it is decimal(9,2) already"),
        ("sum", "id 4 slot 3", "decimal(8,2)", digits),
        ("sum", "id 4 slot 3", "decimal(10,3)", digits),
        ("note", "id 5 slot 4", "int", "from string there is no step"),
        ("own", "id 6 slot 5", "long", "from type code 77 there is no step"),
        ("own", "id 6 slot 5", "77", "it is type code 77 already"),
        ("s", "id 7 slot 6", "long", "it is a struct, and no primitive"),
        ("l", "id 9 slot 8", "long", "it is a list, and no primitive"),
        ("m", "id 11 slot 10", "long", "it is a map, and no primitive"),
        ("m.value", "id 13 slot 12", "long", last_digit),
        ("full", "id 14 slot 13", "decimal(38,37)", "from decimal(38,38) there is no step"),
    ] {
        let named = if to.parse::<u32>().is_ok() { format!("type code {to}") } else { to.into() };
        widening_refused(
            &format!("--relax price --widen {path}:{to} --widen no:long"),
            26,
            1,
            &format!("widening of \"{path}\" to {named}: {told} {path}: {why}"),
        );
    }
    widening_refused(
        "--format-version 3 --widen-id 3:string",
        26,
        0,
        "widening of \"day\" to string: id 3 slot 2 day: from date format version 3 has the steps \
         to timestamp and to timestamp_ns alone",
    );
}

#[test]
fn a_widening_that_finds_nothing_is_told_with_what_may_have_been_meant() {
    let words = "widening of \"prise\" to long; did you mean price?";
    widening_refused("--widen prise:long", 23, 0, words);
}

/// Before anything else that the tree or the request is refused for.
#[test]
fn an_unknown_version_is_told_with_those_that_there_are() {
    for version in ["0", "1", "4", "4294967295"] {
        refused(
            &Folder::with_t(),
            &format!("update T --format-version {version} --drop no --add a.b:int --out U"),
            &format!(
                "25 at 0 0: the format version is unknown: this update names {version}, and there \
                 are 2 and 3"
            ),
        );
    }
    let folder = Folder::with_t();
    let (mut records, names) = folder.pair("T");
    records[9] = 9;
    folder.put("T", &records, &names);
    let said = folder.braid("update T --format-version 4 --out U").refusal();
    assert!(said[0].starts_with("refused 25 at 0 0: "), "{said:?}");
}

/// A float is no identifier, and a wider one is none either.
#[test]
fn an_identifier_that_is_widened_from_a_float_is_told_as_one() {
    let folder = Folder::with_w();
    let nine = format!("9 at 5 0: {NINE}");
    refused(
        &folder,
        "update W --identifiers heat --widen heat:double --out U",
        &format!("{nine}: W: identifier 0, id 2 slot 1 heat: it is a float, type code 5"),
    );
    folder.braid("update W --widen heat:double --out U").answer();
    refused(
        &folder,
        "check U --identifiers heat",
        &format!("{nine}: U: identifier 0, id 2 slot 1 heat: it is a double, type code 6"),
    );
}

#[test]
fn a_dot_in_a_new_name_is_told_with_the_name_that_may_be_meant() {
    for (edit, words) in [
        ("node.cost=node.price", "\"node.cost\" to \"node.price\"; did you mean \"price\"?"),
        ("node.cost=node.a.b", "\"node.cost\" to \"node.a.b\""),
        ("node.cost=price.", "\"node.cost\" to \"price.\""),
        ("node=a.b", "\"node\" to \"a.b\""),
    ] {
        edit_refused(&format!("--rename {edit}"), 13, 0, &format!("rename of {words}"));
    }
}

#[test]
fn a_name_that_a_rename_frees_is_told_to_be_taken_still() {
    let taken = "17 at 3 0: the name is taken: addition 0,";
    let but = "but after the additions: rename it in an update before this one";
    for (added, words) in [
        ("--add cost:0 --under node", "\"cost\" under \"node\": so is named id 5 slot 2 node.cost"),
        ("--add node:0", "\"node\" at the root: so is named id 1 slot 0 node"),
    ] {
        refused(
            &Folder::with_t(),
            &format!("update T {added} --rename-id 5=c --rename node=n --out U"),
            &format!(
                "{taken} {words}, which edit {} renames, {but}",
                u8::from(added.ends_with(":0"))
            ),
        );
    }
    // an edit that leaves the name is no reason
    refused(
        &Folder::with_t(),
        "update T --add node:0 --rename node=node --relax node --out U",
        &format!("{taken} \"node\" at the root: so is named id 1 slot 0 node"),
    );
}

#[test]
fn an_identifier_that_is_relaxed_is_told_with_the_edit() {
    let folder = Folder::with_k();
    for (edits, words) in [
        ("--relax node.serial", "edit 0 relaxes it"),
        ("--relax site --relax-id 1", "edit 1 relaxes id 1 slot 0 node above it"),
        (
            "--relax-id 1,2 --relax node",
            "edit 1 relaxes it; edit 0 relaxes id 1 slot 0 node above it",
        ),
    ] {
        refused(
            &folder,
            &format!("update K --identifiers node.serial {edits} --out U"),
            &format!(
                "9 at 5 0: {NINE}: after the update: identifier 0, id 2 slot 1 node.serial: {words}"
            ),
        );
    }
    let said = folder.braid("update K --identifiers node.serial --relax site --out U").answer();
    assert_eq!(said, "relaxed 4 site\nlast id 4\nvisited 4 records in the rebuild\n");
}

#[test]
fn equal_names_because_of_a_rename_are_told_with_it() {
    let says = |asked: &str, place: u32, words: &str| {
        refused(
            &Folder::with_t(),
            &format!("update T {asked} --out U"),
            &format!("8 at 4 {place}: a full name equals an earlier one: {words}"),
        );
    };
    says(
        "--relax node --rename visits=node",
        3,
        "id 2 slot 3 node, and before it id 1 slot 0 node; edit 1 is a rename of \"visits\" to \
         \"node\"",
    );
    says(
        "--add x:0 --rename parts=y --rename node=x",
        10,
        "id 11 slot 10 x, and before it id 1 slot 0 x; edit 1 is a rename of \"node\" to \"x\"",
    );
    // a rename of what stands above is a reason too
    let folder = Folder::new();
    folder.draw("D", "1 a: struct\n  2 b: primitive 0\n3 c.b: primitive 0\n");
    refused(
        &folder,
        "update D --rename a=c --out U",
        "8 at 4 2: a full name equals an earlier one: id 3 slot 2 c.b, and before it id 2 slot 1 \
         c.b; edit 0 is a rename of \"a\" to \"c\"",
    );
}

#[test]
fn a_parent_is_told_with_what_it_holds() {
    let folder = Folder::new();
    let maps = map_of(3, "m", prim(4, "key"), list_of(5, "value", prim(6, "element")));
    let (records, names) = packed(&[list_of(1, "l", prim(2, "element")), maps]);
    folder.put("L", &records, &names);
    folder.put_last("L", "6\n");
    let no_struct = "16 at 3 0: the parent leads to no struct: addition 0, \"a\" under";
    let words = format!("{no_struct} \"l\": id 1 slot 0 l, a list of primitive columns");
    refused(&folder, "update L --add a:0 --under l --out U", &words);
    let words = format!("{no_struct} \"m\": id 3 slot 2 m, a map of list columns");
    refused(&folder, "update L --add a:0 --under m --out U", &words);
}

#[test]
fn an_added_tree_is_told_by_its_own_stem() {
    let folder = Folder::with_t();
    let (records, names) = packed(&[prim(1, "a"), prim(1, "b")]);
    folder.put("twins", &records, &names);
    refused(
        &folder,
        "update T --add-tree twins --out U",
        "7 at 0 1: an id equals an earlier one: twins: id 1 slot 1 b, and before it id 1 slot 0 a",
    );
}

#[test]
fn numbers_that_would_run_out_are_told_with_their_start() {
    let words = "18 at 0 0: an id would pass 2,147,483,647: 10 records from 2147483638";
    refused(&Folder::with_t(), "renumber T --from 2147483638 --out U", words);
    Folder::with_t().braid("renumber T --from 2147483637 --out U").answer();
}

#[test]
fn a_fault_of_the_rebuilt_tree_is_told_with_both_columns() {
    let folder = Folder::with_t();
    refused(
        &folder,
        "update T --drop visits.element --add day:0 --under visits --out U",
        "8 at 4 6: a full name equals an earlier one: id 11 slot 6 visits.element.day, and before \
         it id 7 slot 5 visits.element.day",
    );
    refused(
        &folder,
        "update T --add floor:0 --add floor:0 --out U",
        "8 at 4 11: a full name equals an earlier one: id 12 slot 11 floor, and before it id 11 \
         slot 10 floor",
    );
    refused(
        &folder,
        "update T --last-id 8 --force --drop visits --add a:0 --under node --out U",
        "7 at 4 6: an id equals an earlier one: id 9 slot 6 parts.value, and before it id 9 slot 3 \
         node.a; the last id 8 is below it",
    );
}

#[test]
fn a_rebuilt_tree_that_passes_a_limit_is_told_with_the_limit() {
    let folder = Folder::with_t();
    let says = |arguments: &str, words: &str| {
        let limit = "19 at 4 0: the rebuilt tree passes a limit on trees (records, levels or name \
                     sum): the rebuilt tree has";
        refused(&folder, arguments, &format!("{limit} {words}"));
    };
    let put = |stem: &str, roots: &[Node]| {
        let (records, names) = packed(roots);
        folder.put(stem, &records, &names);
    };
    put("deep", &[chain(16)]);
    says("update T --add-tree deep --under node --out U", "17 levels, and may have 16");
    put("wide", &[strukt(0, "w", (1..1_020).map(|id| prim(id, &format!("{id}"))).collect())]);
    says("update T --add-tree wide --out U", "1030 records, and may have 1024");
    put("long", &[strukt(0, "l", (1..=100).map(|id| prim(id, &format!("{id:0>255}"))).collect())]);
    folder.braid("update T --add-tree long --out L").answer();
    put("more", &[strukt(0, "m", (1..=50).map(|id| prim(id, &format!("{id:0>255}"))).collect())]);
    says(
        "update L --add-tree more --out U",
        "38300 bytes in all names together, and may have 32768",
    );
    let full: String = (1..=128).map(|id| format!("{id} {id:0>255}: primitive 0\n")).collect();
    folder.draw("full", &(full + "129 x: primitive 0\n"));
    let renamed = |bytes: usize| format!("update full --rename x={} --out U", "x".repeat(bytes));
    says(&renamed(129), "32769 bytes in all names together, and may have 32768");
    folder.braid(&renamed(128)).answer();
}

#[test]
fn a_list_or_map_chosen_directly_is_told_with_its_kind() {
    let chosen = "pruning meets a list or map chosen directly, not in full mode: T:";
    let words = format!("20 at 0 3: {chosen} id 2 slot 3 visits, a list");
    refused(&Folder::with_t(), "prune T --keep 2 --out U", &words);
    let words = format!("20 at 0 6: {chosen} id 3 slot 6 parts, a map");
    refused(&Folder::with_t(), "prune T --keep parts --out U", &words);
}

#[test]
fn columns_that_are_alike_but_for_case_are_told_with_their_names() {
    let folder = Folder::new();
    let twins = |first: i32| vec![prim(first, "a"), prim(first + 1, "A"), prim(first + 2, "b")];
    let list = list_of(4, "L", strukt(5, "element", twins(6)));
    let (records, names) = packed(&[&twins(1)[..], &[list]].concat());
    folder.put("X", &records, &names);
    let says = |name: &str, second: usize, words: &str| {
        let two = "two columns match at the same level where case is forgotten";
        let words = format!("21 at 0 {second}: {two}: X: {words}");
        refused(&folder, &format!("find X -i {name}"), &words);
    };
    // an exact match is no help
    for name in ["a", "A"] {
        let both = format!("but for case \"{name}\" is the full name of both");
        says(name, 1, &format!("id 2 slot 1 A, and before it id 1 slot 0 a: {both}"));
    }
    says(
        "l.a",
        6,
        "id 7 slot 6 L.element.A, and before it id 6 slot 5 L.element.a: but for case \"l.a\" is \
         the short name of both",
    );
    assert_eq!(folder.braid("find X -i l.B").answer(), "id 8 slot 7 L.element.b\n");
    assert_eq!(folder.braid("find X A").answer(), "id 2 slot 1 A\n");
}

#[test]
fn equal_short_names_are_told_where_case_is_forgotten() {
    let folder = Folder::new();
    let inner = list_of(5, "1", strukt(3, "element", vec![prim(4, "element")]));
    let (records, names) =
        packed(&[map_of(1, "m", prim(6, "key"), strukt(2, "value", vec![inner]))]);
    folder.put("X", &records, &names);
    refused(
        &folder,
        "find X -i m.1.element",
        "21 at 0 5: two columns match at the same level where case is forgotten: X: id 4 slot 5 \
         m.value.1.element.element, and before it id 3 slot 4 m.value.1.element: but for case \
         \"m.1.element\" is the short name of both",
    );
    assert_eq!(
        folder.braid("find X m.1.element").answer(),
        "id 4 slot 5 m.value.1.element.element\n"
    );
}

#[test]
fn names_that_could_deceive_are_escaped() {
    let folder = Folder::new();
    let mut bad = prim(1, "");
    bad.name = b"a\x1b[2J\n\"\xff".to_vec();
    let (records, names) = packed(&[list_of(2, "l", bad)]);
    folder.put("L", &records, &names);
    let words = "6 at 0 1: an element, key or value is named otherwise: L: id 1 slot 1 \
                 \"l.a\\x1b[2J\\x0a\\\"\\xff\": a list's child is named \"element\"";
    refused(&folder, "list L", words);
}
