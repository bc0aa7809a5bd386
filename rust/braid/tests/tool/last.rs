//! The last id goes with its tree, and no id is handed out twice.

use crate::folder::Folder;

#[test]
fn five_revisions_need_no_last_id() {
    let folder = Folder::new();
    folder.piped("make - --out r1", b"1 a: struct\n  2 b: int\n").answer();
    folder.braid("update r1 --drop a.b --out r2").answer();
    folder.braid("update r2 --add b:3 --under a --out r3").answer();
    folder.braid("update r3 --drop a --add c:2 --out r4").answer();
    let said = folder.braid("update r4 --drop c --add a:4 --out r5").answer();
    let lines = "dropped 4 c\nadded 5 a\nlast id 5\nvisited 2 records in the rebuild\n";
    assert_eq!(said, lines);
    let lasts = ["r1", "r2", "r3", "r4", "r5"].map(|stem| folder.last(stem).expect("it is kept"));
    assert_eq!(lasts, ["2\n", "2\n", "3\n", "4\n", "5\n"]);
}

#[test]
fn where_no_last_id_is_kept_or_said_nothing_is_done() {
    let folder = Folder::with_t();
    std::fs::remove_file(folder.file("T.last")).expect("removed");
    let said = folder.braid("update T --add floor:2 --out U").complaint(3);
    let words = "T.last: not found, and no --last-id says the last id consumed so far. The largest \
                 id of the tree is 10; one that was dropped since may have been larger\n";
    assert_eq!(said, words);
    assert_eq!(folder.files(), ["T.names", "T.rec"]);
    folder.braid("update T --last-id 12 --add floor:2 --out U").answer();
    assert_eq!(folder.last("U").as_deref(), Some("13\n"));
}

#[test]
fn a_last_id_that_is_said_below_an_id_of_the_tree_is_taken_by_force_alone() {
    let folder = Folder::with_t();
    let update = "update T --drop parts --add floor:2 --out U --last-id 9";
    let below = "--last-id 9 is below id 10 of parts.value.price";
    let said = folder.braid(update).complaint(3);
    let twice =
        "an id could be handed out twice. Nothing is written; --force takes it all the same";
    assert_eq!(said, format!("{below}: {twice}\n"));
    let said = folder.braid(&format!("{update} --force")).answer();
    assert!(said.starts_with(&format!("by force: {below}\n")), "{said}");
    let ends = "added 10 floor\nlast id 10\nvisited 8 records in the rebuild\n";
    assert!(said.ends_with(ends), "{said}");
}

#[test]
fn a_last_id_that_is_kept_below_an_id_of_the_tree_is_not_taken_by_force_either() {
    let folder = Folder::with_t();
    folder.put_last("T", "9\n");
    let below = "T.last: the last id 9 is below id 10 of parts.value.price";
    assert_eq!(folder.braid("check T").complaint(3), format!("{below}\n"));
    let twice = "an id could be handed out twice. Nothing is written; say the last id by --last-id";
    let update = "update T --add floor:2 --out T --force";
    assert_eq!(folder.braid(update).complaint(3), format!("{below}: {twice}\n"));
    let said = folder.braid(&format!("{update} --last-id 10")).answer();
    assert_eq!(said, "added 11 floor\nlast id 11\nvisited 11 records in the rebuild\n");
    folder.braid("check T").answer();
}

#[test]
fn a_last_id_below_the_one_that_is_kept_is_taken_by_force_alone() {
    let folder = Folder::with_t();
    folder.put_last("T", "12\n");
    let said = folder.braid("update T --last-id 11 --add floor:2 --out U").complaint(3);
    assert!(said.starts_with("--last-id 11 is below 12, which T.last keeps: "), "{said}");
    let said = folder.braid("update T --last-id 12 --add floor:2 --out U").answer();
    assert_eq!(said, "added 13 floor\nlast id 13\nvisited 11 records in the rebuild\n");
    let said = folder.braid("update T --last-id 11 --add floor:2 --out V --force").answer();
    assert!(said.starts_with("by force: --last-id 11 is below 12, which T.last keeps\n"), "{said}");
}

#[test]
fn a_file_that_holds_no_last_id_is_named() {
    let folder = Folder::with_t();
    for text in ["", "ten\n", "10", "10\n11\n", "2147483648\n", "1 0\n"] {
        folder.put_last("T", text);
        for arguments in ["update T --add floor:2 --out U", "check T"] {
            let said = folder.braid(arguments).complaint(3);
            assert_eq!(said, "T.last: no last id, which is a number and a newline\n", "{text:?}");
        }
        // who does not ask for the last id is answered
        folder.braid("find T node").answer();
        folder.braid("prune T --keep 7 --out U --force").answer();
    }
    folder.put_last("T", "-2147483648\n");
    assert!(folder.braid("check T").complaint(3).contains("the last id -2147483648 is below"));
}

#[test]
fn check_tells_the_last_id() {
    let folder = Folder::with_t();
    let accepted = "accepted: 10 records, 48 name bytes\n";
    assert_eq!(folder.braid("check T").answer(), format!("{accepted}last id 10\n"));
    std::fs::remove_file(folder.file("T.last")).expect("removed");
    let none = "no last id: T.last is not there\n";
    assert_eq!(folder.braid("check T").answer(), format!("{accepted}{none}"));
}

#[test]
fn make_keeps_the_largest_id_or_what_is_said() {
    let folder = Folder::new();
    let picture = b"3 a: struct\n7 b: struct\n5 c: struct\n";
    assert_eq!(folder.piped("make - --out A", picture).answer(), "last id 7\n");
    assert_eq!(folder.last("A").as_deref(), Some("7\n"));
    assert_eq!(folder.piped("make - --last-id 9 --out B", picture).answer(), "last id 9\n");
    assert_eq!(folder.last("B").as_deref(), Some("9\n"));
    let said = folder.piped("make - --last-id 6 --out C", picture).complaint(3);
    assert!(said.starts_with("--last-id 6 is below id 7 of b: "), "{said}");
    assert_eq!(folder.last("C"), None);
    folder.piped("make - --last-id 6 --out C --force", picture).answer();
    assert_eq!(folder.last("C").as_deref(), Some("6\n"));
    assert_eq!(folder.piped("make - --out D", b"").answer(), "last id 0\n");
}

#[test]
fn renumbering_begins_anew() {
    let folder = Folder::with_t();
    folder.put_last("T", "5000\n");
    folder.braid("renumber T --from 1 --out U").answer();
    assert_eq!(folder.last("U").as_deref(), Some("10\n"));
    let said = folder.braid("update U --add x:2 --out V").answer();
    assert_eq!(said, "added 11 x\nlast id 11\nvisited 11 records in the rebuild\n");
    folder.put("E", b"", b"");
    assert_eq!(folder.braid("renumber E --from 100 --out F").answer(), "last id 99\n");
    let said = folder.braid("update F --add x:2 --out G").answer();
    assert_eq!(said, "added 100 x\nlast id 100\nvisited 1 record in the rebuild\n");
    let least = format!("renumber E --from {} --out H", i32::MIN);
    assert_eq!(folder.braid(&least).answer(), format!("last id {}\n", i32::MIN));
}

#[test]
fn a_pruned_tree_has_no_last_id_and_takes_an_old_one_away() {
    let folder = Folder::with_t();
    folder.braid("update T --out U").answer();
    assert_eq!(folder.last("U").as_deref(), Some("10\n"));
    folder.braid("prune T --keep 7 --out U --force").answer();
    assert_eq!(folder.last("U"), None);
    assert!(folder.braid("update U --out V").complaint(3).starts_with("U.last: not found, "));
}

#[test]
fn a_tree_that_is_refused_is_refused_whatever_the_last_id() {
    let folder = Folder::new();
    folder.put("X", &[0; 23], b"");
    assert!(folder.braid("update X --out U").refusal()[0].starts_with("refused 2 at 0 0: "));
}
