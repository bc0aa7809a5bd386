//! Files, pipes and arguments: what is read, what is written, and what is left alone.

use std::fs;
use std::io::Read;
use std::os::unix::fs::symlink;
use std::process::{Command, Stdio};

use crate::folder::{BRAID, Folder};

/// The four commands that write, by the stem that they write to.
fn writers(out: &str) -> [String; 4] {
    [
        format!("prune T --keep 7 --out {out}"),
        format!("renumber T --from 5 --out {out}"),
        format!("update T --drop node --out {out}"),
        format!("make T.picture --out {out}"),
    ]
}

fn with_t_and_picture() -> Folder {
    let folder = Folder::with_t();
    fs::write(folder.file("T.picture"), folder.braid("list T").answer()).expect("written");
    folder
}

#[test]
fn a_missing_file_is_named_with_status_3() {
    let folder = Folder::with_t();
    let hint = "not found; a tree is named by the common stem of its files\n";
    assert_eq!(folder.braid("list U").complaint(3), format!("U.rec: {hint}"));
    assert_eq!(folder.braid("check T.rec").complaint(3), format!("T.rec.rec: {hint}"));
    let said = folder.braid("update T --add-tree U --out V").complaint(3);
    assert_eq!(said, format!("U.rec: {hint}"));
    fs::remove_file(folder.file("T.names")).expect("removed");
    assert_eq!(folder.braid("find T node").complaint(3), format!("T.names: {hint}"));
    assert!(folder.braid("make none --out V").complaint(3).starts_with("none: No such file"));
    assert_eq!(folder.files(), ["T.last", "T.rec"]);
}

#[test]
fn nothing_is_overwritten_unless_told() {
    let folder = with_t_and_picture();
    for ending in ["rec", "names", "last"] {
        let there = folder.file(&format!("U.{ending}"));
        fs::write(&there, "mine").expect("written");
        let before = folder.files();
        for arguments in writers("U") {
            let said = folder.braid(&arguments).complaint(3);
            let why = "already there; nothing is written; --force replaces files";
            assert_eq!(said, format!("U.{ending}: {why}\n"), "{arguments}");
            assert_eq!(fs::read(&there).expect("still there"), b"mine", "{arguments}");
            assert_eq!(folder.files(), before, "{arguments}");
        }
        fs::remove_file(there).expect("removed");
    }
}

#[test]
fn force_replaces_all_files_and_leaves_no_other() {
    let folder = with_t_and_picture();
    for arguments in writers("U") {
        folder.put("U", b"old", b"old");
        folder.put_last("U", "old");
        let said = folder.braid(&format!("{arguments} --force"));
        assert_eq!((said.status, said.err.as_str()), (0, ""), "{arguments}");
        folder.braid("check U").answer();
        let files = folder.files();
        let t = ["T.last", "T.names", "T.picture", "T.rec"];
        let u: &[&str] = if arguments.starts_with("prune") {
            &["U.names", "U.rec"]
        } else {
            &["U.last", "U.names", "U.rec"]
        };
        assert_eq!(files, [&t, u].concat(), "{arguments}");
    }
}

#[test]
fn a_tree_can_be_updated_in_its_place() {
    let folder = Folder::with_t();
    let said = folder.braid("update T --add floor:0 --out T --force").answer();
    assert_eq!(said, "added 11 floor\nlast id 11\nvisited 11 records in the rebuild\n");
    let said = folder.braid("update T --drop floor --add floor:1 --out T --force").answer();
    let ends = "last id 12\nvisited 12 records in the rebuild\n";
    assert_eq!(said, format!("dropped 11 floor\nadded 12 floor\n{ends}"));
    assert_eq!(folder.files(), ["T.last", "T.names", "T.rec"]);
}

#[test]
fn a_folder_in_the_way_stays_with_all_three_files() {
    for ending in ["rec", "names", "last"] {
        let folder = Folder::with_t();
        folder.put("U", b"old", b"old");
        folder.put_last("U", "old");
        let name = format!("U.{ending}");
        fs::remove_file(folder.file(&name)).expect("removed");
        fs::create_dir(folder.file(&name)).expect("made");
        let before = folder.files();
        let said = folder.braid("update T --drop node --out U --force").complaint(3);
        let why = "there is something else than a file; nothing is written; --force replaces files \
                   and links alone";
        assert_eq!(said, format!("{name}: {why}\n"));
        for other in ["rec", "names", "last"].iter().filter(|other| **other != ending) {
            assert_eq!(fs::read(folder.file(&format!("U.{other}"))).expect("there"), b"old");
        }
        assert_eq!(folder.files(), before);
    }
}

#[test]
fn a_link_gives_way_by_force_and_what_it_leads_to_stays() {
    let folder = Folder::with_t();
    fs::write(folder.file("far"), "mine").expect("written");
    symlink("far", folder.file("U.rec")).expect("a link");
    symlink("nowhere", folder.file("U.names")).expect("a link");
    let update = "update T --drop node.cost --out U";
    assert!(folder.braid(update).complaint(3).starts_with("U.rec: already there; "));
    let said = folder.braid(&format!("{update} --force")).answer();
    let lines = "dropped 5 node.cost\nlast id 10\nvisited 10 records in the rebuild\n\
                 U.rec was a link, and what it led to is as it was\n\
                 U.names was a link, and what it led to is as it was\n";
    assert_eq!(said, lines);
    assert_eq!(fs::read(folder.file("far")).expect("there"), b"mine");
    assert!(folder.file("U.rec").symlink_metadata().expect("there").is_file());
    assert!(!folder.files().contains(&"nowhere".into()));
}

#[test]
fn a_stem_ends_with_a_name() {
    let folder = with_t_and_picture();
    fs::create_dir(folder.file("DIR")).expect("made");
    for stem in ["DIR/", "DIR/..", "DIR/.", ".", "..", "/"] {
        for arguments in writers(stem) {
            let said = folder.braid(&format!("{arguments} --force")).complaint(3);
            let why = "a stem ends with a name; nothing is written; DIR/T is one";
            assert_eq!(said, format!("{stem}: {why}\n"));
        }
    }
    assert_eq!(folder.files(), ["DIR", "T.last", "T.names", "T.picture", "T.rec"]);
    assert_eq!(fs::read_dir(folder.file("DIR")).expect("a folder").count(), 0);
    folder.braid("prune T --keep 7 --out DIR/..a").answer();
}

#[test]
fn a_folder_that_is_not_there_is_a_fault() {
    let said = Folder::with_t().braid("prune T --keep 7 --out no/U").complaint(3);
    assert!(said.starts_with("no/U.rec: "), "{said}");
}

#[test]
fn a_reader_that_has_read_enough_is_no_fault() {
    let folder = Folder::new();
    // more than a pipe holds, so that the tool meets its end
    let line = |id| format!("{id} {id:0>30}: struct required default attribute {}\n", u32::MAX);
    let picture: String = (0..1_024).map(line).collect();
    folder.piped("make - --out wide", picture.as_bytes()).answer();
    for arguments in [&["list", "wide"][..], &["list", "wide", "--plain"], &["update", "--help"]] {
        let mut command = folder.command(arguments);
        let mut tool =
            command.stdout(Stdio::piped()).stderr(Stdio::piped()).spawn().expect("the tool runs");
        drop(tool.stdout.take());
        let mut err = String::new();
        tool.stderr.take().expect("a pipe").read_to_string(&mut err).expect("words");
        assert_eq!((tool.wait().expect("it ends").code(), err.as_str()), (Some(0), ""));
    }
}

#[test]
fn a_terminal_gets_no_control_bytes_and_a_pipe_gets_the_name() {
    let folder = Folder::new();
    folder.piped("make - --out E", b"1 \"\\x1b[2J\": struct\n").answer();
    assert_eq!(folder.braid("list E --plain").answer(), "0 1 - \x1b[2J\n");
    // script runs a command on a terminal of its own
    let command = format!("{BRAID} list {} --plain", folder.file("E").display());
    let output = Command::new("script").args(["-qec", &command, "/dev/null"]).output();
    let seen = output.expect("bsdutils is essential in Debian").stdout;
    assert_eq!(String::from_utf8_lossy(&seen), "0 1 - \"\\x1b[2J\"\r\n");
}

#[test]
fn a_file_name_is_no_command_for_a_terminal() {
    let folder = Folder::with_t();
    for (arguments, words) in [
        (["list", "\x1b[2J\nx"], "\\x1b[2J\\x0ax.rec: not found; "),
        (["find", "--\x1b[2J"], "error: Found argument '--\\x1b[2J' "),
    ] {
        let said = folder.run(&arguments).complaint(3);
        assert!(said.starts_with(words), "{said:?}");
        assert!(!said.contains('\x1b'), "{said:?}");
    }
    let said = folder.run(&["prune", "T", "--keep", "99", "--out", "U\x1b"]).answer();
    assert_eq!(said, "not in T: id 99\nkept 0 of 10 records\n");
    let said = folder.run(&["update", "U\x1b", "--out", "V"]).complaint(3);
    assert!(said.starts_with("U\\x1b.last: not found, "), "{said:?}");
}

#[test]
fn a_closed_or_full_output_has_a_status_of_its_own() {
    let folder = Folder::with_t();
    for command in ["list T", "--help", "explain 3", "update T --drop node --out U"] {
        let said = folder.shell(&format!("braid {command} >&-"));
        assert!(said.err.starts_with("standard output is closed"), "{command}: {}", said.err);
        assert_eq!(said.status, 4, "{command}");
    }
    assert_eq!(folder.files(), ["T.last", "T.names", "T.rec"], "nothing was done");
    // who asks for no words needs nowhere to print them
    assert_eq!(folder.shell("braid update T --drop node --out U --quiet >&-").answer(), "");
    assert_eq!(folder.shell("braid list T >/dev/null").answer(), "");
    // a refusal and wrong arguments keep their own status where they print nothing
    assert_eq!(folder.shell("braid list >&-").status, 3);
    // of many ids one that is not found is told before the first that can't be printed
    for (command, before) in [("list T", ""), ("find T --id 99,1,98", "no column has id 99\n")] {
        let full = folder.shell(&format!("braid {command} >/dev/full"));
        let words = format!("{before}standard output: No space left on device (os error 28)\n");
        assert_eq!((full.status, full.err), (4, words), "{command}");
    }
}

#[test]
fn a_closed_input_is_no_empty_picture() {
    let folder = Folder::new();
    let said = folder.shell("braid make - --out U <&-").complaint(3);
    assert_eq!(said, "standard input: closed\n");
    assert_eq!(folder.files(), [""; 0]);
    folder.shell("braid make - --out U </dev/null").answer();
}

#[test]
fn pictures_go_through_pipes() {
    let folder = Folder::with_t();
    let picture = folder.braid("list T").answer().replace("cost", "price");
    folder.piped("make - --out U", picture.as_bytes()).answer();
    assert_eq!(folder.braid("find U node.price").answer(), "id 5 slot 2 node.price\n");
}

#[test]
fn wrong_arguments_end_with_status_3_and_help_with_0() {
    let folder = Folder::with_t();
    for arguments in [
        "",
        "unknown T",
        "list",
        "list T U",
        "find T",
        "find T node --id 1",
        "find T --id x",
        "find T --id 2147483648",
        "find T --id 7,x",
        "find T --id 7,,5",
        "find T --id 7 5",
        "find T --id --help",
        "find T --id 7,node",
        "find T -i",
        "find T -i node --id 1",
        "parent T --ignore-case 7",
        "parent T",
        "prune T --keep 7",
        "prune T --out U",
        "prune T --keep 7,,5 --out U",
        "prune T --keep --full --out U",
        "renumber T --out U",
        "update T",
        "update T --last-id x --out U",
        "update T --drop-id x --out U",
        "update T --drop-id --out U",
        "update T --add floor --out U",
        "update T --add floor:-1 --out U",
        "update T --under node --add floor:0 --out U",
        "update T --add floor:0 --under node --under node --out U",
        "update T --add floor:0 --under node --under-id 1 --out U",
        "update T --required --add floor:0 --out U",
        "update T --add-tree T --default --out U",
        "make T.picture",
    ] {
        let said = folder.braid(arguments);
        assert_eq!((said.status, said.out.len()), (3, 0), "{arguments}");
        assert!(!said.err.is_empty(), "{arguments}");
    }
    assert_eq!(folder.files(), ["T.last", "T.names", "T.rec"]);
    assert!(folder.braid("--help").answer().contains("Exit status: 0 "));
}

#[test]
fn an_id_has_no_case_to_forget() {
    let folder = Folder::with_t();
    let said = folder.braid("find T -i --id 7").complaint(3);
    assert!(said.contains("'--ignore-case' cannot be used with '--id <ID,..>'"), "{said}");
    let said = folder.braid("parent T -i 7").complaint(3);
    assert!(said.lines().next().is_some_and(|line| line.contains("'-i'")), "{said}");
}

#[test]
fn a_name_too_long_for_the_layout_is_a_wrong_argument() {
    let folder = Folder::with_t();
    let arguments = format!("update T --add {}:0 --out U", "x".repeat(256));
    let said = folder.braid(&arguments).complaint(3);
    assert_eq!(said, "256 bytes in a name: the layout holds at most 255\n");
}
