//! The lister, on files: what it writes, what it says where it can't, and its status. It is built
//! where the toolchain is there; with CI=true in the environment it must be.

use std::fs::Permissions;
use std::ops::Range;
use std::os::unix::fs::PermissionsExt;
use std::path::{Path, PathBuf};
use std::process::Command;
use std::sync::OnceLock;
use std::{env, fs};

use cases::{Generator, Random, Sizes, list_of, packed, prim, strukt, the_tree};
use judge::{Node, OUT_NAMES, OUT_RECORDS, RECORD_BYTES};

/// What a run left.
#[derive(Debug, PartialEq)]
struct Left {
    status: i32,
    written: Vec<u8>,
    said: String,
}

/// A folder of one test, gone when the test ends.
struct Room(PathBuf);

/// Is the lister there? The first that asks has it built, if it is not.
fn is_built() -> bool {
    static BUILT: OnceLock<bool> = OnceLock::new();
    *BUILT.get_or_init(|| {
        let path = env::var_os("PATH").unwrap_or_default();
        if env::split_paths(&path).any(|folder| folder.join("rt").is_file()) {
            Command::new(root().join("tools/lister")).output().expect("tools/lister runs");
        }
        root().join("crates/lister/out/lister").exists()
    })
}

impl Room {
    /// None where the lister is not built.
    fn new(test: &str) -> Option<Room> {
        if !is_built() {
            let gate = env::var("CI").is_ok_and(|ci| ci == "true");
            assert!(!gate, "CI=true asks for the lister: rt run in crates/lister");
            println!("The lister did not run: it is not built, and there is no toolchain");
            return None;
        }
        let room = env::temp_dir().join(format!("lister-{test}-{}", std::process::id()));
        fs::create_dir(&room).expect("a new folder");
        Some(Room(room))
    }

    fn put(&self, name: &str, bytes: &[u8]) {
        fs::write(self.0.join(name), bytes).expect("a file in the room");
    }

    fn run(&self, words: &[&str]) -> Left {
        let mut lister = Command::new(root().join("tools/lister"));
        let left = lister.args(words).current_dir(&self.0).output().expect("tools/lister runs");
        Left {
            status: left.status.code().expect("it ends by itself"),
            written: left.stdout,
            said: String::from_utf8(left.stderr).expect("text"),
        }
    }

    /// The listing of a tree in tree.rec and tree.names.
    fn list(&self, (records, names): (Vec<u8>, Vec<u8>)) -> Left {
        self.put("tree.rec", &records);
        self.put("tree.names", &names);
        self.run(&[])
    }
}

impl Drop for Room {
    fn drop(&mut self) {
        let _ = fs::remove_dir_all(&self.0);
    }
}

fn root() -> PathBuf {
    Path::new(env!("CARGO_MANIFEST_DIR")).join("../..")
}

fn listed(text: &str) -> Left {
    Left { status: 0, written: text.as_bytes().to_vec(), said: String::new() }
}

fn refused(line: &str) -> Left {
    Left { status: 2, written: line.as_bytes().to_vec(), said: String::new() }
}

/// The second judge's listing.
fn judged((records, names): &(Vec<u8>, Vec<u8>)) -> Left {
    match judge::list(records, names) {
        Ok(text) => Left { status: 0, written: text, said: String::new() },
        Err(r) => refused(&format!("refused {} at {} {}\n", r.number, r.list, r.place)),
    }
}

/// 01's answer to P8.
fn p8() -> (Vec<u8>, Vec<u8>) {
    packed(&[list_of(2, "visits", strukt(6, "element", vec![prim(7, "day")]))])
}

const P8: &str = "0 2 - visits\n1 6 2 visits.element\n2 7 6 visits.element.day\n";

#[test]
fn the_tree_of_the_current_folder_is_listed() {
    let Some(room) = Room::new("current") else { return };
    assert_eq!(room.list(p8()), listed(P8));
    assert_eq!(room.list(packed(&[])), listed(""));
}

#[test]
fn two_files_may_be_named() {
    let Some(room) = Room::new("named") else { return };
    room.put("a", &p8().0);
    room.put("b", &p8().1);
    assert_eq!(room.run(&["a", "b"]), listed(P8));
    assert_eq!(room.run(&["b", "a"]), refused("refused 2 at 0 0\n"));
}

#[test]
fn ids_are_signed() {
    let Some(room) = Room::new("signed") else { return };
    let tree = [strukt(-1, "a", vec![prim(i32::MIN, "b"), prim(i32::MAX, "c")]), prim(0, "d")];
    let lines = "0 -1 - a\n1 -2147483648 -1 a.b\n2 2147483647 -1 a.c\n3 0 - d\n";
    assert_eq!(room.list(packed(&tree)), listed(lines));
}

#[test]
fn a_refusal_is_its_line_alone() {
    let Some(room) = Room::new("refused") else { return };
    let broken = |at: usize, value: u8| {
        let (mut records, names) = packed(&the_tree());
        records[at] = value;
        (records, names)
    };
    let (mut loose, names) = p8();
    loose.pop();
    assert_eq!(room.list((loose, names)), refused("refused 2 at 0 0\n"));
    assert_eq!(room.list(broken(9 * 24 + 11, 1)), refused("refused 3 at 0 9\n"));
    assert_eq!(room.list(broken(9 * 24 + 8, 255)), refused("refused 4 at 0 9\n"));
    assert_eq!(room.list(broken(24, 1)), refused("refused 7 at 0 1\n"));
    let (mut short, names) = broken(9 * 24 + 9, 1);
    short[9 * 24 + 12] = 1;
    assert_eq!(room.list((short, names)), refused("refused 5 at 0 10\n"));
    let wrong = list_of(1, "l", prim(2, "item"));
    assert_eq!(room.list(packed(&[wrong])), refused("refused 6 at 0 1\n"));
    let twice = [prim(1, "a"), prim(2, "a")];
    assert_eq!(room.list(packed(&twice)), refused("refused 8 at 0 1\n"));
}

#[test]
fn a_file_past_its_limit_is_refused_and_not_cut_short() {
    let Some(room) = Room::new("long") else { return };
    let tree: Vec<Node> = (0..1024).map(|id| prim(id, &format!("n{id}"))).collect();
    let (mut records, mut names) = packed(&tree);
    names.resize(OUT_NAMES, b'x');
    assert_eq!(records.len(), OUT_RECORDS);
    let full = room.list((records.clone(), names.clone()));
    assert_eq!(full, judged(&(records.clone(), names.clone())));
    assert_eq!(full.status, 0);
    names.push(b'x');
    let two = refused("refused 2 at 0 0\n");
    assert_eq!(room.list((records.clone(), names.clone())), two);
    names.pop();
    // one byte too long, and so by one byte no whole number of records
    records.push(0);
    assert_eq!(room.list((records.clone(), names.clone())), two);
    records.extend([0; RECORD_BYTES - 1]);
    assert_eq!(room.list((records.clone(), names.clone())), two);
    records.resize(1_000_000, 0);
    assert_eq!(room.list((records, names)), two);
}

/// A tree whose listing has this many bytes.
fn listed_in(bytes: usize) -> (Vec<u8>, Vec<u8>) {
    let leaves = |ids: Range<i32>| ids.map(|id| prim(id, &format!("{id}"))).collect::<Vec<Node>>();
    let mut tree = [vec![strukt(0, "s", leaves(200..900))], leaves(100..200)].concat();
    let missing = |tree: &[Node]| bytes - judged(&packed(tree)).written.len();
    // the struct's name is written with each of its leaves too, that of a leaf once
    let longer = missing(&tree) / 701;
    tree[0].name.extend(vec![b's'; longer]);
    let mut left = missing(&tree);
    for leaf in &mut tree[1..] {
        let longer = left.min(200);
        leaf.name.extend(vec![b'x'; longer]);
        left -= longer;
    }
    packed(&tree)
}

#[test]
fn a_listing_is_written_whole_around_each_end_of_the_buffer() {
    let Some(room) = Room::new("buffer") else { return };
    let buffer = 65_536;
    for bytes in [buffer - 1, buffer, buffer + 1, 2 * buffer - 1, 2 * buffer, 2 * buffer + 1] {
        let files = listed_in(bytes);
        let left = room.list(files.clone());
        assert_eq!(left.written.len(), bytes);
        assert!(left == judged(&files), "{bytes} bytes that differ");
    }
}

#[test]
fn a_listing_of_four_million_bytes_is_written_whole() {
    let Some(room) = Room::new("whole") else { return };
    let leaves = (0..1009).map(|id| prim(id, &format!("{id}"))).collect();
    let mut tree = strukt(-1, &"a".repeat(255), leaves);
    for level in 2..16 {
        tree = strukt(-level, &"a".repeat(255), vec![tree]);
    }
    let files = packed(&[tree]);
    let expected = judged(&files);
    assert!(expected.written.len() > 3_900_000);
    assert!(room.list(files) == expected, "3.9 MB that differ");
}

#[test]
fn a_file_that_cant_be_read_is_named_and_nothing_is_listed() {
    let Some(room) = Room::new("missing") else { return };
    let said = |said: &str| Left { status: 3, written: vec![], said: said.into() };
    assert_eq!(room.run(&[]), said("tree.rec: No such file or directory\n"));
    room.put("tree.rec", &p8().0);
    assert_eq!(room.run(&[]), said("tree.names: No such file or directory\n"));
    assert_eq!(room.run(&["tree.rec", "."]), said(".: Is a directory\n"));
    assert_eq!(room.run(&["tree.rec"]), said("usage: lister [RECORDS NAMES]\n"));
}

/// A script with these lines.
fn put_script(file: &Path, lines: &str) {
    fs::create_dir_all(file.parent().expect("a folder")).expect("made");
    fs::write(file, format!("#!/bin/sh\n{lines}\n")).expect("written");
    fs::set_permissions(file, Permissions::from_mode(0o755)).expect("it may be run");
}

#[test]
fn where_it_is_not_built_the_toolchain_is_asked_to_build_it() {
    // a checkout of the script alone, and toolchains that are none
    let checkout = env::temp_dir().join(format!("lister-unbuilt-{}", std::process::id()));
    let script = checkout.join("tools/lister");
    fs::create_dir_all(checkout.join("tools")).expect("made");
    fs::create_dir_all(checkout.join("crates/lister")).expect("made");
    fs::copy(root().join("tools/lister"), &script).expect("copied");
    let run = |toolchain: &str| {
        let path = format!("{}:/usr/bin:/bin", checkout.join(toolchain).display());
        let left = Command::new(&script).env("PATH", path).output().expect("it runs");
        let text = |bytes: Vec<u8>| String::from_utf8(bytes).expect("text");
        (left.status.code(), text(left.stdout), text(left.stderr))
    };
    let (status, written, said) = run("none");
    assert_eq!((status, written.as_str()), (Some(3), ""));
    assert!(said.contains("the toolchain (rt) is not there"), "{said}");
    put_script(&checkout.join("fails/rt"), "echo not proved; exit 1");
    let (status, written, said) = run("fails");
    assert_eq!((status, written.as_str()), (Some(3), ""));
    assert!(
        said.contains("not proved\ntools/lister: rt run in crates/lister did not build it\n"),
        "{said}"
    );
    put_script(
        &checkout.join("builds/rt"),
        "[ \"$*\" = run ] && mkdir out &&\n\
         printf '#!/bin/sh\\necho 0 1 - a\\n' >out/lister && chmod +x out/lister",
    );
    if cfg!(target_arch = "x86_64") {
        let (status, written, said) = run("builds");
        assert_eq!((status, written.as_str()), (Some(0), "0 1 - a\n"));
        assert!(said.contains("is not built yet"), "{said}");
        assert_eq!(run("none"), (Some(0), "0 1 - a\n".into(), String::new()));
    }
    fs::remove_dir_all(checkout).expect("removed");
}

#[test]
fn help_is_given_with_an_example_that_runs() {
    let Some(room) = Room::new("help") else { return };
    let help = room.run(&["--help"]);
    assert_eq!((help.status, help.said.as_str()), (0, ""));
    let help = String::from_utf8(help.written).expect("text");
    assert!(help.contains("Usage: tools/lister [RECORDS NAMES]\n"), "{help}");
    let (_, example) = help.split_once("Example:\n").expect("an example");
    let mut shell = Command::new("sh");
    let left = shell.args(["-ec", example]).current_dir(root()).output().expect("a shell");
    let names = "node\nnode.button\nnode.cost\nvisits\n";
    assert!(left.status.success() && left.stdout.starts_with(names.as_bytes()), "{example}");
}

#[test]
fn trees_and_noise_are_listed_as_the_text_says() {
    let Some(room) = Room::new("judged") else { return };
    let generator = Generator { seed: 31, sizes: Sizes::Usual };
    let mut random = Random::new(32);
    for n in 0..100 {
        let case = generator.case(n);
        let (mut records, mut names) = (case.records, case.pool);
        if random.chance(1, 4) && !records.is_empty() {
            let at = random.below(records.len());
            records[at] = random.below(256) as u8;
        }
        if random.chance(1, 8) {
            names.truncate(random.below(names.len() + 1));
        }
        let files = (records, names);
        assert_eq!(room.list(files.clone()), judged(&files), "case {n}");
    }
}
