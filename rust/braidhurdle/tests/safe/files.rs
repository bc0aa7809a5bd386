//! Trees as files: what is read, what is written, and what is left alone.

use std::fs;
use std::os::unix::fs::symlink;
use std::path::{Path, PathBuf};
use std::sync::atomic::{AtomicUsize, Ordering};

use braidhurdle::files::{FileFault, Over, Stored, Why};
use braidhurdle::{FieldId, Refusal, Request, Tree};

use crate::t::t;

/// A folder that goes with the test.
struct Folder(PathBuf);

impl Folder {
    fn new() -> Folder {
        static COUNT: AtomicUsize = AtomicUsize::new(0);
        let name = format!("{}-{}", std::process::id(), COUNT.fetch_add(1, Ordering::Relaxed));
        let folder = Path::new(env!("CARGO_TARGET_TMPDIR")).join(name);
        fs::create_dir_all(&folder).expect("a folder for the test");
        Folder(folder)
    }

    fn file(&self, name: &str) -> PathBuf {
        self.0.join(name)
    }

    fn put(&self, name: &str, bytes: impl AsRef<[u8]>) {
        fs::write(self.file(name), bytes).expect("written");
    }

    fn bytes(&self, name: &str) -> Vec<u8> {
        fs::read(self.file(name)).expect("a file")
    }

    /// The names of all that is in it, sorted.
    fn names(&self) -> Vec<String> {
        let entries = fs::read_dir(&self.0).expect("the folder is there");
        let name = |entry: fs::DirEntry| entry.file_name().into_string().expect("UTF-8");
        let mut names: Vec<String> = entries.map(|entry| name(entry.expect("an entry"))).collect();
        names.sort();
        names
    }
}

impl Drop for Folder {
    fn drop(&mut self) {
        let _ = fs::remove_dir_all(&self.0);
    }
}

fn stored(last_id: Option<i32>) -> Stored {
    Stored { tree: t(), last_id: last_id.map(FieldId) }
}

/// The name of the file that a fault speaks of, and why.
fn told<T: std::fmt::Debug>(answer: Result<T, FileFault>) -> (String, Why) {
    let FileFault { file, why } = answer.expect_err("a fault");
    (file.file_name().unwrap_or_default().to_str().expect("UTF-8").into(), why)
}

#[test]
fn what_is_written_is_read_again() {
    let folder = Folder::new();
    for last_id in [None, Some(10), Some(0), Some(-1), Some(i32::MIN), Some(i32::MAX)] {
        stored(last_id).write(folder.file("T"), Over::Files).expect("written");
        assert_eq!(Stored::read(folder.file("T")).expect("read"), stored(last_id));
    }
}

#[test]
fn a_tree_with_its_last_id_is_three_files_of_bare_bytes() {
    let folder = Folder::new();
    stored(Some(-7)).write(folder.file("a.b"), Over::Nothing).expect("written");
    assert_eq!(folder.names(), ["a.b.last", "a.b.names", "a.b.rec"]);
    assert_eq!(folder.bytes("a.b.rec"), t().records);
    assert_eq!(folder.bytes("a.b.names"), t().pool);
    assert_eq!(folder.bytes("a.b.last"), b"-7\n");
}

#[test]
fn an_update_is_stored_with_its_last_id() -> Result<(), Box<dyn std::error::Error>> {
    let folder = Folder::new();
    let answer = t().update(&Request::new(FieldId(10)).drop("parts.price")?)?;
    Stored::from(answer.clone()).write(folder.file("U"), Over::Nothing)?;
    let read = Stored::read(folder.file("U"))?;
    assert_eq!(read, Stored { tree: answer.tree, last_id: Some(FieldId(10)) });
    Ok(())
}

#[test]
fn a_missing_tree_is_told_by_its_file_and_a_missing_last_id_is_none() {
    let folder = Folder::new();
    let read = || Stored::read(folder.file("T"));
    assert!(matches!(told(read()), (file, Why::Missing) if file == "T.rec"));
    folder.put("T.rec", []);
    assert!(matches!(told(read()), (file, Why::Missing) if file == "T.names"));
    folder.put("T.names", []);
    assert_eq!(read().expect("read"), Stored::default());
}

#[test]
fn a_last_id_that_is_no_number_or_has_no_newline_is_told() {
    let folder = Folder::new();
    stored(None).write(folder.file("T"), Over::Nothing).expect("written");
    for text in
        ["", "\n", "10", "10\n\n", " 10\n", "10 \n", "1 0\n", "10\r\n", "x\n", "2147483648\n"]
    {
        folder.put("T.last", text);
        let fault = told(Stored::read(folder.file("T")));
        assert!(matches!(fault, (file, Why::NoLastId) if file == "T.last"), "{text:?}");
    }
    folder.put("T.last", b"1\xff\n");
    assert!(matches!(told(Stored::read(folder.file("T"))), (_, Why::NoLastId)));
}

#[test]
fn files_without_end_are_read_so_far_that_they_are_refused() {
    let folder = Folder::new();
    for (name, refused) in [("T.rec", (24_577, 0)), ("T.names", (0, 32_769))] {
        folder.put("T.rec", []);
        folder.put("T.names", []);
        fs::remove_file(folder.file(name)).expect("removed");
        symlink("/dev/zero", folder.file(name)).expect("a link");
        let Stored { tree, .. } = Stored::read(folder.file("T")).expect("read");
        assert_eq!((tree.records.len(), tree.pool.len()), refused);
        assert_eq!(tree.check(), Err(Refusal { number: 2, list: 0, place: 0 }));
        fs::remove_file(folder.file(name)).expect("removed");
    }
    stored(None).write(folder.file("Z"), Over::Nothing).expect("written");
    symlink("/dev/zero", folder.file("Z.last")).expect("a link");
    assert!(matches!(told(Stored::read(folder.file("Z"))), (_, Why::NoLastId)));
}

#[test]
fn nothing_is_written_over_unless_told() {
    for there in ["U.rec", "U.names", "U.last"] {
        for last_id in [None, Some(10)] {
            let folder = Folder::new();
            folder.put(there, "mine");
            let fault = told(stored(last_id).write(folder.file("U"), Over::Nothing));
            assert!(matches!(fault, (file, Why::AlreadyThere) if file == there), "{there}");
            assert_eq!((folder.names(), folder.bytes(there)), (vec![there.into()], b"mine".into()));
        }
    }
}

#[test]
fn files_are_written_over_where_told_and_no_old_last_id_stays() {
    let folder = Folder::new();
    stored(Some(10)).write(folder.file("U"), Over::Nothing).expect("written");
    let empty = Stored { tree: Tree::default(), last_id: Some(FieldId(3)) };
    empty.write(folder.file("U"), Over::Files).expect("written");
    assert_eq!(Stored::read(folder.file("U")).expect("read"), empty);
    stored(None).write(folder.file("U"), Over::Files).expect("written");
    assert_eq!(Stored::read(folder.file("U")).expect("read"), stored(None));
    assert_eq!(folder.names(), ["U.names", "U.rec"]);
}

#[test]
fn after_a_failure_what_was_there_stands_again() {
    // a folder can't be written over, whichever file's place it has
    for place in ["U.rec", "U.names", "U.last"] {
        let folder = Folder::new();
        stored(Some(10)).write(folder.file("U"), Over::Nothing).expect("written");
        let before: Vec<Vec<u8>> = folder.names().iter().map(|name| folder.bytes(name)).collect();
        fs::rename(folder.file(place), folder.file("kept")).expect("moved");
        fs::create_dir(folder.file(place)).expect("made");
        let new = Stored { tree: Tree::default(), last_id: Some(FieldId(3)) };
        let fault = told(new.write(folder.file("U"), Over::Files));
        assert!(matches!(fault, (file, Why::NoFile) if file == place), "{place}");
        fs::remove_dir(folder.file(place)).expect("the folder is still there");
        fs::rename(folder.file("kept"), folder.file(place)).expect("moved");
        let after: Vec<Vec<u8>> = folder.names().iter().map(|name| folder.bytes(name)).collect();
        assert_eq!(after, before, "{place}");
    }
}

#[test]
fn a_link_gives_way_to_a_file_and_what_it_led_to_stays() {
    let folder = Folder::new();
    folder.put("elsewhere", "theirs");
    symlink("elsewhere", folder.file("U.rec")).expect("a link");
    symlink("nowhere", folder.file("U.names")).expect("a link");
    let fault = told(stored(None).write(folder.file("U"), Over::Nothing));
    assert!(matches!(fault, (file, Why::AlreadyThere) if file == "U.rec"));
    stored(None).write(folder.file("U"), Over::Files).expect("written");
    assert_eq!(folder.bytes("elsewhere"), b"theirs");
    assert!(folder.file("U.rec").symlink_metadata().expect("there").is_file());
    assert_eq!(folder.names(), ["U.names", "U.rec", "elsewhere"]);
}

#[test]
fn a_stem_without_a_name_is_told_and_nothing_is_written() {
    let folder = Folder::new();
    fs::create_dir(folder.file("D")).expect("made");
    for stem in ["D/", "D/.", "D/..", ""] {
        let fault = stored(Some(10)).write(folder.file(stem), Over::Files).expect_err("a fault");
        assert!(matches!(fault.why, Why::NoName), "{stem}: {fault}");
    }
    assert_eq!(folder.names(), ["D"]);
    assert_eq!(fs::read_dir(folder.file("D")).expect("a folder").count(), 0);
}

#[test]
fn a_fault_names_the_file_and_says_why() {
    let folder = Folder::new();
    let said = |why: Why| FileFault { file: "a/U.rec".into(), why }.to_string();
    assert_eq!(said(Why::Missing), "a/U.rec: not found");
    assert_eq!(said(Why::AlreadyThere), "a/U.rec: already there; nothing is written");
    let words = "there is something else than a file; nothing is written";
    assert_eq!(said(Why::NoFile), format!("a/U.rec: {words}"));
    assert_eq!(said(Why::NoLastId), "a/U.rec: no last id, which is a number and a newline");
    assert_eq!(said(Why::NoName), "a/U.rec: a stem ends with a name; nothing is written");
    let fault = stored(None).write(folder.file("no/U"), Over::Files).expect_err("a fault");
    let why = std::error::Error::source(&fault).expect("the system's own reason").to_string();
    assert_eq!(fault.to_string(), format!("{}: {why}", folder.file("no/U.rec").display()));
}
