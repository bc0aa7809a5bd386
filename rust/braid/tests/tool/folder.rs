//! A folder to run the tool in, and what it said.

use std::io::Write;
use std::os::unix::fs::symlink;
use std::path::{Path, PathBuf};
use std::process::{Command, Output, Stdio};
use std::sync::atomic::{AtomicUsize, Ordering};
use std::{env, fs};

/// The tool.
pub const BRAID: &str = env!("CARGO_BIN_EXE_braid");

/// A file of the checkout.
pub fn checkout(name: &str) -> PathBuf {
    Path::new(env!("CARGO_MANIFEST_DIR")).join("../..").join(name)
}

/// What the tool said, and its status.
#[derive(Debug, PartialEq)]
pub struct Said {
    pub status: i32,
    pub out: Vec<u8>,
    pub err: String,
}

impl Said {
    fn of(output: Output) -> Said {
        Said {
            status: output.status.code().expect("no signal ends it"),
            out: output.stdout,
            err: String::from_utf8(output.stderr).expect("words are UTF-8"),
        }
    }

    /// What it printed, where the answer was given without a complaint.
    #[track_caller]
    pub fn answer(self) -> String {
        assert_eq!((self.status, self.err.as_str()), (0, ""));
        String::from_utf8(self.out).expect("UTF-8")
    }

    /// The lines of a refusal: what was refused, the cure, and where more is told.
    #[track_caller]
    pub fn refusal(self) -> Vec<String> {
        let lines: Vec<String> = self.complaint(2).lines().map(String::from).collect();
        let words: Vec<&str> = lines[0].split(' ').collect();
        assert_eq!(words[0], "refused", "{}", lines[0]);
        assert!(lines[1].starts_with("Cure: "), "{}", lines[1]);
        let more = format!("`braid explain {}` tells more.", words[1]);
        assert_eq!(lines.last(), Some(&more));
        lines
    }

    /// Its complaint, where it ended with this status and printed nothing else.
    #[track_caller]
    pub fn complaint(self, status: i32) -> String {
        assert_eq!((self.status, self.out.as_slice()), (status, &b""[..]), "{}", self.err);
        self.err
    }
}

/// A folder that goes with the test.
pub struct Folder(PathBuf);

impl Folder {
    /// An empty folder.
    pub fn new() -> Folder {
        static COUNT: AtomicUsize = AtomicUsize::new(0);
        let count = COUNT.fetch_add(1, Ordering::Relaxed);
        let name = format!("{}-{count}", std::process::id());
        let folder = Path::new(env!("CARGO_TARGET_TMPDIR")).join(name);
        fs::create_dir_all(&folder).expect("a folder for the test");
        Folder(folder)
    }

    /// A folder with T in it, and T's last id.
    pub fn with_t() -> Folder {
        let folder = Folder::new();
        let (records, names) = cases::packed(&cases::the_tree());
        folder.put("T", &records, &names);
        folder.put_last("T", "10\n");
        folder
    }

    /// A folder with a tree K in it that has columns which identify, as T has none, and its last
    /// id.
    pub fn with_k() -> Folder {
        let folder = Folder::new();
        folder.draw(
            "K",
            "1 node: struct required\n  2 serial: string required\n  3 cost: long\n\
             4 site: int required default\n",
        );
        folder
    }

    /// A folder with a tree W in it that has columns of many types and roles, and its last id.
    pub fn with_w() -> Folder {
        let folder = Folder::new();
        folder.draw(
            "W",
            "1 price: int\n2 heat: float required\n3 day: date\n4 sum: decimal(9,2)\n\
             5 note: string\n6 own: primitive 77\n7 s: struct\n  8 \"n:o\": int\n9 l: list\n  \
             10 element: int required\n11 m: map\n  12 key: int required\n  \
             13 value: decimal(37,0)\n14 full: decimal(38,38)\n",
        );
        folder
    }

    /// Makes a tree of a picture.
    pub fn draw(&self, stem: &str, picture: &str) {
        self.piped(&format!("make - --out {stem}"), picture.as_bytes()).answer();
    }

    /// A folder with the examples of the checkout in it, as people type them.
    pub fn with_examples() -> Folder {
        let folder = Folder::new();
        symlink(checkout("examples"), folder.file("examples")).expect("a link");
        folder
    }

    /// A file in it.
    pub fn file(&self, name: &str) -> PathBuf {
        self.0.join(name)
    }

    /// Writes a pair.
    pub fn put(&self, stem: &str, records: &[u8], names: &[u8]) {
        fs::write(self.file(&format!("{stem}.rec")), records).expect("written");
        fs::write(self.file(&format!("{stem}.names")), names).expect("written");
    }

    /// Writes the file of a last id.
    pub fn put_last(&self, stem: &str, text: &str) {
        fs::write(self.file(&format!("{stem}.last")), text).expect("written");
    }

    /// Reads the file of a last id; none where there is none.
    pub fn last(&self, stem: &str) -> Option<String> {
        fs::read_to_string(self.file(&format!("{stem}.last"))).ok()
    }

    /// Reads a pair.
    pub fn pair(&self, stem: &str) -> (Vec<u8>, Vec<u8>) {
        let read = |ending: &str| fs::read(self.file(&format!("{stem}.{ending}")));
        (read("rec").expect("records"), read("names").expect("names"))
    }

    /// The names of its files, sorted.
    pub fn files(&self) -> Vec<String> {
        let entries = fs::read_dir(&self.0).expect("the folder is there");
        let name = |entry: std::io::Result<fs::DirEntry>| entry.expect("an entry").file_name();
        let mut files: Vec<String> =
            entries.map(|entry| name(entry).into_string().expect("UTF-8")).collect();
        files.sort();
        files
    }

    /// The tool in this folder, with these arguments.
    pub fn command(&self, arguments: &[&str]) -> Command {
        let mut command = Command::new(BRAID);
        command.current_dir(&self.0).args(arguments);
        command
    }

    /// Runs the tool; the arguments are parted by spaces.
    pub fn braid(&self, arguments: &str) -> Said {
        self.run(&arguments.split_whitespace().collect::<Vec<_>>())
    }

    /// Runs the tool.
    pub fn run(&self, arguments: &[&str]) -> Said {
        Said::of(self.command(arguments).output().expect("the tool runs"))
    }

    /// Runs lines of a shell in this folder, with the tool as `braid`.
    pub fn shell(&self, lines: &str) -> Said {
        let tools = Path::new(BRAID).parent().expect("it is in a folder");
        let path = format!("{}:{}", tools.display(), env::var("PATH").expect("there is one"));
        let mut shell = Command::new("sh");
        shell.args(["-c", lines]).current_dir(&self.0).env("PATH", &path);
        Said::of(shell.output().expect("a shell"))
    }

    /// Runs the tool with this on its standard input.
    pub fn piped(&self, arguments: &str, input: &[u8]) -> Said {
        let arguments: Vec<&str> = arguments.split_whitespace().collect();
        let mut command = self.command(&arguments);
        command.stdin(Stdio::piped()).stdout(Stdio::piped()).stderr(Stdio::piped());
        let mut tool = command.spawn().expect("the tool runs");
        tool.stdin.take().expect("a pipe").write_all(input).expect("it reads");
        Said::of(tool.wait_with_output().expect("it ends"))
    }
}

impl Drop for Folder {
    fn drop(&mut self) {
        let _ = fs::remove_dir_all(&self.0);
    }
}
