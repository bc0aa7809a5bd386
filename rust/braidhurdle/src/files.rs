//! A tree with its last id, as files with a common stem: `STEM.rec` has the records, `STEM.names`
//! the pool, and `STEM.last` the last id that was handed out. Needs the feature `std`.
//!
//! ```
//! use braidhurdle::files::{Over, Stored};
//! use braidhurdle::{Field, FieldId, Request, Tree};
//!
//! # let folder = std::env::temp_dir().join(format!("braidhurdle-{}", std::process::id()));
//! # std::fs::create_dir_all(&folder)?;
//! # let stem = folder.join("node");
//! let tree = Tree::build(&[Field::primitive("button", 2).id(FieldId(1))])?;
//! Stored { tree, last_id: Some(FieldId(1)) }.write(&stem, Over::Nothing)?;
//!
//! let Stored { tree, last_id } = Stored::read(&stem)?;
//! let last_id = last_id.ok_or("no last id is stored")?;
//! let request = Request::new(last_id).add(Field::primitive("floor", 2))?;
//! Stored::from(tree.update(&request)?).write(&stem, Over::Files)?;
//! assert_eq!(Stored::read(&stem)?.last_id, Some(FieldId(2)));
//! # std::fs::remove_dir_all(&folder)?;
//! # Ok::<(), Box<dyn std::error::Error>>(())
//! ```

use alloc::vec::Vec;
use alloc::{format, vec};
use core::{error, fmt};
use std::ffi::OsString;
use std::fs::{self, File};
use std::io::{self, ErrorKind, Read, Write};
use std::path::{Path, PathBuf};
use std::process;

use crate::layout::{NAME_ROOM, RECORD_ROOM};
use crate::{FieldId, Tree, Updated};

/// The endings, in the order in which the files are put in place. The last id comes behind the
/// tree, so at no moment does it stand beside another one.
pub const ENDINGS: [&str; 3] = ["rec", "names", "last"];

/// The length of the longest last id, with its newline.
const MOST_LAST: usize = "-2147483648\n".len();

/// What a gateway stores: a tree, and the last id that was handed out for it.
#[derive(Clone, Debug, Default, PartialEq, Eq, Hash)]
pub struct Stored {
    /// The tree. Any bytes may stand in it, as in any [`Tree`].
    pub tree: Tree,
    /// The last id; none where it is not kept in a file.
    pub last_id: Option<FieldId>,
}

/// What may be written over.
#[derive(Clone, Copy, Debug, Default, PartialEq, Eq, Hash)]
pub enum Over {
    /// Nothing: what is there stays, and nothing is written.
    #[default]
    Nothing,
    /// The files of the stem, all three of them. A symbolic link gives way to a file, and what it
    /// leads to stays as it is. A folder is never written over.
    Files,
}

/// Which file could not be read or written, and why.
#[derive(Debug)]
pub struct FileFault {
    /// The file, or the stem where that is the fault.
    pub file: PathBuf,
    /// What is the matter with it.
    pub why: Why,
}

/// What is the matter with a file.
#[derive(Debug)]
#[non_exhaustive]
pub enum Why {
    /// There is none.
    Missing,
    /// Something is there, and nothing was to be written over.
    AlreadyThere,
    /// What is there is no file, so it is not written over.
    NoFile,
    /// A last id is one signed decimal number and a newline. This is something else.
    NoLastId,
    /// A stem ends with a name, and this one doesn't: `DIR/`, or `DIR/..`.
    NoName,
    /// The system's own reason.
    System(io::Error),
}

impl Tree {
    /// The tree of a stem, whatever its last id. Of a file that is longer than a tree's may be, one
    /// byte more than that is read, so that whatever is asked of the tree is refused with 2.
    ///
    /// # Errors
    ///
    /// The file that is missing or can't be read.
    pub fn read(stem: impl AsRef<Path>) -> Result<Tree, FileFault> {
        let [records, names, _] = ENDINGS.map(|ending| with_ending(stem.as_ref(), ending));
        Ok(Tree::new(front(&records, RECORD_ROOM)?, front(&names, NAME_ROOM)?))
    }
}

impl Stored {
    /// What the files of a stem hold: the tree, as [`Tree::read`] reads it, and its last id.
    ///
    /// # Errors
    ///
    /// The file that is missing or can't be read; `STEM.last` if it holds no last id. A missing
    /// `STEM.last` is none.
    pub fn read(stem: impl AsRef<Path>) -> Result<Stored, FileFault> {
        let tree = Tree::read(&stem)?;
        let last = with_ending(stem.as_ref(), ENDINGS[2]);
        let last_id = match front(&last, MOST_LAST) {
            Ok(bytes) => Some(last_id(&bytes).ok_or(FileFault { file: last, why: Why::NoLastId })?),
            Err(FileFault { why: Why::Missing, .. }) => None,
            Err(fault) => return Err(fault),
        };
        Ok(Stored { tree, last_id })
    }

    /// Writes all files of a stem, or none. Without a last id no `STEM.last` is there afterwards,
    /// since an old one would stand beside a tree that it says nothing of.
    ///
    /// Each file is first written whole beside its place. Old files are moved aside, and the new
    /// ones put in place, the last id behind the tree. So at no moment do old and new files stand
    /// together; after a failure the old ones stand again. Where the process ends in between, the
    /// old ones stand beside, as `.STEM.rec.PID.old` and so on.
    ///
    /// # Errors
    ///
    /// The file that is in the way or can't be written. What was there is then as it was.
    pub fn write(&self, stem: impl AsRef<Path>, over: Over) -> Result<(), FileFault> {
        let stem = stem.as_ref();
        if !has_name(stem) {
            return Err(FileFault { file: stem.into(), why: Why::NoName });
        }
        let last = self.last_id.map(|id| format!("{id}\n").into_bytes());
        let bytes = [Some(&self.tree.records), Some(&self.tree.pool), last.as_ref()];
        let places = ENDINGS.map(|ending| Place::new(with_ending(stem, ending)));
        let mut steps = vec![];
        let put = put(&places, &bytes, over, &mut steps);
        match put {
            // an old file that stays does no harm
            Ok(()) => places.iter().for_each(|place| drop(fs::remove_file(&place.old))),
            Err(_) => steps.iter().rev().for_each(Step::undo),
        }
        put
    }
}

impl From<Updated> for Stored {
    fn from(Updated { tree, last_id, .. }: Updated) -> Stored {
        Stored { tree, last_id: Some(last_id) }
    }
}

impl fmt::Display for FileFault {
    fn fmt(&self, f: &mut fmt::Formatter<'_>) -> fmt::Result {
        write!(f, "{}: {}", self.file.display(), self.why)
    }
}

impl fmt::Display for Why {
    fn fmt(&self, f: &mut fmt::Formatter<'_>) -> fmt::Result {
        match self {
            Why::Missing => f.write_str("not found"),
            Why::AlreadyThere => f.write_str("already there; nothing is written"),
            Why::NoFile => f.write_str("there is something else than a file; nothing is written"),
            Why::NoLastId => f.write_str("no last id, which is a number and a newline"),
            Why::NoName => f.write_str("a stem ends with a name; nothing is written"),
            Why::System(why) => why.fmt(f),
        }
    }
}

impl error::Error for FileFault {
    fn source(&self) -> Option<&(dyn error::Error + 'static)> {
        match &self.why {
            Why::System(why) => Some(why),
            _ => None,
        }
    }
}

/// A file to be written, and two names beside it for the time of writing.
struct Place {
    file: PathBuf,
    new: PathBuf,
    old: PathBuf,
}

/// What was done to a folder, to be undone after a failure.
enum Step<'a> {
    Made(&'a Path),
    Moved(&'a Place),
}

impl Place {
    fn new(file: PathBuf) -> Place {
        let beside = |ending: &str| {
            let mut name = OsString::from(".");
            name.push(file.file_name().unwrap_or_default());
            name.push(format!(".{}.{ending}", process::id()));
            file.with_file_name(name)
        };
        Place { new: beside("new"), old: beside("old"), file }
    }

    /// What is in the way, if something is.
    fn taken(&self, over: Over) -> Result<(), FileFault> {
        let why = match self.file.symlink_metadata() {
            Err(_) => return Ok(()),
            Ok(_) if over == Over::Nothing => Why::AlreadyThere,
            Ok(_) => Why::NoFile,
        };
        Err(FileFault { file: self.file.clone(), why })
    }
}

impl Step<'_> {
    fn undo(&self) {
        // there is nothing better to do where this fails too
        let _ = match self {
            Step::Made(file) => fs::remove_file(file),
            Step::Moved(place) => fs::rename(&place.old, &place.file),
        };
    }
}

/// Puts each file in its place; a place without bytes is left empty.
fn put<'a>(
    places: &'a [Place; 3],
    bytes: &[Option<&Vec<u8>>; 3],
    over: Over,
    steps: &mut Vec<Step<'a>>,
) -> Result<(), FileFault> {
    let wanted = || places.iter().zip(bytes).filter_map(|(place, bytes)| Some((place, (*bytes)?)));
    for (place, bytes) in wanted() {
        let mut new = File::create_new(&place.new).map_err(of_file(&place.file))?;
        steps.push(Step::Made(&place.new));
        new.write_all(bytes).and_then(|()| new.sync_all()).map_err(of_file(&place.file))?;
    }
    let movable = |place: &&Place| over == Over::Files && may_give_way(&place.file);
    for place in places.iter().rev().filter(movable) {
        fs::rename(&place.file, &place.old).map_err(of_file(&place.file))?;
        steps.push(Step::Moved(place));
    }
    places.iter().try_for_each(|place| place.taken(over))?;
    for (place, _) in wanted() {
        // a rename alone would replace a file that has come meanwhile
        File::create_new(&place.file).map_err(of_file(&place.file))?;
        steps.push(Step::Made(&place.file));
        fs::rename(&place.new, &place.file).map_err(of_file(&place.file))?;
    }
    Ok(())
}

/// Is this a file or a symbolic link, which gives way where files may be written over?
fn may_give_way(file: &Path) -> bool {
    file.symlink_metadata().is_ok_and(|data| data.is_file() || data.is_symlink())
}

/// The first bytes of a file, up to one more than `most`.
fn front(file: &Path, most: usize) -> Result<Vec<u8>, FileFault> {
    let mut bytes = vec![];
    let read = File::open(file).and_then(|open| open.take(most as u64 + 1).read_to_end(&mut bytes));
    match read {
        Ok(_) => Ok(bytes),
        Err(why) if why.kind() == ErrorKind::NotFound => {
            Err(FileFault { file: file.into(), why: Why::Missing })
        }
        Err(why) => Err(of_file(file)(why)),
    }
}

/// The last id of a file's bytes. The newline is its end: without it digits may be missing.
fn last_id(bytes: &[u8]) -> Option<FieldId> {
    core::str::from_utf8(bytes).ok()?.strip_suffix('\n')?.parse().ok()
}

/// Does a stem end with a name, so that its files do too?
fn has_name(stem: &Path) -> bool {
    let bytes = stem.as_os_str().as_encoded_bytes();
    let name = bytes.rsplit(|byte| *byte == b'/').next().unwrap_or_default();
    !matches!(name, b"" | b"." | b"..")
}

/// The file of a stem. The stem may have dots of its own.
#[must_use]
pub fn with_ending(stem: &Path, ending: &str) -> PathBuf {
    let mut file = OsString::from(stem);
    file.push(".");
    file.push(ending);
    file.into()
}

fn of_file(file: &Path) -> impl Fn(io::Error) -> FileFault + '_ {
    move |why| FileFault { file: file.into(), why: Why::System(why) }
}
