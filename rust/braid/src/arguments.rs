//! The command line: what may be said, and what was said.

use std::ffi::OsString;
use std::path::PathBuf;

use braidhurdle::{Field, FieldId, RefusalKind, Version};
use clap::builder::{OsStringValueParser, TypedValueParser};
use clap::error::ErrorKind;
use clap::{Arg, ArgAction, ArgMatches, Command, value_parser};

use crate::types;

const ABOUT: &str = "Schema trees kept as files: STEM.rec holds the records, STEM.names the names, \
                     STEM.last the last id";

const STATUS: &str = "\
Exit status: 0 the answer was given; 1 a look-up found nothing, or not all ids; 2 refused
by the library, with number, list and place; 3 wrong arguments, files or pictures; 4
standard output is closed, or can't be written.

Every subcommand has an example in its own --help. docs/FORMAT.md has the layouts.";

const NO_NAME: &str = "no = before a new name";

const FORCE: &str = "Replaces files and links that are there, never a folder";
const FORCE_LAST: &str =
    "Replaces files and links that are there, never a folder; takes a --last-id that is too low";

/// A tree to be written.
pub struct Out {
    pub stem: PathBuf,
    pub force: bool,
    pub quiet: bool,
}

/// A column, by its id or by its full or short name.
#[derive(Clone)]
pub enum Named {
    Id(FieldId),
    Path(Vec<u8>),
}

/// Something to add, with its parent, by its path unless said otherwise; none is the root.
pub struct Addition<T, U = Vec<u8>> {
    pub what: T,
    pub under: Option<U>,
}

/// What is added: a column, or each root of the tree of a stem.
pub enum Added {
    Column(Field),
    Tree(PathBuf),
}

/// What is to become of a column that stays.
pub enum Edit {
    /// A path and a new name with a `=` between them. Both may have more of them, so the tree tells
    /// which it is.
    Rename(Vec<u8>),
    RenameId(FieldId, Vec<u8>),
    Relax(Named),
    /// A column, and the code of its new type.
    Widen(Named, u32),
}

/// What is asked for.
pub enum Ask {
    Explain(Option<u32>),
    Make { picture: PathBuf, last_id: Option<FieldId>, out: Out },
    Of(PathBuf, Of),
}

/// What is asked of the tree of a stem.
pub enum Of {
    List {
        plain: bool,
    },
    Check {
        identifiers: Vec<Named>,
    },
    Find(Vec<u8>),
    /// By a name of which case is forgotten.
    FindFolded(Vec<u8>),
    FindIds(Vec<FieldId>),
    Parent(FieldId),
    Prune {
        keep: Vec<Named>,
        full: bool,
        out: Out,
    },
    Renumber {
        from: FieldId,
        identifiers: Vec<Named>,
        out: Out,
    },
    Update {
        last_id: Option<FieldId>,
        version: u32,
        identifiers: Vec<Named>,
        drop: Vec<Named>,
        add: Vec<Addition<Added, Named>>,
        edit: Vec<Edit>,
        out: Out,
    },
}

impl Ask {
    /// Is nothing to be printed?
    pub fn quiet(&self) -> bool {
        match self {
            Ask::Make { out, .. }
            | Ask::Of(
                _,
                Of::Prune { out, .. } | Of::Renumber { out, .. } | Of::Update { out, .. },
            ) => out.quiet,
            _ => false,
        }
    }
}

/// The arguments of this process, or what is wrong with them (or the help that was asked for).
pub fn given() -> Result<Ask, clap::Error> {
    let mut command = command();
    let matches = command.try_get_matches_from_mut(std::env::args_os())?;
    let (name, of) = matches.subcommand().expect("clap asks for one");
    let asked = match name {
        "list" => Of::List { plain: of.get_flag("plain") },
        "check" => Of::Check { identifiers: named(of, "identifiers") },
        "find" => match of.get_many("id") {
            Some(ids) => Of::FindIds(ids.copied().collect()),
            None if of.get_flag("ignore-case") => Of::FindFolded(one(of, "NAME")),
            None => Of::Find(one(of, "NAME")),
        },
        "parent" => Of::Parent(one(of, "ID")),
        "prune" => Of::Prune { keep: named(of, "keep"), full: of.get_flag("full"), out: out(of) },
        "renumber" => Of::Renumber {
            from: one(of, "from"),
            identifiers: named(of, "identifiers"),
            out: out(of),
        },
        "update" => Of::Update {
            last_id: of.get_one("last-id").copied(),
            version: of.get_one("format-version").copied().unwrap_or(Version::default().number()),
            identifiers: named(of, "identifiers"),
            drop: drops(of),
            add: additions(of).map_err(|why| {
                let update = command.find_subcommand_mut("update").expect("it was given");
                update.error(ErrorKind::ArgumentConflict, why)
            })?,
            edit: edits(of),
            out: out(of),
        },
        "explain" => return Ok(Ask::Explain(of.get_one("N").copied())),
        _ => {
            let (picture, last_id) = (one(of, "PICTURE"), of.get_one("last-id").copied());
            return Ok(Ask::Make { picture, last_id, out: out(of) });
        }
    };
    Ok(Ask::Of(one(of, "IN"), asked))
}

fn command() -> Command {
    Command::new("braid")
        .version(env!("CARGO_PKG_VERSION"))
        .about(ABOUT)
        .after_help(STATUS)
        .subcommand_required(true)
        .arg_required_else_help(true)
        .disable_help_subcommand(true)
        .subcommands([
            list(),
            check(),
            find(),
            parent(),
            prune(),
            renumber(),
            update(),
            make(),
            explain(),
        ])
}

fn list() -> Command {
    Command::new("list")
        .about("Prints a tree as an indented picture, or as the lister's lines")
        .arg(path("IN", "The tree to print: IN.rec and IN.names"))
        .arg(flag("plain", "Prints slot, id, parent id or -, and full name"))
        .after_help(
            "A line of the picture: id, name, type or kind; then what is set of required, default\n\
             and attribute. A type code that is no type's is shown as a number. What a terminal\n\
             would obey or can't show is escaped; with --plain names stand as they are, except on\n\
             a terminal. docs/FORMAT.md has the rest.\n\n\
             Example:\n  braid list examples/T\n  braid list examples/T --plain | cut -d' ' -f4-",
        )
}

fn check() -> Command {
    Command::new("check")
        .about("Says whether the library accepts a tree, its size and its last id")
        .arg(path("IN", "The tree to check: IN.rec, IN.names and IN.last"))
        .arg(some(many("identifiers", "ID|PATH,..", "Identifiers, to be checked with the tree")))
        .after_help(
            "An identifier is a required primitive, no float and no double, with nothing above it\n\
             but required structs; else it is refused (9), here, by renumber and by update, and\n\
             the reasons are told. Prints id, slot and full name of each.\n\n\
             A last id below an id of the tree is a fault of the files: status 3.\n\n\
             Example:\n  braid check examples/T\n  \
             braid check examples/node-4 --identifiers node.serial",
        )
}

fn find() -> Command {
    Command::new("find")
        .about("Finds a column by its full or short name, or columns by their ids")
        .arg(path("IN", "The tree to look in"))
        .arg(
            bytes(Arg::new("NAME"))
                .help("A full name, or else a short one")
                .required_unless_present("id"),
        )
        .arg(
            flag("ignore-case", "Forgets case: A to Z equal a to z")
                .short('i')
                .conflicts_with("id"),
        )
        .arg(ids(many("id", "ID,..", "Finds the columns of these ids")).conflicts_with("NAME"))
        .after_help(
            "Prints id, slot and full name. Status 1 where nothing is found. A name that begins\n\
             with - stands after --.\n\n\
             Of several ids each has a line, in their order. One that no column has is told on\n\
             standard error; the others are printed all the same, and the status is 1.\n\n\
             With -i these 26 letters fold and no others: Ä is not ä. Where two columns match,\n\
             both by their full names or both by their short ones, it is refused (21).\n\n\
             Example:\n  braid find examples/T visits.day\n  \
             braid find examples/T -i Node.Cost\n  braid find examples/T --id 7\n  \
             braid find examples/T --id 3,7,10",
        )
}

fn parent() -> Command {
    Command::new("parent")
        .about("Finds the column above that of an id")
        .arg(path("IN", "The tree to look in"))
        .arg(an_id(Arg::new("ID")).help("The id of the column below").required(true))
        .after_help(
            "Prints id, slot and full name. Status 1 for a root, and where no column has the\n\
             id.\n\n\
             Example:\n  braid parent examples/T 7",
        )
}

fn prune() -> Command {
    Command::new("prune")
        .about("Keeps the chosen columns, with what stands above them")
        .arg(path("IN", "The tree to prune"))
        .arg(some(many("keep", "ID|PATH,..", "The chosen columns, by ids or names")).required(true))
        .arg(flag("full", "Keeps a chosen column with all that is inside it"))
        .args(out_arguments(FORCE))
        .after_help(
            "In --keep a number is an id and all else a full or short name; a column whose name\n\
             is a number, or has a comma, is chosen by its id. --keep '' keeps nothing. An id\n\
             that the tree has not is told and ignored; a name that finds nothing ends with\n\
             status 1. A chosen list or map is refused (20) without --full: choose columns inside\n\
             it. Prints how many records were kept. A pruned tree is for reading, so no OUT.last\n\
             is written.\n\n\
             Example:\n  braid prune examples/T --keep 5,visits.day --out report\n  \
             braid prune examples/T --keep 1 --keep 3 --full --out whole",
        )
}

fn renumber() -> Command {
    Command::new("renumber")
        .about("Numbers every column anew, level by level")
        .arg(path("IN", "The tree to renumber"))
        .arg(an_id(option("from", "ID", "The first number")).required(true))
        .arg(some(many("identifiers", "ID|PATH,..", "Identifiers, to be mapped in this order")))
        .args(out_arguments(FORCE))
        .after_help(
            "Prints the last id that was given, and the identifiers' new ids. The old ids mean\n\
             nothing any more, so the last id begins anew too: OUT.last has the one printed.\n\n\
             Example:\n  \
             braid renumber examples/node-4 --from 100 --identifiers node.serial --out fresh",
        )
}

fn update() -> Command {
    Command::new("update")
        .about("Drops, adds, renames, relaxes and widens columns")
        .arg(path("IN", "The tree to update: IN.rec, IN.names and IN.last"))
        .arg(an_id(option("last-id", "ID", "The last id consumed so far, else that of IN.last")))
        .arg(
            option(
                "format-version",
                "N",
                "The format version by whose steps types are widened, else 2",
            )
            .value_parser(value_parser!(u32)),
        )
        .arg(some(many("identifiers", "ID|PATH,..", "Identifiers, which no drop may find")))
        .arg(bytes(many("drop", "PATH", "Drops the column of this name, with all inside it")))
        .arg(ids(many("drop-id", "ID,..", "Drops the columns of these ids, with all inside them")))
        .arg(
            many("add", "NAME:TYPE", "Adds an optional primitive of this type")
                .value_parser(OsStringValueParser::new().try_map(name_and_type)),
        )
        .arg(
            many("add-tree", "IN", "Adds each root of this tree; its ids are ignored")
                .value_parser(value_parser!(PathBuf)),
        )
        .arg(bytes(many("under", "PATH", "The parent of the addition before it; else the root")))
        .arg(an_id(many("under-id", "ID", "The same by the parent's id")))
        .arg(mark("required", "Makes the --add before it required"))
        .arg(mark("default", "Gives the --add before it an initial default"))
        .arg(
            many("attribute", "N", "The attribute number of the --add before it")
                .value_parser(value_parser!(u32)),
        )
        .arg(
            many("rename", "PATH=NAME", "Gives the column of this path a new name of its own")
                .value_parser(OsStringValueParser::new().try_map(path_and_name)),
        )
        .arg(
            many("rename-id", "ID=NAME", "The same by the column's id")
                .value_parser(OsStringValueParser::new().try_map(id_and_name))
                .allow_hyphen_values(true),
        )
        .arg(bytes(many("relax", "PATH", "Makes the column of this path optional")))
        .arg(ids(many("relax-id", "ID,..", "Makes the columns of these ids optional")))
        .arg(
            many("widen", "PATH:TYPE", "Gives the column of this path a wider type")
                .value_parser(OsStringValueParser::new().try_map(name_and_type)),
        )
        .arg(
            many("widen-id", "ID:TYPE", "The same by the column's id")
                .value_parser(OsStringValueParser::new().try_map(id_and_type))
                .allow_hyphen_values(true),
        )
        .args(out_arguments(FORCE_LAST))
        .after_help(
            "The order counts: --under belongs to the --add or --add-tree before it; --required,\n\
             --default and --attribute to the --add before them. Paths are full or short names,\n\
             looked up in the tree as it was; a path may be a number, so ids have options of\n\
             their own. The last id is not the largest id present: a dropped id never returns.\n\
             A --last-id below an id of the tree or below IN.last is not taken without --force.\n\
             Prints what became of each column, the new last id, which OUT.last keeps, and how\n\
             many records the rebuild visited, with which its time grows: those of IN, without\n\
             what stands inside a dropped column, and those added.\n\n\
             Renamed, relaxed and widened are columns that were there and stay, after all\n\
             additions. A column keeps its id, and gets one new name at most: not its path, and\n\
             without a dot. In PATH=NAME both may have a = of their own: PATH is what names a\n\
             column of the tree, and where two do, nothing is done; say it by --rename-id.\n\n\
             TYPE is a name, as list shows it, or a code; it stands behind the last colon, so\n\
             what is before it may have colons. A type is widened once at most, from int to long,\n\
             from float to double, or to a decimal of higher precision with the same scale; in\n\
             format version 3 also from date to timestamp or to timestamp_ns.\n\n\
             Example:\n  braid update examples/T --drop node.cost --drop-id 7 \\\n    \
             --add cost:long --under node --add floor:int --out U\n  \
             braid update examples/node-4 --rename faults=failures \\\n    \
             --rename-id 6=storey --relax node.battery \\\n    \
             --widen parts.price:long --out node-5\n  \
             braid update examples/node-4 --format-version 3 \\\n    \
             --widen visits.day:timestamp --out node-6",
        )
}

fn make() -> Command {
    Command::new("make")
        .about("Makes a tree from a picture, as list prints it")
        .arg(path("PICTURE", "The picture's file, or - for standard input"))
        .arg(an_id(option("last-id", "ID", "The last id, else the largest id of the picture")))
        .args(out_arguments(FORCE_LAST))
        .after_help(
            "A picture has a line for each column, two spaces deeper for each level:\n\n  \
             1 visits: list\n    \
             2 element: struct\n      \
             3 day: date required\n\n\
             Behind the colon stands a type (int, decimal(9,2)), primitive with a type code,\n\
             struct, list or map. With it stand, in any order, what is set of required, default\n\
             and attribute N. Blank lines and lines that begin with # are skipped. docs/FORMAT.md\n\
             has the rest, names in quotes among it.\n\n\
             A picture has no last id: say it by --last-id, where an id above the largest of the\n\
             picture was consumed. Prints the last id, which OUT.last keeps.\n\n\
             Example:\n  braid make examples/T.picture --out T\n  \
             braid list T | sed 's/cost/price/' | braid make - --last-id 10 --out U",
        )
}

fn explain() -> Command {
    let number = value_parser!(u32).try_map(|number| {
        RefusalKind::from_number(number).map(|_| number).ok_or("no refusal has this number")
    });
    Command::new("explain")
        .about("Tells of a refusal: its rule, an example, its cause and cure")
        .arg(
            Arg::new("N")
                .help("The refusal's number; without it all are listed")
                .value_parser(number),
        )
        .after_help("What it prints stands in docs/REFUSALS.md.\n\nExample:\n  braid explain 17")
}

fn path(name: &'static str, help: &'static str) -> Arg {
    Arg::new(name).help(help).value_parser(value_parser!(PathBuf)).required(true)
}

fn option(name: &'static str, value: &'static str, help: &'static str) -> Arg {
    Arg::new(name).long(name).value_name(value).help(help)
}

fn many(name: &'static str, value: &'static str, help: &'static str) -> Arg {
    option(name, value, help).action(ArgAction::Append)
}

fn flag(name: &'static str, help: &'static str) -> Arg {
    Arg::new(name).long(name).help(help).action(ArgAction::SetTrue)
}

/// A flag whose every occurrence has a place among the arguments, as clap's own flags have not.
fn mark(name: &'static str, help: &'static str) -> Arg {
    let mark = many(name, "BOOL", help).value_parser(value_parser!(bool));
    mark.num_args(0..=1).require_equals(true).default_missing_value("true")
}

fn out_arguments(force: &'static str) -> [Arg; 3] {
    let out = option("out", "OUT", "Where the answer is written: OUT.rec, OUT.names and OUT.last");
    [
        out.value_parser(value_parser!(PathBuf)).required(true),
        flag("force", force),
        flag("quiet", "Prints nothing where all is well"),
    ]
}

fn bytes(arg: Arg) -> Arg {
    arg.value_parser(OsStringValueParser::new().map(OsString::into_encoded_bytes))
}

fn an_id(arg: Arg) -> Arg {
    arg.value_parser(value_parser!(FieldId)).allow_negative_numbers(true)
}

/// Ids with commas between them. With a hyphen in front it is still such a list.
fn ids(arg: Arg) -> Arg {
    an_id(arg).value_delimiter(',').allow_hyphen_values(true)
}

/// Columns by ids and paths. With a hyphen in front it is still such a list.
fn some(arg: Arg) -> Arg {
    let parser = OsStringValueParser::new().try_map(ids_and_paths);
    arg.value_parser(parser).allow_hyphen_values(true)
}

fn ids_and_paths(given: OsString) -> Result<Vec<Named>, &'static str> {
    let named = |part: &[u8]| match std::str::from_utf8(part).ok().and_then(|id| id.parse().ok()) {
        Some(id) => Ok(Named::Id(id)),
        None if part.is_empty() => Err("between two commas stands an id or a path"),
        None if part.starts_with(b"--") => Err("this is an option, and no id or path"),
        None => Ok(Named::Path(part.to_vec())),
    };
    match given.as_encoded_bytes() {
        b"" => Ok(vec![]),
        parts => parts.split(|byte| *byte == b',').map(named).collect(),
    }
}

/// A name or path and a type's code; the name may have colons of its own.
fn name_and_type(given: OsString) -> Result<(Vec<u8>, u32), String> {
    let given = given.into_encoded_bytes();
    let colon = given.iter().rposition(|byte| *byte == b':').ok_or("no colon before a type")?;
    let code = types::code(&String::from_utf8_lossy(&given[colon + 1..]))?;
    Ok((given[..colon].to_vec(), code))
}

/// An id and a type's code.
fn id_and_type(given: OsString) -> Result<(FieldId, u32), String> {
    let (id, code) = name_and_type(given)?;
    let id = std::str::from_utf8(&id).ok().and_then(|id| id.parse().ok());
    Ok((id.ok_or("no id before the colon")?, code))
}

/// A path and a new name, which the tree parts.
fn path_and_name(given: OsString) -> Result<Vec<u8>, &'static str> {
    let both = given.into_encoded_bytes();
    if both.contains(&b'=') { Ok(both) } else { Err(NO_NAME) }
}

/// An id and a new name; the name may have a `=` of its own.
fn id_and_name(given: OsString) -> Result<(FieldId, Vec<u8>), &'static str> {
    let given = given.into_encoded_bytes();
    let sign = given.iter().position(|byte| *byte == b'=').ok_or(NO_NAME)?;
    let id = std::str::from_utf8(&given[..sign]).ok().and_then(|id| id.parse().ok());
    Ok((id.ok_or("no id before the =")?, given[sign + 1..].to_vec()))
}

/// The value of an argument that is always there.
fn one<T: Clone + Send + Sync + 'static>(of: &ArgMatches, name: &str) -> T {
    of.get_one::<T>(name).expect("clap asks for it").clone()
}

fn named(of: &ArgMatches, name: &str) -> Vec<Named> {
    of.get_many::<Vec<Named>>(name).unwrap_or_default().flatten().cloned().collect()
}

fn out(of: &ArgMatches) -> Out {
    let (force, quiet) = (of.get_flag("force"), of.get_flag("quiet"));
    Out { stem: one(of, "out"), force, quiet }
}

/// The columns to drop, in the order given.
fn drops(of: &ArgMatches) -> Vec<Named> {
    let mut drops = vec![];
    gather(of, "drop", Named::Path, &mut drops);
    gather(of, "drop-id", Named::Id, &mut drops);
    in_order(drops).collect()
}

/// The edits, in the order given.
fn edits(of: &ArgMatches) -> Vec<Edit> {
    let mut edits = vec![];
    gather(of, "rename", Edit::Rename, &mut edits);
    gather(of, "rename-id", |(id, name)| Edit::RenameId(id, name), &mut edits);
    gather(of, "relax", |path| Edit::Relax(Named::Path(path)), &mut edits);
    gather(of, "relax-id", |id| Edit::Relax(Named::Id(id)), &mut edits);
    gather(of, "widen", |(path, code)| Edit::Widen(Named::Path(path), code), &mut edits);
    gather(of, "widen-id", |(id, code)| Edit::Widen(Named::Id(id), code), &mut edits);
    in_order(edits).collect()
}

/// A word about additions: a new one, or something about the last.
enum Word {
    New(Added),
    Under(Named),
    Of(Setting),
}

/// A setting of an added column.
enum Setting {
    Required(bool),
    Default(bool),
    Attribute(u32),
}

/// The additions in the order given, each with the words behind it.
fn additions(of: &ArgMatches) -> Result<Vec<Addition<Added, Named>>, &'static str> {
    let mut additions: Vec<Addition<Added, Named>> = vec![];
    for word in words(of) {
        match (word, additions.last_mut()) {
            (Word::New(what), _) => additions.push(Addition { what, under: None }),
            (Word::Under(above), Some(Addition { under: under @ None, .. })) => {
                *under = Some(above);
            }
            (Word::Under(_), _) => {
                return Err("each --under needs an --add or --add-tree before it");
            }
            (Word::Of(setting), Some(Addition { what: Added::Column(field), .. })) => match setting
            {
                Setting::Required(yes) => field.required = yes,
                Setting::Default(yes) => field.default = yes,
                Setting::Attribute(number) => field.attribute = number,
            },
            _ => return Err("--required, --default and --attribute need an --add before them"),
        }
    }
    Ok(additions)
}

/// The words about additions, in the order given.
fn words(of: &ArgMatches) -> impl Iterator<Item = Word> {
    let mut words = vec![];
    let primitive = |(name, code): (Vec<u8>, u32)| Added::Column(Field::primitive(name, code));
    gather(of, "add", |given| Word::New(primitive(given)), &mut words);
    gather(of, "add-tree", |stem| Word::New(Added::Tree(stem)), &mut words);
    gather(of, "under", |path| Word::Under(Named::Path(path)), &mut words);
    gather(of, "under-id", |id| Word::Under(Named::Id(id)), &mut words);
    gather(of, "required", |yes| Word::Of(Setting::Required(yes)), &mut words);
    gather(of, "default", |yes| Word::Of(Setting::Default(yes)), &mut words);
    gather(of, "attribute", |number| Word::Of(Setting::Attribute(number)), &mut words);
    in_order(words)
}

/// Every occurrence of an argument, with its place among the arguments.
fn gather<T: Clone + Send + Sync + 'static, W>(
    of: &ArgMatches,
    name: &str,
    word: impl Fn(T) -> W,
    words: &mut Vec<(usize, W)>,
) {
    let values = of.get_many::<T>(name).unwrap_or_default().cloned().map(word);
    words.extend(of.indices_of(name).unwrap_or_default().zip(values));
}

fn in_order<W>(mut words: Vec<(usize, W)>) -> impl Iterator<Item = W> {
    words.sort_by_key(|(place, _)| *place);
    words.into_iter().map(|(_, word)| word)
}
