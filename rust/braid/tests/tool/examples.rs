//! The files in examples/ and the page about the layouts.

use std::fs;
use std::path::Path;
use std::process::{Command, Output};

use braidhurdle::{Overlong, Request, Type};

use crate::folder::{BRAID, Folder, checkout};

fn text(name: &str) -> String {
    fs::read_to_string(checkout(name)).expect("a page")
}

/// Runs a script of examples/ with the tool under test.
fn script(name: &str, arguments: &[&Path]) -> String {
    let mut command = Command::new(checkout(name));
    let Output { status, stdout, stderr } =
        command.env("BRAID", BRAID).args(arguments).output().expect("the script runs");
    assert!(status.success() && stderr.is_empty(), "{}", String::from_utf8_lossy(&stderr));
    String::from_utf8(stdout).expect("UTF-8")
}

/// The bytes in a page's lines that begin with a number: two digits each, up to the remark.
fn bytes_of(part: &str) -> Vec<u8> {
    let numbered =
        |line: &&str| line.trim_start().starts_with(|first: char| first.is_ascii_digit());
    let byte = |word: &str| (word.len() == 2).then(|| u8::from_str_radix(word, 16).ok()).flatten();
    part.lines()
        .filter(numbered)
        .flat_map(|line| line.split_whitespace().skip(1).map_while(byte))
        .collect()
}

#[test]
fn running_make_gives_the_very_files_that_are_here() {
    let folder = Folder::new();
    let said = script("examples/make", &[&folder.file("")]);
    let trees = ["T", "alarms", "node-1", "node-2", "node-3", "node-4", "node-5"];
    let three = |stem: &&str| ["last", "names", "rec"].map(|ending| format!("{stem}.{ending}"));
    let mut made: Vec<String> = trees.iter().flat_map(three).collect();
    made.extend(["report.names".into(), "report.rec".into()]);
    assert_eq!(folder.files(), made);
    for name in made {
        let here = fs::read(checkout("examples").join(&name)).expect("it is here");
        assert_eq!(fs::read(folder.file(&name)).expect("it was made"), here, "{name}");
    }
    let page = text("examples/README.md");
    for tree in trees {
        let last = folder.last(tree).expect("it is made with its last id");
        assert!(page.contains(&format!("\n- **{tree}**, last id {}: ", last.trim())), "{tree}");
    }
    let added = "\nadded 18 parts.value.price\nlast id 18\nvisited 17 records in the rebuild\n";
    assert!(said.contains(added), "{said}");
    assert!(said.contains("\nwidened 18 parts.value.price from int to long\n"), "{said}");
}

#[test]
fn show_shows_a_picture_an_update_look_ups_and_a_refusal() {
    let said = script("examples/show", &[]);
    assert!(said.starts_with("$ braid list examples/node-4\n1 node: struct required\n"), "{said}");
    let edited = "renamed 3 faults to failures\nrelaxed 19 node.battery\n\
                  widened 18 parts.value.price from int to long\nlast id 25\n\
                  visited 22 records in the rebuild\n";
    assert!(said.contains(edited), "{said}");
    assert!(said.contains("\n  19 battery: date default\n"), "{said}");
    for price in ["int", "long"] {
        assert!(said.contains(&format!("\n    18 price: {price} attribute 30\n")), "{said}");
    }
    assert!(said.contains("failures.day\nid 12 slot 11 failures.element.day\n"), "{said}");
    assert!(said.contains("visits.duration\nid 24 slot 15 visits.element.duration\n"), "{said}");
    assert!(said.contains("-i Node.Serial\nid 5 slot 1 node.serial\n"), "{said}");
    let lines = "id 5 slot 1 node.serial\nno column has id 7\nid 24 slot 15 ";
    assert!(said.contains(&format!("--id 5,7,24\n{lines}")), "{said}");
    assert!(said.contains("\nrefused 11 at 2 0: "), "{said}");
    assert!(said.contains("\nrefused 12 at 2 0: "), "{said}");
    assert!(said.contains("\nrefused 23 at 6 0: "), "{said}");
    assert!(said.contains("\nrefused 9 at 5 0: "), "{said}");
    assert!(said.contains("\nrefused 26 at 6 0: "), "{said}");
    assert!(said.contains("\nwidened 15 visits.element.day from date to timestamp\n"), "{said}");
    assert!(said.contains("\nrefused 25 at 0 0: "), "{said}");
    let dropped = "\ndropped 20 alarms, and 3 columns inside it\nlast id 25\n\
                   visited 18 records in the rebuild\n";
    assert!(said.contains(dropped), "{said}");
    assert!(said.contains("\nidentifier id 5 slot 1 node.serial\n"), "{said}");
    assert!(said.contains("\nrefused 9 at 5 1: "), "{said}");
}

#[test]
fn every_example_of_the_help_can_be_run_as_it_stands() {
    let names =
        ["list", "check", "find", "parent", "prune", "renumber", "update", "make", "explain"];
    for name in names {
        let folder = Folder::with_examples();
        let help = folder.run(&[name, "--help"]).answer();
        let (_, example) = help.split_once("Example:\n").expect("an example");
        assert!(example.starts_with(&format!("  braid {name} ")), "{help}");
        folder.shell(&format!("set -e\n{example}")).answer();
        for word in ["STEM", "FILE"] {
            assert!(!help.contains(word), "{help}");
        }
    }
}

#[test]
fn the_example_t_is_01s_and_stands_on_the_page_byte_by_byte() {
    let (records, names) = cases::packed(&cases::the_tree());
    assert_eq!(fs::read(checkout("examples/T.rec")).expect("it is here"), records);
    assert_eq!(fs::read(checkout("examples/T.names")).expect("it is here"), names);
    let page = text("docs/FORMAT.md");
    let mut blocks = page.split("```").skip(1).step_by(2);
    assert_eq!(bytes_of(blocks.next().expect("the records")), records);
    assert_eq!(bytes_of(blocks.next().expect("the names")), names);
}

/// The bytes of the line of docs/FORMAT.md that begins with a word.
fn line_of(word: &str) -> Vec<u8> {
    let (page, front) = (text("docs/FORMAT.md"), format!("    {word} "));
    let line = page.lines().find_map(|line| line.strip_prefix(&front)).expect("a line of bytes");
    let byte = |word| u8::from_str_radix(word, 16).expect("a byte");
    line.split_whitespace().map(byte).collect()
}

#[test]
fn the_page_has_the_edits_that_the_safe_crate_writes() -> Result<(), Overlong> {
    let request = Request::default().rename("node.cost", "price")?.relax("parts")?;
    let request = request.widen("parts.price", Type::Long)?;
    assert_eq!(request.edits, ["rename", "relax", "widen"].map(line_of).concat());
    let pool = String::from_utf8(request.pool).expect("text");
    assert!(text("docs/FORMAT.md").contains(&format!("request pool\n`{pool}`:")));
    Ok(())
}

#[test]
fn the_page_has_the_slots_that_the_library_finds_of_its_ids() {
    let (records, names) = cases::packed(&cases::the_tree());
    let (ids, shown) = (line_of("ids"), line_of("slots"));
    let mut slots = vec![0; ids.len()];
    let found = braidhurdle::c::find_ids(&records, &names, &ids, &mut slots).found;
    assert_eq!((found, slots), (2, shown));
}

#[test]
fn the_page_and_the_file_have_the_picture_that_list_draws() {
    let picture = Folder::with_t().braid("list T").answer();
    let indented: String = picture.lines().map(|line| format!("    {line}\n")).collect();
    assert!(text("docs/FORMAT.md").contains(&indented));
    assert!(text("examples/T.picture").ends_with(&picture));
}
