//! docs/REFUSALS.md: each part is held to the tool and the library.

use std::fs;

use braidhurdle::{RefusalKind, c};

use crate::folder::{Folder, checkout};

fn page() -> String {
    fs::read_to_string(checkout("docs/REFUSALS.md")).expect("the page")
}

/// The parts of the page, by number from 1 on.
fn parts() -> Vec<String> {
    page().split("\n## Refusal ").skip(1).map(String::from).collect()
}

/// A paragraph without its line ends.
fn flat(text: &str) -> String {
    text.split_whitespace().collect::<Vec<_>>().join(" ")
}

#[test]
fn every_refusal_has_its_part_with_all_that_belongs_to_it() {
    let parts = parts();
    assert_eq!(parts.len(), RefusalKind::ALL.len());
    for (part, kind) in parts.iter().zip(RefusalKind::ALL) {
        assert!(part.starts_with(&format!("{}\n\n", kind.number())), "{part}");
        let paragraphs: Vec<String> = part.split("\n\n").skip(1).map(flat).collect();
        assert_eq!(paragraphs[0], format!("Means: {kind}."));
        assert!(paragraphs[1].starts_with("List "), "{part}");
        for begin in ["Rule: ", "Example:", "Cause: ", "Cure: "] {
            let found = paragraphs.iter().filter(|text| text.starts_with(begin)).count();
            assert_eq!(found, 1, "{begin} in {part}");
        }
    }
}

#[test]
fn explain_prints_the_part_of_a_refusal_or_a_line_of_each() {
    let folder = Folder::new();
    for (part, number) in parts().iter().zip(1..) {
        let said = folder.braid(&format!("explain {number}")).answer();
        assert_eq!(said, format!("Refusal {}\n", part.trim_end()));
    }
    let all = folder.braid("explain").answer();
    assert_eq!(all.lines().count(), RefusalKind::ALL.len());
    assert!(all.contains("\n17: the name is taken\n"), "{all}");
    let behind = (RefusalKind::ALL.len() + 1).to_string();
    for number in ["0", &behind, "x", "-1"] {
        assert_eq!(folder.run(&["explain", number]).status, 3);
    }
}

/// The commands of a page's example, and the refusal below them.
fn example(block: &str) -> (String, String) {
    let (commands, refusal): (Vec<&str>, Vec<&str>) =
        block.lines().map(str::trim_start).partition(|line| line.starts_with("$ "));
    let commands: Vec<&str> = commands.iter().map(|line| &line[2..]).collect();
    (commands.join("\n"), flat(&refusal.join(" ")))
}

#[test]
fn the_commands_of_the_page_are_refused_in_the_very_words_of_the_page() {
    let folder = Folder::with_examples();
    let mut met = vec![];
    for (part, number) in parts().iter().zip(1..) {
        for block in part.split("\n\n").filter(|block| block.starts_with("    $ ")) {
            let (commands, refusal) = example(block);
            let lines = folder.shell(&commands).refusal();
            assert_eq!(lines[0], refusal, "{commands}");
            assert!(refusal.starts_with(&format!("refused {number} at ")), "{refusal}");
            let cure = part.split("\n\n").find(|text| text.starts_with("Cure: ")).expect("a cure");
            assert_eq!(lines[1..lines.len() - 1].join("\n"), cure.trim_end());
            met.push(number);
        }
    }
    met.dedup();
    let numbers = RefusalKind::ALL.iter().map(|kind| kind.number());
    let all_but_two: Vec<u32> = numbers.filter(|number| ![1, 10].contains(number)).collect();
    assert_eq!(met, all_but_two);
    assert!(!folder.files().contains(&"U.rec".into()), "a refusal writes nothing");
}

/// A call, and its text as it stands on the page.
macro_rules! call {
    ($call:expr) => {
        ($call, stringify!($call))
    };
}

#[test]
fn the_calls_of_the_page_that_the_tool_can_not_make_answer_as_it_says() {
    let (records, pool) = cases::packed(&cases::the_tree());
    let (mut out, mut out_names) = ([0; 24_576], [0; 32_768]);
    let (one, text) = call!(c::prune(&records, &pool, &[], 0, &mut [0; 24_575], &mut [0; 32_768]));
    assert_eq!((one.refusal, one.list, one.place), (1, 0, 0));
    assert!(flat(&parts()[0]).contains(&flat(text)), "{text}");
    let (one, text) = call!(c::find_ids(&records, &pool, &[7, 0, 0, 0], &mut [0; 3]));
    assert_eq!((one.refusal, one.list, one.place), (1, 0, 0));
    assert!(flat(&parts()[0]).contains(&flat(text)), "{text}");
    let (ten, text) = call!(c::update(
        &records,
        &pool,
        &[],
        10,
        2,
        &[],
        &[0; 8],
        &[],
        &[],
        &[],
        &mut out,
        &mut out_names
    ));
    assert_eq!((ten.refusal, ten.list, ten.place), (10, 3, 0));
    assert!(flat(&parts()[9]).contains(&flat(text)), "{text}");
}
