//! The picture: whatever tree is drawn is read back, and what is no picture is told by its line.

use crate::folder::{Folder, checkout};
use cases::{Case, Generator, Random, Sizes, packed, prim};
use judge::Node;

/// The picture of the drawn tree, which must make this pair.
#[track_caller]
fn remade(folder: &Folder, pair: (Vec<u8>, Vec<u8>)) -> String {
    let picture = folder.braid("list drawn").answer();
    folder.piped("make - --out made --force", picture.as_bytes()).answer();
    assert_eq!(folder.pair("made"), pair, "{picture}");
    picture
}

/// The picture of these roots, which must make the same tree.
#[track_caller]
fn round(folder: &Folder, roots: &[Node]) -> String {
    let (records, names) = packed(roots);
    folder.put("drawn", &records, &names);
    remade(folder, (records, names))
}

fn named(id: i32, name: &[u8]) -> Node {
    Node { name: name.to_vec(), ..prim(id, "") }
}

/// What make says of a picture that is none.
#[track_caller]
fn wrong(picture: &str, why: &str) {
    let folder = Folder::new();
    let said = folder.piped("make - --out made", picture.as_bytes()).complaint(3);
    assert_eq!(said, format!("standard input: {why}\n"));
    assert_eq!(folder.files(), [""; 0]);
}

#[test]
fn names_of_any_bytes_are_drawn_in_print_and_read_back() {
    let names: [(&[u8], &str); 14] = [
        (b"plain-_.#'1", "plain-_.#'1"),
        ("größe".as_bytes(), "größe"),
        (b"", r#""""#),
        (b"two words", r#""two words""#),
        (b"a:b", r#""a:b""#),
        (br#"quo"te"#, r#""quo\"te""#),
        (br"back\slash", r#""back\\slash""#),
        (b"\\x41", r#""\\x41""#),
        (b"line\nbreak\t", r#""line\x0abreak\x09""#),
        (b"\x1b[31m\0", r#""\x1b[31m\x00""#),
        (b"\xff\xfe", r#""\xff\xfe""#),
        (b"half \xc3", r#""half \xc3""#),
        ("turn\u{202e}".as_bytes(), r#""turn\xe2\x80\xae""#),
        ("no\u{a0}break".as_bytes(), r#""no\xc2\xa0break""#),
    ];
    let roots: Vec<Node> = names.iter().zip(1..).map(|((name, _), id)| named(id, name)).collect();
    let drawn: String = names
        .iter()
        .zip(1..)
        .map(|((_, shown), id)| format!("{id} {shown}: primitive 0\n"))
        .collect();
    assert_eq!(round(&Folder::new(), &roots), drawn);
}

#[test]
fn every_byte_is_read_back() {
    let roots: Vec<Node> = (0..=255).map(|byte| named(byte.into(), &[byte])).collect();
    round(&Folder::new(), &roots);
}

#[test]
fn flags_codes_and_attributes_are_read_back() {
    let mut roots = vec![prim(i32::MIN, "a"), prim(i32::MAX, "b"), prim(-1, "c")];
    (roots[0].flags, roots[0].type_code, roots[0].attribute) = (1, u32::MAX, u32::MAX);
    roots[1].flags = 2;
    (roots[2].flags, roots[2].attribute) = (3, 1);
    let drawn = "-2147483648 a: primitive 4294967295 required attribute 4294967295\n\
                 2147483647 b: primitive 0 default\n\
                 -1 c: primitive 0 required default attribute 1\n";
    assert_eq!(round(&Folder::new(), &roots), drawn);
}

/// Every code of a type, with its name, and codes beside them, which have none.
fn codes() -> Vec<(u32, Option<String>)> {
    let names = [
        "boolean",
        "int",
        "long",
        "date",
        "float",
        "double",
        "timestamp",
        "timestamp_ns",
        "string",
    ];
    let named = names.iter().zip(1..).map(|(name, code)| (code, Some(name.to_string())));
    let digits = (0..=39u32).flat_map(|precision| (0..=39).map(move |scale| (precision, scale)));
    let decimals = digits.map(|(precision, scale)| {
        let is_one = (1..=38).contains(&precision) && scale <= precision;
        let name = is_one.then(|| format!("decimal({precision},{scale})"));
        (65_536 + 256 * precision + scale, name)
    });
    let others = [0, 10, 11, 256, 512, 65_535, 131_072 + 9 * 256 + 2, u32::MAX];
    named.chain(decimals).chain(others.map(|code| (code, None))).collect()
}

#[test]
fn types_are_drawn_by_their_names_and_read_by_names_and_codes() {
    let folder = Folder::new();
    for codes in codes().chunks(1_000) {
        let node = |(id, (code, _)): (i32, &(u32, _))| Node { type_code: *code, ..prim(id, "") };
        let mut roots: Vec<Node> = (1..).zip(codes).map(node).collect();
        roots.iter_mut().for_each(|root| root.name = root.id.to_string().into());
        let picture = round(&folder, &roots);
        let mut by_codes = String::new();
        for ((line, id), (code, name)) in picture.lines().zip(1..).zip(codes) {
            let by_code = format!("primitive {code}");
            assert_eq!(line, format!("{id} {id}: {}", name.as_ref().unwrap_or(&by_code)));
            by_codes += &format!("{id} {id}: {by_code}\n");
        }
        folder.piped("make - --out coded --force", by_codes.as_bytes()).answer();
        assert_eq!(folder.pair("coded"), folder.pair("drawn"));
    }
}

#[test]
fn trees_of_all_shapes_are_listed_as_01_says_and_read_back_with_their_names_packed() {
    let folder = Folder::new();
    let generator = Generator { seed: 10, sizes: Sizes::Usual };
    let (mut accepted, mut refused) = (0, 0);
    for n in 0..150 {
        let Case { records, pool, .. } = generator.case(7 * n + 6);
        folder.put("drawn", &records, &pool);
        let plain = folder.braid("list drawn --plain");
        match judge::list(&records, &pool) {
            Ok(lines) => {
                assert_eq!((plain.status, plain.out), (0, lines), "case {n}");
                let nodes =
                    judge::read_tree(&records, &pool, judge::BASE).expect("accepted").nodes();
                remade(&folder, packed(&nodes));
                accepted += 1;
            }
            Err(judge::Refusal { number, list, place }) => {
                let said = plain.complaint(2);
                let words = format!("refused {number} at {list} {place}: ");
                assert!(said.starts_with(&words), "case {n}: {said}");
                refused += 1;
            }
        }
    }
    assert!(accepted > 50 && refused > 10, "{accepted} accepted, {refused} refused");
}

#[test]
fn names_as_people_write_them_are_drawn_as_they_are() {
    let names = [
        "วันที่",                  // Thai, with vowels and tones above the letters
        "दिनांक",                // Hindi, with vowel signs
        "क्‍ष",                   // a joiner between the letters
        "അവന്‍",                  // and one at the end of a Malayalam word
        "می‌روم",                // Persian, with a joiner that parts
        "re\u{301}sume\u{301}", // accents that stand apart from their letters
        "Ngu\u{31b}o\u{300}\u{31b}i",
        "👩‍🚒",   // joined emoji
        "❤️‍🔥",   // with a selector of the form
        "葛󠄀城", // an ideograph's form
        "ᠮᠣᠩᠭᠣᠯ᠎ᠠ",
        "größe",
        "单价",
    ];
    let roots: Vec<Node> = names.iter().zip(1..).map(|(name, id)| prim(id, name)).collect();
    let line = |(name, id): (&&str, i32)| format!("{id} {name}: primitive 0\n");
    let drawn: String = names.iter().zip(1..).map(line).collect();
    assert_eq!(round(&Folder::new(), &roots), drawn);
}

#[test]
fn names_of_any_characters_are_read_back() {
    let tricky = "a :\"\\#.\0\n\r\t\u{1b}\u{7f}\u{9b}\u{a0}é\u{301}\u{34f}กัक्\u{200b}\u{200c}\
                  \u{200d}\u{200e}\u{2028}\u{202e}\u{2066}\u{180b}\u{180e}\u{fe0f}\u{feff}👩🚒\
                  \u{e0067}\u{e0100}\u{10ffff}";
    let tricky: Vec<char> = tricky.chars().collect();
    let mut random = Random::new(10);
    let mut name = |id: i32| {
        let mut name = format!("{id}").into_bytes();
        for _ in 0..random.below(9) {
            name.extend(random.pick(&tricky).to_string().bytes());
            if random.chance(1, 12) {
                name.push(0x80 + random.below(0x80) as u8);
            }
        }
        named(id, &name)
    };
    let roots: Vec<Node> = (0..1_000).map(&mut name).collect();
    let picture = round(&Folder::new(), &roots);
    let shown = |c: char| c == '\n' || c >= ' ' && !['\u{7f}', '\u{9b}', '\u{202e}'].contains(&c);
    assert!(picture.chars().all(shown), "{picture:?}");
}

#[test]
fn joiners_and_selectors_that_hide_are_escaped() {
    let names = [
        ("a\u{200d}b", r#""a\xe2\x80\x8db""#),
        ("\u{200d}", r#""\xe2\x80\x8d""#),
        ("é\u{200c}", r#""é\xe2\x80\x8c""#),
        ("day\u{fe0f}", r#""day\xef\xb8\x8f""#),
        ("क\u{200d}\u{200d}", "\"क\u{200d}\\xe2\\x80\\x8d\""),
        ("क\u{fe0f}\u{fe0f}", "\"क\u{fe0f}\\xef\\xb8\\x8f\""),
        ("\u{2028}\u{200d}", r#""\xe2\x80\xa8\xe2\x80\x8d""#),
    ];
    let roots: Vec<Node> = names.iter().zip(1..).map(|((name, _), id)| prim(id, name)).collect();
    let line = |((_, shown), id): (&(&str, &str), i32)| format!("{id} {shown}: primitive 0\n");
    let drawn: String = names.iter().zip(1..).map(line).collect();
    assert_eq!(round(&Folder::new(), &roots), drawn);
}

/// The characters of a U+ number and of a range of two.
fn ends(range: &str) -> [char; 2] {
    let ends: Vec<char> = range
        .split('-')
        .map(|end| u32::from_str_radix(end.trim_start_matches("U+"), 16).expect("a number"))
        .map(|number| char::from_u32(number).expect("a character"))
        .collect();
    [ends[0], *ends.last().expect("one or two")]
}

#[test]
fn the_table_of_the_page_has_the_very_characters_that_are_escaped() {
    let page = std::fs::read_to_string(checkout("docs/FORMAT.md")).expect("the page");
    let rows = page.lines().filter_map(|line| line.strip_prefix("| U+"));
    let cells = rows.filter_map(|row| row.split(" |").next());
    let ranges: Vec<[char; 2]> = cells.flat_map(|cell| cell.split(", ").map(ends)).collect();
    assert!(ranges.len() > 20, "{ranges:?}");
    let escaped = |c: char| ranges.iter().any(|[from, to]| (*from..=*to).contains(&c));
    // what is escaped or not by what stands before it has its own test
    let depends = |c: char| {
        matches!(c, '\u{180b}'..='\u{180f}' | '\u{200c}'..='\u{200d}' | '\u{fe00}'..='\u{fe0f}')
            || matches!(c, '\u{e0100}'..='\u{e01ef}')
    };
    let (mut seen, mut wrong) = (0, vec![]);
    for character in ('\0'..=char::MAX).filter(|c| !depends(*c)) {
        let name = format!("x{character}");
        if braidhurdle::names::printed(name.as_bytes()) == name && escaped(character)
            || braidhurdle::names::printed(name.as_bytes()) != name && !escaped(character)
        {
            wrong.push(character);
        }
        seen += usize::from(escaped(character));
    }
    assert!(wrong.is_empty(), "{wrong:?}");
    assert!(seen > 3_800, "{seen}");
}

#[test]
fn blank_lines_remarks_and_spaces_are_skipped_and_words_stand_in_any_order() {
    let folder = Folder::new();
    let picture = b"# a remark\n\n   \n1 a: struct  \n    # an indented one\n  2 b: list \t\n\
                    \x20   3  element :  attribute 7   default primitive 2 required\r\n\
                    4 c: required struct\n";
    folder.piped("make - --out made", picture).answer();
    assert_eq!(
        folder.braid("list made").answer(),
        "1 a: struct\n  2 b: list\n    3 element: int required default attribute 7\n\
         4 c: struct required\n"
    );
}

#[test]
fn a_line_that_is_none_is_told_with_its_number_and_what_is_missing() {
    wrong(
        "1 a: struct\n b: struct\n",
        "line 2: a level is two spaces, and here is an odd number, 1",
    );
    wrong("1 a: struct\n\t2 b: struct\n", "line 2: a level is two spaces, and here is a tab");
    wrong("\n  1 a: struct\n", "line 2: level 2 stands behind level 0");
    wrong("1 a: struct\n    2 b: struct\n", "line 2: level 3 stands behind level 1");
    wrong("a: struct\n", "line 1: \"a:\" is no id, and a line begins with one");
    wrong("1\n", "line 1: no name behind the id");
    wrong("1 a\n", "line 1: no colon behind the name");
    wrong("1 \"a\" struct\n", "line 1: no colon behind the name");
    wrong("1 a b: struct\n", "line 1: this name must be written \"a b\"");
    wrong("1 a\u{200b}: struct\n", r#"line 1: this name must be written "a\xe2\x80\x8b""#);
    let quotes = "(a name that has a colon stands in quotes)";
    wrong("1 a:struct\n", &format!("line 1: no space behind the colon {quotes}"));
    wrong("1 a:b: struct\n", &format!("line 1: no space behind the colon {quotes}"));
    let kinds = "a type, primitive with a type code, struct, list or map";
    wrong("1 a:\n", &format!("line 1: no kind: {kinds}"));
    wrong("1 a: required\n", &format!("line 1: no kind: {kinds}"));
    let word = "is no type, no kind, and not required, default or attribute";
    for thing in ["thing", "Int", "integer", "2", "timestamp-ns"] {
        wrong(&format!("1 a: {thing}\n"), &format!("line 1: \"{thing}\" {word}"));
    }
    let decimal =
        "a decimal is decimal(P,S), its precision P from 1 to 38, its scale S from 0 to P";
    for thing in ["decimal", "decimal(0,0)", "decimal(39,2)", "decimal(2,3)", "decimal(09,2)"] {
        wrong(&format!("1 a: {thing}\n"), &format!("line 1: \"{thing}\" is no type: {decimal}"));
    }
    wrong("1 a: decimal(9, 2)\n", &format!("line 1: \"decimal(9,\" is no type: {decimal}"));
    let code = "primitive needs a type code, a number below 2^32";
    wrong("1 a: primitive\n", &format!("line 1: no number: {code}"));
    wrong("1 a: primitive -1\n", &format!("line 1: \"-1\" is no number: {code}"));
    wrong("1 a: primitive int\n", &format!("line 1: \"int\" is no number: {code}"));
    let attribute = "attribute needs an attribute number, a number below 2^32";
    wrong("1 a: struct attribute\n", &format!("line 1: no number: {attribute}"));
    let once = "comes too often: a column has one kind, and each word once";
    for (words, again) in [
        ("struct struct", "struct"),
        ("list map", "map"),
        ("int long", "long"),
        ("primitive 2 int", "int"),
        ("struct primitive 2", "primitive"),
        ("default struct default", "default"),
        ("required required struct", "required"),
        ("struct attribute 1 attribute 1", "attribute"),
    ] {
        wrong(&format!("1 a: {words}\n"), &format!("line 1: {again} {once}"));
    }
    let quotes = "a name in quotes ends with a quote, and has the escapes \\\" \\\\ \\x00";
    for name in ["\"a", "\"\\", "\"\\n\"", "\"\\x4\"", "\"\\x+1\"", "\"\\xé\""] {
        wrong(&format!("1 {name}: struct\n"), &format!("line 1: {quotes}"));
    }
    let long = format!("1 a: struct\n2 {}: struct\n", "x".repeat(256));
    wrong(&long, "line 2: a name has at most 255 bytes, and this one 256");
}

#[test]
fn a_picture_that_is_no_text_is_told_with_its_line() {
    let folder = Folder::new();
    let said = folder.piped("make - --out made", b"1 a: struct\n2 \xff: struct\n").complaint(3);
    assert!(said.starts_with("standard input: line 2: invalid utf-8"), "{said}");
}
