//! The recorded format: one case to a line, with its answer.
//!
//! ```text
//! OP JUDGE RECORDS POOL inputs.. = answer..
//!
//! update   IDENTIFIERS LAST_ID DELETIONS ADDITIONS ADDED_RECORDS REQUEST_POOL OUT_RECORDS OUT_NAMES
//!          and EDITS, where there are any or a version follows, and VERSION, where it is not 2
//! prune    SELECTED FULL OUT_RECORDS OUT_NAMES
//! renumber IDENTIFIERS START OUT_RECORDS OUT_NAMES OUT_IDENTIFIERS
//! name     NAME
//! folded   NAME                     name, where case is forgotten
//! id       ID
//! ids      IDS OUT_SLOTS
//! parent   ID
//! list
//!
//! refused NUMBER LIST PLACE
//! ok RECORDS NAMES LAST_ID VISITED  update
//! ok RECORDS NAMES                  prune
//! ok RECORDS NAMES IDENTIFIERS      renumber
//! found ID SLOT | nothing           name, folded, id, parent (the record above)
//! ok SLOTS FOUND                    ids
//! ok TEXT                           list
//! ```

use judge::Refusal;

use crate::case::{Answer, Ask, Case};

/// Whose answer a line holds.
#[derive(Clone, Copy, Debug, PartialEq, Eq, PartialOrd, Ord)]
pub enum Judge {
    /// 01's text alone: the crate can't be asked, or departs as listed.
    Paper,
    /// iceberg's own code and 01's text.
    Both,
}

impl Judge {
    /// The judge's word in a line.
    pub fn word(self) -> &'static str {
        match self {
            Judge::Paper => "paper",
            Judge::Both => "both",
        }
    }
}

/// A line of the recorded list.
#[derive(Clone, Debug, PartialEq, Eq)]
pub struct Recorded {
    pub case: Case,
    pub judge: Judge,
    pub answer: Answer,
}

/// The version that a line does not name.
const USUAL_VERSION: u32 = 2;

fn hex(bytes: &[u8]) -> String {
    if bytes.is_empty() {
        return "-".into();
    }
    bytes.iter().map(|b| format!("{b:02x}")).collect()
}

fn unhex(word: &str) -> Result<Vec<u8>, String> {
    if word == "-" {
        return Ok(vec![]);
    }
    let digit = |c: u8| match c {
        b'0'..=b'9' => Ok(c - b'0'),
        b'a'..=b'f' => Ok(c - b'a' + 10),
        _ => Err(format!("no hex digit: {}", c as char)),
    };
    if !word.len().is_multiple_of(2) {
        return Err("odd number of hex digits".into());
    }
    word.as_bytes().chunks_exact(2).map(|p| Ok(digit(p[0])? * 16 + digit(p[1])?)).collect()
}

/// A line of the recorded list, without its end.
pub fn write_line(recorded: &Recorded) -> String {
    let case = &recorded.case;
    let mut words = vec![
        case.ask.word().to_string(),
        recorded.judge.word().to_string(),
        hex(&case.records),
        hex(&case.pool),
    ];
    words.extend(ask_words(&case.ask));
    words.push("=".into());
    words.extend(answer_words(&recorded.answer));
    words.join(" ")
}

fn ask_words(ask: &Ask) -> Vec<String> {
    match ask {
        Ask::Update {
            identifiers,
            last_id,
            version,
            deletions,
            additions,
            added_records,
            edits,
            request_pool,
            out_records,
            out_names,
        } => {
            let mut words = vec![
                hex(identifiers),
                (*last_id as u32).to_string(),
                hex(deletions),
                hex(additions),
                hex(added_records),
                hex(request_pool),
                out_records.to_string(),
                out_names.to_string(),
            ];
            // last, so that a line from before 02's 5/13 or 6/13 is read as it was
            if !edits.is_empty() || *version != USUAL_VERSION {
                words.push(hex(edits));
            }
            if *version != USUAL_VERSION {
                words.push(version.to_string());
            }
            words
        }
        Ask::Prune { selected, full, out_records, out_names } => {
            vec![hex(selected), full.to_string(), out_records.to_string(), out_names.to_string()]
        }
        Ask::Renumber { identifiers, start, out_records, out_names, out_identifiers } => vec![
            hex(identifiers),
            (*start as u32).to_string(),
            out_records.to_string(),
            out_names.to_string(),
            out_identifiers.to_string(),
        ],
        Ask::Name(name) | Ask::Folded(name) => vec![hex(name)],
        Ask::Id(id) | Ask::Parent(id) => vec![(*id as u32).to_string()],
        Ask::Ids { ids, out_slots } => vec![hex(ids), out_slots.to_string()],
        Ask::List => vec![],
    }
}

fn answer_words(answer: &Answer) -> Vec<String> {
    match answer {
        Answer::Refused(r) => {
            vec!["refused".into(), r.number.to_string(), r.list.to_string(), r.place.to_string()]
        }
        Answer::Updated { records, names, last_id, visited } => vec![
            "ok".into(),
            hex(records),
            hex(names),
            (*last_id as u32).to_string(),
            visited.to_string(),
        ],
        Answer::Pruned { records, names } => vec!["ok".into(), hex(records), hex(names)],
        Answer::Renumbered { records, names, identifiers } => {
            vec!["ok".into(), hex(records), hex(names), hex(identifiers)]
        }
        Answer::Found { id, slot } => {
            vec!["found".into(), (*id as u32).to_string(), slot.to_string()]
        }
        Answer::Nothing => vec!["nothing".into()],
        Answer::Searched { slots, found } => vec!["ok".into(), hex(slots), found.to_string()],
        Answer::Listed(text) => vec!["ok".into(), hex(text)],
    }
}

/// The words of a line, taken one after the other.
struct Words<'a>(std::str::Split<'a, char>);

impl Words<'_> {
    fn word(&mut self) -> Result<&str, String> {
        self.0.next().ok_or("the line ends early".into())
    }
    fn bytes(&mut self) -> Result<Vec<u8>, String> {
        unhex(self.word()?)
    }
    fn number(&mut self) -> Result<u32, String> {
        let word = self.word()?;
        word.parse().map_err(|_| format!("no number: {word}"))
    }
    fn id(&mut self) -> Result<i32, String> {
        Ok(self.number()? as i32)
    }
    fn size(&mut self) -> Result<usize, String> {
        Ok(self.number()? as usize)
    }
    /// Do the inputs end here?
    fn at_the_sign(&self) -> bool {
        self.0.clone().next() == Some("=")
    }
    /// The edits and the version, which are left out where they say nothing.
    fn edits_and_version(&mut self) -> Result<(Vec<u8>, u32), String> {
        if self.at_the_sign() {
            return Ok((vec![], USUAL_VERSION));
        }
        let edits = self.bytes()?;
        match self.at_the_sign() {
            true if edits.is_empty() => Err("edits that are none".into()),
            true => Ok((edits, USUAL_VERSION)),
            false => match self.number()? {
                USUAL_VERSION => Err("a version that is the usual one".into()),
                version => Ok((edits, version)),
            },
        }
    }
}

/// The case, judge and answer of a line.
pub fn read_line(line: &str) -> Result<Recorded, String> {
    let mut words = Words(line.split(' '));
    let operation = words.word()?.to_string();
    let judge = match words.word()? {
        "paper" => Judge::Paper,
        "both" => Judge::Both,
        other => return Err(format!("no judge: {other}")),
    };
    let (records, pool) = (words.bytes()?, words.bytes()?);
    let ask = read_ask(&operation, &mut words)?;
    if words.word()? != "=" {
        return Err("`=` is missing".into());
    }
    let answer = read_answer(&ask, &mut words)?;
    match words.0.next() {
        None => Ok(Recorded { case: Case { records, pool, ask }, judge, answer }),
        Some(more) => Err(format!("the line goes on: {more}")),
    }
}

fn read_ask(operation: &str, words: &mut Words) -> Result<Ask, String> {
    Ok(match operation {
        "update" => {
            let (identifiers, last_id) = (words.bytes()?, words.id()?);
            let (deletions, additions) = (words.bytes()?, words.bytes()?);
            let (added_records, request_pool) = (words.bytes()?, words.bytes()?);
            let (out_records, out_names) = (words.size()?, words.size()?);
            let (edits, version) = words.edits_and_version()?;
            Ask::Update {
                identifiers,
                last_id,
                version,
                deletions,
                additions,
                added_records,
                edits,
                request_pool,
                out_records,
                out_names,
            }
        }
        "prune" => Ask::Prune {
            selected: words.bytes()?,
            full: words.number()?,
            out_records: words.size()?,
            out_names: words.size()?,
        },
        "renumber" => Ask::Renumber {
            identifiers: words.bytes()?,
            start: words.id()?,
            out_records: words.size()?,
            out_names: words.size()?,
            out_identifiers: words.size()?,
        },
        "name" => Ask::Name(words.bytes()?),
        "folded" => Ask::Folded(words.bytes()?),
        "id" => Ask::Id(words.id()?),
        "ids" => Ask::Ids { ids: words.bytes()?, out_slots: words.size()? },
        "parent" => Ask::Parent(words.id()?),
        "list" => Ask::List,
        other => return Err(format!("no operation: {other}")),
    })
}

fn read_answer(ask: &Ask, words: &mut Words) -> Result<Answer, String> {
    let first = words.word()?.to_string();
    Ok(match (first.as_str(), ask) {
        ("refused", _) => Answer::Refused(Refusal {
            number: words.number()?,
            list: words.number()?,
            place: words.number()?,
        }),
        ("ok", Ask::Update { .. }) => Answer::Updated {
            records: words.bytes()?,
            names: words.bytes()?,
            last_id: words.id()?,
            visited: words.number()?,
        },
        ("ok", Ask::Prune { .. }) => {
            Answer::Pruned { records: words.bytes()?, names: words.bytes()? }
        }
        ("ok", Ask::Renumber { .. }) => Answer::Renumbered {
            records: words.bytes()?,
            names: words.bytes()?,
            identifiers: words.bytes()?,
        },
        ("ok", Ask::Ids { .. }) => {
            Answer::Searched { slots: words.bytes()?, found: words.number()? }
        }
        ("ok", Ask::List) => Answer::Listed(words.bytes()?),
        ("found", Ask::Name(_) | Ask::Folded(_) | Ask::Id(_) | Ask::Parent(_)) => {
            Answer::Found { id: words.id()?, slot: words.number()? }
        }
        ("nothing", Ask::Name(_) | Ask::Folded(_) | Ask::Id(_) | Ask::Parent(_)) => Answer::Nothing,
        (other, _) => return Err(format!("no answer of this operation: {other}")),
    })
}

/// The lines of a recorded list with their line numbers from 1; `#` lines are left out.
pub fn read_recorded(text: &str) -> Result<Vec<(usize, Recorded)>, String> {
    text.lines()
        .enumerate()
        .filter(|(_, line)| !line.starts_with('#'))
        .map(|(at, line)| match read_line(line) {
            Ok(recorded) => Ok((at + 1, recorded)),
            Err(why) => Err(format!("line {}: {why}", at + 1)),
        })
        .collect()
}
