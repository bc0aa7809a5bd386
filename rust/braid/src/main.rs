//! Schema trees for people: lists, checks, finds, prunes, renumbers, updates and makes them, as
//! files. Every answer is the proved library's.

mod arguments;
mod changes;
mod commands;
mod edits;
mod explain;
mod identifiers;
mod last;
mod limits;
mod names;
mod near;
mod outline;
mod picture;
mod rules;
mod streams;
#[cfg(test)]
mod tests;
mod types;
mod words;

use std::io::{self, ErrorKind, Write};
use std::process::ExitCode;

use braidhurdle::names::printed;

/// Why there is no answer, in words.
enum Fault {
    /// A look-up found nothing.
    Nothing(String),
    /// A look-up of many found not all of them: what is said of each, in their order.
    NotAll(Vec<Result<String, String>>),
    /// The library refused.
    Refused(String),
    /// A file, a picture or an argument is not as it should be.
    Given(String),
    /// There is an answer, and nowhere to print it.
    Unsaid(String),
}

fn main() -> ExitCode {
    let answer = match arguments::given() {
        Ok(ask) if streams::no_output() && !ask.quiet() => {
            Err(Fault::Unsaid("standard output is closed; nothing is done without --quiet".into()))
        }
        Ok(ask) => commands::answer(ask),
        Err(said) if said.use_stderr() => Err(Fault::Given(said.render().to_string())),
        Err(_) if streams::no_output() => Err(Fault::Unsaid("standard output is closed".into())),
        Err(help) => Ok(help.render().to_string().into_bytes()),
    };
    match answer.and_then(|text| say(&text)) {
        Ok(()) => ExitCode::SUCCESS,
        Err(fault) => told(fault).into(),
    }
}

/// Says why there is no answer. Answers the status.
fn told(fault: Fault) -> u8 {
    let (status, why) = match fault {
        Fault::Nothing(why) => (1, why),
        Fault::NotAll(each) => return told_each(each),
        Fault::Refused(why) => (2, why),
        Fault::Given(why) => (3, why),
        Fault::Unsaid(why) => (4, why),
    };
    complain(&why);
    status
}

/// Says what was found where answers go and what was not where complaints do, line by line, so that
/// they stand in order where both are shown.
fn told_each(each: Vec<Result<String, String>>) -> u8 {
    for line in each {
        match line.map(|found| say(found.as_bytes())) {
            Ok(Ok(())) => {}
            Ok(Err(fault)) => return told(fault),
            Err(why) => complain(&why),
        }
    }
    1
}

fn complain(why: &str) {
    // clap repeats arguments as they are, and a terminal would obey them
    let lines: Vec<String> = why.trim_end().lines().map(|line| printed(line.as_bytes())).collect();
    // where nobody listens the status still tells
    let _ = writeln!(io::stderr(), "{}", lines.join("\n"));
}

/// Prints an answer. A reader that has read enough is no fault.
fn say(text: &[u8]) -> Result<(), Fault> {
    let mut out = io::stdout().lock();
    match out.write_all(text).and_then(|()| out.flush()) {
        Err(why) if why.kind() != ErrorKind::BrokenPipe => {
            Err(Fault::Unsaid(format!("standard output: {why}")))
        }
        _ => Ok(()),
    }
}
