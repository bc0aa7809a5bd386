//! The page about refusals, part by part.

use braidhurdle::RefusalKind;

const PAGE: &str = include_str!("../../../docs/REFUSALS.md");
/// Each refusal has one part, with a heading of this form.
const HEADING: &str = "## Refusal ";

/// What the page says of a refusal, or a line of each.
pub fn told(number: Option<u32>) -> String {
    match number {
        Some(number) => format!("Refusal {}\n", part(number).trim_end()),
        None => {
            RefusalKind::ALL.iter().map(|kind| format!("{}: {kind}\n", kind.number())).collect()
        }
    }
}

/// The paragraph on what to do about a refusal.
pub fn cure(number: u32) -> &'static str {
    part(number)
        .split("\n\n")
        .find(|part| part.starts_with("Cure: "))
        .unwrap_or_default()
        .trim_end()
}

/// The part of a refusal, from its number on.
fn part(number: u32) -> &'static str {
    let heading = format!("{number}\n");
    PAGE.split(HEADING).find(|part| part.starts_with(&heading)).unwrap_or_default()
}
