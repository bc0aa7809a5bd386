//! Operations beside the second judge, in numbers and in every byte.

use cases::{ByJudge, Case, Operations, Outcome, outcome};

use crate::guarded::Guarded;

/// Do these operations leave what the paper left? False for the lister, which is none of them.
pub fn beside<O: Operations>(
    case: &Case,
    paper: &Outcome,
    by: &Guarded<O>,
) -> Result<bool, String> {
    let Some(ours) = outcome(case, by) else { return Ok(false) };
    if let Some(stray) = by.stray() {
        return Err(format!("port: {stray}"));
    }
    if ours.numbers != paper.numbers {
        return Err(format!("port {:?}\npaper {:?}", ours.numbers, paper.numbers));
    }
    let buffers = [
        ("records", &ours.out_records, &paper.out_records),
        ("names", &ours.out_names, &paper.out_names),
        ("identifiers", &ours.out_identifiers, &paper.out_identifiers),
        ("slots", &ours.out_slots, &paper.out_slots),
    ];
    // whole buffers first, since they are long and nearly always equal
    match buffers.into_iter().find(|(_, ours, paper)| ours != paper) {
        None => Ok(true),
        Some((buffer, ours, paper)) => {
            let differ = |at: &usize| ours[*at] != paper[*at];
            let at = (0..ours.len()).find(differ).expect("the buffers have one length");
            let (o, p) = (ours[at], paper[at]);
            Err(format!("byte {at} of the {buffer}: port {o}, paper {p}"))
        }
    }
}

/// The same, with the second judge asked first.
pub fn beside_paper<O: Operations>(case: &Case, by: &Guarded<O>) -> Result<bool, String> {
    outcome(case, &ByJudge).map_or(Ok(false), |paper| beside(case, &paper, by))
}
