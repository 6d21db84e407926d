//! The depth of a refusal against the lists that are counted from the bytes alone.

use crate::report::{count_answer, Difference};
use second_reader::depths::{counted, number};

/// What the product answers for a list that begins at `front` of the bytes: its error, or 0,
/// the offset of the fault and its depth.
pub struct Answer<'a> {
    pub bytes: &'a [u8],
    pub front: u64,
    pub error: u64,
    pub offset: u64,
    pub depth: u64,
}

/// Counts an answer that is the right one, and counts the depth of a refusal from the bytes alone.
pub fn compare(
    of: &'static str,
    answer: &Answer,
    case: impl FnOnce() -> Vec<(&'static str, String)>,
) -> Result<(), Difference> {
    let Answer { bytes, front, error, offset, depth } = *answer;
    count_answer(of, number(error, depth));
    if error == 0 {
        return Ok(());
    }
    match counted(bytes, front, error, offset) {
        Some(open) if open == depth => Ok(()),
        open => Err(Difference {
            case: case(),
            input: None,
            side: "the count",
            expected: open.map_or("no item begins there".into(), |open| format!("depth {open}")),
            found: format!("{error} at {offset} depth {depth}"),
        }),
    }
}
