//! What the sections share that read lists: the areas, and the definition's outcome.

use crate::buffers::{patterned, put, Outcome, DEFINITION};
use crate::depths::{self, Answer};
use crate::report::{hex, Difference, READER};
use archive::ListResult;
use second_reader::definition;
use second_reader::depths::{count, numbers};
use second_reader::generate::writers::bytes_of;
use second_reader::list::{Decoded, ListError};

/// What the calls that read a list into areas can answer, and the same with its depths.
pub const NUMBERS: &[u64] = &[0, 20, 21, 22, 23, 24, 25, 26, 27, 28];
pub const DEPTHS: &[u64] = &numbers::<{ count(NUMBERS) }>(NUMBERS);

/// A call's answer, and what it left in rows and store.
pub type ListOutcome = Outcome<ListResult, 2>;

/// An answer of six numbers in the form of the C calls.
pub fn result([error, consumed, rows, offset, stored, depth]: [u64; 6]) -> ListResult {
    ListResult { error, consumed, rows, offset, stored, depth }
}

/// Rows and store of these lengths, holding the pattern.
pub fn lent((rows, store): (usize, usize), pattern: u64) -> [Box<[u8]>; 2] {
    [patterned(rows, pattern), patterned(store, !pattern)]
}

/// Reads by the definition into buffers that have their room.
pub fn by_definition(
    bytes: &[u8],
    rows: &mut [u8],
    store: &mut [u8],
) -> Result<Decoded, ListError> {
    let read = definition::list::read(bytes)?;
    put(rows, &bytes_of(&read.rows));
    let stored = put(store, &read.store);
    Ok(Decoded { consumed: read.consumed, rows: read.rows.len() / 3, stored })
}

/// Compares the product's outcome with the definition's and the second reader's, and its depth
/// with what is counted from the bytes alone. The depth is told under the name `depths_of`.
pub fn compare(
    depths_of: &'static str,
    bytes: &[u8],
    offset: Option<u64>,
    pattern: u64,
    [defined, reader, found]: [&ListOutcome; 3],
) -> Result<(), Difference> {
    let case = || {
        let mut case = vec![
            ("bytes", hex(bytes)),
            ("rows length", found.buffers[0].len().to_string()),
            ("store length", found.buffers[1].len().to_string()),
            ("pattern seed", pattern.to_string()),
        ];
        case.extend(offset.map(|offset| ("offset", offset.to_string())));
        case
    };
    defined.owed(DEFINITION, found, ["rows", "store"], case)?;
    reader.owed(READER, found, ["rows", "store"], case)?;
    let front = offset.unwrap_or(0);
    let ListResult { error, offset, depth, .. } = found.answer;
    depths::compare(depths_of, &Answer { bytes, front, error, offset, depth }, case)
}
