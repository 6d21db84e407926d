//! A stream of lists, read one at a time, and the output of the programs run and show.

use crate::list::{self, Decoded, ListError, ROWS_ROOM, ROW_BYTES, STORE_ROOM};
use crate::text::{self, TEXT_ROOM};
use crate::Error;
use std::fmt::Write;

/// The most bytes that the programs run and show read.
pub const RUN_LIMIT: usize = 32_768;

/// The answer of one step that is no error.
#[derive(Clone, Copy, PartialEq, Eq, Debug)]
pub enum Step {
    End,
    List(Decoded),
}

/// The step's numbers as the C call answers them: at the end all are 0.
pub fn numbers(step: Result<Step, ListError>) -> [u64; 6] {
    list::numbers(step.map(|step| match step {
        Step::End => Decoded { consumed: 0, rows: 0, stored: 0 },
        Step::List(decoded) => decoded,
    }))
}

/// Reads the list at `offset`; offsets of errors count from the stream's front. At
/// the stream's end nothing is written.
pub fn next(
    bytes: &[u8],
    offset: u64,
    rows: &mut [u8],
    store: &mut [u8],
) -> Result<Step, ListError> {
    if rows.len() < ROWS_ROOM || store.len() < STORE_ROOM {
        return Err(ListError::outside(Error::BufferTooSmall, 0));
    }
    let length = bytes.len() as u64;
    if offset > length {
        return Err(ListError::outside(Error::ListEnds, offset));
    }
    if offset == length {
        return Ok(Step::End);
    }
    match list::decode(&bytes[offset as usize..], rows, store) {
        Ok(decoded) => Ok(Step::List(decoded)),
        Err(fault) => Err(ListError { offset: offset + fault.offset, ..fault }),
    }
}

/// What the run program prints for this standard input.
pub fn run_output(input: &[u8]) -> String {
    let mut number = 0;
    lines_of(input, |Decoded { consumed, rows, .. }, _, _| {
        number += 1;
        format!("list {number} bytes {consumed} rows {rows}")
    })
}

/// What the show program prints for this standard input.
pub fn show_output(input: &[u8]) -> String {
    let mut text = [0; TEXT_ROOM];
    lines_of(input, |_, rows, store| match text::encode(rows, store, &mut text) {
        Ok(length) => String::from_utf8_lossy(&text[..length]).into_owned(),
        Err(error) => format!("refused {}", error.number()),
    })
}

/// A line for each list of the stream, from its sizes, its rows and its store, and a last
/// one that says where the stream ends or stops.
fn lines_of(input: &[u8], mut line: impl FnMut(Decoded, &[u8], &[u8]) -> String) -> String {
    if input.len() > RUN_LIMIT {
        return String::from("too long\n");
    }
    let mut rows = [0; ROWS_ROOM];
    let mut store = [0; STORE_ROOM];
    let mut output = String::new();
    let mut offset = 0;
    loop {
        match next(input, offset, &mut rows, &mut store) {
            Ok(Step::List(decoded)) => {
                let of_list = (&rows[..ROW_BYTES * decoded.rows], &store[..decoded.stored]);
                output += &line(decoded, of_list.0, of_list.1);
                output.push('\n');
                offset += decoded.consumed as u64;
            }
            Ok(Step::End) => {
                let _ = writeln!(output, "end {offset}");
                break;
            }
            Err(ListError { error, offset, depth }) => {
                let _ = writeln!(output, "stop {} at {offset} depth {depth}", error.number());
                break;
            }
        }
    }
    output
}
