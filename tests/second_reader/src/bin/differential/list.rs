//! `cinder_list_decode` against the second reader.

use crate::buffers::{exact, Outcome};
use crate::lists::{by_definition, compare, lent, result, DEPTHS, NUMBERS};
use crate::report::{count_answer, Answers, Difference, Section};
use archive::list_decode;
use second_reader::generate::{buffer_length, list};
use second_reader::list::{decode, numbers, Decoded, ListError, LIST_LIMIT, ROWS_ROOM, STORE_ROOM};
use second_reader::random::Random;
use second_reader::Error;

pub const SECTION: Section = Section {
    name: "list",
    progress: 10_000,
    answers: &[
        Answers { of: "list_decode", numbers: NUMBERS },
        Answers { of: "list_decode's depths", numbers: DEPTHS },
    ],
    enumerated,
    random: random_case,
};

fn defined(bytes: &[u8], rows: &mut [u8], store: &mut [u8]) -> Result<Decoded, ListError> {
    if rows.len() < ROWS_ROOM || store.len() < STORE_ROOM {
        return Err(ListError::outside(Error::BufferTooSmall, 0));
    }
    by_definition(bytes, rows, store)
}

fn check(bytes: Vec<u8>, rows: usize, store: usize, pattern: u64) -> Result<(), Difference> {
    let bytes = exact(bytes);
    let lent = || lent((rows, store), pattern);
    let found = Outcome::of(lent(), |[rows, store]| list_decode(&bytes, rows, store));
    let reader = Outcome::of(lent(), |[rows, store]| result(numbers(decode(&bytes, rows, store))));
    let defined =
        Outcome::of(lent(), |[rows, store]| result(numbers(defined(&bytes, rows, store))));
    count_answer("list_decode", defined.answer.error);
    compare("list_decode's depths", &bytes, None, pattern, [&defined, &reader, &found])
}

fn random_case(random: &mut Random) -> Result<u64, Difference> {
    let bytes = list::any(random);
    // Most buffers are large enough, or else most answers would be 20.
    let (rows, store) = match random.below(8) {
        0 => (buffer_length(random, ROWS_ROOM), STORE_ROOM),
        1 => (ROWS_ROOM, buffer_length(random, STORE_ROOM)),
        2 => (buffer_length(random, ROWS_ROOM), buffer_length(random, STORE_ROOM)),
        _ => (ROWS_ROOM, STORE_ROOM),
    };
    check(bytes, rows, store, random.next())?;
    Ok(1)
}

/// Numbers that are put over each four bytes of a list in turn.
const WORDS: [u32; 19] = [
    0,
    1,
    2,
    4,
    9,
    10,
    12,
    255,
    256,
    257,
    260,
    265,
    266,
    268,
    512,
    4096,
    0x7fff_ffff,
    0x8000_0000,
    0xffff_ffff,
];

/// A few hundred lists of every shape: buffers of each size, cut at every byte, each
/// byte changed, each four bytes replaced by a number. Then faults at every depth.
fn enumerated() -> Result<u64, Difference> {
    let mut random = Random::new(0);
    let mut checks = 0;
    for number in 0..200 {
        let elements = match number % 8 {
            0 => list::nested(&mut random, 8),
            1 => list::nested(&mut random, 9),
            _ => list::tree(&mut random, 8, 300),
        };
        let bytes = list::image(&elements);
        checks += whole(&bytes)?;
        checks += changed(&bytes)?;
    }
    for _ in 0..8 {
        let bytes = list::image(&list::around_the_limit(&mut random));
        for length in 0..bytes.len() {
            check(bytes[..length].to_vec(), ROWS_ROOM, STORE_ROOM, checks)?;
            checks += 1;
        }
    }
    Ok(checks + depths()?)
}

/// A fault for every error at every depth; and a list of every kind at every depth, whole and
/// changed as the others are, each list in it misformed, and moved so that the limit falls on
/// each of its bytes.
fn depths() -> Result<u64, Difference> {
    let elements = list::at_every_depth();
    let bytes = list::image(&elements);
    let mut cases = list::faults();
    cases.extend((0..list::lists_in(&elements)).map(|at| list::misformed_image(&elements, at)));
    cases.extend((0..=bytes.len()).map(|at| list::behind_blob(LIST_LIMIT - at, &bytes)));
    let mut checks = whole(&bytes)? + changed(&bytes)?;
    for case in cases {
        check(case, ROWS_ROOM, STORE_ROOM, checks)?;
        checks += 1;
    }
    Ok(checks)
}

/// The list into buffers of each size, and cut at every byte.
fn whole(bytes: &[u8]) -> Result<u64, Difference> {
    let mut checks = 0;
    for rows in [0, 1, ROWS_ROOM - 12, ROWS_ROOM - 1, ROWS_ROOM, ROWS_ROOM + 1, ROWS_ROOM + 12] {
        for store in [0, 1, STORE_ROOM - 1, STORE_ROOM, STORE_ROOM + 1, STORE_ROOM + 100] {
            check(bytes.to_vec(), rows, store, checks)?;
            checks += 1;
        }
    }
    for length in 0..bytes.len() {
        check(bytes[..length].to_vec(), ROWS_ROOM, STORE_ROOM, checks)?;
        checks += 1;
    }
    Ok(checks)
}

fn changed(bytes: &[u8]) -> Result<u64, Difference> {
    let mut checks = 0;
    for at in 0..bytes.len() {
        for value in [0, 1, 0xff, bytes[at] ^ 1, bytes[at] ^ 0x80] {
            let mut other = bytes.to_vec();
            other[at] = value;
            check(other, ROWS_ROOM, STORE_ROOM, checks)?;
            checks += 1;
        }
    }
    for at in 0..bytes.len().saturating_sub(3) {
        for word in WORDS {
            let mut other = bytes.to_vec();
            other[at..at + 4].copy_from_slice(&word.to_le_bytes());
            check(other, ROWS_ROOM, STORE_ROOM, checks)?;
            checks += 1;
        }
    }
    Ok(checks)
}
