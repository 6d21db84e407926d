//! `cinder_stream_next` against the second reader: single steps from any offset, and
//! whole series of steps from the front.

use crate::buffers::{exact, Outcome};
use crate::lists::{by_definition, compare, lent, result, DEPTHS, NUMBERS};
use crate::report::{count_answer, Answers, Difference, Section};
use archive::stream_next;
use second_reader::depths::number;
use second_reader::generate::{buffer_length, list, stream as generate};
use second_reader::list::{ListError, ROWS_ROOM, STORE_ROOM};
use second_reader::random::Random;
use second_reader::stream::{next, numbers, Step};
use second_reader::Error;

pub const SECTION: Section = Section {
    name: "stream",
    progress: 5_000,
    answers: &[
        Answers { of: "stream_next", numbers: NUMBERS },
        Answers { of: "stream_next's depths", numbers: DEPTHS },
        Answers { of: "stream_next's depths past the end", numbers: PAST_END },
    ],
    enumerated,
    random: random_case,
};

/// 20 and 21 with their depths.
const PAST_END: &[u64] = &[number(20, 0), number(21, 0)];

/// Steps of one series at most, and how many of them may consume nothing.
const STEPS: u64 = 40;
const IDLE_STEPS: u64 = 5;

/// A step by the definition of a list: the bytes from the offset on, alone.
fn defined(
    bytes: &[u8],
    offset: u64,
    rows: &mut [u8],
    store: &mut [u8],
) -> Result<Step, ListError> {
    if rows.len() < ROWS_ROOM || store.len() < STORE_ROOM {
        return Err(ListError::outside(Error::BufferTooSmall, 0));
    }
    let from = usize::try_from(offset).ok().and_then(|offset| bytes.get(offset..));
    match from {
        None => Err(ListError::outside(Error::ListEnds, offset)),
        Some([]) => Ok(Step::End),
        Some(alone) => match by_definition(alone, rows, store) {
            Ok(decoded) => Ok(Step::List(decoded)),
            Err(fault) => Err(ListError { offset: offset + fault.offset, ..fault }),
        },
    }
}

/// One step; answers the bytes consumed.
fn check(
    bytes: &[u8],
    offset: u64,
    lengths: (usize, usize),
    pattern: u64,
) -> Result<u64, Difference> {
    let lent = || lent(lengths, pattern);
    let found = Outcome::of(lent(), |[rows, store]| stream_next(bytes, offset, rows, store));
    let reader =
        Outcome::of(lent(), |[rows, store]| result(numbers(next(bytes, offset, rows, store))));
    let defined =
        Outcome::of(lent(), |[rows, store]| result(numbers(defined(bytes, offset, rows, store))));
    count_answer("stream_next", defined.answer.error);
    let past_end = offset > bytes.len() as u64;
    let depths_of =
        if past_end { "stream_next's depths past the end" } else { "stream_next's depths" };
    compare(depths_of, bytes, Some(offset), pattern, [&defined, &reader, &found])?;
    Ok(defined.answer.consumed)
}

fn lengths(random: &mut Random) -> (usize, usize) {
    match random.below(6) {
        0 => (buffer_length(random, ROWS_ROOM), STORE_ROOM),
        1 => (ROWS_ROOM, buffer_length(random, STORE_ROOM)),
        _ => (ROWS_ROOM, STORE_ROOM),
    }
}

fn random_case(random: &mut Random) -> Result<u64, Difference> {
    let bytes = exact(generate::any(random));
    if random.once_in(2) {
        let offset = generate::offset(random, bytes.len());
        let lent = lengths(random);
        check(&bytes, offset, lent, random.next())?;
        return Ok(1);
    }
    series(random, &bytes)
}

/// Steps from the front on; answers how many.
fn series(random: &mut Random, bytes: &[u8]) -> Result<u64, Difference> {
    let mut offset = 0;
    let mut idle = 0;
    let mut steps = 0;
    while steps < STEPS && idle < IDLE_STEPS {
        let lent = lengths(random);
        let consumed = check(bytes, offset, lent, random.next())?;
        offset += consumed;
        idle += u64::from(consumed == 0);
        steps += 1;
    }
    Ok(steps)
}

/// A short stream from every offset, a few past its end and the largest; the series of a few
/// hundred streams of every kind; and a list with a fault at every depth behind another.
fn enumerated() -> Result<u64, Difference> {
    let mut random = Random::new(0);
    let mut checks = 0;
    for _ in 0..400 {
        let bytes = exact(generate::any(&mut random));
        checks += series(&mut random, &bytes)?;
    }
    let first = list::image(&list::at_every_depth());
    for fault in list::faults() {
        let bytes = exact([&first[..], &fault].concat());
        check(&bytes, first.len() as u64, (ROWS_ROOM, STORE_ROOM), checks)?;
        checks += 1;
    }
    for _ in 0..20 {
        let mut stream = generate::lists(&mut random);
        stream.truncate(600);
        let bytes = exact(stream);
        let end = bytes.len() as u64;
        for offset in (0..=end + 20).chain([1 << 32, (1 << 32) + end, 1 << 63, u64::MAX]) {
            for lent in [(ROWS_ROOM, STORE_ROOM), (ROWS_ROOM - 1, STORE_ROOM), (ROWS_ROOM, 0)] {
                check(&bytes, offset, lent, checks)?;
                checks += 1;
            }
        }
    }
    Ok(checks)
}
