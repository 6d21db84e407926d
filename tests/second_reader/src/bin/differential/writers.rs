//! `cinder_packet_encode` and `cinder_list_encode` against the second reader.

use crate::buffers::{exact, patterned, put, Outcome, DEFINITION};
use crate::report::{count_answer, hex, Answers, Difference, Section, READER};
use archive::{list_encode, packet_encode, WriteResult};
use second_reader::calls::sized;
use second_reader::generate::writers::{any_list, any_packet, bytes_of, changed_rows, packets};
use second_reader::generate::{buffer_length, list};
use second_reader::list::{encode as encode_list, LIST_LIMIT, ROW_BYTES};
use second_reader::packet::{encode as encode_packet, PACKET_ROOM};
use second_reader::random::Random;
use second_reader::{definition, Error};

pub const SECTION: Section = Section {
    name: "writers",
    progress: 10_000,
    answers: &[
        Answers { of: "packet_encode", numbers: &[0, 8, 20] },
        Answers { of: "list_encode", numbers: &[0, 20, 27, 28, 30] },
    ],
    enumerated,
    random: random_case,
};

/// An answer in the form of the C calls.
fn result(answer: Result<usize, Error>) -> WriteResult {
    let [error, written] = sized(answer);
    WriteResult { error, written }
}

/// Puts what the definition gives to the front of a buffer that must have some room.
fn defined(
    buffer: &mut [u8],
    room: usize,
    bytes: impl FnOnce() -> Result<Vec<u8>, Error>,
) -> WriteResult {
    if buffer.len() < room {
        return result(Err(Error::BufferTooSmall));
    }
    result(bytes().map(|bytes| put(buffer, &bytes)))
}

fn check_packet(
    packet_type: u64,
    payload: Vec<u8>,
    length: usize,
    pattern: u64,
) -> Result<u64, Difference> {
    let payload = exact(payload);
    let lent = || [patterned(length, pattern)];
    let found = Outcome::of(lent(), |[packet]| packet_encode(packet_type, &payload, packet));
    let reader =
        Outcome::of(lent(), |[packet]| result(encode_packet(packet_type, &payload, packet)));
    let defined = Outcome::of(lent(), |[packet]| {
        defined(packet, PACKET_ROOM, || definition::packet::write(packet_type, &payload))
    });
    count_answer("packet_encode", defined.answer.error);
    let case = || {
        vec![
            ("type", packet_type.to_string()),
            ("payload", hex(&payload)),
            ("packet length", length.to_string()),
            ("pattern seed", pattern.to_string()),
        ]
    };
    defined.owed(DEFINITION, &found, ["packet"], case)?;
    reader.owed(READER, &found, ["packet"], case)?;
    Ok(1)
}

fn check_list(
    rows: Vec<u8>,
    store: Vec<u8>,
    length: usize,
    pattern: u64,
) -> Result<u64, Difference> {
    let rows = exact(rows);
    let store = exact(store);
    let lent = || [patterned(length, pattern)];
    let found = Outcome::of(lent(), |[list]| list_encode(&rows, &store, list));
    let reader = Outcome::of(lent(), |[list]| result(encode_list(&rows, &store, list)));
    let defined = Outcome::of(lent(), |[list]| {
        defined(list, LIST_LIMIT, || definition::list::write(&rows, &store))
    });
    count_answer("list_encode", defined.answer.error);
    let case = || {
        vec![
            ("rows", hex(&rows)),
            ("store", hex(&store)),
            ("list length", length.to_string()),
            ("pattern seed", pattern.to_string()),
        ]
    };
    defined.owed(DEFINITION, &found, ["list"], case)?;
    reader.owed(READER, &found, ["list"], case)?;
    Ok(1)
}

fn random_case(random: &mut Random) -> Result<u64, Difference> {
    if random.once_in(3) {
        let (packet_type, payload) = any_packet(random);
        let length = buffer_length(random, PACKET_ROOM);
        return check_packet(packet_type, payload, length, random.next());
    }
    let (rows, store) = any_list(random);
    let length = buffer_length(random, LIST_LIMIT);
    check_list(rows, store, length, random.next())
}

/// Every packet into buffers of each size; lists of every shape into buffers of each size,
/// their rows cut at every byte or followed by a few more, each row left out and each number
/// changed; and lists that are too deep or too long.
fn enumerated() -> Result<u64, Difference> {
    let mut checks = 0;
    for length in [0, PACKET_ROOM - 1, PACKET_ROOM, PACKET_ROOM + 1] {
        for (packet_type, payload) in packets() {
            checks += check_packet(packet_type, payload, length, checks)?;
        }
    }
    let mut random = Random::new(0);
    for number in 0..60 {
        let elements = match number % 6 {
            0 => list::nested(&mut random, 8),
            1 => list::nested(&mut random, 9),
            _ => list::tree(&mut random, 8, 120),
        };
        let (rows, store) = list::rows_and_store(&elements);
        let size = list::image(&elements).len();
        for length in [0, size.saturating_sub(1), size, LIST_LIMIT - 1, LIST_LIMIT, LIST_LIMIT + 9]
        {
            checks += check_list(bytes_of(&rows), store.clone(), length, checks)?;
        }
        for there in 0..4 * rows.len() + ROW_BYTES {
            let mut other = bytes_of(&rows);
            other.resize(there, 0);
            checks += check_list(other, store.clone(), LIST_LIMIT, checks)?;
        }
        for changed in changed_rows(&rows) {
            checks += check_list(bytes_of(&changed), store.clone(), LIST_LIMIT, checks)?;
        }
    }
    for _ in 0..60 {
        let (rows, store) = list::rows_and_store(&list::around_the_limit(&mut random));
        checks += check_list(bytes_of(&rows), store, LIST_LIMIT, checks)?;
    }
    Ok(checks)
}
