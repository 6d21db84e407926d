//! `cinder_packet_decode` against the second reader.

use crate::buffers::{exact, patterned, put, Outcome, DEFINITION};
use crate::report::{count_answer, hex, Answers, Difference, Section, READER};
use archive::{packet_decode, PacketResult};
use second_reader::calls::sized;
use second_reader::packet::{self, PACKET_ROOM};
use second_reader::random::Random;
use second_reader::{definition, generate, Error};

pub const SECTION: Section = Section {
    name: "packet",
    progress: 10_000,
    answers: &[Answers { of: "packet_decode", numbers: &[0, 1, 2, 3, 4, 5, 6, 7, 8, 20] }],
    enumerated,
    random: random_case,
};

/// An answer in the form of the C call.
fn result(answer: Result<usize, Error>) -> PacketResult {
    let [error, consumed] = sized(answer);
    PacketResult { error, consumed }
}

fn by_definition(bytes: &[u8], message: &mut [u8]) -> Result<usize, Error> {
    if message.len() < PACKET_ROOM {
        return Err(Error::BufferTooSmall);
    }
    let (consumed, read) = definition::packet::read(bytes)?;
    put(message, &read);
    Ok(consumed)
}

fn check(bytes: Vec<u8>, message_length: usize, pattern: u64) -> Result<(), Difference> {
    let bytes = exact(bytes);
    let lent = || [patterned(message_length, pattern)];
    let found = Outcome::of(lent(), |[message]| packet_decode(&bytes, message));
    let reader = Outcome::of(lent(), |[message]| result(packet::decode(&bytes, message)));
    let defined = Outcome::of(lent(), |[message]| result(by_definition(&bytes, message)));
    count_answer("packet_decode", defined.answer.error);
    let case = || {
        vec![
            ("bytes", hex(&bytes)),
            ("message length", message_length.to_string()),
            ("pattern seed", pattern.to_string()),
        ]
    };
    defined.owed(DEFINITION, &found, ["message"], case)?;
    reader.owed(READER, &found, ["message"], case)
}

fn random_case(random: &mut Random) -> Result<u64, Difference> {
    let bytes = generate::packet::any(random);
    let message_length = generate::buffer_length(random, PACKET_ROOM);
    check(bytes, message_length, random.next())?;
    Ok(1)
}

/// Every type with every payload length it allows: whole into buffers of each size,
/// cut at every byte, each byte changed or 0, and every length byte.
fn enumerated() -> Result<u64, Difference> {
    let mut random = Random::new(0);
    let mut checks = 0;
    for (packet_type, low, high) in generate::packet::TYPES {
        for length in low..=high {
            let payload = generate::packet::payload(&mut random, length);
            let message = generate::packet::message_of(packet_type, &payload);
            let packet = generate::packet::packet_of(&message);
            checks += whole(&packet)?;
            checks += changed(&packet)?;
        }
    }
    for packet_type in 0..=255 {
        for length in 0..=251 {
            let payload = generate::packet::payload(&mut random, length);
            let message = generate::packet::message_of(packet_type, &payload);
            check(generate::packet::packet_of(&message), PACKET_ROOM, random.next())?;
            checks += 1;
        }
    }
    Ok(checks)
}

/// The packet itself and cut short, into buffers of each size.
fn whole(packet: &[u8]) -> Result<u64, Difference> {
    let mut checks = 0;
    for message_length in [0, 1, PACKET_ROOM - 1, PACKET_ROOM, PACKET_ROOM + 1, 300] {
        check(packet.to_vec(), message_length, checks)?;
        let mut longer = packet.to_vec();
        longer.extend([0, 4, 2, 1, 2, 1]);
        check(longer, message_length, checks)?;
        checks += 2;
    }
    for length in 0..packet.len() {
        check(packet[..length].to_vec(), PACKET_ROOM, checks)?;
        checks += 1;
    }
    Ok(checks)
}

/// The packet with one byte changed, and with every other length byte.
fn changed(packet: &[u8]) -> Result<u64, Difference> {
    let mut checks = 0;
    for at in 0..packet.len() {
        let old = packet[at];
        for value in [0, 1, 2, 255, old ^ 1, old ^ 0x80, old.wrapping_add(1), old.wrapping_sub(1)] {
            let mut bytes = packet.to_vec();
            bytes[at] = value;
            check(bytes, PACKET_ROOM, checks)?;
            checks += 1;
        }
    }
    for length in 0..=255 {
        let mut bytes = packet.to_vec();
        bytes[1] = length;
        check(bytes.clone(), PACKET_ROOM, checks)?;
        bytes.extend([1; 8]);
        check(bytes, PACKET_ROOM, checks)?;
        checks += 2;
    }
    Ok(checks)
}
