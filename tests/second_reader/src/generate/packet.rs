//! Packets built by COBS's definition: the message cut at its zeros.

use super::damage;
use crate::packet::{ACK, DEVICE_DATA, DEVICE_WRITE, LOG, PAYLOAD_LIMIT, PING};
use crate::random::Random;

/// Each type with its lowest and highest payload length.
pub const TYPES: [(u8, usize, usize); 5] =
    [(PING, 0, 0), (ACK, 10, 10), (DEVICE_WRITE, 4, 132), (DEVICE_DATA, 4, 132), (LOG, 0, 251)];

/// Type, payload length, payload and the exclusive or of them all.
pub fn message_of(packet_type: u8, payload: &[u8]) -> Vec<u8> {
    let mut message = vec![packet_type, payload.len() as u8];
    message.extend(payload);
    message.push(message.iter().fold(0, |sum, byte| sum ^ byte));
    message
}

/// 00, L and one block for each part of the message between zeros. The message has
/// at most 254 bytes; nothing else is asked of it, so it may be a bad one.
pub fn packet_of(message: &[u8]) -> Vec<u8> {
    let mut packet = vec![0, message.len() as u8 + 1];
    for part in message.split(|&byte| byte == 0) {
        packet.push(part.len() as u8 + 1);
        packet.extend(part);
    }
    packet
}

/// Payload bytes with no zeros, some, or nothing else.
pub fn payload(random: &mut Random, length: usize) -> Vec<u8> {
    let mut payload = random.bytes(length);
    match random.below(4) {
        0 => payload.iter_mut().for_each(|byte| *byte |= 1),
        1 => payload.fill(0),
        2 => payload.iter_mut().for_each(|byte| *byte &= 1),
        _ => {}
    }
    payload
}

fn payload_length(random: &mut Random, low: usize, high: usize) -> usize {
    match random.below(4) {
        0 => low,
        1 => high,
        _ => random.between(low, high),
    }
}

/// A good packet of any type.
pub fn legal(random: &mut Random) -> Vec<u8> {
    let (packet_type, low, high) = random.pick(&TYPES);
    let length = payload_length(random, low, high);
    packet_of(&message_of(packet_type, &payload(random, length)))
}

/// A packet whose blocks are good and whose message is likely not: payload length,
/// checksum, type or length for the type may be wrong, several at once.
pub fn bad_message(random: &mut Random) -> Vec<u8> {
    let length = payload_length(random, 0, PAYLOAD_LIMIT);
    let packet_type = random.pick(&[0, 1, 2, 3, 4, 5, 6, 0xff]);
    let mut message = message_of(packet_type, &payload(random, length));
    let last = message.len() - 1;
    if random.once_in(3) {
        let at = random.below(message.len());
        message[at] ^= 1 << random.below(8);
    }
    if random.once_in(4) {
        let right = message[1];
        message[1] = random.pick(&[0, 1, 0xff, right.wrapping_add(1), right.wrapping_sub(1)]);
        if random.once_in(2) {
            message[last] ^= right ^ message[1];
        }
    }
    packet_of(&message)
}

/// Any encoded part behind a header that fits it or nearly so.
pub fn loose_blocks(random: &mut Random) -> Vec<u8> {
    let length = random.between(0, 258);
    let mut bytes = random.bytes(length);
    bytes.iter_mut().for_each(|byte| *byte = (*byte).max(1));
    if random.once_in(2) {
        bytes.iter_mut().for_each(|byte| *byte %= 12);
        bytes.iter_mut().for_each(|byte| *byte = (*byte).max(1));
    }
    let mut packet = vec![0, (length + random.pick(&[0, 0, 0, 1])) as u8];
    packet.append(&mut bytes);
    packet
}

/// Bytes for the packet reader: legal, damaged, followed by others, or noise.
pub fn any(random: &mut Random) -> Vec<u8> {
    let mut bytes = match random.below(12) {
        0..=4 => legal(random),
        5..=7 => bad_message(random),
        8 => loose_blocks(random),
        9 => {
            let length = random.below(300);
            random.bytes(length)
        }
        _ => {
            let mut damaged = legal(random);
            for _ in 0..random.between(1, 3) {
                damage(random, &mut damaged);
            }
            damaged
        }
    };
    if random.once_in(4) {
        let length = random.between(1, 300);
        bytes.extend(random.bytes(length));
    }
    bytes
}
