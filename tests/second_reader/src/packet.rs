//! Packets on a socket: 00, a length byte L, then L bytes of COBS blocks.
//!
//! A block is a code byte c and c-1 bytes, and every block but the last restores a
//! zero. So the message is the encoded part without its first byte, with a zero in
//! the place of each later code byte; reading and writing both rest on that.

use crate::Error;

/// The room of a packet buffer: 00, L and up to 255 encoded bytes.
pub const PACKET_ROOM: usize = 257;
/// The longest payload: 254 message bytes less type, payload length and checksum.
pub const PAYLOAD_LIMIT: usize = 251;
/// 00 and the length byte.
pub const HEADER: usize = 2;
/// The encoded part of an empty payload: code, type, payload length, checksum.
pub const ENCODED_LOWEST: usize = 4;

pub const PING: u8 = 1;
pub const ACK: u8 = 2;
pub const DEVICE_WRITE: u8 = 3;
pub const DEVICE_DATA: u8 = 4;
pub const LOG: u8 = 5;

/// Whether a packet of this type may have a payload of this length.
pub fn payload_allowed(packet_type: u8, length: usize) -> bool {
    match packet_type {
        PING => length == 0,
        ACK => length == 10,
        DEVICE_WRITE | DEVICE_DATA => (4..=132).contains(&length),
        LOG => length <= PAYLOAD_LIMIT,
        _ => false,
    }
}

/// Reads the packet at the front of `bytes` into `message` and answers the bytes
/// consumed. The message has 3 bytes fewer; nothing behind it is written.
pub fn decode(bytes: &[u8], message: &mut [u8]) -> Result<usize, Error> {
    if message.len() < PACKET_ROOM {
        return Err(Error::BufferTooSmall);
    }
    let encoded = judge(bytes)?;
    fill(encoded, &mut message[..encoded.len() - 1]);
    Ok(HEADER + encoded.len())
}

/// The encoded part of the packet at the front, once no error is left to give.
fn judge(bytes: &[u8]) -> Result<&[u8], Error> {
    match bytes.first() {
        None => return Err(Error::PacketIncomplete),
        Some(0) => {}
        Some(_) => return Err(Error::FirstByteNotZero),
    }
    let length = match bytes.get(1) {
        None => return Err(Error::PacketIncomplete),
        Some(&length) => usize::from(length),
    };
    if length < ENCODED_LOWEST {
        return Err(Error::LengthBelowFour);
    }
    let rest = &bytes[HEADER..];
    let encoded = &rest[..length.min(rest.len())];
    if encoded.contains(&0) {
        return Err(Error::ZeroEncoded);
    }
    if encoded.len() < length {
        return Err(Error::PacketIncomplete);
    }
    judge_message(encoded)?;
    Ok(encoded)
}

/// Judges blocks, payload length, checksum and type of an encoded part without zeros.
pub fn judge_message(encoded: &[u8]) -> Result<(), Error> {
    let mut codes = 0;
    let mut at = 0;
    while at < encoded.len() {
        codes ^= encoded[at];
        at += usize::from(encoded[at]);
    }
    if at != encoded.len() {
        return Err(Error::BlockPassesEnd);
    }
    // Bytes 0 and 1 of the message stand at 1 and 2 of the part, or are restored there.
    let packet_type = if encoded[0] == 1 { 0 } else { encoded[1] };
    let code_at_2 = encoded[0] == 2 || (encoded[0] == 1 && encoded[1] == 1);
    let payload_length = if code_at_2 { 0 } else { usize::from(encoded[2]) };
    if payload_length != encoded.len() - ENCODED_LOWEST {
        return Err(Error::PayloadLength);
    }
    // Restored zeros don't count, and with its checksum a good message comes to 0.
    let all = encoded.iter().fold(0, |sum, byte| sum ^ byte);
    if all != codes {
        return Err(Error::Checksum);
    }
    if !payload_allowed(packet_type, payload_length) {
        return Err(Error::PacketType);
    }
    Ok(())
}

/// Writes the message of a judged encoded part.
fn fill(encoded: &[u8], message: &mut [u8]) {
    message.copy_from_slice(&encoded[1..]);
    let mut code_at = usize::from(encoded[0]);
    while code_at < encoded.len() {
        message[code_at - 1] = 0;
        code_at += usize::from(encoded[code_at]);
    }
}

/// Writes the packet of this type and payload to the front of `packet` and answers
/// its length. Only type and payload length are judged, not what the payload says.
pub fn encode(packet_type: u64, payload: &[u8], packet: &mut [u8]) -> Result<usize, Error> {
    if packet.len() < PACKET_ROOM {
        return Err(Error::BufferTooSmall);
    }
    let packet_type = u8::try_from(packet_type).map_err(|_| Error::PacketType)?;
    if !payload_allowed(packet_type, payload.len()) {
        return Err(Error::PacketType);
    }
    let length = payload.len() + ENCODED_LOWEST;
    let payload_length = payload.len() as u8;
    let checksum = payload.iter().fold(packet_type ^ payload_length, |sum, byte| sum ^ byte);
    packet[0] = 0;
    packet[1] = length as u8;
    let encoded = &mut packet[HEADER..HEADER + length];
    encoded[1] = packet_type;
    encoded[2] = payload_length;
    encoded[3..length - 1].copy_from_slice(payload);
    encoded[length - 1] = checksum;
    let mut code_at = 0;
    for at in 1..length {
        if encoded[at] == 0 {
            encoded[code_at] = (at - code_at) as u8;
            code_at = at;
        }
    }
    encoded[code_at] = (length - code_at) as u8;
    Ok(HEADER + length)
}
