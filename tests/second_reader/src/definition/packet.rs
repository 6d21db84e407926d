//! Packets, block by block.

use crate::generate::packet::{message_of, packet_of};
use crate::packet::payload_allowed;
use crate::Error;

/// The message of an encoded part.
fn message_by_blocks(encoded: &[u8]) -> Option<Vec<u8>> {
    let mut message = Vec::new();
    let mut rest = encoded;
    while let Some((&code, behind)) = rest.split_first() {
        let block = usize::from(code) - 1;
        if block > behind.len() {
            return None;
        }
        message.extend(&behind[..block]);
        rest = &behind[block..];
        if !rest.is_empty() {
            message.push(0);
        }
    }
    Some(message)
}

/// The bytes consumed and the message.
pub fn read(bytes: &[u8]) -> Result<(usize, Vec<u8>), Error> {
    if bytes.is_empty() {
        return Err(Error::PacketIncomplete);
    }
    if bytes[0] != 0 {
        return Err(Error::FirstByteNotZero);
    }
    if bytes.len() == 1 {
        return Err(Error::PacketIncomplete);
    }
    let length = usize::from(bytes[1]);
    if length < 4 {
        return Err(Error::LengthBelowFour);
    }
    let encoded: Vec<u8> = bytes[2..].iter().copied().take(length).collect();
    if encoded.contains(&0) {
        return Err(Error::ZeroEncoded);
    }
    if encoded.len() < length {
        return Err(Error::PacketIncomplete);
    }
    let message = message_by_blocks(&encoded).ok_or(Error::BlockPassesEnd)?;
    let (checksum, before) = message.split_last().unwrap();
    if usize::from(message[1]) != message.len() - 3 {
        return Err(Error::PayloadLength);
    }
    if before.iter().fold(0, |sum, byte| sum ^ byte) != *checksum {
        return Err(Error::Checksum);
    }
    if !payload_allowed(message[0], message.len() - 3) {
        return Err(Error::PacketType);
    }
    Ok((length + 2, message))
}

/// The packet of a type and a payload.
pub fn write(packet_type: u64, payload: &[u8]) -> Result<Vec<u8>, Error> {
    let known = u8::try_from(packet_type).ok();
    match known.filter(|&known| payload_allowed(known, payload.len())) {
        Some(known) => Ok(packet_of(&message_of(known, payload))),
        None => Err(Error::PacketType),
    }
}
