//! A socket's line: its packets put together from the scraps of bytes that arrive, and the
//! output of the program line.
//!
//! The line state keeps a packet under way as it stands in the line, 00 and length byte
//! first. One that is whole in a scrap is judged there and never kept.

use crate::packet::{decode, judge_message, ENCODED_LOWEST, HEADER, PACKET_ROOM};
use crate::Error;
use std::fmt::Write;

/// The most bytes that the program line reads.
pub const LINE_LIMIT: usize = 32_768;

/// The bytes of a line state, neither more nor fewer.
pub const LINE_ROOM: usize = 259;

/// The phases of a line.
pub const FRESH: u8 = 0;
pub const SKIPPING: u8 = 1;
/// A 00 has come and its length byte has not.
pub const LENGTH: u8 = 2;
/// Inside an encoded part.
pub const INSIDE: u8 = 3;

/// Where the bytes of a line state stand: the phase, how many encoded bytes are held, the
/// packet's 00, its length byte, and the encoded bytes held, zeros behind them.
pub const PHASE_AT: usize = 0;
pub const HELD_AT: usize = 1;
pub const PACKET_AT: usize = 2;
pub const LENGTH_AT: usize = 3;
pub const PART_AT: usize = 4;

/// What a scrap gives: more bytes are wanted, a packet, or a refusal.
pub const MORE: u64 = 0;
pub const PACKET: u64 = 1;
pub const REFUSAL: u64 = 2;

/// One finding, as the C call answers it, and the bytes consumed up to the one that decides it.
#[derive(Clone, Copy, PartialEq, Eq, Debug)]
pub struct Pushed {
    pub found: u64,
    pub error: u64,
    pub consumed: u64,
}

fn more(scrap: &[u8]) -> Pushed {
    Pushed { found: MORE, error: 0, consumed: scrap.len() as u64 }
}

fn refused(error: Error, consumed: usize) -> Pushed {
    Pushed { found: REFUSAL, error: error.number(), consumed: consumed as u64 }
}

/// Takes the bytes of a scrap up to the first finding. A packet found goes to the front of
/// `packet`, as it stands in the line.
pub fn push(line: &mut [u8], bytes: &[u8], packet: &mut [u8]) -> Pushed {
    if packet.len() < PACKET_ROOM {
        return refused(Error::BufferTooSmall, 0);
    }
    let Some(line) = lawful(line) else { return refused(Error::NotLawful, 0) };
    // Where the byte behind a 00 stands.
    let at = match line[PHASE_AT] {
        INSIDE => return go_on(line, bytes, packet),
        LENGTH => 0,
        FRESH => match bytes.first() {
            None => return more(bytes),
            Some(0) => 1,
            Some(_) => {
                line[PHASE_AT] = SKIPPING;
                return refused(Error::FirstByteNotZero, 1);
            }
        },
        _ => match first_zero(bytes) {
            None => return more(bytes),
            Some(zero) => zero + 1,
        },
    };
    let Some(&length) = bytes.get(at) else {
        line[PHASE_AT] = LENGTH;
        return more(bytes);
    };
    if usize::from(length) < ENCODED_LOWEST {
        line[PHASE_AT] = if length == 0 { LENGTH } else { SKIPPING };
        return refused(Error::LengthBelowFour, at + 1);
    }
    begin(line, bytes, at + 1, packet)
}

/// The state, unless it is one that no line reaches.
fn lawful(line: &mut [u8]) -> Option<&mut [u8; LINE_ROOM]> {
    const ZEROS: [u8; LINE_ROOM] = [0; LINE_ROOM];
    let line: &mut [u8; LINE_ROOM] = line.try_into().ok()?;
    let good = match line[PHASE_AT] {
        FRESH | SKIPPING | LENGTH => line[HELD_AT..] == ZEROS[HELD_AT..],
        INSIDE => {
            let (held, length) = (usize::from(line[HELD_AT]), usize::from(line[LENGTH_AT]));
            let (part, behind) = line[PART_AT..].split_at(held);
            line[PACKET_AT] == 0
                && length >= ENCODED_LOWEST
                && held < length
                && !part.contains(&0)
                && behind == &ZEROS[PART_AT + held..]
        }
        _ => false,
    };
    good.then_some(line)
}

/// Begins the part at this place of a scrap, whose length byte stands before it.
fn begin(line: &mut [u8; LINE_ROOM], bytes: &[u8], at: usize, packet: &mut [u8]) -> Pushed {
    let length = bytes[at - 1];
    let part = &bytes[at..bytes.len().min(at + usize::from(length))];
    if let Some(zero) = first_zero(part) {
        line[PHASE_AT] = LENGTH;
        return refused(Error::ZeroEncoded, at + zero + 1);
    }
    if part.len() < usize::from(length) {
        line[PHASE_AT] = INSIDE;
        line[HELD_AT] = part.len() as u8;
        line[LENGTH_AT] = length;
        line[PART_AT..PART_AT + part.len()].copy_from_slice(part);
        return more(bytes);
    }
    let consumed = at + part.len();
    if let Err(error) = judge_message(part) {
        line[PHASE_AT] = SKIPPING;
        return refused(error, consumed);
    }
    packet[0] = 0;
    packet[1] = length;
    packet[HEADER..HEADER + part.len()].copy_from_slice(part);
    line[PHASE_AT] = FRESH;
    Pushed { found: PACKET, error: 0, consumed: consumed as u64 }
}

/// Goes on with the part that the state holds the beginning of.
fn go_on(line: &mut [u8; LINE_ROOM], bytes: &[u8], packet: &mut [u8]) -> Pushed {
    let (held, length) = (usize::from(line[HELD_AT]), usize::from(line[LENGTH_AT]));
    let part = &bytes[..bytes.len().min(length - held)];
    if let Some(zero) = first_zero(part) {
        leave(line, held, LENGTH);
        return refused(Error::ZeroEncoded, zero + 1);
    }
    let now_held = held + part.len();
    line[PART_AT + held..PART_AT + now_held].copy_from_slice(part);
    if now_held < length {
        line[HELD_AT] = now_held as u8;
        return more(bytes);
    }
    let whole = &line[PACKET_AT..PART_AT + length];
    if let Err(error) = judge_message(&whole[HEADER..]) {
        leave(line, length, SKIPPING);
        return refused(error, part.len());
    }
    packet[..whole.len()].copy_from_slice(whole);
    leave(line, length, FRESH);
    Pushed { found: PACKET, error: 0, consumed: part.len() as u64 }
}

/// Leaves a part of which this many bytes are held for another phase.
fn leave(line: &mut [u8; LINE_ROOM], held: usize, phase: u8) {
    line[..PART_AT + held].fill(0);
    line[PHASE_AT] = phase;
}

/// Where the first 00 stands. Most parts have none, which is seen sooner than where one is.
#[inline]
fn first_zero(bytes: &[u8]) -> Option<usize> {
    match bytes.contains(&0) {
        true => bytes.iter().position(|&byte| byte == 0),
        false => None,
    }
}

/// What the program line prints for this standard input.
pub fn line_output(input: &[u8]) -> String {
    if input.len() > LINE_LIMIT {
        return String::from("too long\n");
    }
    let (mut line, mut packet) = ([0; LINE_ROOM], [0; PACKET_ROOM]);
    let mut output = String::new();
    let mut at = 0;
    loop {
        let Pushed { found, error, consumed } = push(&mut line, &input[at..], &mut packet);
        at += consumed as usize;
        let _ = match found {
            MORE => break,
            PACKET => writeln!(output, "{}", packet_line(&packet, at)),
            _ => writeln!(output, "refused {error} at {}", at - 1),
        };
    }
    let phase = ["fresh", "skipping", "length", "inside"][usize::from(line[PHASE_AT])];
    let _ = writeln!(output, "end {at} {phase}");
    output
}

/// The line for a good packet that ends before this place.
fn packet_line(packet: &[u8], end: usize) -> String {
    let mut message = [0; PACKET_ROOM];
    let length = decode(packet, &mut message).expect("a good packet");
    format!("packet at {} bytes {length} type {}", end - length, message[0])
}
