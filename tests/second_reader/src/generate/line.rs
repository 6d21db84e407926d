//! Lines: packets among whatever else arrives, the scraps that they come in, and line states.

use super::{buffer_length, damage, packet};
use crate::definition::line::{end, State};
use crate::line::{HELD_AT, INSIDE, LINE_ROOM, PART_AT, PHASE_AT};
use crate::packet::{ENCODED_LOWEST, LOG, PACKET_ROOM, PAYLOAD_LIMIT, PING};
use crate::random::Random;

/// A good packet with a payload of one and the same byte.
pub fn good(packet_type: u8, length: usize, byte: u8) -> Vec<u8> {
    packet::packet_of(&packet::message_of(packet_type, &vec![byte; length]))
}

/// What a line is made of: good packets, one for each error, and what is none.
pub fn telling() -> Vec<Vec<u8>> {
    let ping = good(PING, 0, 0);
    let changed = |at: usize, byte: u8| {
        let mut packet = ping.clone();
        packet[at] = byte;
        packet
    };
    vec![
        ping.clone(),
        good(LOG, 0, 0),
        good(LOG, 5, 0),
        vec![0],
        vec![0, 0],
        vec![0, 1],
        vec![0, 3, 9],
        vec![7],
        vec![4, 2, 1],
        vec![0, 4],
        vec![0, 4, 2, 1],
        vec![0, 4, 2, 1, 2],
        // Errors 5 to 8.
        changed(2, 3),
        packet::packet_of(&[1, 1, 0]),
        changed(5, 2),
        packet::packet_of(&packet::message_of(6, &[])),
    ]
}

fn without_zeros(random: &mut Random, length: usize) -> Vec<u8> {
    (0..length).map(|_| random.byte().max(1)).collect()
}

/// What stands between two places of a line, often not to the end of what it begins.
fn piece(random: &mut Random) -> Vec<u8> {
    match random.below(20) {
        0..=5 => packet::legal(random),
        6 => good(PING, 0, 0),
        7 => {
            let byte = random.pick(&[0, 1, 255]);
            good(LOG, random.pick(&[0, 1, PAYLOAD_LIMIT]), byte)
        }
        8 | 9 => packet::bad_message(random),
        10 => packet::loose_blocks(random),
        11 | 12 => {
            let mut cut = packet::legal(random);
            cut.truncate(random.between(1, cut.len() - 1));
            cut
        }
        13 => {
            let mut lost = packet::legal(random);
            lost.remove(random.below(lost.len()));
            lost
        }
        14 => {
            let mut damaged = packet::legal(random);
            damage(random, &mut damaged);
            damaged
        }
        15 | 16 => vec![0; random.between(1, 4)],
        17 => vec![0, random.between(1, ENCODED_LOWEST) as u8],
        18 => {
            let length = random.between(1, 12);
            without_zeros(random, length)
        }
        _ => {
            let length = random.below(40);
            random.bytes(length)
        }
    }
}

/// Any line. Those of a few small bytes have every kind of finding close together.
pub fn any(random: &mut Random) -> Vec<u8> {
    if random.once_in(6) {
        let length = random.below(80);
        return (0..length).map(|_| random.pick(&[0, 0, 1, 2, 4, 5])).collect();
    }
    let pieces = random.pick(&[0, 1, 2, 3, 5, 8]);
    (0..pieces).flat_map(|_| piece(random)).collect()
}

/// How many of the bytes left come with the next scrap, none at times.
pub fn scrap(random: &mut Random, most: usize, left: usize) -> usize {
    match random.below(6) {
        0 => 0,
        1 | 2 => most.min(left),
        _ => random.between(0, most.min(left)),
    }
}

/// How many bytes the scraps of a line have at most.
pub fn scrap_limit(random: &mut Random) -> usize {
    random.pick(&[1, 2, 6, 40, 300, usize::MAX])
}

/// A state that a line reaches.
fn reached(random: &mut Random) -> State {
    if random.once_in(2) {
        let line = any(random);
        return end(&line[..random.between(0, line.len())]);
    }
    let any = random.between(ENCODED_LOWEST, 255) as u8;
    let length = random.pick(&[4, 5, 14, 254, 255, any]);
    let any = random.below(length.into());
    let held = random.pick(&[0, 1, usize::from(length) - 1, any]);
    State::Inside(length, without_zeros(random, held))
}

/// Changes one byte of a state, often one of those that are judged by themselves.
fn change(random: &mut Random, state: &mut [u8]) {
    let held = usize::from(state[HELD_AT]);
    let last = state.len() - 1;
    let (in_part, any) = (PART_AT + random.below(held.max(1)), random.below(LINE_ROOM));
    let at = random.pick(&[0, 1, 2, 3, in_part, PART_AT + held, last, any]).min(last);
    let old = state[at];
    state[at] = match random.below(4) {
        0 => random.byte(),
        1 => old ^ 1 << random.below(8),
        2 => random.pick(&[old.wrapping_add(1), old.wrapping_sub(1)]),
        _ => random.pick(&[0, 1, 2, 3, 4, 255]),
    };
}

/// The bytes of a state: one that a line reaches, nearly one, of another length, or noise.
pub fn state(random: &mut Random) -> Vec<u8> {
    let mut bytes = reached(random).bytes();
    match random.below(12) {
        0..=3 => change(random, &mut bytes),
        4 => {
            let any = random.below(2 * LINE_ROOM);
            bytes.resize(random.pick(&[0, 1, 4, LINE_ROOM - 1, LINE_ROOM + 1, any]), 0);
        }
        5 => {
            random.fill(&mut bytes);
            bytes[PHASE_AT] = random.pick(&[0, 1, 2, 3, 3, 4, 255]);
        }
        _ => {}
    }
    bytes
}

/// The areas of one call; that for the packet is given by its length.
pub struct Push {
    pub line: Vec<u8>,
    pub bytes: Vec<u8>,
    pub packet_length: usize,
}

/// One call on any state. In half of them what the state has begun goes on, good or not.
pub fn push(random: &mut Random) -> Push {
    let any_length = buffer_length(random, PACKET_ROOM);
    let packet_length = if random.once_in(4) { any_length } else { PACKET_ROOM };
    if random.once_in(2) {
        return Push { line: state(random), bytes: any(random), packet_length };
    }
    let whole = match random.below(4) {
        0 => packet::bad_message(random),
        1 => packet::loose_blocks(random),
        _ => packet::legal(random),
    };
    let at = random.between(1, whole.len() - 1);
    let mut line = end(&whole[..at]).bytes();
    if random.once_in(6) {
        change(random, &mut line);
    }
    let bytes = [whole[at..].to_vec(), piece(random)].concat();
    Push { line, bytes, packet_length }
}

/// A state inside a part of this length, with this many bytes held; lawful or not.
pub fn inside(length: u8, held: u8, byte: u8) -> Vec<u8> {
    let mut state = vec![INSIDE, held, 0, length];
    state.resize(PART_AT + usize::from(held), byte);
    state.resize(LINE_ROOM, 0);
    state
}
