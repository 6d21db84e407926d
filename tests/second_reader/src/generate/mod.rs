//! Seeded inputs, legal and damaged. Legal ones are built from their meaning by the
//! papers' own wording, apart from the readers and writers of this library.

pub mod catalogue;
pub mod hub;
pub mod line;
pub mod list;
pub mod packet;
pub mod replay;
pub mod setting;
pub mod stream;
pub mod table;
pub mod text;
pub mod writers;

use crate::random::Random;

/// Numbers that a damaged input is likely to be judged wrongly by.
pub const TELLING_WORDS: [u32; 16] =
    [0, 1, 4, 9, 10, 12, 256, 257, 260, 265, 266, 268, 512, 0x7fff_ffff, 0x8000_0000, 0xffff_ffff];

/// Changes `bytes` in one way: a byte, a word, a cut, a byte taken out or put in, or
/// bytes appended.
pub fn damage(random: &mut Random, bytes: &mut Vec<u8>) {
    if bytes.is_empty() {
        let length = random.between(1, 4);
        bytes.extend(random.bytes(length));
        return;
    }
    let at = random.below(bytes.len());
    match random.below(8) {
        0 => bytes.truncate(at),
        1 => bytes[at] ^= 1 << random.below(8),
        2 => bytes[at] = random.byte(),
        3 => bytes[at] = 0,
        4 => replace_word(random, bytes, at),
        5 => {
            bytes.remove(at);
        }
        6 => bytes.insert(at, random.pick(&[0, 1, 4, 0xff])),
        _ => {
            let length = random.between(1, 16);
            bytes.extend(random.bytes(length));
        }
    }
}

/// Puts a telling number over the four bytes at `at`, or on the word boundary before it:
/// numbers stand on one until the first string or blob.
pub fn replace_word(random: &mut Random, bytes: &mut [u8], at: usize) {
    let start = if random.once_in(2) { at } else { at & !3 };
    let word = if random.once_in(4) { random.word() } else { random.pick(&TELLING_WORDS) };
    let room = bytes.len() - start;
    let width = room.min(4);
    bytes[start..start + width].copy_from_slice(&word.to_le_bytes()[..width]);
}

/// A length for a buffer that needs `room`: too short, exact or longer.
pub fn buffer_length(random: &mut Random, room: usize) -> usize {
    match random.below(16) {
        0 => 0,
        1 => room - 1,
        2 => random.below(room),
        3 => room + 1,
        4 | 5 => room + random.below(100),
        _ => room,
    }
}
