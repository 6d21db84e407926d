//! Streams of lists, ended well or by bytes that start with no legal list.

use super::{damage, list};
use crate::list::LIST_LIMIT;
use crate::random::Random;

/// Legal lists one behind the other, none at times.
pub fn lists(random: &mut Random) -> Vec<u8> {
    let count = random.pick(&[0, 1, 2, 2, 3, 5, 8, 20]);
    let mut bytes = Vec::new();
    for _ in 0..count {
        let elements = match random.below(8) {
            0 => list::around_the_limit(random),
            1 => list::nested(random, 8),
            _ => list::legal(random),
        };
        let image = list::image(&elements);
        if image.len() <= LIST_LIMIT {
            bytes.extend(image);
        }
    }
    bytes
}

/// A stream, then nothing, a cut list, a damaged one, or noise.
pub fn any(random: &mut Random) -> Vec<u8> {
    let mut bytes = lists(random);
    match random.below(8) {
        0 => {
            let length = random.between(1, 16);
            bytes.resize(bytes.len() + length, 0);
        }
        1 => {
            let length = random.between(1, 40);
            bytes.extend(random.bytes(length));
        }
        2 | 3 => bytes.extend(list::any(random)),
        4 => damage(random, &mut bytes),
        _ => {}
    }
    bytes
}

/// An offset to read from: within, at or past the end.
pub fn offset(random: &mut Random, length: usize) -> u64 {
    let end = length as u64;
    match random.below(8) {
        0 => end,
        1 => end + 1,
        2 => end + random.next() % 5000,
        3 => random.pick(&[u64::MAX, u64::MAX - 7, 1 << 32, 1 << 63]),
        _ => random.next() % (end + 1),
    }
}
