//! What the writers are given: packets and lists as they should be, and rows and stores
//! that describe no list.

use super::hub::WIDE;
use super::list::{self, rows_and_store};
use super::packet::{payload, TYPES};
use super::TELLING_WORDS;
use crate::list::{Kind, DEPTH_LIMIT, LIST_CODE};
use crate::random::Random;

/// One more than the longest payload that the cases have.
pub const PAYLOADS: usize = 301;

/// A packet of any type with a payload of any length, allowed or not.
pub fn any_packet(random: &mut Random) -> (u64, Vec<u8>) {
    let (known, low, high) = random.pick(&TYPES);
    let packet_type = match random.below(16) {
        0 => random.pick(&[0, 6, 7, 128, 255]),
        1 => random.pick(&WIDE).wrapping_add(known.into()),
        _ => known.into(),
    };
    let length = match random.below(8) {
        0 => low,
        1 => high,
        2 => low.saturating_sub(1),
        3 => high + 1,
        4 => random.below(PAYLOADS),
        _ => random.between(low, high),
    };
    (packet_type, payload(random, length))
}

/// A number near another, or one that is likely to be judged wrongly.
fn other_number(random: &mut Random, number: u32) -> u32 {
    match random.below(4) {
        0 => number.wrapping_add(1),
        1 => number.wrapping_sub(1),
        2 => number ^ 0x8000_0000,
        _ => random.pick(&TELLING_WORDS),
    }
}

/// A zero in a string, if there is one that has bytes.
fn spoil_string(random: &mut Random, rows: &[u32], store: &mut [u8]) {
    let is_text = |row: &&[u32]| row[0] == Kind::String.code() && row[2] > 0;
    let strings: Vec<&[u32]> = rows.chunks_exact(3).filter(is_text).collect();
    if !strings.is_empty() {
        let row = strings[random.below(strings.len())];
        let at = row[1] as usize + random.below(row[2] as usize);
        // The row itself may be spoiled already.
        if let Some(byte) = store.get_mut(at) {
            *byte = 0;
        }
    }
}

/// Changes rows or store in one way; at times they still describe a list.
fn spoil(random: &mut Random, rows: &mut Vec<u32>, store: &mut Vec<u8>) {
    if rows.is_empty() || rows.len() % 3 != 0 {
        return;
    }
    let at = random.below(rows.len());
    let row = at / 3 * 3;
    match random.below(14) {
        0 => rows[row] = random.pick(&[0, 2, 5, 255, 257, 260, 268, 512, 0xffff_ffff]),
        1 | 2 => rows[row + 1] = other_number(random, rows[row + 1]),
        3 | 4 => rows[row + 2] = other_number(random, rows[row + 2]),
        5 => rows[at] = random.word(),
        6 | 7 => spoil_string(random, rows, store),
        8 => store.push(random.pick(&[0, 1])),
        9 => drop(store.pop()),
        10 => drop(rows.drain(row..row + 3)),
        11 => {
            let inserted = random.pick(&[[1, 5, 0], [LIST_CODE, 0, 0], [12, 0, 0], [10, 1, 2]]);
            rows.splice(row..row, inserted);
        }
        12 => drop(rows.remove(at)),
        _ => rows.extend(&[1, 5, 0][..random.between(1, 3)]),
    }
}

/// Well-formed rows, more than a list may have.
fn many_rows(random: &mut Random) -> Vec<u32> {
    let count = random.between(1020, 1400);
    let mut rows = vec![LIST_CODE, count as u32, 0];
    rows.extend([random.pick(&[1, 9, 10]), 5, 0].repeat(count));
    rows
}

/// Rows as numbers and store of lists of every shape, to depth 1,000, and spoiled ones.
fn any_numbers(random: &mut Random) -> (Vec<u32>, Vec<u8>) {
    match random.below(12) {
        0 | 1 => rows_and_store(&list::legal(random)),
        2 => {
            let deep = random.pick(&[DEPTH_LIMIT - 1, DEPTH_LIMIT, DEPTH_LIMIT + 1, 40, 1000]);
            rows_and_store(&list::nested(random, deep))
        }
        3 | 4 => rows_and_store(&list::around_the_limit(random)),
        5 if random.once_in(3) => (many_rows(random), Vec::new()),
        5 => (Vec::new(), vec![1; random.below(2)]),
        _ => {
            let elements = match random.below(6) {
                0 => list::around_the_limit(random),
                1 => list::nested(random, DEPTH_LIMIT + 1),
                _ => list::legal(random),
            };
            let (mut rows, mut store) = rows_and_store(&elements);
            for _ in 0..random.pick(&[1, 1, 1, 2]) {
                spoil(random, &mut rows, &mut store);
            }
            (rows, store)
        }
    }
}

/// The same with the rows as bytes, a few of them cut off or added at times.
pub fn any_list(random: &mut Random) -> (Vec<u8>, Vec<u8>) {
    let (numbers, store) = any_numbers(random);
    let mut rows = bytes_of(&numbers);
    match random.below(24) {
        0 => rows.truncate(rows.len().saturating_sub(random.between(1, 11))),
        1 => rows.resize(rows.len() + random.between(1, 11), 0),
        _ => {}
    }
    (rows, store)
}

/// Numbers of 32 bits, low byte first.
pub fn bytes_of(numbers: &[u32]) -> Vec<u8> {
    numbers.iter().flat_map(|number| number.to_le_bytes()).collect()
}

/// Every type from 0 to 6, and as many above a byte, with every payload length up to 300.
pub fn packets() -> impl Iterator<Item = (u64, Vec<u8>)> {
    let types = (0..=6).chain(256..=262);
    types.flat_map(|packet_type| (0..PAYLOADS).map(move |length| (packet_type, length))).map(
        |(packet_type, length)| {
            let payload = match packet_type % 3 {
                0 => vec![0; length],
                1 => (0..length).map(|at| at as u8 | 1).collect(),
                _ => (0..length).map(|at| (at % 5) as u8).collect(),
            };
            (packet_type, payload)
        },
    )
}

/// The rows with each one left out, and with each number replaced by others.
pub fn changed_rows(rows: &[u32]) -> Vec<Vec<u32>> {
    let mut all = Vec::new();
    for row in (0..rows.len()).step_by(3) {
        all.push([&rows[..row], &rows[row + 3..]].concat());
    }
    for at in 0..rows.len() {
        let mut changed = rows.to_vec();
        for number in TELLING_WORDS.into_iter().chain([rows[at] ^ 1, rows[at].wrapping_sub(1)]) {
            changed[at] = number;
            all.push(changed.clone());
        }
    }
    all
}
