//! The depths that each error of a list can have, so that a run can tell whether its cases show
//! all of them; and the depth of a refusal counted from the bytes before it, without reading the
//! list.

use crate::list::DEPTH_LIMIT;
use crate::Error;

const DEEPEST: u64 = DEPTH_LIMIT as u64;

/// The least and the greatest depth that an error can have; it can have all between them too.
const fn depths_of(error: u64) -> (u64, u64) {
    match error {
        // Every item can be cut, the outermost code too.
        21 => (0, DEEPEST),
        // Not at the outermost code: that ends before the limit, and its own fault is 22.
        23..=26 | 28 => (1, DEEPEST),
        27 => (DEEPEST, DEEPEST),
        // 22 is at the outermost code, 29 behind the list, 20 and 33 at none; 0 is no error.
        _ => (0, 0),
    }
}

/// A depth is the last digit of a number.
const DIGIT: u64 = 10;
const _: () = assert!(DEEPEST < DIGIT);

/// An error and its depth in one number: 218 is 21 at depth 8.
pub const fn number(error: u64, depth: u64) -> u64 {
    DIGIT * error + depth
}

/// How many numbers these errors have.
pub const fn count(errors: &[u64]) -> usize {
    let mut count = 0;
    let mut at = 0;
    while at < errors.len() {
        let (least, greatest) = depths_of(errors[at]);
        count += (greatest - least + 1) as usize;
        at += 1;
    }
    count
}

/// The numbers of these errors with every depth that they can have.
pub const fn numbers<const COUNT: usize>(errors: &[u64]) -> [u64; COUNT] {
    let mut numbers = [0; COUNT];
    let mut filled = 0;
    let mut at = 0;
    while at < errors.len() {
        let (mut depth, greatest) = depths_of(errors[at]);
        while depth <= greatest {
            numbers[filled] = number(errors[at], depth);
            filled += 1;
            depth += 1;
        }
        at += 1;
    }
    numbers
}

/// All that the bytes of a list can be refused with.
pub const OF_BYTES: [u64; count(ERRORS)] = numbers(ERRORS);
const ERRORS: &[u64] = &[21, 22, 23, 24, 25, 26, 27, 28];

/// An open list: the code of its elements, 0 where each follows its own, and how many of them
/// have not begun.
struct Open {
    kind: u32,
    awaited: u32,
}

/// The depth of a refusal of bytes that hold lists end to end from `front` on: the lists that
/// are open at its place, and for 24 the list that begins there. None where no item begins.
///
/// The count goes by codes, counts and lengths alone.
pub fn counted(bytes: &[u8], front: u64, error: u64, place: u64) -> Option<u64> {
    if error == Error::BufferTooSmall.number() || place > bytes.len() as u64 {
        return Some(0);
    }
    let mut before = &bytes[front as usize..place as usize];
    let mut open = Vec::new();
    while pass(&mut before, &mut open).is_some() {}
    let own = error == Error::NotCanonical.number();
    before.is_empty().then_some(open.len() as u64 + u64::from(own))
}

/// Passes an element, or a list as far as its count; None where the bytes end before.
fn pass(before: &mut &[u8], open: &mut Vec<Open>) -> Option<()> {
    let code = match open.last() {
        Some(list) if list.kind > 0 => list.kind,
        _ => word(before)?,
    };
    open.last_mut().into_iter().for_each(|list| list.awaited -= 1);
    if code < 256 {
        let size = match code {
            1 | 9 => 4,
            10 => 8,
            _ => word(before)?,
        };
        *before = before.get(size as usize..)?;
    } else {
        open.push(Open { kind: code - 256, awaited: 0 });
        let count = word(before)?;
        open.last_mut()?.awaited = count;
    }
    while open.last().is_some_and(|list| list.awaited == 0) {
        open.pop();
    }
    Some(())
}

fn word(before: &mut &[u8]) -> Option<u32> {
    let (word, behind) = before.split_first_chunk()?;
    *before = behind;
    Some(u32::from_le_bytes(*word))
}
