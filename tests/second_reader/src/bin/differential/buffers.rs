//! Buffers as a caller lends them: on the heap, exactly as long as they say, so that
//! a memory checker sees the first byte beyond, and holding a pattern at first.

use crate::report::{hex, Difference};
use second_reader::random::Random;
use std::fmt::Debug;
use std::sync::OnceLock;

/// Bytes to be read, in an allocation of exactly their length.
pub fn exact(bytes: Vec<u8>) -> Box<[u8]> {
    bytes.into_boxed_slice()
}

/// Longer than any buffer by more than a pattern's start can be.
const PATTERN: usize = 1 << 17;
const PATTERN_STARTS: u64 = 1 << 15;

/// A buffer with the pattern of this seed: a part of one stretch of random bytes.
pub fn patterned(length: usize, seed: u64) -> Box<[u8]> {
    static STRETCH: OnceLock<Vec<u8>> = OnceLock::new();
    let stretch = STRETCH.get_or_init(|| Random::new(0).bytes(PATTERN));
    let start = (seed % PATTERN_STARTS) as usize;
    Box::from(&stretch[start..start + length])
}

/// Puts bytes at the front of a buffer; answers how many.
pub fn put(buffer: &mut [u8], front: &[u8]) -> usize {
    buffer[..front.len()].copy_from_slice(front);
    front.len()
}

/// What one side answered, and left in the buffers that it was lent.
#[derive(PartialEq)]
pub struct Outcome<Answer, const BUFFERS: usize> {
    pub answer: Answer,
    pub buffers: [Box<[u8]>; BUFFERS],
}

impl<Answer: PartialEq + Debug, const BUFFERS: usize> Outcome<Answer, BUFFERS> {
    pub fn of(
        mut buffers: [Box<[u8]>; BUFFERS],
        call: impl FnOnce([&mut [u8]; BUFFERS]) -> Answer,
    ) -> Self {
        let answer = call(buffers.each_mut().map(|buffer| &mut buffer[..]));
        Outcome { answer, buffers }
    }

    /// Whether the product's outcome is this one, or how they differ.
    pub fn owed(
        &self,
        side: &'static str,
        product: &Self,
        names: [&str; BUFFERS],
        case: impl FnOnce() -> Vec<(&'static str, String)>,
    ) -> Result<(), Difference> {
        if self == product {
            return Ok(());
        }
        let mut expected = format!("{:?}", self.answer);
        let mut found = format!("{:?}", product.answer);
        for (name, (left, right)) in names.iter().zip(self.buffers.iter().zip(&product.buffers)) {
            if let Some(at) = left.iter().zip(right).position(|(left, right)| left != right) {
                let end = (at + 16).min(left.len());
                expected += &format!(", {name} from {at}: {}", hex(&left[at..end]));
                found += &format!(", {name} from {at}: {}", hex(&right[at..end]));
            }
        }
        Err(Difference { case: case(), input: None, side, expected, found })
    }
}

/// The name of the other side that packets, lists and lines are compared with.
pub const DEFINITION: &str = "definition";
