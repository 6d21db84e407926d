//! Areas with bytes before and behind them that no call may change, or without.

use crate::buffers::{exact, patterned, put};

/// The bytes on either side of an area.
const GUARD: usize = 16;

/// An area lent from the middle of a buffer, or as the whole of one, so that a memory
/// checker sees the first byte beyond.
#[derive(Clone, Copy)]
pub enum Lent {
    Guarded,
    Whole,
}

impl Lent {
    /// A buffer with these bytes as its area.
    pub fn buffer(self, bytes: &[u8], pattern: u64) -> Box<[u8]> {
        let Lent::Guarded = self else { return exact(bytes.to_vec()) };
        let mut buffer = patterned(bytes.len() + 2 * GUARD, pattern);
        put(&mut buffer[GUARD..], bytes);
        buffer
    }

    /// The area of such a buffer.
    pub fn area(self, buffer: &mut [u8]) -> &mut [u8] {
        let guard = match self {
            Lent::Guarded => GUARD,
            Lent::Whole => 0,
        };
        let end = buffer.len() - guard;
        &mut buffer[guard..end]
    }
}
