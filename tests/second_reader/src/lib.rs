//! Packets, lists, lines and the hub as document 01, the tickets in 02 and the readings of their
//! open points describe them, written without looking at the product, to compare it with.
//!
//! Every call judges its whole input first and then fills the lent buffers, so an
//! error leaves them as they were, but for the state of a line. No call allocates, apart from those that answer
//! a program's output as text. The module `definition` says the same once more in the
//! paper's own words, with no regard to speed. `generate` makes inputs for the comparison;
//! `widths`, `lookups`, `depths` and `scraps` tell what they show.

pub mod calls;
pub mod catalogue;
pub mod definition;
pub mod depths;
pub mod error;
pub mod generate;
pub mod hub;
pub mod line;
pub mod list;
pub mod lookups;
pub mod packet;
pub mod random;
pub mod replay;
pub mod scraps;
pub mod setting;
pub mod stream;
pub mod table;
pub mod text;
pub mod widths;

pub use error::Error;
