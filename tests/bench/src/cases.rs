//! What is measured: the sides, and the cases of each kind.

#[cfg(feature = "push")]
use crate::budget;
#[cfg(feature = "hub")]
use crate::hub;
#[cfg(feature = "push")]
use crate::lines;
#[cfg(any(feature = "packet", feature = "list", feature = "stream"))]
use crate::readers;
#[cfg(feature = "setting")]
use crate::settings;
#[cfg(feature = "text")]
use crate::texts;
#[cfg(feature = "writers")]
use crate::writers;
use std::hint::black_box;

/// The second reader, the calls in C, and the product.
#[derive(Clone, Copy, PartialEq, Debug)]
pub enum Side {
    Reader,
    Plain,
    Tuned,
    Archive,
}

impl Side {
    pub const ALL: [Side; 4] = [Side::Reader, Side::Plain, Side::Tuned, Side::Archive];
    /// Those that the archive is compared with.
    pub const OTHERS: [Side; 3] = [Side::Reader, Side::Plain, Side::Tuned];

    pub fn name(self) -> &'static str {
        match self {
            Side::Reader => "reader",
            Side::Plain => "plain",
            Side::Tuned => "tuned",
            Side::Archive => "archive",
        }
    }

    pub fn named(name: &str) -> Option<Side> {
        Side::ALL.into_iter().find(|side| side.name() == name)
    }
}

/// One input, with the buffers that its sides fill.
pub trait Case {
    fn name(&self) -> &str;

    /// The bytes that are read or written.
    fn bytes(&self) -> usize;

    /// The sides that have this case's call.
    fn sides(&self) -> &'static [Side];

    /// Does one side's work this many times.
    fn call(&mut self, side: Side, times: u64);

    /// Whether all sides do the same work: the same answer to each call, and the same
    /// bytes in the buffers after it.
    fn sides_agree(&mut self) -> bool;
}

pub fn repeat<Answer>(times: u64, mut call: impl FnMut() -> Answer) {
    for _ in 0..times {
        black_box(call());
    }
}

/// Every case whose call is compiled in.
pub fn all() -> Vec<Box<dyn Case>> {
    let mut cases: Vec<Box<dyn Case>> = Vec::new();
    #[cfg(any(feature = "packet", feature = "list", feature = "stream"))]
    cases.extend(readers::all());
    #[cfg(feature = "writers")]
    cases.extend(writers::all());
    #[cfg(feature = "hub")]
    cases.extend(hub::all());
    #[cfg(feature = "text")]
    cases.extend(texts::all());
    #[cfg(feature = "setting")]
    cases.extend(settings::all());
    #[cfg(feature = "push")]
    cases.extend(lines::all());
    cases
}

/// The cases of the tables that have other columns.
pub fn of_other_tables() -> Vec<Box<dyn Case>> {
    #[cfg(feature = "push")]
    return budget::all();
    #[cfg(not(feature = "push"))]
    Vec::new()
}
