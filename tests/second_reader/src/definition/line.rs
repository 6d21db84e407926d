//! A line as the ticket words it, twice: one byte at a time, and as a whole that is cut at
//! its 00s, with no state.

use super::packet::read;
use crate::line::{FRESH, INSIDE, LENGTH, LENGTH_AT, LINE_ROOM, PART_AT, SKIPPING};
use crate::Error;

#[derive(Clone, PartialEq, Eq, Debug)]
pub enum State {
    Fresh,
    Skipping,
    /// A 00 has come and its length byte has not.
    Length,
    /// Inside a part of this length, of which these bytes have come.
    Inside(u8, Vec<u8>),
}

#[derive(Clone, PartialEq, Eq, Debug)]
pub enum Finding {
    /// A good packet's bytes as they stand in the line.
    Packet(Vec<u8>),
    Refused(Error),
}

impl State {
    pub fn bytes(&self) -> Vec<u8> {
        let mut bytes = match self {
            State::Fresh => vec![FRESH],
            State::Skipping => vec![SKIPPING],
            State::Length => vec![LENGTH],
            State::Inside(length, held) => {
                [&[INSIDE, held.len() as u8, 0, *length][..], held].concat()
            }
        };
        bytes.resize(LINE_ROOM, 0);
        bytes
    }

    /// The state with these bytes that a line can reach. A line that is inside a part is as
    /// one of that packet alone.
    pub fn reached(bytes: &[u8]) -> Option<State> {
        let lines = match bytes {
            [INSIDE, held, ..] if bytes.len() == LINE_ROOM => {
                let part = &bytes[PART_AT..PART_AT + usize::from(*held)];
                vec![[&[0, bytes[LENGTH_AT]], part].concat()]
            }
            _ => vec![vec![], vec![1], vec![0]],
        };
        lines.iter().map(|line| end(line)).find(|state| state.bytes() == bytes)
    }

    /// The state behind one more byte, and what that byte decides.
    pub fn byte(self, byte: u8) -> (State, Option<Finding>) {
        let refused = |state, error| (state, Some(Finding::Refused(error)));
        match (self, byte) {
            (State::Fresh | State::Skipping, 0) => (State::Length, None),
            (State::Fresh, _) => refused(State::Skipping, Error::FirstByteNotZero),
            (State::Skipping, _) => (State::Skipping, None),
            (State::Length, 0) => refused(State::Length, Error::LengthBelowFour),
            (State::Length, 1..=3) => refused(State::Skipping, Error::LengthBelowFour),
            (State::Length, length) => (State::Inside(length, Vec::new()), None),
            (State::Inside(..), 0) => refused(State::Length, Error::ZeroEncoded),
            (State::Inside(length, mut held), byte) => {
                held.push(byte);
                if held.len() < length.into() {
                    return (State::Inside(length, held), None);
                }
                let packet = [&[0, length][..], &held].concat();
                match read(&packet) {
                    Ok(_) => (State::Fresh, Some(Finding::Packet(packet))),
                    Err(error) => refused(State::Skipping, error),
                }
            }
        }
    }

    /// The state behind the bytes of a scrap that are taken, how many these are, and the
    /// finding that the last of them decides.
    pub fn scrap(mut self, bytes: &[u8]) -> (State, usize, Option<Finding>) {
        for (at, &byte) in bytes.iter().enumerate() {
            let (behind, finding) = self.byte(byte);
            if finding.is_some() {
                return (behind, at + 1, finding);
            }
            self = behind;
        }
        (self, bytes.len(), None)
    }
}

/// A line's findings, each with the place of the byte that decides it, and its end state.
pub struct Whole {
    pub findings: Vec<(usize, Finding)>,
    pub end: State,
}

/// A whole line: the stretch before its first 00, then each 00 with the stretch behind it.
pub fn whole(line: &[u8]) -> Whole {
    let mut stretches = line.split(|&byte| byte == 0);
    let first = stretches.next().unwrap_or(&[]);
    let mut whole = Whole { findings: Vec::new(), end: State::Fresh };
    whole.behind_good(first, 0);
    let mut zero = first.len();
    for stretch in stretches {
        let next = zero + 1 + stretch.len();
        whole.packet(zero, stretch, next < line.len());
        zero = next;
    }
    whole
}

impl Whole {
    fn refused(&mut self, error: Error, at: usize) {
        self.findings.push((at, Finding::Refused(error)));
        self.end = State::Skipping;
    }

    /// The bytes up to the next 00 at the start of a line or straight after a good packet.
    fn behind_good(&mut self, stretch: &[u8], at: usize) {
        self.end = State::Fresh;
        if !stretch.is_empty() {
            self.refused(Error::FirstByteNotZero, at);
        }
    }

    /// The 00 at this place and the bytes up to the next 00, if there is one.
    fn packet(&mut self, zero: usize, stretch: &[u8], next: bool) {
        let behind = zero + 1 + stretch.len();
        let Some((&length, part)) = stretch.split_first() else {
            self.end = State::Length;
            if next {
                self.refused(Error::LengthBelowFour, behind);
            }
            return;
        };
        if length < 4 {
            return self.refused(Error::LengthBelowFour, zero + 1);
        }
        let Some((part, rest)) = part.split_at_checked(length.into()) else {
            self.end = State::Inside(length, part.to_vec());
            if next {
                self.refused(Error::ZeroEncoded, behind);
            }
            return;
        };
        let packet = [&[0, length], part].concat();
        let last = zero + 1 + usize::from(length);
        match read(&packet) {
            Ok(_) => {
                self.findings.push((last, Finding::Packet(packet)));
                self.behind_good(rest, last + 1);
            }
            Err(error) => self.refused(error, last),
        }
    }
}

/// The end state of a line by its bytes, one after the other.
pub fn end(line: &[u8]) -> State {
    line.iter().fold(State::Fresh, |state, &byte| state.byte(byte).0)
}

/// The places at which good packets stand whole in a line, by the packet reader alone, and
/// their bytes.
pub fn packets(line: &[u8]) -> Vec<(usize, Vec<u8>)> {
    let at = |at: usize| match read(&line[at..]) {
        Ok((consumed, _)) => Some((at, line[at..at + consumed].to_vec())),
        Err(_) => None,
    };
    (0..line.len()).filter_map(at).collect()
}
