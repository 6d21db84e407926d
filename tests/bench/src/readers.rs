//! The readers' cases: a packet, a list, a stream of lists.

use crate::cases::{repeat, Case, Side};
#[cfg(any(feature = "list", feature = "stream"))]
use crate::lists;
#[cfg(feature = "packet")]
use crate::packets;
use crate::plain;
#[cfg(feature = "list")]
use second_reader::list;
#[cfg(any(feature = "list", feature = "stream"))]
use second_reader::list::{ROWS_ROOM, STORE_ROOM};
#[cfg(feature = "packet")]
use second_reader::packet;
#[cfg(feature = "stream")]
use second_reader::stream::{self, Step};
use std::hint::black_box;

struct Reading {
    name: String,
    bytes: Vec<u8>,
    call: Call,
    /// The message, or the rows.
    first: Vec<u8>,
    store: Vec<u8>,
}

#[derive(Clone, Copy)]
enum Call {
    #[cfg(feature = "packet")]
    Packet,
    #[cfg(feature = "list")]
    List,
    /// One call for each list of the stream, and one at its end.
    #[cfg(feature = "stream")]
    Stream,
}

/// The numbers of a call's answer, and what it left in both buffers.
type Outcome = ([u64; 6], Vec<u8>, Vec<u8>);

impl Case for Reading {
    fn name(&self) -> &str {
        &self.name
    }

    fn bytes(&self) -> usize {
        self.bytes.len()
    }

    fn sides(&self) -> &'static [Side] {
        match self.call {
            #[cfg(feature = "packet")]
            Call::Packet => &[Side::Reader, Side::Plain, Side::Archive],
            #[cfg(feature = "list")]
            Call::List => &Side::ALL,
            #[cfg(feature = "stream")]
            Call::Stream => &Side::ALL,
        }
    }

    fn call(&mut self, side: Side, times: u64) {
        let Reading { bytes, first, store, call, .. } = self;
        match (call, side) {
            #[cfg(feature = "packet")]
            (Call::Packet, Side::Reader) => {
                repeat(times, || packet::decode(black_box(bytes), first))
            }
            #[cfg(feature = "packet")]
            (Call::Packet, Side::Plain) => {
                repeat(times, || plain::packet_decode(black_box(bytes), first))
            }
            #[cfg(feature = "packet")]
            (Call::Packet, Side::Tuned) => no_tuned_packet(),
            #[cfg(feature = "packet")]
            (Call::Packet, Side::Archive) => {
                repeat(times, || archive::packet_decode(black_box(bytes), first))
            }
            #[cfg(feature = "list")]
            (Call::List, Side::Reader) => {
                repeat(times, || list::decode(black_box(bytes), first, store))
            }
            #[cfg(feature = "list")]
            (Call::List, Side::Plain) => {
                repeat(times, || plain::list_decode(black_box(bytes), first, store))
            }
            #[cfg(feature = "list")]
            (Call::List, Side::Tuned) => {
                repeat(times, || plain::tuned_list_decode(black_box(bytes), first, store))
            }
            #[cfg(feature = "list")]
            (Call::List, Side::Archive) => {
                repeat(times, || archive::list_decode(black_box(bytes), first, store))
            }
            #[cfg(feature = "stream")]
            (Call::Stream, Side::Reader) => repeat(times, || {
                steps(|offset| match stream::next(black_box(bytes), offset, first, store) {
                    Ok(Step::List(decoded)) => black_box(decoded).consumed as u64,
                    _ => 0,
                })
            }),
            #[cfg(feature = "stream")]
            (Call::Stream, Side::Plain) => repeat_steps(times, |offset| {
                plain::stream_next(black_box(bytes), offset, first, store)
            }),
            #[cfg(feature = "stream")]
            (Call::Stream, Side::Tuned) => repeat_steps(times, |offset| {
                plain::tuned_stream_next(black_box(bytes), offset, first, store)
            }),
            #[cfg(feature = "stream")]
            (Call::Stream, Side::Archive) => repeat_steps(times, |offset| {
                archive::stream_next(black_box(bytes), offset, first, store)
            }),
        }
        black_box((first, store));
    }

    fn sides_agree(&mut self) -> bool {
        let reader = self.outcomes(Side::Reader);
        self.sides().iter().all(|&side| self.outcomes(side) == reader)
    }
}

impl Reading {
    /// What each call of one side answers and leaves, the buffers being as new before.
    fn outcomes(&mut self, side: Side) -> Vec<Outcome> {
        let Reading { bytes, first, store, call, .. } = self;
        first.fill(0xa5);
        store.fill(0x5a);
        let mut outcomes = Vec::new();
        let mut one = |offset| {
            let answer = answer(*call, side, bytes, offset, first, store);
            outcomes.push((answer, first.clone(), store.clone()));
            answer[1]
        };
        match call {
            #[cfg(feature = "stream")]
            Call::Stream => steps(&mut one),
            #[cfg(any(feature = "packet", feature = "list"))]
            _ => drop(one(0)),
        }
        outcomes
    }
}

/// Goes through the stream this many times.
#[cfg(feature = "stream")]
fn repeat_steps(times: u64, mut next: impl FnMut(u64) -> archive::ListResult) {
    repeat(times, || steps(|offset| black_box(next(offset)).consumed))
}

/// Goes from offset to offset by what each step says that it consumed.
#[cfg(feature = "stream")]
fn steps(mut next: impl FnMut(u64) -> u64) {
    let mut offset = 0;
    loop {
        match next(offset) {
            0 => return,
            consumed => offset += consumed,
        }
    }
}

/// Error, consumed, rows, offset, stored and depth of one call; a packet has only the first two.
fn answer(
    call: Call,
    side: Side,
    bytes: &[u8],
    offset: u64,
    first: &mut [u8],
    store: &mut [u8],
) -> [u64; 6] {
    let _ = (offset, &store);
    match (call, side) {
        #[cfg(feature = "packet")]
        (Call::Packet, Side::Reader) => match packet::decode(bytes, first) {
            Ok(consumed) => [0, consumed as u64, 0, 0, 0, 0],
            Err(error) => [error.number(), 0, 0, 0, 0, 0],
        },
        #[cfg(feature = "packet")]
        (Call::Packet, Side::Plain) => of_packet(plain::packet_decode(bytes, first)),
        #[cfg(feature = "packet")]
        (Call::Packet, Side::Tuned) => no_tuned_packet(),
        #[cfg(feature = "packet")]
        (Call::Packet, Side::Archive) => of_packet(archive::packet_decode(bytes, first)),
        #[cfg(feature = "list")]
        (Call::List, Side::Reader) => list::numbers(list::decode(bytes, first, store)),
        #[cfg(feature = "list")]
        (Call::List, Side::Plain) => of_list(plain::list_decode(bytes, first, store)),
        #[cfg(feature = "list")]
        (Call::List, Side::Tuned) => of_list(plain::tuned_list_decode(bytes, first, store)),
        #[cfg(feature = "list")]
        (Call::List, Side::Archive) => of_list(archive::list_decode(bytes, first, store)),
        #[cfg(feature = "stream")]
        (Call::Stream, Side::Reader) => stream::numbers(stream::next(bytes, offset, first, store)),
        #[cfg(feature = "stream")]
        (Call::Stream, Side::Plain) => of_list(plain::stream_next(bytes, offset, first, store)),
        #[cfg(feature = "stream")]
        (Call::Stream, Side::Tuned) => {
            of_list(plain::tuned_stream_next(bytes, offset, first, store))
        }
        #[cfg(feature = "stream")]
        (Call::Stream, Side::Archive) => of_list(archive::stream_next(bytes, offset, first, store)),
    }
}

#[cfg(feature = "packet")]
fn no_tuned_packet() -> ! {
    unreachable!("a packet has no tuned side")
}

#[cfg(feature = "packet")]
fn of_packet(result: archive::PacketResult) -> [u64; 6] {
    [result.error, result.consumed, 0, 0, 0, 0]
}

#[cfg(any(feature = "list", feature = "stream"))]
fn of_list(result: archive::ListResult) -> [u64; 6] {
    let archive::ListResult { error, consumed, rows, offset, stored, depth } = result;
    [error, consumed, rows, offset, stored, depth]
}

/// Every case whose call is compiled in.
pub fn all() -> Vec<Box<dyn Case>> {
    let mut cases: Vec<Box<dyn Case>> = Vec::new();
    let mut add = |name: String, bytes: Vec<u8>, call, first, store| {
        let (first, store) = (vec![0; first], vec![0; store]);
        cases.push(Box::new(Reading { name, bytes, call, first, store }));
    };
    #[cfg(feature = "packet")]
    for message in packets::all() {
        let bytes = packets::packet_of(message.packet_type, &message.payload);
        add(format!("packet-{}", message.name), bytes, Call::Packet, packet::PACKET_ROOM, 0);
    }
    #[cfg(feature = "list")]
    for (name, bytes) in lists::all() {
        add(name.into(), bytes, Call::List, ROWS_ROOM, STORE_ROOM);
    }
    #[cfg(feature = "stream")]
    for (name, bytes) in lists::streams() {
        add(name.into(), bytes, Call::Stream, ROWS_ROOM, STORE_ROOM);
    }
    cases
}
