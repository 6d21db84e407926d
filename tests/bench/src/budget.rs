//! What a whole packet in one scrap may take: one and a half times the decoding of it, a copy
//! of it, and one judgement of the line state.

use crate::cases::{repeat, Case, Side};
use crate::lines::all_packets;
use archive::{line_push, packet_decode};
use second_reader::line::LINE_ROOM;
use second_reader::packet::PACKET_ROOM;
use std::hint::black_box;

#[derive(Clone, Copy, Debug)]
enum Work {
    Decode,
    /// Decoding, a copy, and a push of no bytes, which judges the state.
    Parts,
    Push,
}

const WORKS: [Work; 3] = [Work::Decode, Work::Parts, Work::Push];

/// One work on one packet. The line is fresh before and behind it.
struct Share {
    name: String,
    work: Work,
    bytes: Vec<u8>,
    line: Vec<u8>,
    packet: Vec<u8>,
    message: Vec<u8>,
}

impl Case for Share {
    fn name(&self) -> &str {
        &self.name
    }

    fn bytes(&self) -> usize {
        self.bytes.len()
    }

    fn sides(&self) -> &'static [Side] {
        &[Side::Archive]
    }

    fn call(&mut self, _side: Side, times: u64) {
        let Share { work, bytes, line, packet, message, .. } = self;
        match work {
            Work::Decode => repeat(times, || packet_decode(black_box(bytes), message)),
            Work::Parts => repeat(times, || {
                black_box(packet_decode(black_box(bytes), message));
                packet[..bytes.len()].copy_from_slice(black_box(bytes));
                line_push(black_box(line), black_box(&[]), packet)
            }),
            Work::Push => repeat(times, || line_push(black_box(line), black_box(bytes), packet)),
        }
        black_box((line, packet, message));
    }

    /// There is one side.
    fn sides_agree(&mut self) -> bool {
        true
    }
}

fn share(name: &str, bytes: &[u8], work: Work) -> Share {
    Share {
        name: format!("{name}-{work:?}"),
        work,
        bytes: bytes.to_vec(),
        line: vec![0; LINE_ROOM],
        packet: vec![0; PACKET_ROOM],
        message: vec![0; PACKET_ROOM],
    }
}

pub fn all() -> Vec<Box<dyn Case>> {
    let shares = all_packets().into_iter().flat_map(|(name, bytes)| {
        WORKS.map(|work| -> Box<dyn Case> { Box::new(share(name, &bytes, work)) })
    });
    shares.collect()
}

/// A line for each packet; `measured` gives the numbers of a case's sides.
pub fn table(unit: &str, measured: impl Fn(&mut dyn Case) -> Result<Vec<f64>, String>) {
    let heading = |of: &str| format!("{of} {unit}");
    print!("{:<24} {:>5} {:>11}", "one scrap", "bytes", heading("decode"));
    println!(" {:>11} {:>11} {:>14}", heading("budget"), heading("push"), "push/budget");
    for (name, bytes) in all_packets() {
        print!("{:<24} {:>5}", format!("line-{name}"), bytes.len());
        let numbers: Result<Vec<Vec<f64>>, String> =
            WORKS.into_iter().map(|work| measured(&mut share(name, &bytes, work))).collect();
        match numbers.map(|numbers| numbers.concat()).as_deref() {
            Ok([decode, parts, push]) => {
                let budget = parts + decode / 2.0;
                println!(" {decode:>11.1} {budget:>11.1} {push:>11.1} {:>14.2}", push / budget);
            }
            Ok(_) => println!(" a side is missing"),
            Err(message) => println!(" {message}"),
        }
    }
}
