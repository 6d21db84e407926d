//! The lines' cases: scraps of a line, each handed in until it is taken. A line ends in the
//! state in which it began, so that it can arrive again and again.

use crate::cases::{repeat, Case, Side};
use crate::packets::{self, packet_of, Message};
use crate::plain;
use archive::{line_push, LinePushed};
use second_reader::line::{self, FRESH, LENGTH, LINE_ROOM, SKIPPING};
use second_reader::packet::PACKET_ROOM;
use std::hint::black_box;

struct LineCase {
    name: String,
    /// The state before the first scrap and behind the last.
    start: Vec<u8>,
    scraps: Vec<Vec<u8>>,
    line: Vec<u8>,
    packet: Vec<u8>,
}

/// The numbers of an answer, and what the call left in line and packet area.
type Outcome = ([u64; 3], Vec<u8>, Vec<u8>);

impl Case for LineCase {
    fn name(&self) -> &str {
        &self.name
    }

    fn bytes(&self) -> usize {
        self.scraps.iter().map(Vec::len).sum()
    }

    fn sides(&self) -> &'static [Side] {
        &[Side::Reader, Side::Plain, Side::Archive]
    }

    fn call(&mut self, side: Side, times: u64) {
        let LineCase { scraps, line, packet, .. } = self;
        match side {
            Side::Reader => repeat(times, || {
                arrive(scraps, |bytes| line::push(black_box(line), bytes, packet).consumed)
            }),
            Side::Plain => repeat(times, || {
                arrive(scraps, |bytes| plain::line_push(black_box(line), bytes, packet).consumed)
            }),
            Side::Archive => repeat(times, || {
                arrive(scraps, |bytes| line_push(black_box(line), bytes, packet).consumed)
            }),
            Side::Tuned => no_tuned(),
        }
        black_box((line, packet));
    }

    fn sides_agree(&mut self) -> bool {
        let reader = self.outcomes(Side::Reader);
        let again = reader.last().is_some_and(|(_, line, _)| *line == self.start);
        again && self.sides().iter().all(|&side| self.outcomes(side) == reader)
    }
}

impl LineCase {
    /// What each call of one side answers and leaves, the areas being as new before.
    fn outcomes(&mut self, side: Side) -> Vec<Outcome> {
        let LineCase { start, scraps, line, packet, .. } = self;
        line.copy_from_slice(start);
        packet.fill(0xa5);
        let mut outcomes = Vec::new();
        arrive(scraps, |bytes| {
            let answer = match side {
                Side::Reader => {
                    let pushed = line::push(line, bytes, packet);
                    [pushed.found, pushed.error, pushed.consumed]
                }
                Side::Plain => numbers(plain::line_push(line, bytes, packet)),
                Side::Archive => numbers(line_push(line, bytes, packet)),
                Side::Tuned => no_tuned(),
            };
            outcomes.push((answer, line.clone(), packet.clone()));
            answer[2]
        });
        outcomes
    }
}

fn numbers(pushed: LinePushed) -> [u64; 3] {
    [pushed.found, pushed.error, pushed.consumed]
}

fn no_tuned() -> ! {
    unreachable!("a line has no tuned side")
}

/// Hands in each scrap, and its rest again until all of it is taken. The push answers the
/// bytes taken.
fn arrive(scraps: &[Vec<u8>], mut push: impl FnMut(&[u8]) -> u64) {
    for scrap in scraps {
        let mut rest = &scrap[..];
        loop {
            rest = &rest[black_box(push(black_box(rest))) as usize..];
            if rest.is_empty() {
                break;
            }
        }
    }
}

fn state(phase: u8) -> Vec<u8> {
    let mut line = vec![0; LINE_ROOM];
    line[0] = phase;
    line
}

/// The state behind these bytes of a fresh line.
fn state_behind(bytes: &[u8]) -> Vec<u8> {
    let mut line = state(FRESH);
    line::push(&mut line, bytes, &mut [0; PACKET_ROOM]);
    line
}

/// The bytes in scraps of this size.
fn cut(bytes: &[u8], size: usize) -> Vec<Vec<u8>> {
    bytes.chunks(size).map(<[u8]>::to_vec).collect()
}

/// The packet with another checksum; its last byte is no code.
fn damaged(mut packet: Vec<u8>) -> Vec<u8> {
    *packet.last_mut().unwrap() ^= 0x80;
    packet
}

fn case(name: String, start: Vec<u8>, scraps: Vec<Vec<u8>>) -> Box<dyn Case> {
    let (line, packet) = (start.clone(), vec![0; PACKET_ROOM]);
    Box::new(LineCase { name, start, scraps, line, packet })
}

/// The name and the packet of each message.
pub fn all_packets() -> Vec<(&'static str, Vec<u8>)> {
    let mut all = Vec::new();
    for Message { name, packet_type, payload } in packets::all() {
        all.push((name, packet_of(packet_type, &payload)));
    }
    all
}

/// Packets alone on a fresh line: whole in one scrap, then a few of them cut.
fn single_packets() -> Vec<Box<dyn Case>> {
    let mut cases = Vec::new();
    let mut all = all_packets();
    for (name, packet) in &all {
        cases.push(case(format!("line-{name}"), state(FRESH), vec![packet.clone()]));
    }
    all.retain(|(name, _)| ["ping", "ack", "data-full", "full"].contains(name));
    for (cutting, size) in [("bytes", 1), ("by-8", 8), ("by-64", 64)] {
        for (name, packet) in all.iter().filter(|(_, packet)| packet.len() > size) {
            let name = format!("line-{cutting}-{name}");
            cases.push(case(name, state(FRESH), cut(packet, size)));
        }
    }
    cases
}

/// What is no good packet, and lines of several.
fn long_lines() -> Vec<Box<dyn Case>> {
    let all = all_packets();
    let [ack, full] = ["ack", "full"].map(|wanted| {
        all.iter().find(|(name, _)| *name == wanted).expect("a message of that name").1.clone()
    });
    let packets: Vec<u8> = all.iter().flat_map(|(_, packet)| packet.clone()).collect();
    let after_noise: Vec<u8> =
        all.iter().flat_map(|(_, packet)| [&[7; 20], &packet[..]].concat()).collect();
    let noise: Vec<u8> = (0..1024_u32).map(|at| (at % 255 + 1) as u8).collect();
    // Lengths 1 to 3, each behind its 00 and before some noise.
    let short: Vec<u8> =
        (0..64_u8).flat_map(|at| [vec![0, at % 3 + 1], vec![at + 1; 14]].concat()).collect();
    // Behind a 00: a packet that another 00 cuts short.
    let cut_short = [&full[1..200], &[0]].concat();
    let one = |name: &str, start: Vec<u8>, scrap: Vec<u8>| case(name.into(), start, vec![scrap]);
    let by_64 = |name: &str, start: Vec<u8>, line: &[u8]| case(name.into(), start, cut(line, 64));
    vec![
        one("line-packets", state(FRESH), packets.clone()),
        by_64("line-by-64-packets", state(FRESH), &packets),
        one("line-packets-and-noise", state(FRESH), after_noise),
        one("line-noise", state(SKIPPING), noise),
        one("line-noise-short", state(SKIPPING), short),
        one("line-zeros", state(LENGTH), vec![0; 256]),
        one("line-damaged-ack", state(SKIPPING), damaged(ack)),
        one("line-damaged-full", state(SKIPPING), damaged(full.clone())),
        by_64("line-by-64-damaged-full", state(SKIPPING), &damaged(full.clone())),
        one("line-cut-short", state(LENGTH), cut_short.clone()),
        by_64("line-by-64-cut-short", state(LENGTH), &cut_short),
        one("line-empty-fresh", state(FRESH), vec![]),
        one("line-empty-inside", state_behind(&full[..full.len() - 1]), vec![]),
    ]
}

pub fn all() -> Vec<Box<dyn Case>> {
    let mut cases = single_packets();
    cases.extend(long_lines());
    cases
}
