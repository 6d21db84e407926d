//! The writers' cases: a packet of a type and a payload.

use crate::cases::{repeat, Case, Side};
use crate::packets::{self, Message};
use crate::plain;
use archive::WriteResult;
use second_reader::calls::sized;
use second_reader::packet::{encode, PACKET_ROOM};
use std::hint::black_box;

struct Writing {
    name: String,
    packet_type: u64,
    payload: Vec<u8>,
    packet: Vec<u8>,
}

impl Case for Writing {
    fn name(&self) -> &str {
        &self.name
    }

    fn bytes(&self) -> usize {
        self.payload.len()
    }

    fn sides(&self) -> &'static [Side] {
        &[Side::Reader, Side::Plain, Side::Archive]
    }

    fn call(&mut self, side: Side, times: u64) {
        let Writing { packet_type, payload, packet, .. } = self;
        let given = || (black_box(*packet_type), black_box(&payload[..]));
        match side {
            Side::Reader => repeat(times, || {
                let (packet_type, payload) = given();
                encode(packet_type, payload, packet)
            }),
            Side::Plain => repeat(times, || {
                let (packet_type, payload) = given();
                plain::packet_encode(packet_type, payload, packet)
            }),
            Side::Archive => repeat(times, || {
                let (packet_type, payload) = given();
                archive::packet_encode(packet_type, payload, packet)
            }),
            Side::Tuned => no_tuned(),
        }
        black_box(packet);
    }

    fn sides_agree(&mut self) -> bool {
        let reader = self.outcome(Side::Reader);
        self.sides().iter().all(|&side| self.outcome(side) == reader)
    }
}

impl Writing {
    /// Error and bytes written of one side, and the packet area, which held one byte all over.
    fn outcome(&mut self, side: Side) -> ([u64; 2], Vec<u8>) {
        let Writing { packet_type, payload, packet, .. } = self;
        packet.fill(0xa5);
        let numbers = |result: WriteResult| [result.error, result.written];
        let answer = match side {
            Side::Reader => sized(encode(*packet_type, payload, packet)),
            Side::Plain => numbers(plain::packet_encode(*packet_type, payload, packet)),
            Side::Archive => numbers(archive::packet_encode(*packet_type, payload, packet)),
            Side::Tuned => no_tuned(),
        };
        (answer, packet.clone())
    }
}

fn no_tuned() -> ! {
    unreachable!("writing has no tuned side")
}

pub fn all() -> Vec<Box<dyn Case>> {
    let writing = |Message { name, packet_type, payload }| -> Box<dyn Case> {
        Box::new(Writing {
            name: format!("write-packet-{name}"),
            packet_type: packet_type.into(),
            payload,
            packet: vec![0; PACKET_ROOM],
        })
    };
    packets::all().into_iter().map(writing).collect()
}
