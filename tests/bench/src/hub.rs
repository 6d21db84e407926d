//! The hub's cases: one call on a table again and again. The second reader has the table
//! in types of its own and changes it in place; the archive is lent its bytes.

use crate::cases::{repeat, Case, Side};
use crate::packets::packet_of;
use archive::{hub_detach, hub_publish, hub_read, hub_receive};
use second_reader::calls::{sized, value};
use second_reader::catalogue::{LONG_INT_YEAR, PARAMETER_LIMIT};
use second_reader::hub::{detach, publish, read_parameter, receive};
use second_reader::list::LIST_LIMIT;
use second_reader::packet::{ACK, DEVICE_DATA, LOG};
use second_reader::table::{Table, TABLE_BYTES};
use std::hint::black_box;

struct HubCase {
    name: &'static str,
    catalogue: Vec<u8>,
    /// The table before the call.
    before: Table,
    before_bytes: [u8; TABLE_BYTES],
    call: Call,
    socket: u64,
    /// The reader's table, the archive's, and the list area of either.
    table: Table,
    table_bytes: [u8; TABLE_BYTES],
    list: Vec<u8>,
}

enum Call {
    Receive(Vec<u8>),
    /// Each call has the table put back first, or all but one would be refused.
    Detach,
    Publish,
    /// The parameters in turn, so that no two calls that follow each other are the same.
    Read,
}

/// Parameter bytes of a catalogue.
const READABLE_INT: u8 = 4;
const READABLE_FLOAT: u8 = 5;

/// The numbers of an answer, 0 where it has fewer, and what is left in table and list.
type Outcome = ([u64; 3], [u8; TABLE_BYTES], Vec<u8>);

fn three([error, size]: [u64; 2]) -> [u64; 3] {
    [error, size, 0]
}

impl Case for HubCase {
    fn name(&self) -> &str {
        self.name
    }

    fn bytes(&self) -> usize {
        match &self.call {
            Call::Receive(packet) => packet.len(),
            Call::Publish => {
                let mut list = vec![0; LIST_LIMIT];
                publish(&self.catalogue, &self.before, &mut list).unwrap_or(0)
            }
            Call::Detach | Call::Read => 0,
        }
    }

    fn sides(&self) -> &'static [Side] {
        &[Side::Reader, Side::Archive]
    }

    fn call(&mut self, side: Side, times: u64) {
        let HubCase { catalogue, call, table, table_bytes, list, .. } = self;
        let (catalogue, socket) = (&catalogue[..], self.socket);
        // What is read is hidden in each call, so that no part of the work is done ahead.
        let mut index = 0;
        let mut next_index = || {
            index = (index + 1) % PARAMETER_LIMIT as u64;
            index
        };
        match (call, side) {
            (Call::Receive(packet), Side::Reader) => repeat(times, || {
                receive(black_box(catalogue), black_box(table), socket, black_box(packet))
            }),
            (Call::Receive(packet), Side::Archive) => repeat(times, || {
                hub_receive(black_box(catalogue), black_box(table_bytes), socket, black_box(packet))
            }),
            (Call::Detach, Side::Reader) => repeat(times, || {
                *table = self.before;
                detach(black_box(catalogue), black_box(&mut *table), socket)
            }),
            (Call::Detach, Side::Archive) => repeat(times, || {
                *table_bytes = self.before_bytes;
                hub_detach(black_box(catalogue), black_box(&mut *table_bytes), socket)
            }),
            (Call::Publish, Side::Reader) => {
                repeat(times, || publish(black_box(catalogue), black_box(table), list))
            }
            (Call::Publish, Side::Archive) => {
                repeat(times, || hub_publish(black_box(catalogue), black_box(table_bytes), list))
            }
            (Call::Read, Side::Reader) => repeat(times, || {
                read_parameter(black_box(catalogue), black_box(table), socket, next_index())
            }),
            (Call::Read, Side::Archive) => repeat(times, || {
                hub_read(black_box(catalogue), black_box(table_bytes), socket, next_index())
            }),
            (_, Side::Plain | Side::Tuned) => unreachable!("the hub has no C side"),
        }
        black_box((table, table_bytes, list));
    }

    fn sides_agree(&mut self) -> bool {
        // A second call sees what the first left, as the calls that are measured do.
        let agree = (0..=PARAMETER_LIMIT as u64)
            .all(|index| self.outcome(Side::Reader, index) == self.outcome(Side::Archive, index));
        self.table = self.before;
        self.table_bytes = self.before_bytes;
        agree
    }
}

impl HubCase {
    fn outcome(&mut self, side: Side, index: u64) -> Outcome {
        let HubCase { catalogue, call, socket, table, table_bytes, list, .. } = self;
        let socket = *socket;
        list.fill(0xa5);
        let of_reader = side == Side::Reader;
        let answer = match call {
            Call::Receive(packet) if of_reader => {
                three(sized(receive(catalogue, table, socket, packet)))
            }
            Call::Receive(packet) => {
                let result = hub_receive(catalogue, table_bytes, socket, packet);
                [result.error, result.consumed, 0]
            }
            Call::Detach if of_reader => {
                [detach(catalogue, table, socket).map_or_else(|error| error.number(), |()| 0), 0, 0]
            }
            Call::Detach => [hub_detach(catalogue, table_bytes, socket), 0, 0],
            Call::Publish if of_reader => three(sized(publish(catalogue, table, list))),
            Call::Publish => {
                let result = hub_publish(catalogue, table_bytes, list);
                [result.error, result.written, 0]
            }
            Call::Read if of_reader => value(read_parameter(catalogue, table, socket, index)),
            Call::Read => {
                let result = hub_read(catalogue, table_bytes, socket, index);
                [result.error, result.kind, result.bits]
            }
        };
        let left = if of_reader { table.to_bytes() } else { *table_bytes };
        (answer, left, list.clone())
    }
}

fn ack_of_year(device_type: u8, year: u8, last_of_uid: u8) -> Vec<u8> {
    packet_of(ACK, &[device_type, year, 1, 2, 3, 4, 5, 6, 7, last_of_uid])
}

fn ack(device_type: u8, last_of_uid: u8) -> Vec<u8> {
    ack_of_year(device_type, LONG_INT_YEAR, last_of_uid)
}

fn data(map: u32, values: &[u8]) -> Vec<u8> {
    packet_of(DEVICE_DATA, &[&map.to_le_bytes(), values].concat())
}

fn floats() -> Vec<u8> {
    let values = (0..32_u8).flat_map(|index| (f32::from(index) + 0.5).to_le_bytes());
    data(u32::MAX, &Vec::from_iter(values))
}

/// INTs in two bytes, half of them below 0.
fn short_ints() -> Vec<u8> {
    let values = (0..32_i16).flat_map(|index| (500 * index - 8000).to_le_bytes());
    data(u32::MAX, &Vec::from_iter(values))
}

/// A table under a catalogue, from packets with their sockets.
fn filled(catalogue: &[u8], packets: &[(u64, Vec<u8>)]) -> Table {
    let mut table = Table::default();
    for (socket, packet) in packets {
        receive(catalogue, &mut table, *socket, packet).expect("a good packet");
    }
    table
}

/// Four types of 32 parameters each, all of this byte, and on sockets 1, 3, 5 and 7 a device
/// of each type and of this year that has sent these values.
fn four_devices(parameter: u8, year: u8, values: &[u8]) -> (Vec<u8>, Table) {
    let catalogue = [vec![4, 1, 32, 2, 32, 3, 32, 4, 32, 128, 0], vec![parameter; 128]].concat();
    let packets: Vec<_> = (1..=4)
        .flat_map(|at: u8| {
            let socket = 2 * u64::from(at) - 1;
            [(socket, ack_of_year(at, year, at)), (socket, values.to_vec())]
        })
        .collect();
    let table = filled(&catalogue, &packets);
    (catalogue, table)
}

fn case(
    name: &'static str,
    catalogue: &[u8],
    table: Table,
    socket: u64,
    call: Call,
) -> Box<dyn Case> {
    Box::new(HubCase {
        name,
        catalogue: catalogue.to_vec(),
        before: table,
        before_bytes: table.to_bytes(),
        call,
        socket,
        table,
        table_bytes: table.to_bytes(),
        list: vec![0; LIST_LIMIT],
    })
}

pub fn all() -> Vec<Box<dyn Case>> {
    let small = vec![1, 7, 3, 3, 0, 4, 9, 6];
    let one = filled(&small, &[(3, ack(7, 8)), (3, data(5, &[7, 0, 0, 0, 1]))]);
    let (large, four) = four_devices(READABLE_FLOAT, LONG_INT_YEAR, &floats());
    let (large_ints, four_old) = four_devices(READABLE_INT, LONG_INT_YEAR - 1, &short_ints());
    let mut wrong_checksum = floats();
    *wrong_checksum.last_mut().unwrap() ^= 1;
    let on_one = |name, call| case(name, &small, one, 3, call);
    let on_four = |name, call| case(name, &large, four, 5, call);
    let on_four_old = |name, call| case(name, &large_ints, four_old, 5, call);
    let log = packet_of(LOG, b"motor too warm, resting");
    vec![
        on_one("receive-ack", Call::Receive(ack(7, 8))),
        on_four("receive-ack-full", Call::Receive(ack(3, 3))),
        on_one("receive-data-1", Call::Receive(data(1, &[9, 0, 0, 0]))),
        on_four("receive-data-32", Call::Receive(floats())),
        on_four_old("receive-data-32-short", Call::Receive(short_ints())),
        on_one("receive-log", Call::Receive(log)),
        on_one("receive-refused", Call::Receive(wrong_checksum.clone())),
        on_four("receive-refused-full", Call::Receive(wrong_checksum)),
        on_one("receive-refused-flag", Call::Receive(data(5, &[9, 0, 0, 0, 2]))),
        case("receive-refused-no-slot", &large, four, 0, Call::Receive(ack(3, 99))),
        on_one("detach", Call::Detach),
        on_four("detach-full", Call::Detach),
        on_one("publish-1-device", Call::Publish),
        on_four("publish-4-full", Call::Publish),
        on_four("read-parameter", Call::Read),
    ]
}
