//! Calls of the hub, each chosen by the table as the calls before leave it, so that most
//! pass the first tests; and the bytes of tables, and of none.

use super::{buffer_length, catalogue, damage, packet, table};
use crate::catalogue::{Catalogue, ValueKind, PARAMETER_LIMIT};
use crate::list::LIST_LIMIT;
use crate::packet::{ACK, DEVICE_DATA, DEVICE_WRITE, LOG, PING};
use crate::random::Random;
use crate::table::{Slot, Table, PRESENCE_AT, SLOTS, SLOT_BYTES, TABLE_BYTES};
use crate::widths::other_width;

/// One call on a table; a list area is given by its length.
#[derive(Clone, Debug)]
pub enum Call {
    Receive { socket: u64, packet: Vec<u8> },
    Detach { socket: u64 },
    Publish { room: usize },
    Read { socket: u64, index: u64 },
}

/// Numbers whose low bytes are those of a socket, a type or an index.
pub const WIDE: [u64; 7] =
    [256, 257, 259, 1 << 32, (1 << 32) + 3, (1 << 63) + 1, u64::MAX - u64::MAX % 256];

/// A socket that has a device, mostly; else any, above 7 at times.
pub fn socket(random: &mut Random, table: &Table) -> u8 {
    let taken: Vec<u8> =
        table.slots.iter().filter(|slot| slot.taken).map(|slot| slot.socket).collect();
    match random.below(12) {
        0 => random.pick(&[8, 9, 255]),
        1..=4 => random.below(8) as u8,
        _ if taken.is_empty() => random.below(8) as u8,
        _ => random.pick(&taken),
    }
}

/// An index of a parameter, above the last at times.
pub fn index(random: &mut Random) -> u8 {
    if random.once_in(8) {
        random.byte()
    } else {
        random.below(PARAMETER_LIMIT + 1) as u8
    }
}

/// A number, or at times one above a byte that is likely to be taken for it.
fn widened(random: &mut Random, number: u8) -> u64 {
    if random.once_in(24) {
        random.pick(&WIDE).wrapping_add(random.pick(&[0, u64::from(number)]))
    } else {
        number.into()
    }
}

fn packet_bytes(packet_type: u8, payload: &[u8]) -> Vec<u8> {
    packet::packet_of(&packet::message_of(packet_type, payload))
}

/// An ACK; its type is in the catalogue, mostly, and its UID often one already seen.
fn ack(random: &mut Random, catalogue: &[u8], table: &Table) -> Vec<u8> {
    let parsed = Catalogue::parse(catalogue);
    let known = parsed.map_or(7, |parsed| table::device_type(random, &parsed));
    let device_type = if random.once_in(10) { random.byte() } else { known };
    let mut payload = vec![device_type, table::year(random)];
    let seen = table.slots[random.below(SLOTS)].uid;
    payload.extend(if random.once_in(6) { seen } else { table::uid(random) });
    packet_bytes(ACK, &payload)
}

/// The map of a data packet and the bytes of its values, and where among them flags stand.
#[derive(Default)]
struct Data {
    map: u32,
    values: Vec<u8>,
    flags: Vec<usize>,
}

impl Data {
    fn put(&mut self, index: usize, kind: ValueKind, bits: u32, year: u8) {
        if kind == ValueKind::Bool {
            self.flags.push(self.values.len());
        }
        self.map |= 1 << index;
        self.values.extend(&bits.to_le_bytes()[..kind.width(year)]);
    }

    /// Spoils one thing at times.
    fn spoil(&mut self, random: &mut Random) {
        match random.below(16) {
            0 => self.map ^= 1 << random.below(PARAMETER_LIMIT),
            1 => self.values.push(random.byte()),
            2 => drop(self.values.pop()),
            3 if !self.flags.is_empty() => {
                self.values[random.pick(&self.flags)] = random.pick(&[2, 255]);
            }
            4 => {
                self.map = 0;
                self.values.truncate(random.below(3));
            }
            _ => {}
        }
    }

    /// At most 32 values of 4 bytes and one more byte: 133 bytes, which a packet can
    /// hold, but not of this type.
    fn packet(&self) -> Vec<u8> {
        packet_bytes(DEVICE_DATA, &[&self.map.to_le_bytes(), &self.values[..]].concat())
    }
}

/// DEVICE_DATA for the device in this slot: some of its readable parameters, at times with
/// INTs of the other width or with a fault.
fn data(random: &mut Random, catalogue: &[u8], slot: Option<&Slot>) -> Vec<u8> {
    let mut data = Data::default();
    let parsed = Catalogue::parse(catalogue).ok();
    let device = parsed.and_then(|parsed| parsed.device(slot?.device_type));
    let own_year = slot.map_or(0, |slot| slot.year);
    let year = if random.once_in(6) { other_width(own_year) } else { own_year };
    let share = random.pick(&[1, 1, 2, 5]);
    for index in 0..PARAMETER_LIMIT {
        match device.and_then(|device| device.readable(index)) {
            Some(kind) if random.once_in(share) => {
                data.put(index, kind, table::value(random, kind), year);
            }
            _ => {}
        }
    }
    data.spoil(random);
    data.packet()
}

/// A packet for a socket, and what follows it at times.
pub fn packet(random: &mut Random, catalogue: &[u8], table: &Table, socket: u8) -> Vec<u8> {
    let slot = table.slots.iter().find(|slot| slot.taken && slot.socket == socket);
    let mut bytes = match random.below(16) {
        0..=4 => ack(random, catalogue, table),
        5..=11 => data(random, catalogue, slot),
        12 => packet_bytes(LOG, &packet::payload(random, 12)),
        13 => packet_bytes(PING, &[]),
        14 => packet_bytes(DEVICE_WRITE, &packet::payload(random, 4)),
        _ => packet::any(random),
    };
    if random.once_in(10) {
        damage(random, &mut bytes);
    }
    if random.once_in(10) {
        let length = random.between(1, 9);
        bytes.extend(random.bytes(length));
    }
    bytes
}

/// A lawful table, or one spoiled, made anew or from the one that is there.
pub fn table(random: &mut Random, catalogue: &Catalogue, there: &Table) -> Table {
    let mut table = if random.once_in(3) { *there } else { table::lawful(random, catalogue) };
    if random.once_in(2) {
        table::spoil(random, &mut table);
    }
    table
}

/// A catalogue, damaged at times.
pub fn catalogue(random: &mut Random) -> Vec<u8> {
    if random.once_in(12) {
        catalogue::damaged(random)
    } else {
        catalogue::legal(random)
    }
}

/// Any call, for the table that is there.
pub fn call(random: &mut Random, catalogue: &[u8], there: &Table) -> Call {
    let low = socket(random, there);
    let socket = widened(random, low);
    match random.below(16) {
        0..=8 => Call::Receive { socket, packet: packet(random, catalogue, there, low) },
        9 => Call::Detach { socket },
        10 | 11 => Call::Publish { room: buffer_length(random, LIST_LIMIT) },
        _ => {
            let index = index(random);
            Call::Read { socket, index: widened(random, index) }
        }
    }
}

/// The bytes of a table, lawful or spoiled, or bytes that are none: more or fewer, a byte
/// above 1 where yes or no is said, any byte changed, noise.
pub fn table_bytes(random: &mut Random, catalogue: &[u8], there: &Table) -> Vec<u8> {
    let mut bytes = match Catalogue::parse(catalogue) {
        Ok(parsed) => table(random, &parsed, there).to_bytes().to_vec(),
        Err(_) => there.to_bytes().to_vec(),
    };
    match random.below(16) {
        0 => bytes.truncate(random.pick(&[0, 1, SLOT_BYTES, TABLE_BYTES - 1])),
        1 => bytes.resize(random.pick(&[TABLE_BYTES + 1, TABLE_BYTES + SLOT_BYTES]), 0),
        2 => {
            let presence = PRESENCE_AT + random.below(PARAMETER_LIMIT);
            let flag = random.pick(&[0, presence]);
            bytes[random.below(SLOTS) * SLOT_BYTES + flag] = random.pick(&[2, 3, 128, 255]);
        }
        3 => {
            let at = random.below(TABLE_BYTES);
            bytes[at] = random.byte();
        }
        4 if random.once_in(4) => random.fill(&mut bytes),
        _ => {}
    }
    bytes
}
