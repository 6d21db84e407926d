//! The hub's calls. Each judges catalogue, table and socket before what it is for,
//! and changes the table only once no error is left to give.

use crate::catalogue::{Catalogue, Device, ValueKind, PARAMETER_LIMIT};
use crate::list::{Kind, LIST_CODE, LIST_LIMIT};
use crate::packet::{self, ACK, DEVICE_DATA, DEVICE_WRITE, PACKET_ROOM, PING};
use crate::table::{Slot, Table, SOCKETS, UID_BYTES};
use crate::Error;

/// The bytes of a data packet's map.
pub const MAP_BYTES: usize = 4;

/// The catalogue, with a lawful table.
fn judge_table<'a>(catalogue: &'a [u8], table: &Table) -> Result<Catalogue<'a>, Error> {
    let catalogue = Catalogue::parse(catalogue)?;
    if !table.lawful(&catalogue) {
        return Err(Error::NotLawful);
    }
    Ok(catalogue)
}

/// The same, with the socket as a row has it.
fn judge_socket<'a>(
    catalogue: &'a [u8],
    table: &Table,
    socket: u64,
) -> Result<(Catalogue<'a>, u8), Error> {
    let catalogue = judge_table(catalogue, table)?;
    if socket >= u64::from(SOCKETS) {
        return Err(Error::Socket);
    }
    Ok((catalogue, socket as u8))
}

/// Takes the packet at the front of `bytes` from a socket; answers the bytes consumed.
pub fn receive(
    catalogue: &[u8],
    table: &mut Table,
    socket: u64,
    bytes: &[u8],
) -> Result<usize, Error> {
    let (catalogue, socket) = judge_socket(catalogue, table, socket)?;
    let mut message = [0; PACKET_ROOM];
    let consumed = packet::decode(bytes, &mut message)?;
    // The message is 3 bytes shorter than the packet, and its last is the checksum.
    let payload = &message[2..consumed - 4];
    match message[0] {
        PING | DEVICE_WRITE => return Err(Error::PacketForDevices),
        ACK => acknowledge(&catalogue, table, socket, payload.try_into().unwrap())?,
        DEVICE_DATA => take_data(&catalogue, table, socket, payload)?,
        _ => {}
    }
    Ok(consumed)
}

/// Gives a device a slot: the one its socket has already, or the lowest empty one.
fn acknowledge(
    catalogue: &Catalogue,
    table: &mut Table,
    socket: u8,
    payload: &[u8; 2 + UID_BYTES],
) -> Result<(), Error> {
    let [device_type, year, uid @ ..] = *payload;
    if catalogue.device(device_type).is_none() {
        return Err(Error::DeviceTypeUnknown);
    }
    if table.slots.iter().any(|slot| slot.taken && slot.socket != socket && slot.uid == uid) {
        return Err(Error::UidElsewhere);
    }
    let lowest_empty = || table.slots.iter().position(|slot| !slot.taken);
    let at = table.slot_of(socket).or_else(lowest_empty).ok_or(Error::SlotsFull)?;
    table.slots[at] = Slot::new(socket, device_type, year, uid);
    Ok(())
}

/// Replaces the values that the packet's map names.
fn take_data(
    catalogue: &Catalogue,
    table: &mut Table,
    socket: u8,
    payload: &[u8],
) -> Result<(), Error> {
    let at = table.slot_of(socket).ok_or(Error::NoDevice)?;
    let slot = &mut table.slots[at];
    // A lawful table has only types of the catalogue.
    let device = catalogue.device(slot.device_type).ok_or(Error::NotLawful)?;
    let (map, values) = payload.split_at(MAP_BYTES);
    let map = u32::from_le_bytes(map.try_into().unwrap());
    let year = slot.year;
    judge_values(&device, year, map, values)?;
    let mut rest = values;
    for (index, kind) in named(&device, map) {
        let (value, behind) = rest.split_at(kind.width(year));
        slot.present[index] = true;
        slot.bits[index] = held_bits(value);
        rest = behind;
    }
    Ok(())
}

/// The parameters a map names, as far as they are readable, in rising order.
pub fn named<'a>(device: &'a Device, map: u32) -> impl Iterator<Item = (usize, ValueKind)> + 'a {
    let set = (0..PARAMETER_LIMIT).filter(move |index| map >> index & 1 == 1);
    set.filter_map(|index| device.readable(index).map(|kind| (index, kind)))
}

fn judge_values(device: &Device, year: u8, map: u32, values: &[u8]) -> Result<(), Error> {
    if named(device, map).count() != map.count_ones() as usize {
        return Err(Error::ParameterNotReadable);
    }
    if named(device, map).map(|(_, kind)| kind.width(year)).sum::<usize>() != values.len() {
        return Err(Error::ValuesLength);
    }
    let mut at = 0;
    for (_, kind) in named(device, map) {
        if kind == ValueKind::Bool && values[at] > 1 {
            return Err(Error::BoolValue);
        }
        at += kind.width(year);
    }
    Ok(())
}

/// The bits that are held for a value, whose bytes come low byte first. Two bytes are a
/// short INT, which keeps its sign.
fn held_bits(value: &[u8]) -> u32 {
    match *value {
        [flag] => flag.into(),
        [low, high] => i32::from(i16::from_le_bytes([low, high])) as u32,
        _ => u32::from_le_bytes(value.try_into().unwrap()),
    }
}

/// Empties the slot of the device at a socket.
pub fn detach(catalogue: &[u8], table: &mut Table, socket: u64) -> Result<(), Error> {
    let (_, socket) = judge_socket(catalogue, table, socket)?;
    let at = table.slot_of(socket).ok_or(Error::NoDevice)?;
    table.slots[at] = Slot::default();
    Ok(())
}

/// A held value. A float is given by its bits, so that each NaN is itself.
#[derive(Clone, Copy, PartialEq, Eq, Debug)]
pub enum Value {
    Int(i32),
    Float(u32),
    Flag(bool),
}

impl Value {
    fn of_bits(kind: ValueKind, bits: u32) -> Value {
        match kind {
            ValueKind::Int => Value::Int(bits as i32),
            ValueKind::Float => Value::Float(bits),
            ValueKind::Bool => Value::Flag(bits == 1),
        }
    }
}

/// One parameter of the device at a socket; none if it is not held, whatever the index.
pub fn read_parameter(
    catalogue: &[u8],
    table: &Table,
    socket: u64,
    index: u64,
) -> Result<Option<Value>, Error> {
    let (catalogue, socket) = judge_socket(catalogue, table, socket)?;
    let slot = &table.slots[table.slot_of(socket).ok_or(Error::NoDevice)?];
    Ok(usize::try_from(index).ok().and_then(|index| value_of(&catalogue, slot, index)))
}

fn value_of(catalogue: &Catalogue, slot: &Slot, index: usize) -> Option<Value> {
    if !slot.present.get(index).is_some_and(|&present| present) {
        return None;
    }
    let kind = catalogue.device(slot.device_type)?.readable(index)?;
    Some(Value::of_bits(kind, slot.bits[index]))
}

/// Writes the table's list to the front of `list` and answers its length.
pub fn publish(catalogue: &[u8], table: &Table, list: &mut [u8]) -> Result<usize, Error> {
    let catalogue = judge_table(catalogue, table)?;
    if list.len() < LIST_LIMIT {
        return Err(Error::BufferTooSmall);
    }
    let mut writer = Writer { list, at: 0 };
    let taken = table.slots.iter().filter(|slot| slot.taken).count();
    writer.words(&[LIST_CODE, taken as u32]);
    for socket in 0..SOCKETS {
        if let Some(at) = table.slot_of(socket) {
            writer.device(&catalogue, &table.slots[at]);
        }
    }
    Ok(writer.at)
}

/// Puts the published list together. It never passes 3,752 bytes, so it always fits.
struct Writer<'a> {
    list: &'a mut [u8],
    at: usize,
}

impl Writer<'_> {
    fn bytes(&mut self, bytes: &[u8]) {
        self.list[self.at..self.at + bytes.len()].copy_from_slice(bytes);
        self.at += bytes.len();
    }

    fn words(&mut self, words: &[u32]) {
        words.iter().for_each(|word| self.bytes(&word.to_le_bytes()));
    }

    /// A device's list: socket, type, UID, and a list of two for each held value.
    fn device(&mut self, catalogue: &Catalogue, slot: &Slot) {
        let held = slot.present.iter().filter(|&&present| present).count() as u32;
        let int = Kind::Int.code();
        self.words(&[LIST_CODE, 3 + held]);
        self.words(&[int, u32::from(slot.socket), int, u32::from(slot.device_type)]);
        self.words(&[Kind::Blob.code(), UID_BYTES as u32]);
        self.bytes(&slot.uid);
        for index in 0..PARAMETER_LIMIT {
            if let Some(value) = value_of(catalogue, slot, index) {
                self.parameter(index as u32, value);
            }
        }
    }

    fn parameter(&mut self, index: u32, value: Value) {
        let int = Kind::Int.code();
        match value {
            Value::Int(number) => self.words(&[LIST_CODE + int, 2, index, number as u32]),
            Value::Flag(flag) => self.words(&[LIST_CODE + int, 2, index, u32::from(flag)]),
            Value::Float(bits) => {
                self.words(&[LIST_CODE, 2, int, index, Kind::Float.code()]);
                self.bytes(&double_of_single(bits).to_le_bytes());
            }
        }
    }
}

/// The double of exactly a single's value; infinities and NaNs keep their sign, and
/// their fraction moves 29 bits up, so that no NaN is made quiet.
pub fn double_of_single(single: u32) -> u64 {
    let (sign, exponent, fraction) = (single >> 31, single >> 23 & 0xff, single & 0x7f_ffff);
    if exponent == 0xff {
        return u64::from(sign) << 63 | 0x7ff << 52 | u64::from(fraction) << 29;
    }
    f64::from(f32::from_bits(single)).to_bits()
}
