//! What a received packet shows about the width of INTs, so that a run can tell whether its
//! cases show all of it.

use crate::catalogue::{Catalogue, ValueKind, LONG_INT_YEAR};
use crate::hub::{named, receive, MAP_BYTES};
use crate::packet::{self, ACK, DEVICE_DATA, PACKET_ROOM};
use crate::table::{Slot, Table, SOCKETS};
use crate::Error;

/// Whether devices of this year send an INT as four bytes.
fn long(year: u8) -> bool {
    year >= LONG_INT_YEAR
}

/// A year whose devices send INTs in the other width than those of this year.
pub fn other_width(year: u8) -> u8 {
    if long(year) {
        LONG_INT_YEAR - 1
    } else {
        LONG_INT_YEAR
    }
}

/// Short is an INT in two bytes, long one in four.
#[derive(Clone, Copy, PartialEq, Eq, Debug)]
#[repr(u8)]
pub enum Shown {
    /// A short INT below 0 is accepted.
    ShortBelowZero = 1,
    /// A long INT that two bytes do not hold is accepted.
    LongBeyondShort = 2,
    /// 17 for values as long as with long INTs, from a device that sends short ones.
    LongRefused = 3,
    /// 17 for values as long as with short INTs, from a device that sends long ones.
    ShortRefused = 4,
    /// Long INTs are accepted behind a second ACK, before which they were short.
    LongBehindAck = 5,
    /// Short INTs are accepted behind a second ACK, before which they were long.
    ShortBehindAck = 6,
}

impl Shown {
    /// The numbers of all that can be shown.
    pub const NUMBERS: &'static [u64] = &[1, 2, 3, 4, 5, 6];

    pub fn number(self) -> u64 {
        self as u64
    }
}

/// Follows the packets for one table.
#[derive(Default)]
pub struct Widths {
    /// For each socket the row, without values, with which a second ACK changed the width.
    changed: [Option<Slot>; SOCKETS as usize],
}

impl Widths {
    /// What the packet shows that comes to this table next.
    pub fn shown(
        &mut self,
        catalogue: &[u8],
        table: &Table,
        socket: u64,
        bytes: &[u8],
    ) -> Vec<Shown> {
        let mut after = *table;
        let answer = receive(catalogue, &mut after, socket, bytes);
        let mut message = [0; PACKET_ROOM];
        let (Ok(catalogue), Ok(consumed), Ok(socket)) =
            (Catalogue::parse(catalogue), packet::decode(bytes, &mut message), socket.try_into())
        else {
            return Vec::new();
        };
        let payload = &message[2..consumed - 4];
        let row = |table: &Table| table.slot_of(socket).map(|at| table.slots[at]);
        match (message[0], answer, row(table), row(&after)) {
            (ACK, Ok(_), before, Some(after)) => {
                self.acknowledged(before, after);
                Vec::new()
            }
            (DEVICE_DATA, Ok(_), Some(_), Some(after)) => {
                self.accepted(&catalogue, &after, payload)
            }
            (DEVICE_DATA, Err(Error::ValuesLength), Some(row), _) => {
                Vec::from_iter(refused(&catalogue, &row, payload))
            }
            _ => Vec::new(),
        }
    }

    fn acknowledged(&mut self, before: Option<Slot>, after: Slot) {
        let other = before.is_some_and(|before| long(before.year) != long(after.year));
        self.changed[usize::from(after.socket)] = other.then_some(after);
    }

    /// What accepted data shows; the row has its values already.
    fn accepted(&self, catalogue: &Catalogue, row: &Slot, payload: &[u8]) -> Vec<Shown> {
        let ints: Vec<i32> = kinds(catalogue, row, payload)
            .into_iter()
            .filter(|&(_, kind)| kind == ValueKind::Int)
            .map(|(index, _)| row.bits[index] as i32)
            .collect();
        let head = Slot::new(row.socket, row.device_type, row.year, row.uid);
        let behind_ack = !ints.is_empty() && self.changed[usize::from(row.socket)] == Some(head);
        let mut shown = Vec::new();
        if long(row.year) {
            let beyond = ints.iter().any(|&int| i16::try_from(int).is_err());
            shown.extend(beyond.then_some(Shown::LongBeyondShort));
            shown.extend(behind_ack.then_some(Shown::LongBehindAck));
        } else {
            shown.extend(ints.iter().any(|&int| int < 0).then_some(Shown::ShortBelowZero));
            shown.extend(behind_ack.then_some(Shown::ShortBehindAck));
        }
        shown
    }
}

/// What data shows whose values are of a wrong length.
fn refused(catalogue: &Catalogue, row: &Slot, payload: &[u8]) -> Option<Shown> {
    let other = other_width(row.year);
    let kinds = kinds(catalogue, row, payload);
    let length: usize = kinds.iter().map(|(_, kind)| kind.width(other)).sum();
    let shown = if long(row.year) { Shown::ShortRefused } else { Shown::LongRefused };
    (payload.len() == MAP_BYTES + length).then_some(shown)
}

/// The parameters that a payload's map names, as far as they are readable.
fn kinds(catalogue: &Catalogue, row: &Slot, payload: &[u8]) -> Vec<(usize, ValueKind)> {
    let Some(device) = catalogue.device(row.device_type) else { return Vec::new() };
    let map = payload[..MAP_BYTES].try_into().unwrap();
    named(&device, u32::from_le_bytes(map)).collect()
}
