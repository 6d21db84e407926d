//! The hub's table: four slots, each with a device and the values it sent.

use crate::catalogue::{Catalogue, ValueKind, PARAMETER_LIMIT};

pub const SLOTS: usize = 4;
pub const SOCKETS: u8 = 8;
pub const UID_BYTES: usize = 8;
/// Where in a row's bytes the presence of values stands.
pub const PRESENCE_AT: usize = 4 + UID_BYTES;
pub const SLOT_BYTES: usize = PRESENCE_AT + PARAMETER_LIMIT + 4 * PARAMETER_LIMIT;
/// The bytes of a table as it is lent to the C calls and as the replay program prints it.
pub const TABLE_BYTES: usize = SLOTS * SLOT_BYTES;

#[derive(Clone, Copy, PartialEq, Eq, Debug, Default)]
pub struct Slot {
    pub taken: bool,
    pub socket: u8,
    pub device_type: u8,
    pub year: u8,
    pub uid: [u8; UID_BYTES],
    /// Whether a value is held, for each parameter.
    pub present: [bool; PARAMETER_LIMIT],
    /// The bits of each held value, as many of 32 as its kind has; else 0.
    pub bits: [u32; PARAMETER_LIMIT],
}

impl Slot {
    /// A slot just taken, with no values held.
    pub fn new(socket: u8, device_type: u8, year: u8, uid: [u8; UID_BYTES]) -> Slot {
        Slot { taken: true, socket, device_type, year, uid, ..Slot::default() }
    }

    /// What is asked of one slot alone.
    fn lawful(&self, catalogue: &Catalogue) -> bool {
        if !self.taken {
            return *self == Slot::default();
        }
        let Some(device) = catalogue.device(self.device_type) else { return false };
        let value_lawful = |index: usize| match (self.present[index], device.readable(index)) {
            (false, _) => self.bits[index] == 0,
            (true, None) => false,
            (true, Some(ValueKind::Bool)) => self.bits[index] <= 1,
            (true, Some(_)) => true,
        };
        self.socket < SOCKETS && (0..PARAMETER_LIMIT).all(value_lawful)
    }
}

#[derive(Clone, Copy, PartialEq, Eq, Debug, Default)]
pub struct Table {
    pub slots: [Slot; SLOTS],
}

impl Table {
    pub fn lawful(&self, catalogue: &Catalogue) -> bool {
        let slots = &self.slots;
        let apart = |left: &Slot, right: &Slot| {
            !left.taken || !right.taken || (left.socket != right.socket && left.uid != right.uid)
        };
        slots.iter().all(|slot| slot.lawful(catalogue))
            && (1..SLOTS).all(|at| slots[..at].iter().all(|before| apart(before, &slots[at])))
    }

    /// The index of the slot that the device at this socket has.
    pub fn slot_of(&self, socket: u8) -> Option<usize> {
        self.slots.iter().position(|slot| slot.taken && slot.socket == socket)
    }

    /// A table from its bytes, unless they are more or fewer than a table has, or a byte
    /// that says yes or no is above 1. Whether it is lawful is not asked.
    pub fn from_bytes(bytes: &[u8]) -> Option<Table> {
        if bytes.len() != TABLE_BYTES {
            return None;
        }
        let mut table = Table::default();
        for (slot, part) in table.slots.iter_mut().zip(bytes.chunks(SLOT_BYTES)) {
            let (head, rest) = part.split_at(4);
            let (uid, rest) = rest.split_at(UID_BYTES);
            let (presence, bits) = rest.split_at(PARAMETER_LIMIT);
            if head[0] > 1 || presence.iter().any(|&byte| byte > 1) {
                return None;
            }
            slot.taken = head[0] == 1;
            slot.socket = head[1];
            slot.device_type = head[2];
            slot.year = head[3];
            slot.uid.copy_from_slice(uid);
            for index in 0..PARAMETER_LIMIT {
                slot.present[index] = presence[index] == 1;
                let number = bits[4 * index..4 * index + 4].try_into().unwrap();
                slot.bits[index] = u32::from_le_bytes(number);
            }
        }
        Some(table)
    }

    pub fn to_bytes(&self) -> [u8; TABLE_BYTES] {
        let mut bytes = [0; TABLE_BYTES];
        for (slot, part) in self.slots.iter().zip(bytes.chunks_mut(SLOT_BYTES)) {
            part[..4].copy_from_slice(&[
                u8::from(slot.taken),
                slot.socket,
                slot.device_type,
                slot.year,
            ]);
            part[4..PRESENCE_AT].copy_from_slice(&slot.uid);
            let (presence, bits) = part[PRESENCE_AT..].split_at_mut(PARAMETER_LIMIT);
            for index in 0..PARAMETER_LIMIT {
                presence[index] = u8::from(slot.present[index]);
                bits[4 * index..4 * index + 4].copy_from_slice(&slot.bits[index].to_le_bytes());
            }
        }
        bytes
    }
}
