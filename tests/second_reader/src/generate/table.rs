//! Tables, lawful and spoiled in one way.

use crate::catalogue::{Catalogue, ValueKind, LONG_INT_YEAR, PARAMETER_LIMIT};
use crate::random::Random;
use crate::table::{Slot, Table, SLOTS, SOCKETS, UID_BYTES};

/// Bits of singles that a conversion is likely to get wrong: zeros, the smallest and
/// largest, infinities, quiet and signalling NaNs.
const SINGLES: [u32; 16] = [
    0,
    0x8000_0000,
    1,
    0x8000_0001,
    0x007f_ffff,
    0x0080_0000,
    0x3f80_0000,
    0xc048_f5c3,
    0x7f7f_ffff,
    0xff7f_ffff,
    0x7f80_0000,
    0xff80_0000,
    0x7f80_0001,
    0xff80_0001,
    0x7fc0_0000,
    0xffff_ffff,
];

/// INTs at the edges of one and two bytes, with sign and without.
pub const INTS: [u32; 12] = [
    0,
    0x7f,
    0x80,
    0xff,
    0x100,
    0x7fff,
    0x8000,
    0xffff,
    0x1_0000,
    0xffff_7fff,
    0xffff_8000,
    0xffff_ffff,
];

/// The years up to just behind the first one with long INTs, and the last.
pub const YEARS: [u8; 9] =
    [0, 1, 2, 3, 4, LONG_INT_YEAR - 1, LONG_INT_YEAR, LONG_INT_YEAR + 1, u8::MAX];

/// The bits of a value of this kind.
pub fn value(random: &mut Random, kind: ValueKind) -> u32 {
    match kind {
        ValueKind::Int if random.once_in(2) => random.pick(&INTS),
        ValueKind::Int => random.word(),
        ValueKind::Float if random.once_in(2) => random.pick(&SINGLES),
        ValueKind::Float => random.next() as u32,
        ValueKind::Bool => random.below(2) as u32,
    }
}

/// A telling year, at times any.
pub fn year(random: &mut Random) -> u8 {
    if random.once_in(4) {
        random.byte()
    } else {
        random.pick(&YEARS)
    }
}

/// Any UID, or one of few, so that two devices at times have the same.
pub fn uid(random: &mut Random) -> [u8; UID_BYTES] {
    let mut uid = [0; UID_BYTES];
    if random.once_in(5) {
        uid[random.pick(&[0, 7])] = random.below(3) as u8;
    } else {
        random.fill(&mut uid);
    }
    uid
}

/// A type of the catalogue; any number if it has none.
pub fn device_type(random: &mut Random, catalogue: &Catalogue) -> u8 {
    let types: Vec<u8> = catalogue.type_numbers().collect();
    if types.is_empty() {
        random.byte()
    } else {
        random.pick(&types)
    }
}

/// A slot for this socket, with some values of its type's readable parameters.
fn taken_slot(random: &mut Random, catalogue: &Catalogue, socket: u8) -> Slot {
    let device_type = device_type(random, catalogue);
    let mut slot = Slot::new(socket, device_type, year(random), uid(random));
    let Some(device) = catalogue.device(device_type) else { return slot };
    let all = random.once_in(3);
    for index in 0..PARAMETER_LIMIT {
        if let Some(kind) = device.readable(index) {
            if all || random.once_in(2) {
                slot.present[index] = true;
                slot.bits[index] = value(random, kind);
            }
        }
    }
    slot
}

/// A table whose slots are each lawful; sockets and UIDs differ.
pub fn lawful(random: &mut Random, catalogue: &Catalogue) -> Table {
    let mut table = Table::default();
    if catalogue.type_numbers().next().is_none() {
        return table;
    }
    let fewest_taken = random.once_in(3);
    for at in 0..SLOTS {
        let socket = random.below(usize::from(SOCKETS)) as u8;
        let slot = taken_slot(random, catalogue, socket);
        let free = table
            .slots
            .iter()
            .all(|other| !other.taken || (other.socket != slot.socket && other.uid != slot.uid));
        if free && !(fewest_taken && random.once_in(2)) {
            table.slots[at] = slot;
        }
    }
    table
}

/// Spoils one thing; at times the table stays lawful all the same.
pub fn spoil(random: &mut Random, table: &mut Table) {
    let first = random.below(SLOTS);
    let other = (first + random.between(1, SLOTS - 1)) % SLOTS;
    let index = random.below(PARAMETER_LIMIT);
    let copied = table.slots[other];
    let slot = &mut table.slots[first];
    match random.below(10) {
        0 => slot.socket = random.pick(&[8, 9, 128, 255]),
        1 => slot.socket = copied.socket,
        2 => slot.uid = copied.uid,
        3 => slot.device_type = random.byte(),
        4 => slot.taken = !slot.taken,
        5 => slot.bits[index] = random.pick(&[1, 2, 256, 0x8000_0000]),
        6 => slot.present[index] = !slot.present[index],
        7 => *slot = copied,
        8 => {
            slot.present[index] = true;
            slot.bits[index] = random.pick(&[0, 1, 2]);
        }
        _ => slot.year = year(random),
    }
}
