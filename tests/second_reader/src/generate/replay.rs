//! Inputs for the replay program: a catalogue and records, each chosen by the table as
//! the records before leave it, so that most calls pass the first tests.

use super::{catalogue, hub, line, packet};
use crate::catalogue::{Catalogue, PARAMETER_LIMIT};
use crate::definition::line::{whole, Finding};
use crate::hub::{detach, receive};
use crate::packet::{ACK, DEVICE_DATA, LOG, PING};
use crate::random::Random;
use crate::replay::{
    DETACH, LINE, LOAD_TABLE, PRINT_TABLE, PUBLISH, READ_PARAMETER, RECEIVE, REPLAY_LIMIT,
};
use crate::table::{Table, PRESENCE_AT, SLOTS, SLOT_BYTES, SOCKETS, TABLE_BYTES};

/// Records beyond these bytes are not begun, so that the whole stays below the limit.
const ENOUGH: usize = REPLAY_LIMIT - 1000;

/// A script under way, with the table as its records leave it, what came on each socket's
/// line, and what is still to come on it.
struct Script {
    catalogue: Vec<u8>,
    table: Table,
    lines: [Vec<u8>; SOCKETS as usize],
    coming: [Vec<u8>; SOCKETS as usize],
    bytes: Vec<u8>,
}

impl Script {
    fn new(catalogue: Vec<u8>) -> Script {
        let mut bytes = Vec::from((catalogue.len() as u16).to_le_bytes());
        bytes.extend(&catalogue);
        let (lines, coming) = Default::default();
        Script { catalogue, table: Table::default(), lines, coming, bytes }
    }

    fn receive(&mut self, socket: u8, packet: &[u8]) {
        self.bytes.extend([RECEIVE, socket]);
        self.bytes.extend((packet.len() as u16).to_le_bytes());
        self.bytes.extend(packet);
        let _ = receive(&self.catalogue, &mut self.table, socket.into(), packet);
    }

    fn detach(&mut self, socket: u8) {
        self.bytes.extend([DETACH, socket]);
        let _ = detach(&self.catalogue, &mut self.table, socket.into());
    }

    /// A scrap of a socket's line.
    fn scrap(&mut self, socket: u8, scrap: &[u8]) {
        self.bytes.extend([LINE, socket]);
        self.bytes.extend((scrap.len() as u16).to_le_bytes());
        self.bytes.extend(scrap);
        let Some(line) = self.lines.get_mut(usize::from(socket)) else { return };
        let before = line.len();
        line.extend(scrap);
        for (at, finding) in whole(line).findings {
            if let (true, Finding::Packet(packet)) = (at >= before, finding) {
                let _ = receive(&self.catalogue, &mut self.table, socket.into(), &packet);
            }
        }
    }

    fn load(&mut self, table: Table) {
        self.bytes.push(LOAD_TABLE);
        self.bytes.extend(table.to_bytes());
        self.table = table;
    }
}

fn packet_bytes(packet_type: u8, payload: &[u8]) -> Vec<u8> {
    packet::packet_of(&packet::message_of(packet_type, payload))
}

fn receive_record(random: &mut Random, script: &mut Script) {
    let socket = hub::socket(random, &script.table);
    let bytes = hub::packet(random, &script.catalogue, &script.table, socket);
    script.receive(socket, &bytes);
}

/// The next bytes of a socket's line: packets as the device sends them, at times with what
/// else a line has, and often not to the end of a packet.
fn line_record(random: &mut Random, script: &mut Script) {
    let any = hub::socket(random, &script.table);
    let socket = if random.once_in(10) { random.pick(&[8, 9, 255]) } else { any };
    let Some(coming) = script.coming.get_mut(usize::from(socket)) else {
        let bytes = if random.once_in(2) { Vec::new() } else { line::any(random) };
        return script.scrap(socket, &bytes);
    };
    if coming.is_empty() {
        *coming = match random.below(4) {
            0 => line::any(random),
            _ => hub::packet(random, &script.catalogue, &script.table, socket),
        };
    }
    let any = random.between(0, coming.len());
    let length = random.pick(&[0, 1, coming.len(), any]).min(coming.len());
    let behind = coming.split_off(length);
    let scrap = std::mem::replace(coming, behind);
    script.scrap(socket, &scrap);
}

/// Loads a lawful table or one spoiled.
fn load_record(random: &mut Random, script: &mut Script) {
    let catalogue = script.catalogue.clone();
    let Ok(parsed) = Catalogue::parse(&catalogue) else { return };
    let table = hub::table(random, &parsed, &script.table);
    script.load(table);
}

fn record(random: &mut Random, script: &mut Script) {
    match random.below(32) {
        0..=15 => receive_record(random, script),
        16 | 17 => {
            let socket = hub::socket(random, &script.table);
            script.detach(socket);
        }
        18..=20 => script.bytes.push(PUBLISH),
        21..=27 => {
            let socket = hub::socket(random, &script.table);
            let index = hub::index(random);
            script.bytes.extend([READ_PARAMETER, socket, index]);
        }
        28 | 29 => script.bytes.push(PRINT_TABLE),
        _ => load_record(random, script),
    }
    // An unlawful table refuses all that follows: soon leave it again.
    let parsed = Catalogue::parse(&script.catalogue).ok();
    if parsed.is_some_and(|parsed| !script.table.lawful(&parsed)) && random.once_in(5) {
        script.load(Table::default());
    }
}

/// A last record that is unknown, cut short, or loads a byte above 1.
fn bad_record(random: &mut Random, script: &mut Script) {
    match random.below(4) {
        0 => script.bytes.push(random.pick(&[0, 8, 9, 255])),
        1 => {
            let packet = packet_bytes(PING, &[]);
            let start = script.bytes.len();
            match random.below(2) {
                0 => script.receive(0, &packet),
                _ => script.scrap(0, &packet),
            }
            let cut = random.between(1, script.bytes.len() - start - 1);
            script.bytes.truncate(start + cut);
        }
        2 => {
            let length = random.below(TABLE_BYTES);
            script.bytes.push(LOAD_TABLE);
            script.bytes.resize(script.bytes.len() + length, 0);
            return;
        }
        _ => {
            let mut table = script.table.to_bytes();
            let slot = random.below(SLOTS) * SLOT_BYTES;
            let presence = PRESENCE_AT + random.below(PARAMETER_LIMIT);
            let at = if random.once_in(2) { 0 } else { presence };
            table[slot + at] = random.pick(&[2, 255]);
            script.bytes.push(LOAD_TABLE);
            script.bytes.extend(table);
        }
    }
    if random.once_in(2) {
        script.bytes.push(PUBLISH);
    }
}

/// This many records, fewer if they grow too long, under this catalogue; at the end
/// the published list and the table. With lines, a third of the records are of a line.
fn script(random: &mut Random, catalogue: Vec<u8>, records: usize, lines: bool) -> Script {
    let mut script = Script::new(catalogue);
    if random.once_in(3) {
        load_record(random, &mut script);
    }
    for _ in 0..records {
        if script.bytes.len() >= ENOUGH {
            break;
        }
        if lines && random.once_in(3) {
            line_record(random, &mut script);
        } else {
            record(random, &mut script);
        }
    }
    script.bytes.extend([PUBLISH, PRINT_TABLE]);
    script
}

/// A device that comes with every year in turn and with the first again; each time it sends
/// an INT in two bytes and in four, and what is held is read and posted.
pub fn years() -> Vec<u8> {
    const SOCKET: u8 = 3;
    let mut script = Script::new(ONE_INT.to_vec());
    for year in (0..=u8::MAX).chain([0]) {
        script.receive(SOCKET, &packet_bytes(ACK, &[7, year, 1, 2, 3, 4, 5, 6, 7, 8]));
        for value in [&[0xfe, 0xff][..], &[0xfd, 0xff, 0x01, 0x00]] {
            let payload = [&[1, 0, 0, 0], value].concat();
            script.receive(SOCKET, &packet_bytes(DEVICE_DATA, &payload));
            script.bytes.extend([READ_PARAMETER, SOCKET, 0, PUBLISH]);
        }
    }
    script.bytes
}

/// Type 7 has one parameter, a readable INT.
const ONE_INT: [u8; 6] = [1, 7, 1, 1, 0, 4];

/// An ACK of a device of type 7, whose UID is one byte again and again.
fn ack(uid: u8) -> Vec<u8> {
    packet_bytes(ACK, &[7, 6, uid, uid, uid, uid, uid, uid, uid, uid])
}

/// Lines of sockets: an ACK that comes in two records, cut at every byte, and between them each
/// other record; sockets that there are none of, under a catalogue and a table of every kind;
/// each telling piece of a line behind a packet that the hub takes or refuses; and a record
/// that is cut at every byte.
pub fn lines() -> Vec<Vec<u8>> {
    let mut inputs = interrupted();
    for catalogue in [&ONE_INT[..], &[9]] {
        for lawful in [true, false] {
            for socket in [0, 7, 8, 9, 255] {
                let mut script = Script::new(catalogue.to_vec());
                let mut table = Table::default();
                table.slots[0].year = u8::from(!lawful);
                script.load(table);
                for bytes in [&[][..], &[0], &[1], &ack(1), &packet_bytes(PING, &[])] {
                    script.scrap(socket, bytes);
                }
                inputs.push(script.bytes);
            }
        }
    }
    for packet in [ack(1), packet_bytes(PING, &[]), packet_bytes(LOG, b"warm")] {
        for piece in line::telling() {
            let mut script = Script::new(ONE_INT.to_vec());
            script.scrap(3, &[&packet[..], &piece].concat());
            script.scrap(3, &piece);
            script.bytes.push(PRINT_TABLE);
            inputs.push(script.bytes);
        }
    }
    let mut script = Script::new(ONE_INT.to_vec());
    let start = script.bytes.len();
    script.scrap(3, &[&[1], &line::good(LOG, 251, 1)[..]].concat());
    inputs.extend((start..script.bytes.len()).map(|end| script.bytes[..end].to_vec()));
    inputs
}

/// An ACK in two records, and between them each of the others, for the socket and another.
fn interrupted() -> Vec<Vec<u8>> {
    const SOCKET: u8 = 3;
    let whole = ack(1);
    let mut inputs = Vec::new();
    for at in 0..=whole.len() {
        for between in 0..8 {
            let mut script = Script::new(ONE_INT.to_vec());
            script.receive(SOCKET, &ack(2));
            script.scrap(SOCKET, &whole[..at]);
            match between {
                0 => script.detach(SOCKET),
                1 => script.receive(SOCKET, &ack(3)),
                2 => script.receive(SOCKET, &packet_bytes(PING, &[])),
                3 => script.load(Table::default()),
                4 => script.scrap(SOCKET + 1, &ack(4)[..at]),
                5 => script.scrap(SOCKET, &[]),
                6 => script.scrap(SOCKET, &[0]),
                _ => script.bytes.extend([PUBLISH, PRINT_TABLE, READ_PARAMETER, SOCKET, 0]),
            }
            script.scrap(SOCKET, &whole[at..]);
            script.scrap(SOCKET + 1, &ack(4)[at..]);
            script.bytes.push(PRINT_TABLE);
            inputs.push(script.bytes);
        }
    }
    inputs
}

/// An input with a legal catalogue, no bad record and no lines.
pub fn good(random: &mut Random, records: usize) -> Vec<u8> {
    let catalogue = catalogue::legal(random);
    script(random, catalogue, records, false).bytes
}

/// Any input: few records under a damaged catalogue, many under a good one, a bad
/// record last at times. One in a few hundred is as long as an input may be, or longer,
/// filled up with short records whose lines are short.
pub fn any(random: &mut Random) -> Vec<u8> {
    let mut script = if random.once_in(5) {
        let records = random.between(1, 4);
        let catalogue = catalogue::damaged(random);
        script(random, catalogue, records, true)
    } else {
        let records = random.pick(&[1, 10, 60, 200]);
        let catalogue = catalogue::legal(random);
        script(random, catalogue, records, true)
    };
    if random.once_in(6) {
        bad_record(random, &mut script);
    }
    if random.once_in(200) {
        let length = random.between(REPLAY_LIMIT, REPLAY_LIMIT + 2);
        script.bytes.resize(length, DETACH);
    }
    script.bytes
}
