//! Catalogue, table and the hub's calls: document 01's bench cases, the readings of its
//! open points, the widths of INTs by ticket c of 02, and what holds for any table.

use second_reader::calls;
use second_reader::catalogue::{Catalogue, LONG_INT_YEAR};
use second_reader::definition::hub as definition;
use second_reader::generate::list::{image, Element};
use second_reader::generate::{catalogue as generate_catalogue, packet, table as generate_table};
use second_reader::hub::{detach, double_of_single, publish, read_parameter, receive, Value};
use second_reader::list::{decode, LIST_LIMIT, ROWS_ROOM, STORE_ROOM};
use second_reader::packet::{ACK, DEVICE_DATA, DEVICE_WRITE, LOG, PING};
use second_reader::random::Random;
use second_reader::table::{Slot, Table, PRESENCE_AT, SLOT_BYTES, TABLE_BYTES};
use second_reader::Error;
use Element::{Blob, Int, List};

/// Type 9: INT, FLOAT, BOOL and INT, all readable.
const MIXED: [u8; 9] = [0x01, 0x09, 0x04, 0x04, 0x00, 0x04, 0x05, 0x06, 0x04];
/// The last year with short INTs, and the first with long ones.
const OLD: u8 = LONG_INT_YEAR - 1;
const NEW: u8 = LONG_INT_YEAR;
/// Type 7: INT readable, FLOAT writable, BOOL readable.
const CATALOGUE: [u8; 8] = [0x01, 0x07, 0x03, 0x03, 0x00, 0x04, 0x09, 0x06];
const ACK_PACKET: [u8; 16] = [
    0x00, 0x0e, 0x0e, 0x02, 0x0a, 0x07, 0x06, 0x01, 0x02, 0x03, 0x04, 0x05, 0x06, 0x07, 0x08, 0x01,
];
const DATA_PACKET: [u8; 15] =
    [0x00, 0x0d, 0x04, 0x04, 0x09, 0x05, 0x01, 0x01, 0x02, 0x07, 0x01, 0x01, 0x03, 0x01, 0x0e];

fn packet_of(packet_type: u8, payload: &[u8]) -> Vec<u8> {
    packet::packet_of(&packet::message_of(packet_type, payload))
}

fn ack_of_year(device_type: u8, year: u8, uid: u8) -> Vec<u8> {
    packet_of(ACK, &[device_type, year, 1, 2, 3, 4, 5, 6, 7, uid])
}

fn ack(device_type: u8, uid: u8) -> Vec<u8> {
    ack_of_year(device_type, NEW, uid)
}

/// A data packet with this map and these value bytes.
fn data(map: u32, values: &[u8]) -> Vec<u8> {
    packet_of(DEVICE_DATA, &[&map.to_le_bytes()[..], values].concat())
}

/// A hub that sees after each call that a refusal changed nothing.
struct Hub {
    catalogue: &'static [u8],
    table: Table,
}

impl Hub {
    /// With catalogue C.
    fn new() -> Hub {
        Hub { catalogue: &CATALOGUE, table: Table::default() }
    }

    /// With devices of type 9 on socket 0 and on, each of its year.
    fn of_years(years: &[u8]) -> Hub {
        let mut hub = Hub { catalogue: &MIXED, table: Table::default() };
        for (socket, &year) in years.iter().enumerate() {
            hub.receive(socket as u64, &ack_of_year(9, year, socket as u8)).unwrap();
        }
        hub
    }

    fn receive(&mut self, socket: u64, bytes: &[u8]) -> Result<usize, u64> {
        let before = self.table;
        let answer = receive(self.catalogue, &mut self.table, socket, bytes);
        assert!(answer.is_ok() || self.table == before);
        assert!(self.table.lawful(&Catalogue::parse(self.catalogue).unwrap()));
        answer.map_err(|error| error.number())
    }

    fn detach(&mut self, socket: u64) -> Result<(), u64> {
        let before = self.table;
        let answer = detach(self.catalogue, &mut self.table, socket);
        assert!(answer.is_ok() || self.table == before);
        answer.map_err(|error| error.number())
    }

    fn read(&self, socket: u64, index: u64) -> Option<Value> {
        read_parameter(self.catalogue, &self.table, socket, index).unwrap()
    }

    fn published(&self) -> Vec<u8> {
        published(self.catalogue, &self.table)
    }
}

fn published(catalogue: &[u8], table: &Table) -> Vec<u8> {
    let mut list = [0xa5; LIST_LIMIT];
    let length = publish(catalogue, table, &mut list).unwrap();
    assert!(list[length..].iter().all(|&byte| byte == 0xa5));
    list[..length].to_vec()
}

#[test]
fn bench_case() {
    let mut hub = Hub::new();
    assert_eq!(hub.published(), image(&[]));
    assert_eq!(hub.receive(3, &ACK_PACKET), Ok(16));
    assert_eq!(hub.receive(3, &DATA_PACKET), Ok(15));
    let expected = image(&[List(vec![
        Int(3),
        Int(7),
        Blob(vec![1, 2, 3, 4, 5, 6, 7, 8]),
        List(vec![Int(0), Int(7)]),
        List(vec![Int(2), Int(1)]),
    ])]);
    assert_eq!(expected.len(), 80);
    assert_eq!(hub.published(), expected);
    let read = |index| read_parameter(&CATALOGUE, &hub.table, 3, index);
    assert_eq!(read(0), Ok(Some(Value::Int(7))));
    assert_eq!(read(1), Ok(None));
    assert_eq!(read(2), Ok(Some(Value::Flag(true))));
    assert_eq!(read(31), Ok(None));
    assert_eq!(read(255), Ok(None));
    assert_eq!(read(256), Ok(None));
    assert_eq!(read(u64::MAX - 255), Ok(None));
}

#[test]
fn catalogues() {
    let good = |bytes: &[u8]| Catalogue::parse(bytes).is_ok();
    assert!(good(&CATALOGUE));
    assert!(good(&[0, 0, 0]));
    assert!(good(&[1, 0, 0, 0, 0]));
    assert!(good(&[1, 0, 1, 1, 0, 0]));
    assert!(good(&[2, 0, 1, 255, 1, 2, 0, 14, 5]));
    assert!(!good(&[]));
    assert!(!good(&[0]));
    assert!(!good(&[0, 0]));
    assert!(!good(&[0, 0, 0, 0]));
    assert!(!good(&[1, 0, 1, 1, 0, 3]));
    assert!(!good(&[1, 0, 1, 1, 0, 16]));
    assert!(!good(&[1, 0, 1, 1, 1, 0]));
    assert!(!good(&[1, 0, 1, 2, 0, 0]));
    assert!(!good(&[1, 0, 1, 1, 0]));
    assert!(!good(&[1, 0, 1, 1, 0, 0, 0]));
    assert!(!good(&[2, 5, 0, 5, 0, 0, 0]));
    assert!(!good(&[2, 6, 0, 5, 0, 0, 0]));
    assert!(good(&[2, 5, 0, 6, 0, 0, 0]));
    let at_limits: Vec<bool> =
        generate_catalogue::at_limits().iter().map(|bytes| good(bytes)).collect();
    let expected = [
        true, true, false, true, false, true, false, false, // numbers of types and parameters
        false, false, true, false, // equal, falling, rising, falling
    ];
    assert_eq!(at_limits, expected);
}

#[test]
fn order_of_receiving() {
    let mut spoiled = Table::default();
    spoiled.slots[0].year = 1;
    let receive_into = |catalogue: &[u8], table: Table, socket, bytes: &[u8]| {
        let mut after = table;
        let answer = receive(catalogue, &mut after, socket, bytes);
        assert!(after == table);
        answer
    };
    assert_eq!(receive_into(&[], spoiled, 8, &[]), Err(Error::Catalogue));
    assert_eq!(receive_into(&CATALOGUE, spoiled, 8, &[]), Err(Error::NotLawful));
    let empty = Table::default();
    assert_eq!(receive_into(&CATALOGUE, empty, 8, &[]), Err(Error::Socket));
    assert_eq!(receive_into(&CATALOGUE, empty, 7, &[]), Err(Error::PacketIncomplete));
    let ping = packet_of(PING, &[]);
    assert_eq!(receive_into(&CATALOGUE, empty, 7, &ping), Err(Error::PacketForDevices));
    let write = packet_of(DEVICE_WRITE, &[0; 4]);
    assert_eq!(receive_into(&CATALOGUE, empty, 7, &write), Err(Error::PacketForDevices));
    assert_eq!(receive_into(&CATALOGUE, empty, 7, &ack(8, 1)), Err(Error::DeviceTypeUnknown));
    assert_eq!(receive_into(&CATALOGUE, empty, 7, &data(0, &[])), Err(Error::NoDevice));
}

#[test]
fn slots_are_taken_in_order_and_again() {
    let mut hub = Hub::new();
    for socket in [5, 0, 7, 2] {
        assert_eq!(hub.receive(socket, &ack(7, socket as u8)), Ok(16));
    }
    let sockets: Vec<u8> = hub.table.slots.iter().map(|slot| slot.socket).collect();
    assert_eq!(sockets, [5, 0, 7, 2]);
    assert_eq!(hub.receive(1, &ack(7, 99)), Err(13));
    assert_eq!(hub.receive(1, &ack(7, 5)), Err(14));
    assert_eq!(hub.receive(1, &ack(8, 5)), Err(12));
    // A second ACK on a full table: its own UID again, another's, a new one.
    assert_eq!(hub.receive(7, &data(5, &[1, 0, 0, 0, 1])), Ok(15));
    assert_eq!(hub.receive(7, &ack(7, 5)), Err(14));
    assert_eq!(read_parameter(&CATALOGUE, &hub.table, 7, 0), Ok(Some(Value::Int(1))));
    assert_eq!(hub.receive(7, &ack(7, 7)), Ok(16));
    assert_eq!(read_parameter(&CATALOGUE, &hub.table, 7, 0), Ok(None));
    assert_eq!(hub.receive(7, &ack(7, 100)), Ok(16));
    assert_eq!(hub.table.slots[2].uid[7], 100);
    // A slot that was left is used again.
    assert_eq!(hub.detach(0), Ok(()));
    assert_eq!(hub.table.slots[1], Slot::default());
    assert_eq!(hub.detach(0), Err(15));
    assert_eq!(hub.detach(8), Err(10));
    assert_eq!(hub.detach(256 + 5), Err(10));
    assert_eq!(hub.detach((1 << 32) + 5), Err(10));
    assert_eq!(hub.receive(4, &ack(7, 0)), Ok(16));
    assert_eq!(hub.table.slots[1].socket, 4);
    // Published in rising socket order.
    let list = hub.published();
    let order: Vec<u8> = (0..4).map(|row| list[8 + 40 * row + 12]).collect();
    assert_eq!(order, [2, 4, 5, 7]);
}

#[test]
fn a_device_of_zeros_takes_a_slot() {
    let catalogue = [1, 0, 0, 0, 0];
    let mut table = Table::default();
    let zeros = packet_of(ACK, &[0; 10]);
    assert_eq!(receive(&catalogue, &mut table, 0, &zeros), Ok(16));
    assert!(table.slots[0].taken);
    assert_eq!(receive(&catalogue, &mut table, 1, &zeros), Err(Error::UidElsewhere));
    assert_eq!(detach(&catalogue, &mut table, 0), Ok(()));
    assert_eq!(table, Table::default());
}

#[test]
fn data_is_judged_in_order() {
    let mut hub = Hub::new();
    assert_eq!(hub.receive(3, &data(5, &[1, 0, 0, 0, 1])), Err(15));
    hub.receive(3, &ACK_PACKET).unwrap();
    // A bit without readable parameter comes first, wherever it stands.
    assert_eq!(hub.receive(3, &data(1 << 1, &[0; 4])), Err(16));
    assert_eq!(hub.receive(3, &data(1 << 3, &[])), Err(16));
    assert_eq!(hub.receive(3, &data(1 << 31 | 5, &[1, 0, 0, 0, 2, 0])), Err(16));
    assert_eq!(hub.receive(3, &data(5, &[1, 0, 0, 0])), Err(17));
    assert_eq!(hub.receive(3, &data(5, &[1, 0, 0, 0, 2, 0])), Err(17));
    assert_eq!(hub.receive(3, &data(5, &[1, 0, 0, 0, 2])), Err(18));
    assert_eq!(hub.receive(3, &data(0, &[1])), Err(17));
    let before = hub.table;
    assert_eq!(hub.receive(3, &data(0, &[])), Ok(10));
    assert_eq!(hub.table, before);
    // Named values are replaced, others stay.
    assert_eq!(hub.receive(3, &data(1, &[0xff; 4])), Ok(14));
    assert_eq!(hub.receive(3, &data(4, &[0])), Ok(11));
    assert_eq!(read_parameter(&CATALOGUE, &hub.table, 3, 0), Ok(Some(Value::Int(-1))));
    assert_eq!(read_parameter(&CATALOGUE, &hub.table, 3, 2), Ok(Some(Value::Flag(false))));
}

/// Each year takes an INT in one of the two widths and refuses the other with 17: "guests
/// whose year byte is below 6" send two bytes.
#[test]
fn int_widths_by_year() {
    for year in 0..=255 {
        let mut hub = Hub::of_years(&[year]);
        let (short, long) = (data(1, &[0xff; 2]), data(1, &[0xff; 4]));
        let (taken, refused) = if year < 6 { (short, long) } else { (long, short) };
        assert_eq!(hub.receive(0, &refused), Err(17), "{year}");
        assert_eq!(hub.read(0, 0), None);
        assert_eq!(hub.receive(0, &taken), Ok(taken.len()), "{year}");
        assert_eq!(hub.table.slots[0].bits[0], 0xffff_ffff);
        assert_eq!(hub.read(0, 0), Some(Value::Int(-1)));
        assert_eq!(hub.receive(0, &refused), Err(17), "{year}");
    }
}

/// Two bytes are held as 32 bits with the sign of the two, four bytes as they are.
#[test]
fn ints_keep_their_sign() {
    let mut hub = Hub::of_years(&[OLD, NEW]);
    for (bytes, number) in [
        ([0xff, 0xff], -1),
        ([0x00, 0x80], -32768),
        ([0x01, 0x80], -32767),
        ([0xff, 0x7f], 32767),
        ([0x00, 0xff], -256),
        ([0xff, 0x00], 255),
        ([0x80, 0x00], 128),
        ([0x34, 0x12], 0x1234),
        ([0x00, 0x00], 0),
    ] {
        hub.receive(0, &data(1, &bytes)).unwrap();
        assert_eq!(hub.read(0, 0), Some(Value::Int(number)));
        assert_eq!(hub.table.slots[0].bits[0], number as u32);
        // The same two bytes below two zeros are a number of 0 or above.
        hub.receive(1, &data(1, &[bytes[0], bytes[1], 0, 0])).unwrap();
        assert_eq!(hub.read(1, 0), Some(Value::Int(number & 0xffff)));
        let long = data(1, &i32::to_le_bytes(number));
        hub.receive(1, &long).unwrap();
        assert_eq!(hub.read(1, 0), Some(Value::Int(number)));
    }
}

/// A row's bytes and the posted list for an INT of -2 from an old and from a new device.
#[test]
fn short_ints_in_row_and_list() {
    let mut table = [0; TABLE_BYTES];
    for (socket, year, bytes) in [(1, OLD, &[0xfe, 0xff][..]), (2, NEW, &[0xfe, 0xff, 0xff, 0xff])]
    {
        let ack = ack_of_year(9, year, socket);
        assert_eq!(calls::receive(&MIXED, &mut table, socket.into(), &ack), [0, 16]);
        let packet = data(8, bytes);
        let consumed = packet.len() as u64;
        assert_eq!(calls::receive(&MIXED, &mut table, socket.into(), &packet), [0, consumed]);
    }
    let mut rows = [0; TABLE_BYTES];
    let mut posted = vec![0, 1, 0, 0, 2, 0, 0, 0];
    for (socket, year) in [(1, OLD), (2, NEW)] {
        let row = &mut rows[usize::from(socket - 1) * SLOT_BYTES..];
        row[..PRESENCE_AT].copy_from_slice(&[1, socket, 9, year, 1, 2, 3, 4, 5, 6, 7, socket]);
        row[PRESENCE_AT + 3] = 1;
        row[56..60].copy_from_slice(&[0xfe, 0xff, 0xff, 0xff]);
        posted
            .extend([0, 1, 0, 0, 4, 0, 0, 0, 1, 0, 0, 0, socket, 0, 0, 0, 1, 0, 0, 0, 9, 0, 0, 0]);
        posted.extend([12, 0, 0, 0, 8, 0, 0, 0, 1, 2, 3, 4, 5, 6, 7, socket]);
        posted.extend([1, 1, 0, 0, 2, 0, 0, 0, 3, 0, 0, 0, 0xfe, 0xff, 0xff, 0xff]);
    }
    assert_eq!(table, rows);
    let mut list = [0xa5; LIST_LIMIT];
    assert_eq!(calls::publish(&MIXED, &table, &mut list), [0, posted.len() as u64]);
    assert_eq!(list[..posted.len()], posted);
    assert_eq!(calls::read(&MIXED, &table, 1, 3), [0, 1, 0xffff_fffe]);
    assert_eq!(calls::read(&MIXED, &table, 2, 3), [0, 1, 0xffff_fffe]);
}

/// FLOAT and BOOL are as wide from old devices as from new ones.
#[test]
fn ints_among_other_kinds() {
    let short = [0xf0, 0xff, 0x00, 0x00, 0x20, 0x40, 1, 0x00, 0x80];
    let long = [0xf0, 0xff, 0xff, 0xff, 0x00, 0x00, 0x20, 0x40, 1, 0x00, 0x80, 0xff, 0xff];
    let mut hub = Hub::of_years(&[OLD, NEW]);
    assert_eq!(hub.receive(0, &data(15, &long)), Err(17));
    assert_eq!(hub.receive(1, &data(15, &short)), Err(17));
    assert_eq!(hub.receive(0, &data(15, &short)), Ok(19));
    assert_eq!(hub.receive(1, &data(15, &long)), Ok(23));
    for socket in [0, 1] {
        let held = [0, 1, 2, 3].map(|index| hub.read(socket, index).unwrap());
        let float = Value::Float(0x4020_0000);
        assert_eq!(held, [Value::Int(-16), float, Value::Flag(true), Value::Int(-32768)]);
        // Without an INT there is one layout.
        assert_eq!(hub.receive(socket, &data(6, &[0, 0, 0, 0, 0])), Ok(15));
        assert_eq!(hub.read(socket, 1), Some(Value::Float(0)));
        assert_eq!(hub.read(socket, 3), Some(Value::Int(-32768)));
    }
}

/// The values' length is asked for the map that came: bytes that are right for one map and
/// width are refused for another, also where both ask for as many.
#[test]
fn lengths_that_fit_another_map() {
    let mut hub = Hub::of_years(&[OLD, NEW]);
    let four = [0x01, 0x80, 0xff, 0x7f];
    assert_eq!(hub.receive(0, &data(1, &four)), Err(17));
    assert_eq!(hub.receive(1, &data(9, &four)), Err(17));
    assert_eq!(hub.receive(0, &data(9, &four)), Ok(14));
    assert_eq!(hub.receive(1, &data(1, &four)), Ok(14));
    assert_eq!(hub.read(0, 0), Some(Value::Int(-32767)));
    assert_eq!(hub.read(0, 3), Some(Value::Int(32767)));
    assert_eq!(hub.read(1, 0), Some(Value::Int(0x7fff_8001)));
    assert_eq!(hub.read(1, 3), None);
    // 8 bytes are an INT and a FLOAT from a new device, with one more INT from an old one.
    assert_eq!(hub.receive(0, &data(3, &[0; 8])), Err(17));
    assert_eq!(hub.receive(1, &data(11, &[0; 8])), Err(17));
    assert_eq!(hub.receive(0, &data(11, &[0; 8])), Ok(18));
    assert_eq!(hub.receive(1, &data(3, &[0; 8])), Ok(18));
}

/// 16 before 17 before 18, whatever the width.
#[test]
fn order_for_both_widths() {
    let mut hub = Hub::of_years(&[OLD, NEW]);
    for (socket, own, other) in [(0, 2, 4), (1, 4, 2)] {
        let values = |width: usize, flag: u8| [&vec![0; width][..], &[flag]].concat();
        // Parameter 4 is not there; the values are of either length, the flag is none.
        assert_eq!(hub.receive(socket, &data(21, &values(own, 2))), Err(16));
        assert_eq!(hub.receive(socket, &data(21, &values(other, 2))), Err(16));
        assert_eq!(hub.receive(socket, &data(5, &values(other, 2))), Err(17));
        assert_eq!(hub.receive(socket, &data(5, &values(own + 1, 2))), Err(17));
        assert_eq!(hub.receive(socket, &data(5, &values(own - 1, 2))), Err(17));
        assert_eq!(hub.receive(socket, &data(5, &values(own, 2))), Err(18));
        assert_eq!(hub.receive(socket, &data(5, &values(own, 1))), Ok(11 + own));
    }
}

/// An ACK of another year empties the row and changes the widths behind it, for its own
/// device alone.
#[test]
fn second_ack_with_another_year() {
    let mut hub = Hub::of_years(&[OLD, OLD]);
    let (short, long) = (data(1, &[0xfd, 0xff]), data(1, &[0xfd, 0xff, 0xff, 0xff]));
    hub.receive(0, &short).unwrap();
    hub.receive(1, &short).unwrap();
    for (year, taken, refused) in [(NEW, &long, &short), (OLD, &short, &long), (255, &long, &short)]
    {
        assert_eq!(hub.receive(0, &ack_of_year(9, year, 0)), Ok(16));
        assert_eq!(hub.table.slots[0], Slot::new(0, 9, year, [1, 2, 3, 4, 5, 6, 7, 0]));
        assert_eq!(hub.receive(0, refused), Err(17));
        assert_eq!(hub.receive(0, taken), Ok(taken.len()));
        assert_eq!(hub.read(0, 0), Some(Value::Int(-3)));
        assert_eq!(hub.receive(1, &long), Err(17));
        assert_eq!(hub.receive(1, &short), Ok(12));
    }
    // A refused ACK changes no width.
    assert_eq!(hub.receive(0, &ack_of_year(8, OLD, 0)), Err(12));
    assert_eq!(hub.receive(0, &ack_of_year(9, OLD, 1)), Err(14));
    assert_eq!(hub.receive(0, &short), Err(17));
    assert_eq!(hub.receive(0, &long), Ok(14));
    // Nor does one that leaves the width as it is.
    assert_eq!(hub.receive(1, &ack_of_year(9, 0, 1)), Ok(16));
    assert_eq!(hub.receive(1, &long), Err(17));
    assert_eq!(hub.receive(1, &short), Ok(12));
}

/// A table may hold for an old device an INT that two bytes do not: it is read, posted and
/// left as it is until its own parameter is sent.
#[test]
fn long_ints_held_for_old_devices() {
    let mut hub = Hub::of_years(&[OLD]);
    (hub.table.slots[0].present[0], hub.table.slots[0].bits[0]) = (true, 0x8123_4567);
    assert_eq!(hub.receive(0, &data(8, &[0xff, 0xff])), Ok(12));
    assert_eq!(hub.read(0, 0), Some(Value::Int(0x8123_4567_u32 as i32)));
    let expected = image(&[List(vec![
        Int(0),
        Int(9),
        Blob(vec![1, 2, 3, 4, 5, 6, 7, 0]),
        List(vec![Int(0), Int(0x8123_4567)]),
        List(vec![Int(3), Int(0xffff_ffff)]),
    ])]);
    assert_eq!(hub.published(), expected);
    assert_eq!(hub.receive(0, &data(1, &[0x67, 0x45])), Ok(12));
    assert_eq!(hub.read(0, 0), Some(Value::Int(0x4567)));
    assert_eq!(hub.detach(0), Ok(()));
}

#[test]
fn logs_change_nothing() {
    let mut hub = Hub::new();
    let log = packet_of(LOG, b"hello");
    assert_eq!(hub.receive(6, &log), Ok(11));
    assert_eq!(hub.table, Table::default());
    assert_eq!(hub.receive(8, &log), Err(10));
}

#[test]
fn later_bytes_are_not_taken() {
    let mut hub = Hub::new();
    let both = [&ACK_PACKET[..], &DATA_PACKET[..]].concat();
    assert_eq!(hub.receive(3, &both), Ok(16));
    assert_eq!(read_parameter(&CATALOGUE, &hub.table, 3, 0), Ok(None));
}

#[test]
fn lawful_tables() {
    let catalogue = Catalogue::parse(&CATALOGUE).unwrap();
    let lawful = |change: fn(&mut Table)| {
        let mut table = Table::default();
        table.slots[1] = Slot::new(0, 7, 0, [0; 8]);
        table.slots[3] = Slot::new(7, 7, 255, [1; 8]);
        change(&mut table);
        table.lawful(&catalogue)
    };
    assert!(lawful(|_| {}));
    assert!(lawful(|table| table.slots[1].present[0] = true));
    // The device of year 0 may hold an INT that two bytes do not.
    assert!(lawful(|table| (table.slots[1].present[0], table.slots[1].bits[0]) = (true, 0x8000)));
    assert!(lawful(|table| (table.slots[1].present[0], table.slots[1].bits[0]) = (true, 1 << 31)));
    assert!(lawful(|table| (table.slots[1].present[2], table.slots[1].bits[2]) = (true, 1)));
    assert!(!lawful(|table| (table.slots[1].present[2], table.slots[1].bits[2]) = (true, 2)));
    assert!(!lawful(|table| table.slots[1].present[1] = true));
    assert!(!lawful(|table| table.slots[1].present[3] = true));
    assert!(!lawful(|table| table.slots[1].bits[0] = 1));
    assert!(!lawful(|table| table.slots[1].bits[31] = 1));
    assert!(!lawful(|table| table.slots[3].socket = 8));
    assert!(!lawful(|table| table.slots[3].socket = 0));
    assert!(!lawful(|table| table.slots[3].uid = [0; 8]));
    assert!(!lawful(|table| table.slots[3].device_type = 8));
    assert!(!lawful(|table| table.slots[0].socket = 1));
    assert!(!lawful(|table| table.slots[0].device_type = 7));
    assert!(!lawful(|table| table.slots[0].year = 1));
    assert!(!lawful(|table| table.slots[0].uid[7] = 1));
    assert!(!lawful(|table| table.slots[0].bits[5] = 1));
    assert!(!lawful(|table| table.slots[0].present[0] = true));
}

#[test]
fn order_of_the_other_calls() {
    let mut spoiled = Table::default();
    spoiled.slots[0].year = 1;
    let mut short = [0xa5; LIST_LIMIT - 1];
    let empty = Table::default();
    assert_eq!(detach(&[], &mut spoiled, 8), Err(Error::Catalogue));
    assert_eq!(detach(&CATALOGUE, &mut spoiled, 8), Err(Error::NotLawful));
    assert_eq!(publish(&[], &spoiled, &mut short), Err(Error::Catalogue));
    assert_eq!(publish(&CATALOGUE, &spoiled, &mut short), Err(Error::NotLawful));
    assert_eq!(publish(&CATALOGUE, &empty, &mut short), Err(Error::BufferTooSmall));
    assert_eq!(short, [0xa5; LIST_LIMIT - 1]);
    assert_eq!(read_parameter(&[], &spoiled, 8, 0), Err(Error::Catalogue));
    assert_eq!(read_parameter(&CATALOGUE, &spoiled, 8, 0), Err(Error::NotLawful));
    assert_eq!(read_parameter(&CATALOGUE, &empty, 8, 0), Err(Error::Socket));
    assert_eq!(read_parameter(&CATALOGUE, &empty, 7, 99), Err(Error::NoDevice));
}

#[test]
fn singles_as_doubles() {
    assert_eq!(double_of_single(0xff80_0001), 0xfff0_0000_2000_0000);
    assert_eq!(double_of_single(0x7f80_0000), 0x7ff0_0000_0000_0000);
    assert_eq!(double_of_single(0xff80_0000), 0xfff0_0000_0000_0000);
    assert_eq!(double_of_single(0x7fc0_0000), 0x7ff8_0000_0000_0000);
    assert_eq!(double_of_single(0), 0);
    assert_eq!(double_of_single(0x8000_0000), 1 << 63);
    assert_eq!(double_of_single(0x3f80_0000), 0x3ff0_0000_0000_0000);
    assert_eq!(double_of_single(1), (1023 - 149) << 52);
    assert_eq!(double_of_single(0x0040_0000), (1023 - 127) << 52);
    assert_eq!(double_of_single(0x0060_0000), (1023 - 127) << 52 | 1 << 51);
    assert_eq!(double_of_single(0x7f7f_ffff), (1023 + 127) << 52 | 0x7f_ffff << 29);
    // Normal numbers by their fields: the exponent's bias changes from 127 to 1023.
    let mut random = Random::new(9);
    for _ in 0..100_000 {
        let bits = random.next() as u32;
        let (sign, exponent, fraction) = (bits >> 31, bits >> 23 & 0xff, bits & 0x7f_ffff);
        if (1..255).contains(&exponent) {
            let high = u64::from(sign) << 63 | u64::from(exponent + 1023 - 127) << 52;
            assert_eq!(double_of_single(bits), high | u64::from(fraction) << 29);
        }
    }
}

#[test]
fn published_lists_are_legal() {
    let mut random = Random::new(10);
    for _ in 0..5_000 {
        let catalogue = generate_catalogue::legal(&mut random);
        let parsed = Catalogue::parse(&catalogue).unwrap();
        let table = generate_table::lawful(&mut random, &parsed);
        assert!(table.lawful(&parsed));
        let bytes = table.to_bytes();
        assert_eq!(Table::from_bytes(&bytes), Some(table));
        let list = published(&catalogue, &table);
        assert_eq!(list, image(&definition::published(&parsed, &table)));
        let read = decode(&list, &mut [0; ROWS_ROOM], &mut [0; STORE_ROOM]).unwrap();
        assert_eq!(read.consumed, list.len());
    }
}

#[test]
fn longest_published_list() {
    let mut catalogue = vec![1, 9, 32, 32, 0];
    catalogue.extend([5; 32]);
    let mut table = Table::default();
    for socket in 0..4 {
        table.slots[usize::from(socket)] = Slot::new(socket, 9, 0, [socket; 8]);
        table.slots[usize::from(socket)].present = [true; 32];
    }
    assert_eq!(published(&catalogue, &table).len(), 3752);
}

#[test]
fn damaged_catalogues() {
    let mut random = Random::new(11);
    let refused = (0..5_000)
        .filter(|_| Catalogue::parse(&generate_catalogue::damaged(&mut random)).is_err())
        .count();
    assert!(refused > 3_500, "{refused}");
}

/// What is no table is judged behind the catalogue, before the socket, and left as it was.
#[test]
fn bytes_that_are_no_table() {
    let all_calls = |catalogue: &[u8], bytes: &[u8]| {
        let mut table = bytes.to_vec();
        let mut list = [0xa5; LIST_LIMIT];
        let answers = [
            calls::receive(catalogue, &mut table, 8, &[])[0],
            calls::detach(catalogue, &mut table, 8),
            calls::read(catalogue, &table, 8, 0)[0],
            calls::publish(catalogue, &table, &mut list[1..])[0],
        ];
        assert_eq!(table, bytes);
        answers
    };
    for length in [0, 1, SLOT_BYTES, TABLE_BYTES - 1, TABLE_BYTES + 1, 2 * TABLE_BYTES] {
        assert_eq!(all_calls(&CATALOGUE, &vec![0; length]), [9; 4]);
        assert_eq!(all_calls(&[], &vec![0; length]), [11; 4]);
    }
    for at in 0..TABLE_BYTES {
        let mut bytes = [0; TABLE_BYTES];
        bytes[at] = 2;
        assert_eq!(all_calls(&CATALOGUE, &bytes), [9; 4], "{at}");
    }
    assert_eq!(all_calls(&CATALOGUE, &[0; TABLE_BYTES]), [10, 10, 10, 20]);
}

/// The bytes of a row stand where the papers put them.
#[test]
fn tables_as_bytes() {
    let mut table = [0; TABLE_BYTES];
    assert_eq!(calls::receive(&CATALOGUE, &mut table, 3, &ACK_PACKET), [0, 16]);
    assert_eq!(calls::receive(&CATALOGUE, &mut table, 3, &DATA_PACKET), [0, 15]);
    let mut expected = [0; TABLE_BYTES];
    expected[..PRESENCE_AT].copy_from_slice(&[1, 3, 7, 6, 1, 2, 3, 4, 5, 6, 7, 8]);
    (expected[12], expected[14]) = (1, 1);
    (expected[44], expected[52]) = (7, 1);
    assert_eq!(table, expected);
    assert_eq!(calls::read(&CATALOGUE, &table, 3, 0), [0, 1, 7]);
    assert_eq!(calls::read(&CATALOGUE, &table, 3, 1), [0, 0, 0]);
    assert_eq!(calls::read(&CATALOGUE, &table, 3, 2), [0, 3, 1]);
    assert_eq!(calls::read(&CATALOGUE, &table, 259, 2), [10, 0, 0]);
    assert_eq!(calls::detach(&CATALOGUE, &mut table, 3), 0);
    assert_eq!(table, [0; TABLE_BYTES]);
}
