//! What packets show about the width of INTs is told right, since a run is judged by it.

use second_reader::catalogue::LONG_INT_YEAR;
use second_reader::generate::packet::{message_of, packet_of};
use second_reader::hub::{detach, receive};
use second_reader::packet::{ACK, DEVICE_DATA, LOG};
use second_reader::table::Table;
use second_reader::widths::{other_width, Shown, Widths};

/// Type 9: INT, FLOAT, BOOL and INT, all readable.
const CATALOGUE: [u8; 9] = [0x01, 0x09, 0x04, 0x04, 0x00, 0x04, 0x05, 0x06, 0x04];
const OLD: u8 = LONG_INT_YEAR - 1;
const NEW: u8 = LONG_INT_YEAR;

/// A table with what is followed of it.
#[derive(Default)]
struct Followed {
    table: Table,
    widths: Widths,
}

impl Followed {
    fn packet(&mut self, socket: u64, packet_type: u8, payload: &[u8]) -> Vec<Shown> {
        let packet = packet_of(&message_of(packet_type, payload));
        let shown = self.widths.shown(&CATALOGUE, &self.table, socket, &packet);
        let _ = receive(&CATALOGUE, &mut self.table, socket, &packet);
        shown
    }

    fn ack(&mut self, socket: u64, year: u8) {
        let payload = [9, year, 1, 2, 3, 4, 5, 6, 7, socket as u8];
        assert_eq!(self.packet(socket, ACK, &payload), []);
    }

    fn data(&mut self, socket: u64, map: u8, values: &[u8]) -> Vec<Shown> {
        self.packet(socket, DEVICE_DATA, &[&[map, 0, 0, 0], values].concat())
    }
}

#[test]
fn years_of_the_other_width() {
    assert!((0..6).all(|year| other_width(year) == 6));
    assert!((6..=255).all(|year| other_width(year) == 5));
}

#[test]
fn accepted_and_refused() {
    let mut followed = Followed::default();
    assert_eq!(followed.data(0, 1, &[0xff, 0xff]), []);
    followed.ack(0, OLD);
    followed.ack(1, NEW);
    assert_eq!(followed.data(0, 1, &[0xff, 0xff]), [Shown::ShortBelowZero]);
    assert_eq!(followed.data(0, 9, &[0xff, 0x7f, 0xff, 0xff]), [Shown::ShortBelowZero]);
    assert_eq!(followed.data(0, 1, &[0xff, 0x7f]), []);
    assert_eq!(followed.data(0, 1, &[0; 4]), [Shown::LongRefused]);
    assert_eq!(followed.data(0, 15, &[0; 13]), [Shown::LongRefused]);
    assert_eq!(followed.data(1, 1, &[0, 0, 1, 0]), [Shown::LongBeyondShort]);
    assert_eq!(followed.data(1, 1, &[0xff; 4]), []);
    assert_eq!(followed.data(1, 1, &[0; 2]), [Shown::ShortRefused]);
    assert_eq!(followed.data(1, 15, &[0; 9]), [Shown::ShortRefused]);
    for socket in [0, 1] {
        // Another length, no INT, a fault that comes first, another packet.
        assert_eq!(followed.data(socket, 1, &[0; 3]), []);
        assert_eq!(followed.data(socket, 2, &[0xff; 4]), []);
        assert_eq!(followed.data(socket, 17, &[0; 2]), []);
        assert_eq!(followed.data(socket, 17, &[0; 4]), []);
        assert_eq!(followed.packet(socket, LOG, &[1, 0, 0, 0, 0xff, 0xff]), []);
    }
    assert_eq!(followed.data(8, 1, &[0xff, 0xff]), []);
    assert_eq!(followed.data(256, 1, &[0xff, 0xff]), []);
}

#[test]
fn behind_a_second_ack() {
    let mut followed = Followed::default();
    followed.ack(0, OLD);
    assert_eq!(followed.data(0, 1, &[0; 2]), []);
    followed.ack(0, 0);
    assert_eq!(followed.data(0, 1, &[0; 2]), []);
    followed.ack(0, NEW);
    followed.ack(1, NEW);
    assert_eq!(followed.data(0, 4, &[1]), []);
    assert_eq!(followed.data(1, 1, &[0; 4]), []);
    assert_eq!(followed.data(0, 1, &[0; 2]), [Shown::ShortRefused]);
    assert_eq!(followed.data(0, 1, &[0; 4]), [Shown::LongBehindAck]);
    assert_eq!(followed.data(0, 8, &[0; 4]), [Shown::LongBehindAck]);
    followed.ack(0, OLD);
    assert_eq!(followed.data(0, 1, &[0; 2]), [Shown::ShortBehindAck]);
    // One that has left and comes again, and one that no ACK has brought.
    detach(&CATALOGUE, &mut followed.table, 0).unwrap();
    followed.ack(0, NEW);
    assert_eq!(followed.data(0, 1, &[0; 4]), []);
    followed.ack(0, OLD);
    followed.table.slots[0].year = 0;
    assert_eq!(followed.data(0, 1, &[0; 2]), []);
}
