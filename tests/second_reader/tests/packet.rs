//! Packets: document 01's bench cases, the readings of its open points, and round
//! trips on generated inputs.

use second_reader::definition::packet as definition;
use second_reader::generate::{packet as generate, writers};
use second_reader::packet::{decode, encode, payload_allowed, ACK, LOG, PACKET_ROOM, PING};
use second_reader::random::Random;
use second_reader::Error;
use std::collections::BTreeMap;

const PING_PACKET: [u8; 6] = [0x00, 0x04, 0x02, 0x01, 0x02, 0x01];
const ACK_PACKET: [u8; 16] = [
    0x00, 0x0e, 0x0e, 0x02, 0x0a, 0x07, 0x06, 0x01, 0x02, 0x03, 0x04, 0x05, 0x06, 0x07, 0x08, 0x01,
];
const DATA_PACKET: [u8; 15] =
    [0x00, 0x0d, 0x04, 0x04, 0x09, 0x05, 0x01, 0x01, 0x02, 0x07, 0x01, 0x01, 0x03, 0x01, 0x0e];

/// Reads into a buffer of exact room and answers the consumed bytes and the message,
/// after seeing that nothing else was written.
fn read(bytes: &[u8]) -> Result<(usize, Vec<u8>), Error> {
    let mut buffer = [0xa5; PACKET_ROOM];
    match decode(bytes, &mut buffer) {
        Ok(consumed) => {
            assert!(buffer[consumed - 3..].iter().all(|&byte| byte == 0xa5));
            Ok((consumed, buffer[..consumed - 3].to_vec()))
        }
        Err(error) => {
            assert_eq!(buffer, [0xa5; PACKET_ROOM]);
            Err(error)
        }
    }
}

/// Writes into a buffer of exact room and answers the packet.
fn write(packet_type: impl Into<u64>, payload: &[u8]) -> Result<Vec<u8>, Error> {
    let mut buffer = [0xa5; PACKET_ROOM];
    match encode(packet_type.into(), payload, &mut buffer) {
        Ok(length) => {
            assert!(buffer[length..].iter().all(|&byte| byte == 0xa5));
            Ok(buffer[..length].to_vec())
        }
        Err(error) => {
            assert_eq!(buffer, [0xa5; PACKET_ROOM]);
            Err(error)
        }
    }
}

#[test]
fn bench_cases() {
    assert_eq!(read(&PING_PACKET), Ok((6, vec![1, 0, 1])));
    assert_eq!(read(&[0x00, 0x04, 0x02, 0x01, 0x02, 0x02]), Err(Error::Checksum));
    assert_eq!(read(&[0x00, 0x03, 0x02, 0x01, 0x02, 0x01]), Err(Error::LengthBelowFour));
    assert_eq!(read(&PING_PACKET[..4]), Err(Error::PacketIncomplete));
    assert_eq!(read(&[0x00, 0x04, 0x02, 0x00]), Err(Error::ZeroEncoded));
    assert_eq!(read(&ACK_PACKET), Ok((16, vec![2, 10, 7, 6, 1, 2, 3, 4, 5, 6, 7, 8, 1])));
    assert_eq!(read(&DATA_PACKET), Ok((15, vec![4, 9, 5, 0, 0, 0, 7, 0, 0, 0, 1, 14])));
    assert_eq!(write(PING, &[]), Ok(PING_PACKET.to_vec()));
    assert_eq!(write(ACK, &[7, 6, 1, 2, 3, 4, 5, 6, 7, 8]), Ok(ACK_PACKET.to_vec()));
    assert_eq!(write(4_u64, &[5, 0, 0, 0, 7, 0, 0, 0, 1]), Ok(DATA_PACKET.to_vec()));
}

#[test]
fn errors_in_the_papers_order() {
    assert_eq!(read(&[]), Err(Error::PacketIncomplete));
    assert_eq!(read(&[1]), Err(Error::FirstByteNotZero));
    assert_eq!(read(&[1, 3, 0]), Err(Error::FirstByteNotZero));
    assert_eq!(read(&[0]), Err(Error::PacketIncomplete));
    assert_eq!(read(&[0, 0]), Err(Error::LengthBelowFour));
    assert_eq!(read(&[0, 3, 0]), Err(Error::LengthBelowFour));
    assert_eq!(read(&[0, 4]), Err(Error::PacketIncomplete));
    // A zero behind the encoded part is none of its bytes.
    assert_eq!(read(&[0, 4, 2, 1, 2, 1, 0]), Ok((6, vec![1, 0, 1])));
    // A zero and a block past the end, all there or not.
    assert_eq!(read(&[0, 4, 9, 1, 0]), Err(Error::ZeroEncoded));
    assert_eq!(read(&[0, 4, 9, 1, 1]), Err(Error::PacketIncomplete));
    assert_eq!(read(&[0, 4, 9, 1, 1, 1]), Err(Error::BlockPassesEnd));
    assert_eq!(read(&[0, 4, 2, 1, 3, 1]), Err(Error::BlockPassesEnd));
    // Payload length, checksum and type wrong at once; then without the first, and so on.
    assert_eq!(read(&generate::packet_of(&[6, 1, 9])), Err(Error::PayloadLength));
    assert_eq!(read(&generate::packet_of(&[6, 0, 9])), Err(Error::Checksum));
    assert_eq!(read(&generate::packet_of(&[6, 0, 6])), Err(Error::PacketType));
    assert_eq!(read(&generate::packet_of(&[0, 0, 0])), Err(Error::PacketType));
}

#[test]
fn buffer_is_judged_first() {
    for length in [0, 1, 256] {
        let mut buffer = vec![0xa5; length];
        assert_eq!(decode(&PING_PACKET, &mut buffer), Err(Error::BufferTooSmall));
        assert_eq!(decode(&[], &mut buffer), Err(Error::BufferTooSmall));
        assert_eq!(encode(PING.into(), &[], &mut buffer), Err(Error::BufferTooSmall));
        assert_eq!(encode(9, &[], &mut buffer), Err(Error::BufferTooSmall));
        assert!(buffer.iter().all(|&byte| byte == 0xa5));
    }
    let mut buffer = vec![0xa5; 300];
    assert_eq!(decode(&PING_PACKET, &mut buffer), Ok(6));
    assert!(buffer[3..].iter().all(|&byte| byte == 0xa5));
}

#[test]
fn whole_part_of_code_255() {
    let packet = write(LOG, &[11; 251]).unwrap();
    assert_eq!(packet.len(), 257);
    assert_eq!(packet[..3], [0, 255, 255]);
    let (consumed, message) = read(&packet).unwrap();
    assert_eq!(consumed, 257);
    assert_eq!(message, generate::message_of(LOG, &[11; 251]));
}

#[test]
fn payload_lengths_of_each_type() {
    let allowed = |packet_type| (0..=255).filter(|&n| payload_allowed(packet_type, n)).count();
    let counts: Vec<usize> = (0..=6).map(allowed).collect();
    assert_eq!(counts, [0, 1, 1, 129, 129, 252, 0]);
    assert_eq!(write(PING, &[1]), Err(Error::PacketType));
    assert_eq!(write(ACK, &[1; 9]), Err(Error::PacketType));
    assert_eq!(write(3_u64, &[1; 3]), Err(Error::PacketType));
    assert_eq!(write(4_u64, &[1; 133]), Err(Error::PacketType));
    assert_eq!(write(LOG, &[1; 252]), Err(Error::PacketType));
    assert_eq!(write(LOG, &[1; 300]), Err(Error::PacketType));
    for above in [256 + 1, (1 << 32) + 1, u64::MAX - 254] {
        assert_eq!(write(above, &[]), Err(Error::PacketType));
    }
    // A map that promises values which are not there is no concern of the writer.
    assert!(write(4_u64, &[0xff; 4]).is_ok());
}

#[test]
fn round_trips() {
    let mut random = Random::new(1);
    for (packet_type, low, high) in generate::TYPES {
        for length in low..=high {
            for _ in 0..4 {
                let payload = generate::payload(&mut random, length);
                let message = generate::message_of(packet_type, &payload);
                let packet = write(packet_type, &payload).unwrap();
                assert_eq!(packet, generate::packet_of(&message));
                assert_eq!(read(&packet), Ok((packet.len(), message.clone())));
                let mut longer = packet.clone();
                longer.extend(random.bytes(7));
                assert_eq!(read(&longer), Ok((packet.len(), message)));
            }
        }
    }
}

#[test]
fn what_is_accepted_writes_back() {
    let mut random = Random::new(2);
    let mut accepted = 0;
    for _ in 0..50_000 {
        let bytes = generate::any(&mut random);
        if let Ok((consumed, message)) = read(&bytes) {
            accepted += 1;
            let payload = &message[2..message.len() - 1];
            assert_eq!(write(message[0], payload).unwrap(), bytes[..consumed]);
        }
    }
    assert!(accepted > 10_000);
}

#[test]
fn reads_as_defined() {
    let mut random = Random::new(3);
    let mut met = BTreeMap::new();
    for _ in 0..100_000 {
        let bytes = generate::any(&mut random);
        let expected = definition::read(&bytes);
        *met.entry(expected.as_ref().map_or_else(|error| error.number(), |_| 0)).or_insert(0) += 1;
        assert_eq!(read(&bytes), expected, "{bytes:02x?}");
    }
    assert!((0..=8).all(|number| met.get(&number).is_some_and(|&times| times > 100)), "{met:?}");
}

#[test]
fn writes_as_defined() {
    let mut random = Random::new(14);
    for _ in 0..20_000 {
        let (packet_type, payload) = writers::any_packet(&mut random);
        assert_eq!(write(packet_type, &payload), definition::write(packet_type, &payload));
    }
}

#[test]
fn one_changed_byte_never_gives_a_good_message() {
    let mut random = Random::new(4);
    for (packet_type, low, high) in generate::TYPES {
        for length in [low, high] {
            let message =
                generate::message_of(packet_type, &generate::payload(&mut random, length));
            for at in 0..message.len() {
                let mut changed = message.clone();
                changed[at] ^= random.between(1, 255) as u8;
                assert!(read(&generate::packet_of(&changed)).is_err());
            }
        }
    }
}
