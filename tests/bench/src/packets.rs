//! The packets that are measured, read alone, received, written or taken from a line.

use second_reader::packet;

#[cfg(any(feature = "packet", feature = "hub", feature = "push"))]
pub fn packet_of(packet_type: u8, payload: &[u8]) -> Vec<u8> {
    let mut buffer = [0; packet::PACKET_ROOM];
    let length = packet::encode(packet_type.into(), payload, &mut buffer).expect("a good packet");
    buffer[..length].to_vec()
}

/// The name of a case, and its message's type and payload.
#[cfg(any(feature = "packet", feature = "writers", feature = "push"))]
pub struct Message {
    pub name: &'static str,
    pub packet_type: u8,
    pub payload: Vec<u8>,
}

/// Messages of each type; those called full have the longest payload of theirs.
#[cfg(any(feature = "packet", feature = "writers", feature = "push"))]
pub fn all() -> Vec<Message> {
    let of = |name, packet_type, payload| Message { name, packet_type, payload };
    let mixed: Vec<u8> = (0..251).map(|at: u8| at % 5).collect();
    vec![
        of("ping", packet::PING, vec![]),
        of("ack", packet::ACK, vec![7, 6, 1, 2, 3, 4, 5, 6, 7, 8]),
        of("data", packet::DEVICE_DATA, vec![5, 0, 0, 0, 7, 0, 0, 0, 1]),
        of("data-full", packet::DEVICE_DATA, whole_numbers()),
        of("full", packet::LOG, vec![11; 251]),
        of("full-with-zeros", packet::LOG, mixed),
        of("full-all-zeros", packet::LOG, vec![0; 251]),
    ]
}

/// All 32 parameters, each a number below 2^20, so that most of its bytes are zeros.
#[cfg(any(feature = "packet", feature = "writers", feature = "push"))]
fn whole_numbers() -> Vec<u8> {
    let values = (0..32_u32).map(|at| 200 << (at % 3 * 6));
    std::iter::once(u32::MAX).chain(values).flat_map(u32::to_le_bytes).collect()
}
