//! What scraps of a line, states and replays show is told right, since a run is judged by it.

use second_reader::generate::line::inside;
use second_reader::generate::replay;
use second_reader::line::LINE_ROOM;
use second_reader::scraps::{self, in_replay, only_fault, Call, Fault, InReplay, Shown};
use std::collections::BTreeSet;

const PING: [u8; 6] = [0x00, 0x04, 0x02, 0x01, 0x02, 0x01];

/// The calls of scraps that end at these places, the rest of each handed in again after each
/// finding, which the bytes before the places `found` decide.
fn calls(ends: &[usize], found: &[usize]) -> Vec<Call> {
    let mut calls = Vec::new();
    let mut start = 0;
    for &end in ends {
        let mut between: Vec<usize> =
            found.iter().copied().filter(|&found| start < found && found < end).collect();
        between.push(end);
        for consumed in between {
            calls.push(Call { start, consumed, end });
            start = consumed;
        }
    }
    calls
}

fn shown(line: &[u8], ends: &[usize], found: &[usize]) -> Vec<Shown> {
    scraps::shown(line, &calls(ends, found))
}

#[test]
fn pieces_of_a_packet() {
    assert_eq!(shown(&PING, &[6], &[]), [Shown::WholeInScrap]);
    assert_eq!(shown(&PING, &[1, 6], &[]), [Shown::LengthApart]);
    assert_eq!(shown(&PING, &[2, 6], &[]), [Shown::PartApart]);
    assert_eq!(shown(&PING, &[3, 6], &[]), []);
    assert_eq!(shown(&PING, &[5, 6], &[]), [Shown::LastApart]);
    assert_eq!(shown(&PING, &[3, 4, 6], &[]), [Shown::InSeveral]);
    let empty = [Shown::EmptyFresh, Shown::EmptyLength, Shown::EmptyInside, Shown::EmptyInside];
    let apart = [Shown::InSeveral, Shown::LengthApart, Shown::LastApart];
    assert_eq!(shown(&PING, &[0, 1, 1, 3, 3, 5, 5, 6], &[]), [&apart[..], &empty].concat());
    let two = PING.repeat(2);
    assert_eq!(
        shown(&two, &[8, 12], &[6]),
        [Shown::WholeInScrap, Shown::PartApart, Shown::BackToBack]
    );
}

#[test]
fn refusals() {
    let zero = [0, 9, 1, 1, 0];
    assert_eq!(shown(&zero, &[5], &[]), []);
    assert_eq!(shown(&zero, &[2, 5], &[]), []);
    assert_eq!(shown(&zero, &[3, 5], &[]), [Shown::ZeroBehindHeld]);
    let checksum = [0, 4, 2, 1, 2, 2];
    assert_eq!(shown(&checksum, &[6], &[]), []);
    assert_eq!(shown(&checksum, &[3, 6], &[]), [Shown::PartRefused]);
    let behind = [&checksum[..], &[1]].concat();
    assert_eq!(shown(&behind, &[7], &[6]), [Shown::BehindPart]);
    assert_eq!(shown(&[1, 1, 1], &[3], &[1]), []);
    assert_eq!(shown(&[1, 1, 1], &[2, 3], &[1]), [Shown::StretchInSeveral]);
    assert_eq!(shown(&[0, 3], &[2], &[]), []);
    assert_eq!(shown(&[0, 3, 1], &[3], &[2]), [Shown::BehindLength]);
    assert_eq!(shown(&[0, 0, 0], &[3], &[2]), [Shown::ThreeAgain]);
    assert_eq!(shown(&[1, 1], &[2, 2], &[1]), [Shown::EmptySkipping]);
    let otherwise = [(0, 1, 3), (1, 2, 2), (2, 3, 3)];
    let otherwise = otherwise.map(|(start, consumed, end)| Call { start, consumed, end });
    assert_eq!(
        scraps::shown(&[1, 1, 1], &otherwise),
        [Shown::StretchInSeveral, Shown::RestOtherwise]
    );
}

#[test]
fn what_a_packet_stands_behind() {
    let behind = |front: &[u8], found: &[usize]| {
        let line = [front, &PING].concat();
        let mut shown = shown(&line, &[line.len()], found);
        shown.retain(|shown| *shown != Shown::WholeInScrap);
        shown
    };
    assert_eq!(behind(&[], &[]), []);
    assert_eq!(behind(&PING, &[6]), [Shown::BackToBack]);
    assert_eq!(behind(&[0], &[2]), [Shown::PacketByThree]);
    assert_eq!(behind(&[0, 4, 1], &[4]), [Shown::PacketByFour]);
    assert_eq!(behind(&[7], &[1]), []);
    assert_eq!(behind(&[7, 7], &[1]), [Shown::PacketBehindStretch]);
    assert_eq!(behind(&[0, 3], &[2]), []);
    assert_eq!(behind(&[0, 4, 2, 1, 2, 2], &[6]), [Shown::PacketBehindPart]);
    let stretch = [Shown::BehindPart, Shown::PacketBehindStretch];
    assert_eq!(behind(&[0, 4, 2, 1, 2, 2, 7], &[6]), stretch);
    let packet_first = [&PING[..], &[7, 7]].concat();
    let expected = [Shown::TwoBehindPacket, Shown::PacketBehindStretch];
    assert_eq!(behind(&packet_first, &[6, 7]), expected);
}

#[test]
fn faults_of_states() {
    assert_eq!(only_fault(&[0; LINE_ROOM]), None);
    assert_eq!(only_fault(&inside(4, 3, 1)), None);
    assert_eq!(only_fault(&[0; LINE_ROOM - 1]), Some(Fault::Size));
    assert_eq!(only_fault(&[]), Some(Fault::Size));
    assert_eq!(only_fault(&[4; LINE_ROOM]), Some(Fault::Phase));
    assert_eq!(only_fault(&[2; LINE_ROOM]), Some(Fault::Outside));
    let changed = |at: usize, byte: u8| {
        let mut state = inside(9, 3, 1);
        state[at] = byte;
        only_fault(&state)
    };
    assert_eq!(changed(2, 1), Some(Fault::First));
    assert_eq!(only_fault(&inside(3, 2, 1)), Some(Fault::Length));
    assert_eq!(only_fault(&inside(4, 4, 1)), Some(Fault::Held));
    assert_eq!(changed(5, 0), Some(Fault::Zero));
    assert_eq!(changed(7, 1), Some(Fault::Behind));
    assert_eq!(changed(258, 1), Some(Fault::Behind));
    // More than one.
    assert_eq!(only_fault(&inside(3, 3, 1)), None);
    assert_eq!(only_fault(&inside(4, 4, 0)), None);
}

/// A catalogue of type 7 with one INT, then these records.
fn replayed(records: &[&[u8]]) -> Vec<InReplay> {
    in_replay(&[&[6, 0, 1, 7, 1, 1, 0, 4][..], &records.concat()].concat())
}

/// A record of this code with these bytes for a socket.
fn record(code: u8, socket: u8, bytes: &[u8]) -> Vec<u8> {
    [&[code, socket, bytes.len() as u8, 0], bytes].concat()
}

#[test]
fn replays() {
    let ack = [0, 14, 14, 2, 10, 7, 6, 1, 2, 3, 4, 5, 6, 7, 8, 1];
    let line = |socket, bytes: &[u8]| record(7, socket, bytes);
    let (first, rest) = (line(3, &ack[..5]), line(3, &ack[5..]));
    assert_eq!(replayed(&[&line(3, &ack)]), []);
    assert_eq!(replayed(&[&first, &rest]), [InReplay::InSeveral]);
    let between =
        |records: &[&[u8]]| replayed(&[&record(1, 3, &ack), &first, &records.concat(), &rest]);
    let with = |what| [what, InReplay::InSeveral];
    assert_eq!(between(&[&[2, 3]]), with(InReplay::Left));
    assert_eq!(between(&[&[2, 4]]), [InReplay::InSeveral]);
    assert_eq!(between(&[&record(1, 3, &ack)]), with(InReplay::Acknowledged));
    assert_eq!(between(&[&record(1, 3, &PING)]), [InReplay::InSeveral]);
    assert_eq!(between(&[&[5], &[0; 688]]), with(InReplay::Loaded));
    assert_eq!(between(&[&line(4, &[0])]), with(InReplay::OtherLine));
    assert_eq!(between(&[&line(4, &PING)]), [InReplay::InSeveral]);
    assert_eq!(replayed(&[&line(3, &[7, 7, 0, 0])]), [InReplay::SeveralFindings]);
    assert_eq!(replayed(&[&line(3, &[])]), [InReplay::NoBytes]);
    assert_eq!(replayed(&[&line(8, &[])]), [InReplay::SocketNoBytes]);
    assert_eq!(replayed(&[&line(8, &PING)]), []);
    let unlawful = [&[5, 0, 0, 0, 1][..], &[0; 684]].concat();
    assert_eq!(replayed(&[&unlawful, &line(8, &PING)]), [InReplay::SocketTable]);
    assert_eq!(in_replay(&[&[1, 0, 9][..], &line(8, &PING)].concat()), [InReplay::SocketCatalogue]);
    let two = replayed(&[&line(3, &PING), &line(3, &[7])]);
    assert_eq!(two, [InReplay::TwoBehindRefused]);
    assert_eq!(replayed(&[&line(3, &ack), &line(3, &[7])]), []);
}

/// The enumerated inputs show all of it alone.
#[test]
fn enumerated_replays() {
    let inputs = replay::lines();
    let shown = inputs.iter().flat_map(|input| in_replay(input)).map(InReplay::number);
    assert_eq!(Vec::from_iter(shown.collect::<BTreeSet<_>>()), InReplay::NUMBERS);
}
