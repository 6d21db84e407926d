//! What the calls on one line show, what a line state shows that no line reaches, and what
//! the records of a replay show about the sockets' lines, so that a run can tell whether its
//! cases show all of it.

use crate::definition::line::{end, whole, Finding, State};
use crate::hub;
use crate::line::{FRESH, HELD_AT, INSIDE, LENGTH, LENGTH_AT, LINE_ROOM, PACKET_AT, PART_AT};
use crate::packet::{ACK, ENCODED_LOWEST};
use crate::replay::{Capture, Record};
use crate::table::{Table, SOCKETS};
use crate::Error;

/// A call by places in its line: where its scrap begins and ends, and where the bytes end
/// that are consumed.
#[derive(Clone, Copy, Debug)]
pub struct Call {
    pub start: usize,
    pub consumed: usize,
    pub end: usize,
}

#[derive(Clone, Copy, PartialEq, Eq, Debug)]
#[repr(u8)]
pub enum Shown {
    /// A packet that is whole in one scrap.
    WholeInScrap = 1,
    /// A packet that comes in three scraps or more.
    InSeveral = 2,
    /// A packet whose 00 ends a scrap.
    LengthApart = 3,
    /// A packet whose length byte ends a scrap.
    PartApart = 4,
    /// A packet whose last byte begins a scrap.
    LastApart = 5,
    /// 4, where bytes of the part came with a scrap before.
    ZeroBehindHeld = 6,
    /// 5 to 8 for a part that came in several scraps.
    PartRefused = 7,
    /// One 2 for a stretch that goes on in two scraps.
    StretchInSeveral = 8,
    /// Nothing for the stretch behind a length byte of 1 to 3.
    BehindLength = 9,
    /// Nothing for the stretch behind 5 to 8.
    BehindPart = 10,
    /// 2 straight behind a packet.
    TwoBehindPacket = 11,
    /// A packet straight behind another.
    BackToBack = 12,
    /// A packet whose 00 is the one that gave 4.
    PacketByFour = 13,
    /// A packet whose 00 is the one that gave 3.
    PacketByThree = 14,
    /// A packet straight behind 5 to 8.
    PacketBehindPart = 15,
    /// A packet behind bytes that gave nothing.
    PacketBehindStretch = 16,
    /// 3 for a 00 straight behind one that gave 3.
    ThreeAgain = 17,
    /// The rest of a scrap is handed in again with fewer bytes or more.
    RestOtherwise = 18,
    /// An empty scrap on a fresh line.
    EmptyFresh = 19,
    /// An empty scrap on a line that skips.
    EmptySkipping = 20,
    /// An empty scrap between a 00 and its length byte.
    EmptyLength = 21,
    /// An empty scrap inside a part.
    EmptyInside = 22,
}

impl Shown {
    /// The numbers of all that can be shown.
    pub const NUMBERS: &'static [u64] =
        &[1, 2, 3, 4, 5, 6, 7, 8, 9, 10, 11, 12, 13, 14, 15, 16, 17, 18, 19, 20, 21, 22];

    pub fn number(self) -> u64 {
        self as u64
    }
}

/// What these calls on a fresh line show, which consume all of it.
pub fn shown(line: &[u8], calls: &[Call]) -> Vec<Shown> {
    let findings = whole(line).findings;
    let mut shown = Vec::new();
    for (number, (at, finding)) in findings.iter().enumerate() {
        let before = number.checked_sub(1).map(|before| &findings[before]);
        match finding {
            Finding::Packet(packet) => {
                shown.extend(pieces(calls, at + 1 - packet.len(), *at));
                shown.extend(packet_behind(at + 1 - packet.len(), before));
            }
            Finding::Refused(error) => shown.extend(refusal(line, calls, *error, *at, before)),
        }
    }
    for call in calls.iter().filter(|call| call.start == call.end) {
        shown.push(match end(&line[..call.start]) {
            State::Fresh => Shown::EmptyFresh,
            State::Skipping => Shown::EmptySkipping,
            State::Length => Shown::EmptyLength,
            State::Inside(..) => Shown::EmptyInside,
        });
    }
    let otherwise = |pair: &[Call]| pair[0].consumed < pair[0].end && pair[0].end != pair[1].end;
    shown.extend(calls.windows(2).any(otherwise).then_some(Shown::RestOtherwise));
    shown
}

/// How many calls consume bytes from `from` to `last`.
fn calls_for(calls: &[Call], from: usize, last: usize) -> usize {
    let meets = |call: &&Call| call.start.max(from) < call.consumed.min(last + 1);
    calls.iter().filter(meets).count()
}

/// Whether a scrap ends at this place.
fn cut_at(calls: &[Call], place: usize) -> bool {
    calls.iter().any(|call| call.start < place && call.end == place)
}

/// What the scraps show that a packet comes in.
fn pieces(calls: &[Call], zero: usize, last: usize) -> Vec<Shown> {
    let mut shown = Vec::new();
    match calls_for(calls, zero, last) {
        1 => shown.push(Shown::WholeInScrap),
        2 => {}
        _ => shown.push(Shown::InSeveral),
    }
    shown.extend(cut_at(calls, zero + 1).then_some(Shown::LengthApart));
    shown.extend(cut_at(calls, zero + 2).then_some(Shown::PartApart));
    shown.extend(cut_at(calls, last).then_some(Shown::LastApart));
    shown
}

/// What a packet shows by the finding before it.
fn packet_behind(zero: usize, before: Option<&(usize, Finding)>) -> Option<Shown> {
    let (at, finding) = before?;
    let Finding::Refused(error) = finding else {
        return (at + 1 == zero).then_some(Shown::BackToBack);
    };
    match error {
        Error::ZeroEncoded => Some(Shown::PacketByFour),
        Error::LengthBelowFour if *at == zero => Some(Shown::PacketByThree),
        _ if at + 1 < zero => Some(Shown::PacketBehindStretch),
        Error::FirstByteNotZero | Error::LengthBelowFour => None,
        _ => Some(Shown::PacketBehindPart),
    }
}

/// What a refusal shows that the byte at this place decides.
fn refusal(
    line: &[u8],
    calls: &[Call],
    error: Error,
    at: usize,
    before: Option<&(usize, Finding)>,
) -> Vec<Shown> {
    let stretch = line[at + 1..].iter().take_while(|&&byte| byte != 0).count();
    let zero_before = || line[..at].iter().rposition(|&byte| byte == 0).unwrap();
    let mut shown = Vec::new();
    match error {
        Error::FirstByteNotZero => {
            let scraps = calls_for(calls, at + 1, at + stretch);
            shown.extend((scraps > 1).then_some(Shown::StretchInSeveral));
            shown.extend(before.map(|_| Shown::TwoBehindPacket));
        }
        Error::LengthBelowFour if line[at] == 0 => {
            let three = (at - 1, Finding::Refused(Error::LengthBelowFour));
            shown.extend((before == Some(&three)).then_some(Shown::ThreeAgain));
        }
        Error::LengthBelowFour => shown.extend((stretch > 0).then_some(Shown::BehindLength)),
        Error::ZeroEncoded => {
            let held = calls_for(calls, zero_before() + 2, at);
            shown.extend((held > 1).then_some(Shown::ZeroBehindHeld));
        }
        _ => {
            let scraps = calls_for(calls, zero_before() + 2, at);
            shown.extend((scraps > 1).then_some(Shown::PartRefused));
            shown.extend((stretch > 0).then_some(Shown::BehindPart));
        }
    }
    shown
}

/// Why no line reaches a state.
#[derive(Clone, Copy, PartialEq, Eq, Debug)]
#[repr(u8)]
pub enum Fault {
    /// It has more or fewer bytes.
    Size = 1,
    /// There is no such phase.
    Phase = 2,
    /// Something is held outside of a part.
    Outside = 3,
    /// The packet's first byte is not 00.
    First = 4,
    /// The length byte is below 4.
    Length = 5,
    /// As many bytes are held as the part has, or more.
    Held = 6,
    /// A 00 is held.
    Zero = 7,
    /// Something stands behind the bytes held.
    Behind = 8,
}

impl Fault {
    pub const NUMBERS: &'static [u64] = &[1, 2, 3, 4, 5, 6, 7, 8];

    pub fn number(self) -> u64 {
        self as u64
    }
}

/// The fault of a state that has one alone.
pub fn only_fault(state: &[u8]) -> Option<Fault> {
    let zeros = |bytes: &[u8]| bytes.iter().all(|&byte| byte == 0);
    if state.len() != LINE_ROOM {
        return Some(Fault::Size);
    }
    match state[0] {
        FRESH..=LENGTH => return (!zeros(&state[HELD_AT..])).then_some(Fault::Outside),
        INSIDE => {}
        _ => return Some(Fault::Phase),
    }
    let (held, length) = (state[HELD_AT], state[LENGTH_AT]);
    let (part, behind) = state[PART_AT..].split_at(held.into());
    let faults = [
        (state[PACKET_AT] != 0, Fault::First),
        (usize::from(length) < ENCODED_LOWEST, Fault::Length),
        (held >= length, Fault::Held),
        (part.contains(&0), Fault::Zero),
        (!zeros(behind), Fault::Behind),
    ];
    let mut there = faults.into_iter().filter_map(|(there, fault)| there.then_some(fault));
    there.next().filter(|_| there.next().is_none())
}

/// What a replay shows about the sockets' lines.
#[derive(Clone, Copy, PartialEq, Eq, Debug)]
#[repr(u8)]
pub enum InReplay {
    /// A packet whose bytes come with several records.
    InSeveral = 1,
    /// Between its bytes the socket's device leaves.
    Left = 2,
    /// Between its bytes an ACK of a record 01 is accepted from the socket.
    Acknowledged = 3,
    /// Between its bytes a table is loaded.
    Loaded = 4,
    /// Between its bytes another socket's line begins a packet or goes on with one.
    OtherLine = 5,
    /// One record gives several findings.
    SeveralFindings = 6,
    /// 10 for no bytes.
    SocketNoBytes = 7,
    /// 10 under a catalogue that is refused.
    SocketCatalogue = 8,
    /// 10 on a table that is not lawful.
    SocketTable = 9,
    /// 2 straight behind a packet that the hub refuses.
    TwoBehindRefused = 10,
    /// No bytes for a socket that there is.
    NoBytes = 11,
}

impl InReplay {
    pub const NUMBERS: &'static [u64] = &[1, 2, 3, 4, 5, 6, 7, 8, 9, 10, 11];

    pub fn number(self) -> u64 {
        self as u64
    }
}

/// A socket's line so far.
#[derive(Clone, Default)]
struct Followed {
    line: Vec<u8>,
    /// What came before which place of it.
    between: Vec<(usize, InReplay)>,
    /// Where the last packet ends that the hub refused.
    refused: Option<usize>,
}

impl Followed {
    fn note(&mut self, what: InReplay) {
        self.between.push((self.line.len(), what));
    }
}

/// A replay so far.
struct Replay<'a> {
    catalogue: &'a [u8],
    table: Table,
    lines: [Followed; SOCKETS as usize],
    shown: Vec<InReplay>,
}

/// What a replay shows about the sockets' lines.
pub fn in_replay(input: &[u8]) -> Vec<InReplay> {
    let Some(Capture { catalogue, records }) = Capture::of(input) else { return Vec::new() };
    let (table, lines) = (Table::default(), Default::default());
    let mut replay = Replay { catalogue, table, lines, shown: Vec::new() };
    records.map_while(|record| record).for_each(|record| replay.record(record));
    replay.shown
}

impl Replay<'_> {
    fn record(&mut self, record: Record) {
        match record {
            Record::Receive { socket, packet } => {
                let answer = hub::receive(self.catalogue, &mut self.table, socket, packet);
                // The first block of an ACK begins with its type.
                if answer.is_ok() && packet[3] == ACK {
                    self.lines[socket as usize].note(InReplay::Acknowledged);
                }
            }
            Record::Detach { socket } => {
                if hub::detach(self.catalogue, &mut self.table, socket).is_ok() {
                    self.lines[socket as usize].note(InReplay::Left);
                }
            }
            Record::Load(table) => {
                self.table = *table;
                self.lines.iter_mut().for_each(|line| line.note(InReplay::Loaded));
            }
            Record::Line { socket, bytes } if socket < SOCKETS.into() => {
                self.line(socket as usize, bytes);
            }
            Record::Line { bytes, .. } => self.no_socket(bytes),
            Record::Publish | Record::Read { .. } | Record::Print => {}
        }
    }

    fn no_socket(&mut self, bytes: &[u8]) {
        self.shown.extend(bytes.is_empty().then_some(InReplay::SocketNoBytes));
        // Leaving judges the catalogue and the table before the socket.
        match hub::detach(self.catalogue, &mut self.table.clone(), SOCKETS.into()) {
            Err(Error::Catalogue) => self.shown.push(InReplay::SocketCatalogue),
            Err(Error::NotLawful) => self.shown.push(InReplay::SocketTable),
            _ => {}
        }
    }

    fn line(&mut self, socket: usize, bytes: &[u8]) {
        self.shown.extend(bytes.is_empty().then_some(InReplay::NoBytes));
        let followed = &mut self.lines[socket];
        let before = followed.line.len();
        followed.note(InReplay::InSeveral);
        followed.line.extend(bytes);
        let whole = whole(&followed.line);
        let new: Vec<_> = whole.findings.into_iter().filter(|&(at, _)| at >= before).collect();
        self.shown.extend((new.len() > 1).then_some(InReplay::SeveralFindings));
        for (at, finding) in new {
            self.finding(socket, at, finding);
        }
        if matches!(whole.end, State::Length | State::Inside(..)) {
            let others = self.lines.iter_mut().enumerate().filter(|&(other, _)| other != socket);
            others.for_each(|(_, line)| line.note(InReplay::OtherLine));
        }
    }

    fn finding(&mut self, socket: usize, at: usize, finding: Finding) {
        let Replay { catalogue, table, lines, shown } = self;
        let followed = &mut lines[socket];
        match finding {
            Finding::Packet(packet) => {
                let inside = at + 2 - packet.len()..=at;
                let within = followed.between.iter().filter(|(place, _)| inside.contains(place));
                shown.extend(within.map(|&(_, what)| what));
                let answer = hub::receive(catalogue, table, socket as u64, &packet);
                followed.refused = answer.is_err().then_some(at + 1);
            }
            Finding::Refused(Error::FirstByteNotZero) => {
                let behind = followed.refused == Some(at);
                shown.extend(behind.then_some(InReplay::TwoBehindRefused));
            }
            Finding::Refused(_) => {}
        }
    }
}
