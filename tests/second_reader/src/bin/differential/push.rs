//! `cinder_line_push` against the second reader: lines fed in scraps, each cut in several ways,
//! and single calls on states of every kind.

use crate::buffers::{patterned, put, Outcome, DEFINITION};
use crate::lent::Lent;
use crate::report::{count_answer, hex, Answers, Difference, Section, READER};
use archive::{line_push, LinePushed};
use second_reader::definition::line::{packets, whole, Finding, State, Whole};
use second_reader::generate::line::{any, good, inside, push, scrap, scrap_limit, telling, Push};
use second_reader::generate::packet::{message_of, packet_of, payload, TYPES};
use second_reader::line::{self, LINE_ROOM, MORE, PACKET, REFUSAL};
use second_reader::packet::{LOG, PACKET_ROOM, PAYLOAD_LIMIT, PING};
use second_reader::random::Random;
use second_reader::scraps::{only_fault, shown, Call, Fault, Shown};
use second_reader::Error;

/// By what is found.
const NAMES: [&str; 3] = ["line_push wants more", "line_push finds a packet", "line_push refuses"];

pub const SECTION: Section = Section {
    name: "push",
    progress: 5_000,
    answers: &[
        Answers { of: NAMES[0], numbers: &[0] },
        Answers { of: NAMES[1], numbers: &[0] },
        Answers { of: NAMES[2], numbers: &[2, 3, 4, 5, 6, 7, 8, 9, 20] },
        Answers { of: "line_push's scraps", numbers: Shown::NUMBERS },
        Answers { of: "line_push's 9", numbers: Fault::NUMBERS },
    ],
    enumerated,
    random: random_case,
};

fn by_reader(line: &mut [u8], bytes: &[u8], packet: &mut [u8]) -> LinePushed {
    let line::Pushed { found, error, consumed } = line::push(line, bytes, packet);
    LinePushed { found, error, consumed }
}

fn by_definition(line: &mut [u8], bytes: &[u8], packet: &mut [u8]) -> LinePushed {
    let refused = |error: Error, consumed: usize| LinePushed {
        found: REFUSAL,
        error: error.number(),
        consumed: consumed as u64,
    };
    if packet.len() < PACKET_ROOM {
        return refused(Error::BufferTooSmall, 0);
    }
    let Some(state) = State::reached(line) else { return refused(Error::NotLawful, 0) };
    let (state, consumed, finding) = state.scrap(bytes);
    put(line, &state.bytes());
    match finding {
        None => LinePushed { found: MORE, error: 0, consumed: consumed as u64 },
        Some(Finding::Refused(error)) => refused(error, consumed),
        Some(Finding::Packet(bytes)) => {
            put(packet, &bytes);
            LinePushed { found: PACKET, error: 0, consumed: consumed as u64 }
        }
    }
}

/// What a call leaves in the line and the packet area, and its answer.
struct Left {
    line: Vec<u8>,
    packet: Vec<u8>,
    answer: LinePushed,
}

/// One call; the scrap may not change, nor the bytes about any area.
fn check(
    line: &[u8],
    bytes: &[u8],
    packet_length: usize,
    lent: Lent,
    pattern: u64,
) -> Result<Left, Difference> {
    let packet = patterned(packet_length, !pattern);
    let outcome = |call: fn(&mut [u8], &[u8], &mut [u8]) -> LinePushed| {
        let buffers = [line, bytes, &packet].map(|area| lent.buffer(area, pattern));
        Outcome::of(buffers, |buffers| {
            let [line, bytes, packet] = buffers.map(|buffer| lent.area(buffer));
            call(line, bytes, packet)
        })
    };
    let mut found = outcome(line_push);
    let reader = outcome(by_reader);
    let defined = outcome(by_definition);
    let answer = defined.answer;
    count_answer(NAMES[answer.found as usize], answer.error);
    if answer.error == Error::NotLawful.number() {
        let fault = only_fault(line).map(Fault::number);
        fault.into_iter().for_each(|fault| count_answer("line_push's 9", fault));
    }
    let names = ["line's buffer", "bytes' buffer", "packet's buffer"];
    let case = || {
        vec![
            ("line", hex(line)),
            ("bytes", hex(bytes)),
            ("packet length", packet_length.to_string()),
            ("pattern seed", pattern.to_string()),
        ]
    };
    defined.owed(DEFINITION, &found, names, case)?;
    reader.owed(READER, &found, names, case)?;
    let [line, packet] = [0, 2].map(|at| lent.area(&mut found.buffers[at]).to_vec());
    Ok(Left { line, packet, answer })
}

/// A finding: the place of the byte that decides it, the error or 0, and the packet.
type Found = (usize, u64, Vec<u8>);

fn told((at, finding): &(usize, Finding)) -> Found {
    match finding {
        Finding::Packet(packet) => (*at, 0, packet.clone()),
        Finding::Refused(error) => (*at, error.number(), Vec::new()),
    }
}

/// A line that is handed in, in scraps.
struct Fed<'a> {
    line: &'a [u8],
    lent: Lent,
    state: Vec<u8>,
    calls: Vec<Call>,
    found: Vec<Found>,
}

impl Fed<'_> {
    fn new(line: &[u8], lent: Lent) -> Fed<'_> {
        Fed { line, lent, state: vec![0; LINE_ROOM], calls: Vec::new(), found: Vec::new() }
    }

    /// Where the bytes end that were consumed, and where those that were handed in.
    fn places(&self) -> (usize, usize) {
        self.calls.last().map_or((0, 0), |call| (call.consumed, call.end))
    }

    /// Hands in the next bytes up to this place.
    fn scrap(&mut self, end: usize, pattern: u64) -> Result<(), Difference> {
        let (start, _) = self.places();
        let bytes = &self.line[start..end];
        let left = check(&self.state, bytes, PACKET_ROOM, self.lent, pattern)?;
        let consumed = start + left.answer.consumed as usize;
        self.calls.push(Call { start, consumed, end });
        self.state = left.line;
        match left.answer.found {
            MORE => {}
            PACKET => {
                let length = usize::from(left.packet[1]) + 2;
                self.found.push((consumed - 1, 0, left.packet[..length].to_vec()));
            }
            _ => self.found.push((consumed - 1, left.answer.error, Vec::new())),
        }
        Ok(())
    }

    /// Hands in the bytes up to this place, the rest again after each finding.
    fn scraps(&mut self, end: usize) -> Result<(), Difference> {
        loop {
            self.scrap(end, self.calls.len() as u64)?;
            if self.places().0 == end {
                return Ok(());
            }
        }
    }

    /// What was found must be what the whole line has, and the packets those that stand in
    /// it; answers the number of calls.
    fn owed(self) -> Result<u64, Difference> {
        let Fed { line, state, calls, found, .. } = self;
        let Whole { findings, end } = whole(line);
        let expected = Vec::from_iter(findings.iter().map(told));
        let good = found.iter().filter(|(_, error, _)| *error == 0);
        let good = good.map(|(at, _, packet)| (at + 1 - packet.len(), packet.clone()));
        let ends = || calls.iter().map(|call| call.end.to_string()).collect::<Vec<_>>();
        let differs = |expected, found| Difference {
            case: vec![("line", hex(line)), ("ends of scraps", ends().join(" "))],
            input: None,
            side: DEFINITION,
            expected,
            found,
        };
        if found != expected || state != end.bytes() {
            let text = |found, state: &[u8]| format!("{found:?}, state {}", hex(state));
            return Err(differs(text(&expected, &end.bytes()), text(&found, &state)));
        }
        let (good, there) = (Vec::from_iter(good), packets(line));
        if good != there {
            return Err(differs(format!("packets {there:?}"), format!("packets {good:?}")));
        }
        for shown in shown(line, &calls) {
            count_answer("line_push's scraps", shown.number());
        }
        Ok(calls.len() as u64)
    }
}

fn random_case(random: &mut Random) -> Result<u64, Difference> {
    let lent = random.pick(&[Lent::Guarded, Lent::Whole]);
    if random.once_in(3) {
        let Push { line, bytes, packet_length } = push(random);
        check(&line, &bytes, packet_length, lent, random.next())?;
        return Ok(1);
    }
    let line = any(random);
    Ok(cut_anyhow(random, &line, lent)? + cut_anyhow(random, &line, lent)?)
}

/// A line in any scraps. The rest behind a finding is handed in again as it is, mostly.
fn cut_anyhow(random: &mut Random, line: &[u8], lent: Lent) -> Result<u64, Difference> {
    let limit = scrap_limit(random);
    let mut fed = Fed::new(line, lent);
    loop {
        let (consumed, end) = fed.places();
        let again = consumed < end && !random.once_in(4);
        let fresh = consumed + scrap(random, limit, line.len() - consumed);
        fed.scrap(if again { end } else { fresh }, random.next())?;
        if fed.places().0 == line.len() && random.once_in(2) {
            return fed.owed();
        }
    }
}

/// A line in scraps that end at these places and at its end.
fn cut_at(line: &[u8], places: &[usize]) -> Result<u64, Difference> {
    let lent = if places.len() % 2 == 0 { Lent::Guarded } else { Lent::Whole };
    let mut fed = Fed::new(line, lent);
    for &place in places.iter().chain([&line.len()]) {
        fed.scraps(place)?;
    }
    fed.owed()
}

fn enumerated() -> Result<u64, Difference> {
    let checks = kinds()? + cut_twice()? + neighbours()? + zeros()? + long()?;
    Ok(checks + bytes()? + sizes()? + changed()? + rooms()?)
}

fn ping() -> Vec<u8> {
    good(PING, 0, 0)
}

/// Every type with every payload length, cut at every byte, and behind it a byte that is not
/// 00 or a packet.
fn kinds() -> Result<u64, Difference> {
    let mut random = Random::new(0);
    let mut checks = 0;
    for (packet_type, low, high) in TYPES {
        for length in low..=high {
            let packet = packet_of(&message_of(packet_type, &payload(&mut random, length)));
            for (at, behind) in (0..=packet.len()).zip([&[1][..], &ping()].into_iter().cycle()) {
                checks += cut_at(&[&packet, behind].concat(), &[at])?;
            }
        }
    }
    Ok(checks)
}

/// Short packets of each type and the longest, cut at every two bytes.
fn cut_twice() -> Result<u64, Difference> {
    let mut checks = 0;
    for (packet_type, low, high) in TYPES {
        for length in (low..=high).filter(|&length| length <= 16 || length == high) {
            let packet = good(packet_type, length, length as u8 % 3);
            for first in 0..=packet.len() {
                for second in first..=packet.len() {
                    checks += cut_at(&packet, &[first, second])?;
                }
            }
        }
    }
    Ok(checks)
}

/// Each telling piece of a line behind each other two: in one scrap, byte by byte with an
/// empty scrap before each byte, and anyhow; two of them also cut at every byte.
fn neighbours() -> Result<u64, Difference> {
    let pieces = telling();
    let mut random = Random::new(0);
    let mut checks = 0;
    for first in &pieces {
        for second in &pieces {
            let line = [&first[..], second].concat();
            for at in 0..=line.len() {
                checks += cut_at(&line, &[at])?;
            }
            for third in &pieces {
                let line = [&line[..], third].concat();
                let twice = (0..=line.len()).flat_map(|at| [at, at]);
                checks += cut_at(&line, &[])? + cut_at(&line, &Vec::from_iter(twice))?;
                checks += cut_anyhow(&mut random, &line, Lent::Guarded)?;
            }
        }
    }
    Ok(checks)
}

/// A 00, and a byte changed, at each place of the longest packet, in one scrap and cut about
/// there; and stretches of each length before a packet.
fn zeros() -> Result<u64, Difference> {
    let mut checks = 0;
    for byte in [1, 0x80, 0xff] {
        let packet = [good(LOG, PAYLOAD_LIMIT, byte), ping()].concat();
        for at in 0..packet.len() {
            for value in [0, packet[at] ^ 1] {
                let mut line = packet.clone();
                line[at] = value;
                checks += cut_at(&line, &[])?;
                checks += cut_at(&line, &[at / 2, at])? + cut_at(&line, &[at + 1])?;
            }
        }
        for length in 0..300 {
            let line = [vec![byte; length], ping()].concat();
            checks += cut_at(&line, &[])? + cut_at(&line, &[length / 2])?;
        }
    }
    Ok(checks)
}

/// Scraps that are longer than any packet: stretches, 00s, and packets back to back.
fn long() -> Result<u64, Difference> {
    let mut checks = 0;
    for length in [254, 255, 256, 257, 258, 300, 65_535, 65_536, 70_000] {
        for filled in [&[0][..], &[1], &[255], &[0, 3, 200]] {
            let line = [&filled.repeat(length / filled.len())[..], &ping()].concat();
            // Each 00 is a finding of its own, and each is handed all that is left.
            let line = if filled[0] == 0 { &line[line.len().saturating_sub(600)..] } else { &line };
            checks += cut_at(line, &[])? + cut_at(line, &[line.len() / 2])?;
        }
    }
    let longest = [good(LOG, PAYLOAD_LIMIT, 1), good(LOG, PAYLOAD_LIMIT, 0)];
    let line =
        [&longest.concat()[..], &ping(), &longest[0][..256], &longest[1], &[1; 300]].concat();
    for at in 0..=line.len() {
        checks += cut_at(&line, &[at])?;
    }
    Ok(checks)
}

/// States that a line reaches, of each phase.
fn states() -> Vec<Vec<u8>> {
    let mut states = vec![State::Fresh, State::Skipping, State::Length];
    let packet = good(LOG, PAYLOAD_LIMIT, 1);
    for held in [0, 1, 253, 254] {
        states.push(State::Inside(255, packet[2..2 + held].to_vec()));
    }
    for held in 0..4 {
        states.push(State::Inside(4, ping()[2..2 + held].to_vec()));
    }
    states.push(State::Inside(5, vec![5; 4]));
    states.iter().map(State::bytes).collect()
}

/// Every byte in every state, alone and with others behind it; every length byte with a part
/// behind it that is good, one byte short, or has a byte changed.
fn bytes() -> Result<u64, Difference> {
    let mut checks = 0;
    let mut call = |line: &[u8], bytes: &[u8]| {
        checks += 2;
        check(line, bytes, PACKET_ROOM, Lent::Guarded, checks)?;
        check(line, bytes, PACKET_ROOM, Lent::Whole, checks)
    };
    for state in states() {
        call(&state, &[])?;
        for byte in 0..=255 {
            for behind in [&[][..], &[0], &[1], &[0, 4, 2, 1, 2, 1], &[4, 2, 1, 2, 1]] {
                call(&state, &[&[byte], behind].concat())?;
            }
        }
    }
    for length in 0..=255_u8 {
        let packet = match length {
            0..=3 => [&[0, length][..], &ping()].concat(),
            _ => good(LOG, usize::from(length) - 4, 9),
        };
        for state in states().into_iter().take(3) {
            for end in [1, 2, packet.len() - 1, packet.len()] {
                call(&state, &packet[..end])?;
                call(&state, &packet[1..end])?;
            }
            for at in [2, packet.len() / 2, packet.len() - 1] {
                for byte in [0, packet[at] ^ 1] {
                    let mut changed = packet.clone();
                    changed[at] = byte;
                    call(&state, &changed)?;
                }
            }
        }
    }
    Ok(checks)
}

/// Every length byte with every number of bytes held.
fn sizes() -> Result<u64, Difference> {
    let mut checks = 0;
    for length in 0..=255 {
        for held in 0..=255 {
            let bytes = [&[][..], &[1], &[0], &[1; 255]][usize::from(held % 4)];
            check(&inside(length, held, 1), bytes, PACKET_ROOM, Lent::Whole, checks)?;
            checks += 1;
        }
    }
    Ok(checks)
}

/// Areas that are no line state, or another: each byte of a state changed, and each length.
fn changed() -> Result<u64, Difference> {
    let scraps = [vec![], vec![0], vec![1], ping(), vec![1; 300]];
    let mut checks = 0;
    let mut call = |line: &[u8]| -> Result<(), Difference> {
        let bytes = &scraps[checks as usize % scraps.len()];
        for (bytes, lent) in [(bytes, Lent::Whole), (&scraps[0], Lent::Guarded)] {
            check(line, bytes, PACKET_ROOM, lent, checks)?;
            checks += 1;
        }
        Ok(())
    };
    for state in states() {
        for at in 0..LINE_ROOM {
            let old = state[at];
            for value in [0, 1, 2, 3, 4, 5, 255, old ^ 1, old ^ 0x80, old.wrapping_add(1)] {
                let mut state = state.clone();
                state[at] = value;
                call(&state)?;
            }
        }
        for length in (0..2 * LINE_ROOM).filter(|&length| length != LINE_ROOM) {
            let mut state = state.clone();
            state.resize(length, 0);
            call(&state)?;
        }
    }
    Ok(checks)
}

/// Packet areas of each size, with states that a line reaches and others.
fn rooms() -> Result<u64, Difference> {
    let mut lines = states();
    lines.extend([vec![], vec![0; LINE_ROOM - 1], vec![4; LINE_ROOM], inside(4, 4, 1)]);
    let longest = good(LOG, PAYLOAD_LIMIT, 1);
    let scraps = [&[][..], &[0], &[1], &[0, 1], &ping(), &longest, &longest[2..], &longest[256..]];
    let mut checks = 0;
    for room in [0, 1, 6, PACKET_ROOM - 1, PACKET_ROOM, PACKET_ROOM + 1, 300] {
        for line in &lines {
            for scrap in scraps {
                check(line, scrap, room, Lent::Guarded, checks)?;
                check(line, scrap, room, Lent::Whole, checks + 1)?;
                checks += 2;
            }
        }
    }
    Ok(checks)
}
