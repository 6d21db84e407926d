//! Lines: ticket e's sentences and the readings of its open points, and generated lines.

use second_reader::definition::line::{packets, whole, Finding, State};
use second_reader::definition::packet::read;
use second_reader::generate::line::{any, good, inside, push as any_push, telling, Push};
use second_reader::line::{line_output, push, Pushed, LINE_LIMIT, LINE_ROOM};
use second_reader::packet::{LOG, PACKET_ROOM};
use second_reader::random::Random;
use second_reader::Error;
use std::collections::BTreeMap;
use std::path::{Path, PathBuf};

const PING: [u8; 6] = [0x00, 0x04, 0x02, 0x01, 0x02, 0x01];

fn more(consumed: u64) -> Pushed {
    Pushed { found: 0, error: 0, consumed }
}

fn packet(consumed: u64) -> Pushed {
    Pushed { found: 1, error: 0, consumed }
}

fn refused(error: u64, consumed: u64) -> Pushed {
    Pushed { found: 2, error, consumed }
}

/// A call of the reader, which must be that of the definition, on a packet area of a pattern.
fn call(line: &mut [u8], bytes: &[u8], packet_area: &mut [u8]) -> Pushed {
    let (before, area_before) = (line.to_vec(), packet_area.to_vec());
    let found = push(line, bytes, packet_area);
    let state = State::reached(&before).filter(|_| area_before.len() >= PACKET_ROOM);
    let Some(state) = state else {
        let error = if area_before.len() < PACKET_ROOM { 20 } else { 9 };
        assert_eq!(found, refused(error, 0));
        assert!(line == before && packet_area == area_before);
        return found;
    };
    let (state, consumed, finding) = state.scrap(bytes);
    let consumed = consumed as u64;
    assert_eq!(line, state.bytes(), "{before:02x?} {bytes:02x?}");
    let handed_over = match &finding {
        Some(Finding::Packet(bytes)) => &bytes[..],
        _ => &[],
    };
    assert_eq!(packet_area, [handed_over, &area_before[handed_over.len()..]].concat());
    assert_eq!(
        found,
        match finding {
            None => more(bytes.len() as u64),
            Some(Finding::Packet(_)) => packet(consumed),
            Some(Finding::Refused(error)) => refused(error.number(), consumed),
        }
    );
    found
}

/// The answers to a line handed in from this state, the rest again after each, and the state
/// at its end.
fn answers(state: &[u8], line: &[u8]) -> (Vec<Pushed>, Vec<u8>) {
    let (mut state, mut area) = (state.to_vec(), [0xa5; PACKET_ROOM]);
    let (mut answers, mut at) = (Vec::new(), 0);
    loop {
        let answer = call(&mut state, &line[at..], &mut area);
        at += answer.consumed as usize;
        answers.push(answer);
        if answer.found == 0 {
            return (answers, state);
        }
    }
}

/// The state of this phase that holds nothing.
fn phase(number: u8) -> Vec<u8> {
    let mut state = vec![0; LINE_ROOM];
    state[0] = number;
    state
}

#[test]
fn findings_of_one_line() {
    let fresh = phase(0);
    assert_eq!(answers(&fresh, &[]), (vec![more(0)], phase(0)));
    assert_eq!(answers(&fresh, &PING), (vec![packet(6), more(0)], phase(0)));
    assert_eq!(answers(&fresh, &[7, 8, 9]), (vec![refused(2, 1), more(2)], phase(1)));
    assert_eq!(answers(&fresh, &[0]), (vec![more(1)], phase(2)));
    assert_eq!(answers(&fresh, &[0, 0]), (vec![refused(3, 2), more(0)], phase(2)));
    for length in 1..=3 {
        let line = [0, length, 9, 9];
        assert_eq!(answers(&fresh, &line), (vec![refused(3, 2), more(2)], phase(1)));
    }
    assert_eq!(answers(&fresh, &[0, 4]), (vec![more(2)], inside(4, 0, 0)));
    assert_eq!(answers(&fresh, &[0, 4, 9, 9, 9]), (vec![more(5)], inside(4, 3, 9)));
    assert_eq!(answers(&fresh, &[0, 4, 9, 0]), (vec![refused(4, 4), more(0)], phase(2)));
    let checksum = [0, 4, 2, 1, 2, 2, 9];
    assert_eq!(answers(&fresh, &checksum), (vec![refused(7, 6), more(1)], phase(1)));
}

/// A stretch of bytes that are not 00 gives one 2 behind a good packet and nothing behind a
/// refusal; a packet behind it is found.
#[test]
fn stretches() {
    let behind = |front: &[u8]| {
        let (answers, state) = answers(&phase(0), &[front, &[7, 8], &PING, &[9]].concat());
        assert_eq!(state, phase(1));
        answers
    };
    let last = [packet(8), refused(2, 1), more(0)];
    let after_two = [packet(7), refused(2, 1), more(0)];
    assert_eq!(behind(&[]), [&[refused(2, 1)], &after_two[..]].concat());
    assert_eq!(behind(&PING), [&[packet(6), refused(2, 1)], &after_two[..]].concat());
    assert_eq!(behind(&[0, 3]), [&[refused(3, 2)], &last[..]].concat());
    assert_eq!(behind(&[0, 4, 2, 1, 2, 2]), [&[refused(7, 6)], &last[..]].concat());
    assert_eq!(behind(&[0, 4, 3, 1, 2, 2]), [&[refused(5, 6)], &last[..]].concat());
}

/// The 00 that gives 3 or 4 starts a packet.
#[test]
fn a_00_starts_anew() {
    let fresh = phase(0);
    let line = [&[0][..], &PING].concat();
    assert_eq!(answers(&fresh, &line), (vec![refused(3, 2), packet(5), more(0)], phase(0)));
    let line = [&[0, 0, 0][..], &PING].concat();
    let threes = vec![refused(3, 2), refused(3, 1), refused(3, 1), packet(5), more(0)];
    assert_eq!(answers(&fresh, &line), (threes, phase(0)));
    let line = [&[0, 9, 1, 2][..], &PING].concat();
    assert_eq!(answers(&fresh, &line), (vec![refused(4, 5), packet(5), more(0)], phase(0)));
    // A packet that lost its last byte, and one that lost its length byte.
    let line = [&PING[..5], &PING].concat();
    assert_eq!(answers(&fresh, &line), (vec![refused(4, 6), packet(5), more(0)], phase(0)));
    let line = [&[0, 2, 1, 2, 1][..], &PING].concat();
    assert_eq!(answers(&fresh, &line), (vec![refused(3, 2), packet(9), more(0)], phase(0)));
}

#[test]
fn longest_and_shortest() {
    for line in [good(LOG, 251, 1), good(LOG, 251, 0), good(LOG, 0, 0)] {
        let length = line.len() as u64;
        assert_eq!(answers(&phase(0), &line), (vec![packet(length), more(0)], phase(0)));
        for at in 0..line.len() {
            let (first, state) = answers(&phase(0), &line[..at]);
            assert_eq!(first, [more(at as u64)]);
            let rest = vec![packet(length - at as u64), more(0)];
            assert_eq!(answers(&state, &line[at..]), (rest, phase(0)));
        }
    }
}

/// 20 before 9, both for empty scraps too, and all areas are kept.
#[test]
fn order_of_areas() {
    for room in [0, 256, 257, 258] {
        for bytes in [&[][..], &[1], &PING] {
            for state in [phase(0), phase(4), vec![0; 258], vec![0; 260], vec![]] {
                let (mut line, mut area) = (state.clone(), vec![0xa5; room]);
                let answer = call(&mut line, bytes, &mut area);
                if room < 257 {
                    assert_eq!(answer, refused(20, 0));
                } else if state != phase(0) {
                    assert_eq!(answer, refused(9, 0));
                }
            }
        }
    }
}

/// Whether the call judges an area to be a line state.
fn lawful(state: &[u8]) -> bool {
    let found = call(&mut state.to_vec(), &[], &mut [0; PACKET_ROOM]);
    assert!(found == more(0) || found == refused(9, 0));
    found == more(0)
}

/// The rules of a line state, each by itself.
#[test]
fn states() {
    for number in 0..=255 {
        assert_eq!(lawful(&phase(number)), number < 3);
        assert_eq!(lawful(&inside(number, 0, 0)), number >= 4);
        assert_eq!(lawful(&inside(9, number, 1)), number < 9);
        assert_eq!(lawful(&inside(255, number, 1)), number < 255);
        assert_eq!(lawful(&inside(255, number, 0)), number == 0);
    }
    for at in 1..LINE_ROOM {
        for number in 0..3 {
            let mut state = phase(number);
            state[at] = 1;
            assert!(!lawful(&state));
        }
        let mut state = inside(200, 100, 7);
        state[at] = 0;
        assert_eq!(lawful(&state), at == 2 || at >= 104);
        state = inside(200, 100, 7);
        state[at] ^= 1;
        // Another length, fewer bytes held than there are, or more, or another byte of them.
        assert_eq!(lawful(&state), at == 3 || (4..104).contains(&at), "{at}");
    }
}

/// Both wordings of the definition agree, and the reader with them, however a line is cut:
/// findings with their places, the end state, and the packets that stand whole in it.
#[test]
fn generated_lines() {
    let mut random = Random::new(21);
    for _ in 0..1_500 {
        let line = any(&mut random);
        let expected = whole(&line);
        let good: Vec<_> = expected.findings.iter().filter_map(packet_at).collect();
        assert_eq!(good, packets(&line));
        for most in [1, 7, line.len()] {
            let (mut state, mut area) = (vec![0; LINE_ROOM], [0xa5; PACKET_ROOM]);
            let (mut found, mut at) = (Vec::new(), 0);
            while at < line.len() {
                let end = (at + random.between(0, most)).min(line.len());
                let answer = call(&mut state, &line[at..end], &mut area);
                at += answer.consumed as usize;
                match answer.found {
                    0 => assert_eq!(at, end),
                    1 => {
                        let (length, _) = read(&area).unwrap();
                        found.push((at - 1, 0, area[..length].to_vec()));
                    }
                    _ => found.push((at - 1, answer.error, Vec::new())),
                }
            }
            let told: Vec<_> = expected.findings.iter().map(told).collect();
            assert_eq!(found, told, "{line:02x?}");
            assert_eq!(state, expected.end.bytes());
        }
    }
}

fn told((at, finding): &(usize, Finding)) -> (usize, u64, Vec<u8>) {
    match finding {
        Finding::Packet(packet) => (*at, 0, packet.clone()),
        Finding::Refused(error) => (*at, error.number(), Vec::new()),
    }
}

/// Where a packet that is found begins, and its bytes.
fn packet_at((at, finding): &(usize, Finding)) -> Option<(usize, Vec<u8>)> {
    match finding {
        Finding::Packet(packet) => Some((at + 1 - packet.len(), packet.clone())),
        Finding::Refused(_) => None,
    }
}

/// Every state that a line reaches is read back, and goes on as the line does.
#[test]
fn reached_states() {
    for front in telling() {
        for behind in telling() {
            let line = [front.clone(), behind].concat();
            for at in 0..=line.len() {
                let state = whole(&line[..at]).end;
                assert_eq!(State::reached(&state.bytes()), Some(state.clone()));
                let findings = whole(&line).findings;
                let next = findings.iter().find(|(place, _)| *place >= at);
                let (_, consumed, finding) = state.scrap(&line[at..]);
                assert_eq!(finding.as_ref(), next.map(|(_, finding)| finding));
                assert_eq!(at + consumed, next.map_or(line.len(), |(place, _)| place + 1));
            }
        }
    }
}

/// Generated calls give every answer.
#[test]
fn generated_calls() {
    let mut random = Random::new(22);
    let mut met = BTreeMap::new();
    for _ in 0..30_000 {
        let Push { mut line, bytes, packet_length } = any_push(&mut random);
        let mut area = random.bytes(packet_length);
        let Pushed { found, error, .. } = call(&mut line, &bytes, &mut area);
        *met.entry((found, error)).or_insert(0) += 1;
    }
    let errors = [2, 3, 4, 5, 6, 7, 8, 9, 20].map(|error| (2, error));
    for answer in errors.into_iter().chain([(0, 0), (1, 0)]) {
        assert!(met.get(&answer).is_some_and(|&times| times >= 50), "{answer:?}: {met:?}");
    }
    assert_eq!(met.len(), 11);
    assert!(!met.contains_key(&(2, Error::PacketIncomplete.number())));
}

#[test]
fn printed() {
    assert_eq!(line_output(&[]), "end 0 fresh\n");
    assert_eq!(line_output(&PING), "packet at 0 bytes 6 type 1\nend 6 fresh\n");
    assert_eq!(line_output(&[7, 7]), "refused 2 at 0\nend 2 skipping\n");
    assert_eq!(line_output(&[0]), "end 1 length\n");
    assert_eq!(line_output(&[0, 0]), "refused 3 at 1\nend 2 length\n");
    assert_eq!(line_output(&[0, 4]), "end 2 inside\n");
    let log = good(LOG, 3, 0);
    let line = [&[1, 2][..], &PING, &log, &[9, 9], &PING[..4], &log, &[0, 2]].concat();
    assert_eq!(
        line_output(&line),
        "refused 2 at 0\npacket at 2 bytes 6 type 1\npacket at 8 bytes 9 type 5\n\
         refused 2 at 17\nrefused 4 at 23\npacket at 23 bytes 9 type 5\nrefused 3 at 33\n\
         end 34 skipping\n"
    );
}

#[test]
fn sizes_of_input() {
    assert_eq!(line_output(&[1; LINE_LIMIT]), "refused 2 at 0\nend 32768 skipping\n");
    assert_eq!(line_output(&[1; LINE_LIMIT + 1]), "too long\n");
    let output = line_output(&[0; LINE_LIMIT]);
    assert_eq!(output.lines().count(), LINE_LIMIT);
    assert!(output.ends_with("refused 3 at 32767\nend 32768 length\n"));
}

/// The expected output of each line in examples/ is what is printed here, with a step for each of its lines.
#[test]
fn captured_lines() {
    let folder = Path::new(env!("CARGO_MANIFEST_DIR")).join("../../examples");
    let mut paths: Vec<PathBuf> =
        folder.read_dir().unwrap().map(|entry| entry.unwrap().path()).collect();
    paths.retain(|path| path.extension().is_some_and(|extension| extension == "line"));
    assert!(!paths.is_empty());
    for path in paths {
        let name = path.display();
        let printed = line_output(&std::fs::read(&path).unwrap());
        let expected = std::fs::read_to_string(path.with_extension("expected")).unwrap();
        assert!(printed == expected, "{name}");
        let steps = std::fs::read_to_string(path.with_extension("steps")).unwrap();
        assert_eq!(printed.lines().count(), steps.lines().count(), "{name}");
    }
}
