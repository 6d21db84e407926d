//! What the replay program prints.

use second_reader::generate::{packet as generate_packet, replay as generate};
use second_reader::packet::DEVICE_DATA;
use second_reader::random::Random;
use second_reader::replay::{replay_output, replay_watched};
use second_reader::scraps::{in_replay, InReplay};
use second_reader::widths::{Shown, Widths};
use std::collections::BTreeMap;
use std::path::{Path, PathBuf};

const CATALOGUE: [u8; 10] = [8, 0, 0x01, 0x07, 0x03, 0x03, 0x00, 0x04, 0x0d, 0x06];
const ACK_RECORD: [u8; 20] = [
    1, 3, 16, 0, 0x00, 0x0e, 0x0e, 0x02, 0x0a, 0x07, 0x06, 0x01, 0x02, 0x03, 0x04, 0x05, 0x06,
    0x07, 0x08, 0x01,
];
const DATA_RECORD: [u8; 19] = [
    1, 3, 15, 0, 0x00, 0x0d, 0x04, 0x04, 0x09, 0x05, 0x01, 0x01, 0x02, 0x07, 0x01, 0x01, 0x03,
    0x01, 0x0e,
];

fn output(records: &[&[u8]]) -> String {
    replay_output(&[&CATALOGUE[..], &records.concat()].concat())
}

/// The bytes of a table whose first slot is as given and whose others are empty.
fn loading(slot: &[u8]) -> Vec<u8> {
    let mut record = vec![5];
    record.extend(slot);
    record.resize(689, 0);
    record
}

/// A record with data that the bench case's device or one like it sends.
fn data_record(map: u8, values: &[u8]) -> Vec<u8> {
    let message = generate_packet::message_of(DEVICE_DATA, &[&[map, 0, 0, 0], values].concat());
    let packet = generate_packet::packet_of(&message);
    [&[1, 3, packet.len() as u8, 0], &packet[..]].concat()
}

#[test]
fn bench_case() {
    let posted = concat!(
        "00010000",
        "01000000",
        "00010000",
        "05000000",
        "01000000",
        "03000000",
        "01000000",
        "07000000",
        "0c000000",
        "08000000",
        "0102030405060708",
        "01010000",
        "02000000",
        "00000000",
        "07000000",
        "01010000",
        "02000000",
        "02000000",
        "01000000"
    );
    let reads: [&[u8]; 4] = [&[4, 3, 0], &[4, 3, 1], &[4, 3, 2], &[4, 3, 200]];
    let printed =
        output(&[&ACK_RECORD, &DATA_RECORD, &[3], reads[0], reads[1], reads[2], reads[3]]);
    let expected = format!("took 16\ntook 15\nposted 80 {posted}\nint 7\nabsent\nflag 1\nabsent\n");
    assert_eq!(printed, expected);
}

#[test]
fn lines_of_each_record() {
    assert_eq!(output(&[]), "");
    assert_eq!(output(&[&[3]]), "posted 8 0001000000000000\n");
    assert_eq!(output(&[&[2, 3], &[2, 8]]), "refused 15\nrefused 10\n");
    assert_eq!(output(&[&[4, 3, 0], &[4, 8, 0]]), "refused 15\nrefused 10\n");
    assert_eq!(output(&[&ACK_RECORD, &[2, 3], &[2, 3]]), "took 16\nleft\nrefused 15\n");
    assert_eq!(output(&[&[1, 3, 0, 0]]), "refused 1\n");
    assert_eq!(output(&[&[6]]), format!("table {}\n", "00".repeat(688)));
    assert_eq!(
        replay_output(&[1, 0, 9, 3, 6]),
        format!("refused 11\ntable {}\n", "00".repeat(688))
    );
}

#[test]
fn values_by_kind() {
    // A negative INT, a signalling NaN and a false flag.
    let record = data_record(7, &[0xfe, 0xff, 0xff, 0xff, 0x01, 0x00, 0x80, 0xff, 0]);
    let printed = output(&[&ACK_RECORD, &record, &[4, 3, 0], &[4, 3, 1], &[4, 3, 2]]);
    assert_eq!(printed, "took 16\ntook 19\nint -2\nfloat ff800001\nflag 0\n");
}

/// A record with a scrap of a socket's line.
fn line_record(socket: u8, scrap: &[u8]) -> Vec<u8> {
    [&[7, socket, scrap.len() as u8, 0], scrap].concat()
}

/// A line for each finding, and for a packet what a record 01 with it would print.
#[test]
fn lines_as_they_arrive() {
    let (ack, data) = (&ACK_RECORD[4..], &DATA_RECORD[4..]);
    let whole = line_record(3, &[ack, data, &[9, 9], ack].concat());
    assert_eq!(output(&[&whole]), "took 16\ntook 15\nline refused 2\ntook 16\n");
    let ping = [0x00, 0x04, 0x02, 0x01, 0x02, 0x01];
    let findings = [&[7, 0, 0, 3][..], &ping[..4], &ping, &[1], &[0, 4, 2, 1, 2, 2, 9]].concat();
    assert_eq!(
        output(&[&line_record(0, &findings)]),
        "line refused 2\nline refused 3\nline refused 3\nline refused 4\nrefused 19\n\
         line refused 2\nline refused 7\n"
    );
    assert_eq!(output(&[&line_record(0, data), &line_record(0, &[])]), "refused 15\n");
    // A bad record is counted by records, not by lines.
    assert_eq!(
        output(&[&line_record(0, &[]), &line_record(0, &[1, 0, 0]), &[9]]),
        "line refused 2\nline refused 3\nbad record 3\n"
    );
}

/// Each socket has a line of its own, which no other record touches.
#[test]
fn lines_apart() {
    let ack = &ACK_RECORD[4..];
    let (front, rest) = ack.split_at(7);
    let (first, last) = (line_record(3, front), line_record(3, rest));
    for (between, printed) in [
        (&[2, 3][..], "left\n"),
        (&ACK_RECORD, "took 16\n"),
        (&DATA_RECORD, "took 15\n"),
        (&loading(&[]), "loaded\n"),
        (&line_record(4, &[9]), "line refused 2\n"),
        (&line_record(4, &ack[..5]), ""),
        (&line_record(3, &[]), ""),
        (&[4, 3, 1], "absent\n"),
    ] {
        let found = output(&[&ACK_RECORD, &first, between, &last]);
        assert_eq!(found, format!("took 16\n{printed}took 16\n"), "{between:?}");
    }
    let other = line_record(4, &ack[7..]);
    let printed = "took 16\nrefused 14\n";
    assert_eq!(output(&[&first, &line_record(4, front), &last, &other]), printed);
}

/// 10 comes before all that the hub judges, once, and for no bytes too.
#[test]
fn no_such_line() {
    let unlawful = loading(&[0, 0, 0, 1]);
    for socket in [8, 9, 255] {
        for scrap in [&[][..], &[1], &[0, 0, 0], &ACK_RECORD[4..]] {
            let record = line_record(socket, scrap);
            assert_eq!(output(&[&record, &record]), "refused 10\nrefused 10\n");
            assert_eq!(output(&[&unlawful, &record]), "loaded\nrefused 10\n");
            assert_eq!(replay_output(&[&[1, 0, 9][..], &record].concat()), "refused 10\n");
        }
    }
    let record = line_record(7, &[1, 0, 4, 2, 1, 2, 1]);
    assert_eq!(output(&[&unlawful, &record]), "loaded\nline refused 2\nrefused 9\n");
    let printed = "line refused 2\nrefused 11\n";
    assert_eq!(replay_output(&[&[1, 0, 9][..], &record].concat()), printed);
}

/// An old device's INTs, then those of the same one when it has come with year 6.
#[test]
fn short_ints() {
    let old = [1, 3, 7, 5, 1, 2, 3, 4, 5, 6, 7, 8];
    let (short, long) = (data_record(1, &[0xff, 0xff]), data_record(1, &[0xff; 4]));
    let lowest = data_record(5, &[0x00, 0x80, 1]);
    let printed = output(&[
        &loading(&old),
        &long,
        &short,
        &[4, 3, 0],
        &lowest,
        &[4, 3, 0],
        &[4, 3, 2],
        &ACK_RECORD,
        &lowest,
        &short,
        &[4, 3, 0],
        &long,
        &[4, 3, 0],
    ]);
    let of_old = "loaded\nrefused 17\ntook 12\nint -1\ntook 13\nint -32768\nflag 1\n";
    let of_new = "took 16\nrefused 17\nrefused 17\nabsent\ntook 14\nint -1\n";
    assert_eq!(printed, format!("{of_old}{of_new}"));
}

/// Every year's line for two bytes and for four.
#[test]
fn every_year() {
    let printed = replay_output(&generate::years());
    let lines: Vec<&str> = printed.lines().collect();
    let of_years: Vec<&[&str]> = lines.chunks(7).collect();
    assert_eq!(of_years.len(), 257);
    for (at, lines) in of_years.into_iter().enumerate() {
        let [ack, short, after_short, _, long, after_long, _] = lines else { panic!("{at}") };
        let short_year = at < 6 || at == 256;
        assert_eq!(*ack, "took 16");
        let expected = if short_year {
            ["took 12", "int -2", "refused 17", "int -2"]
        } else {
            ["refused 17", "absent", "took 14", "int 131069"]
        };
        assert_eq!([*short, *after_short, *long, *after_long], expected, "{at}");
    }
}

/// The number of an error that a step says its record is refused with.
fn refusal(step: &str) -> Option<u64> {
    step.split_once(": ")?.1.split_once(',')?.0.parse().ok()
}

/// The expected output of each capture in examples/ is what is printed here, a line for
/// each step: a refusal with the number that the step says, and no refusal where it says none.
#[test]
fn captures() {
    let folder = Path::new(env!("CARGO_MANIFEST_DIR")).join("../../examples");
    let mut paths: Vec<PathBuf> =
        folder.read_dir().unwrap().map(|entry| entry.unwrap().path()).collect();
    paths.retain(|path| path.extension().is_some_and(|extension| extension == "capture"));
    assert!(!paths.is_empty());
    for path in paths {
        let name = path.display();
        let printed = replay_output(&std::fs::read(&path).unwrap());
        assert!(
            printed == std::fs::read_to_string(path.with_extension("expected")).unwrap(),
            "{name}"
        );
        let steps = std::fs::read_to_string(path.with_extension("steps")).unwrap();
        assert_eq!(printed.lines().count(), steps.lines().count(), "{name}");
        for (step, line) in steps.lines().zip(printed.lines()) {
            let line = line.strip_prefix("line ").unwrap_or(line);
            match refusal(step) {
                Some(number) => assert_eq!(line, format!("refused {number}"), "{name}: {step}"),
                None => assert!(!line.starts_with("refused"), "{name}: {step}"),
            }
        }
    }
}

#[test]
fn loaded_tables() {
    let taken = [1, 4, 7, 9, 1, 2, 3, 4, 5, 6, 7, 8];
    let printed = output(&[&loading(&taken), &[2, 4], &[6]]);
    assert_eq!(printed, format!("loaded\nleft\ntable {}\n", "00".repeat(688)));
    // An empty slot with a year: loaded, printed, and refused by every other call.
    let printed =
        output(&[&loading(&[0, 0, 0, 1]), &[3], &[2, 0], &[4, 0, 0], &[1, 0, 0, 0], &[6]]);
    let table = format!("00000001{}", "00".repeat(684));
    assert_eq!(
        printed,
        format!("loaded\nrefused 9\nrefused 9\nrefused 9\nrefused 9\ntable {table}\n")
    );
    assert_eq!(output(&[&[3], &loading(&[2]), &[3]]), "posted 8 0001000000000000\nbad record 2\n");
    let mut presence = loading(&[]);
    presence[1 + 172 + 12 + 31] = 2;
    assert_eq!(output(&[&presence]), "bad record 1\n");
    assert_eq!(output(&[&loading(&[])[..688]]), "bad record 1\n");
}

#[test]
fn bad_records() {
    let cut = [&[1, 3][..], &[1, 3, 1], &[1, 3, 1, 0], &[7, 3], &[7, 3, 1], &[7, 9, 1, 0]];
    let whole = [&[0][..], &[1], &[2], &[4, 3], &[7], &[8], &[255]];
    for record in cut.into_iter().chain(whole) {
        assert_eq!(output(&[&[2, 3], record]), "refused 15\nbad record 2\n", "{record:?}");
    }
    assert_eq!(replay_output(&[0; 65_537]), "too long\n");
    assert_eq!(replay_output(&[0; 65_536]), "bad record 1\n");
}

/// Scripts reach every answer of the hub and of lines, and show all about the width of INTs
/// and about lines.
#[test]
fn scripts_reach_every_answer() {
    let mut random = Random::new(12);
    let mut met = BTreeMap::new();
    for _ in 0..1_500 {
        let mut widths = Widths::default();
        let input = generate::any(&mut random);
        let printed = replay_watched(&input, |catalogue, table, socket, packet| {
            for shown in widths.shown(catalogue, table, socket, packet) {
                *met.entry(format!("shown {}", shown.number())).or_insert(0) += 1;
            }
        });
        for shown in in_replay(&input) {
            *met.entry(format!("line shown {}", shown.number())).or_insert(0) += 1;
        }
        for line in printed.lines() {
            let word = line.split(' ').next().unwrap();
            let key = if matches!(word, "refused" | "line") { line } else { word };
            *met.entry(key.to_string()).or_insert(0) += 1;
        }
    }
    let refusals = (1..=19).map(|number| format!("refused {number}"));
    let words = ["took", "left", "posted", "int", "float", "flag", "absent", "loaded", "table"];
    let shown = Shown::NUMBERS.iter().map(|number| format!("shown {number}"));
    let words = words.into_iter().chain(["bad"]).map(String::from);
    let of_lines = (2..=8).map(|number| format!("line refused {number}"));
    let shown_of_lines = InReplay::NUMBERS.iter().map(|number| format!("line shown {number}"));
    let shown = shown.chain(of_lines).chain(shown_of_lines);
    for key in refusals.chain(words).chain(shown) {
        assert!(met.get(&key).is_some_and(|&times| times >= 20), "{key}: {met:?}");
    }
}
