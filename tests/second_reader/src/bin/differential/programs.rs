//! The programs run, replay, show and line against the second reader: what each prints for an
//! input. A case is one process.

use crate::depths::{self, Answer};
use crate::options;
use crate::report::{count_answer, hex, Answers, Difference, Section, READER};
use second_reader::depths::OF_BYTES;
use second_reader::generate::writers::bytes_of;
use second_reader::generate::{
    catalogue, damage, line as generate_line, list, replay as generate_replay,
    stream as generate_stream, text,
};
use second_reader::line::{line_output, LINE_LIMIT};
use second_reader::list::LIST_LIMIT;
use second_reader::packet::{LOG, PAYLOAD_LIMIT, PING};
use second_reader::random::Random;
use second_reader::replay::{replay_watched, DETACH, PUBLISH, REPLAY_LIMIT};
use second_reader::scraps::{in_replay, InReplay};
use second_reader::stream::{run_output, show_output, RUN_LIMIT};
use second_reader::table::TABLE_BYTES;
use second_reader::widths::{Shown, Widths};
use std::io::Write;
use std::path::PathBuf;
use std::process::{Command, Output, Stdio};

pub const RUN: Section = Section {
    name: "run",
    progress: 500,
    answers: &[
        Answers { of: "run", numbers: &[0, 21, 22, 23, 24, 25, 26, 27, 28] },
        Answers { of: "run's depths", numbers: &OF_BYTES },
    ],
    enumerated: run_enumerated,
    random: run_case,
};
pub const SHOW: Section = Section {
    name: "show",
    progress: 500,
    answers: &[
        Answers { of: "show", numbers: &[0, 21, 22, 23, 24, 25, 26, 27, 28, 31] },
        Answers { of: "show's depths", numbers: &OF_BYTES },
    ],
    enumerated: show_enumerated,
    random: show_case,
};
pub const REPLAY: Section = Section {
    name: "replay",
    progress: 500,
    answers: &[
        Answers {
            of: "replay",
            numbers: &[0, 1, 2, 3, 4, 5, 6, 7, 8, 9, 10, 11, 12, 13, 14, 15, 16, 17, 18, 19],
        },
        Answers { of: "replay's line", numbers: &[2, 3, 4, 5, 6, 7, 8] },
        Answers { of: "replay's widths", numbers: Shown::NUMBERS },
        Answers { of: "replay's scraps", numbers: InReplay::NUMBERS },
    ],
    enumerated: replay_enumerated,
    random: replay_case,
};
pub const LINE: Section = Section {
    name: "line",
    progress: 500,
    answers: &[
        Answers { of: "line", numbers: &[0, 2, 3, 4, 5, 6, 7, 8] },
        // Fresh, skipping, length and inside.
        Answers { of: "line's end", numbers: &[0, 1, 2, 3] },
    ],
    enumerated: line_enumerated,
    random: line_case,
};

/// Scripts of every kind, always the same, so that each answer is among the lines.
const SCRIPTS: usize = 150;

/// The folder of the programs: target/bin, or what CINDER_BIN_DIR names.
fn programs() -> PathBuf {
    match std::env::var_os("CINDER_BIN_DIR") {
        Some(named) => PathBuf::from(named),
        None => options::repository().join("target/bin"),
    }
}

/// Runs a program on this standard input. One that ends before it has read all is
/// judged by what it printed.
fn output_of(program: &str, input: &[u8]) -> std::io::Result<Output> {
    let mut child = Command::new(programs().join(program))
        .stdin(Stdio::piped())
        .stdout(Stdio::piped())
        .stderr(Stdio::piped())
        .spawn()?;
    let mut stdin = child.stdin.take().expect("standard input is piped");
    std::thread::scope(|scope| {
        scope.spawn(move || {
            let _ = stdin.write_all(input);
        });
        child.wait_with_output()
    })
}

/// Compares what a program prints with what it owes; answers the number of lines.
fn check(program: &'static str, input: Vec<u8>, expected: &str) -> Result<u64, Difference> {
    let found = match output_of(program, &input) {
        Ok(output) if output.status.code().is_some() => {
            String::from_utf8_lossy(&output.stdout).into_owned()
        }
        Ok(output) => format!("ended by a signal: {}\n", output.status),
        Err(error) => format!("not started: {error}\n"),
    };
    count_lines(program, expected);
    if found == expected {
        compare_depth(program, &input, &found)?;
        return Ok(expected.lines().count() as u64);
    }
    let at = expected.lines().zip(found.lines()).take_while(|(left, right)| left == right).count();
    let line = |text: &str| match text.lines().nth(at) {
        Some(line) => format!("line {}: {line}", at + 1),
        None => format!("{} lines, {} bytes", text.lines().count(), text.len()),
    };
    Err(Difference {
        case: vec![("standard input", hex(&input))],
        side: READER,
        expected: line(expected),
        found: line(&found),
        input: Some(input),
    })
}

/// Compares the depth in a last line `stop 21 at 112 depth 0` with what is counted from the bytes
/// alone. The lists before the one at fault stand end to end, so the count goes through them too.
fn compare_depth(program: &str, input: &[u8], text: &str) -> Result<(), Difference> {
    let last: Vec<&str> = text.lines().last().unwrap_or_default().split(' ').collect();
    let ["stop", error, "at", offset, "depth", depth] = last[..] else { return Ok(()) };
    let [error, offset, depth] = [error, offset, depth].map(|word| word.parse().unwrap());
    let answer = Answer { bytes: input, front: 0, error, offset, depth };
    let of = if program == "run" { "run's depths" } else { "show's depths" };
    depths::compare(of, &answer, || vec![("standard input", hex(input))])
}

/// Counts the answers in a program's lines; all but errors count as 0.
fn count_lines(program: &'static str, text: &str) {
    for line in text.lines() {
        let words: Vec<&str> = line.split(' ').collect();
        match words[..] {
            ["stop" | "refused", number, ..] => count_answer(program, number.parse().unwrap()),
            ["line", "refused", number] => count_answer("replay's line", number.parse().unwrap()),
            ["end", _, phase] => {
                let phases = ["fresh", "skipping", "length", "inside"];
                let phase = phases.iter().position(|&name| name == phase).unwrap();
                count_answer("line's end", phase as u64);
            }
            _ => count_answer(program, 0),
        }
    }
}

fn check_run(input: Vec<u8>) -> Result<u64, Difference> {
    let expected = run_output(&input);
    check("run", input, &expected)
}

fn check_show(input: Vec<u8>) -> Result<u64, Difference> {
    let expected = show_output(&input);
    check("show", input, &expected)
}

fn run_case(random: &mut Random) -> Result<u64, Difference> {
    let input = generate_stream::any(random);
    check_run(at_times_full(random, input, list::legal))
}

/// Streams as run has them; lists with a text form in half of the cases.
fn show_case(random: &mut Random) -> Result<u64, Difference> {
    if random.once_in(2) {
        let input = generate_stream::any(random);
        return check_show(at_times_full(random, input, list::legal));
    }
    let mut input = Vec::new();
    for _ in 0..random.below(9) {
        input.extend(list::image(&text::telling(random)));
    }
    if random.once_in(4) {
        damage(random, &mut input);
    }
    check_show(at_times_full(random, input, |random| text::small(random, LIST_LIMIT)))
}

/// The input, at times with as many lists behind it as come near the most that is read.
fn at_times_full(
    random: &mut Random,
    mut input: Vec<u8>,
    list_of: fn(&mut Random) -> Vec<list::Element>,
) -> Vec<u8> {
    if random.once_in(12) && input.len() < RUN_LIMIT - LIST_LIMIT {
        while input.len() < RUN_LIMIT - LIST_LIMIT {
            input.extend(list::image(&list_of(random)));
        }
        let missing = RUN_LIMIT + 2 - input.len();
        match random.below(3) {
            0 => input.resize(input.len() + missing - random.below(4), 0),
            1 => input.extend([0, 1, 0, 0, 0, 0, 0, 0].repeat(missing / 8)),
            _ => {}
        }
    }
    input
}

fn run_enumerated() -> Result<u64, Difference> {
    of_each(streams(), check_run)
}

/// The same streams; then lists that come to the longest text, lists with no text form
/// among others, and the texts of a few hundred lists.
fn show_enumerated() -> Result<u64, Difference> {
    let mut inputs = streams();
    for byte in [1, b'a', b'"', 200] {
        inputs.push(list::image(&[list::Element::String(vec![byte; LIST_LIMIT - 13])]).repeat(8));
        inputs.push(list::image(&[list::Element::Blob(vec![byte; LIST_LIMIT - 12])]).repeat(8));
    }
    let word = u32::from_le_bytes(*b"word");
    for bits in [word, 0, 0x7f, word ^ 0xff, word | 0x80 << 24, 0x20_0061] {
        inputs.push(bytes_of(&[265, 1, word, 265, 1, bits, 257, 1, bits]));
    }
    for high in [0x3ff0_0000, 0x7ff0_0000, 0xfff8_0000, 0x7fef_ffff] {
        inputs.push(bytes_of(&[266, 1, 1, high, 266, 1, 0, high, 256, 0]));
    }
    let mut random = Random::new(0);
    for _ in 0..300 {
        inputs.push(list::image(&text::small(&mut random, 200)));
    }
    of_each(inputs, check_show)
}

fn of_each(
    inputs: Vec<Vec<u8>>,
    check: fn(Vec<u8>) -> Result<u64, Difference>,
) -> Result<u64, Difference> {
    inputs.into_iter().try_fold(0, |checks, input| Ok(checks + check(input)?))
}

/// Streams around the longest, and with each error at every depth.
fn streams() -> Vec<Vec<u8>> {
    let empty_list = [0, 1, 0, 0, 0, 0, 0, 0];
    let mut inputs = vec![Vec::new()];
    for length in [RUN_LIMIT - 1, RUN_LIMIT, RUN_LIMIT + 1, 2 * RUN_LIMIT, 100_000] {
        inputs.push(vec![0; length]);
        let mut lists = empty_list.repeat(length / 8);
        lists.resize(length, 0);
        inputs.push(lists);
    }
    for length in 0..=16 {
        inputs.push(empty_list.repeat(2)[..length].to_vec());
    }
    // A list at fault for each error at every depth, behind an empty one.
    inputs.extend(list::faults().iter().map(|fault| [&empty_list[..], fault].concat()));
    inputs
}

fn check_replay(input: Vec<u8>) -> Result<u64, Difference> {
    let mut widths = Widths::default();
    let expected = replay_watched(&input, |catalogue, table, socket, packet| {
        for shown in widths.shown(catalogue, table, socket, packet) {
            count_answer("replay's widths", shown.number());
        }
    });
    if input.len() <= REPLAY_LIMIT {
        for shown in in_replay(&input) {
            count_answer("replay's scraps", shown.number());
        }
    }
    check("replay", input, &expected)
}

fn replay_case(random: &mut Random) -> Result<u64, Difference> {
    check_replay(generate_replay::any(random))
}

/// Sizes around the limit, each record alone and cut short, every year, lines, and catalogues.
fn replay_enumerated() -> Result<u64, Difference> {
    const EMPTY: [u8; 5] = [3, 0, 0, 0, 0];
    let mut checks = check_replay(EMPTY.to_vec())?;
    for length in [REPLAY_LIMIT - 1, REPLAY_LIMIT, REPLAY_LIMIT + 1, 2 * REPLAY_LIMIT] {
        // Many short records, then one cut short where the length is even.
        let mut input = EMPTY.to_vec();
        input.resize(length, DETACH);
        checks += check_replay(input)?;
    }
    for code in 0..=9 {
        for behind in [0, 1, 2, 3, TABLE_BYTES - 1, TABLE_BYTES] {
            let mut input = EMPTY.to_vec();
            input.push(code);
            input.resize(input.len() + behind, 0);
            checks += check_replay(input)?;
        }
    }
    checks += check_replay(generate_replay::years())?;
    for input in generate_replay::lines() {
        checks += check_replay(input)?;
    }
    let mut random = Random::new(0);
    for _ in 0..SCRIPTS {
        checks += check_replay(generate_replay::any(&mut random))?;
    }
    Ok(checks + replay_catalogues()?)
}

fn check_line(input: Vec<u8>) -> Result<u64, Difference> {
    let expected = line_output(&input);
    check("line", input, &expected)
}

/// A line; at times as many pieces as come near the most that is read.
fn line_case(random: &mut Random) -> Result<u64, Difference> {
    let mut input = generate_line::any(random);
    if random.once_in(12) {
        while input.len() < LINE_LIMIT {
            input.extend(generate_line::any(random));
        }
        input.truncate(random.between(LINE_LIMIT - 300, LINE_LIMIT + 1));
    }
    check_line(input)
}

/// Lines around the longest; the longest and the shortest packet with each byte changed and
/// with 00 or 01 put in before each; packets and what is none behind each other; and a few
/// hundred lines of every kind.
fn line_enumerated() -> Result<u64, Difference> {
    let ping = generate_line::good(PING, 0, 0);
    let longest = generate_line::good(LOG, PAYLOAD_LIMIT, 1);
    let mut inputs = vec![Vec::new()];
    for length in [LINE_LIMIT - 1, LINE_LIMIT, LINE_LIMIT + 1, 2 * LINE_LIMIT, 100_000] {
        for piece in [&[0][..], &[1], &[0, 4], &ping, &longest] {
            let mut line = piece.repeat(length / piece.len() + 1);
            line.truncate(length);
            inputs.push(line);
        }
    }
    let both = [&longest[..], &ping].concat();
    for at in 0..both.len() {
        let mut changed = both.clone();
        changed[at] ^= 1;
        inputs.push(changed);
        let mut longer = both.clone();
        longer.insert(at, at as u8 % 2);
        inputs.push(longer);
    }
    let pieces = generate_line::telling();
    for first in &pieces {
        inputs.extend(pieces.iter().map(|second| [&first[..], second].concat()));
    }
    let mut random = Random::new(0);
    inputs.extend((0..SCRIPTS).map(|_| generate_line::any(&mut random)));
    of_each(inputs, check_line)
}

/// Whether each catalogue is taken: those at the limits, and the bench cases' one cut
/// at every byte and with each byte changed.
fn replay_catalogues() -> Result<u64, Difference> {
    const BENCH: [u8; 8] = [0x01, 0x07, 0x03, 0x03, 0x00, 0x04, 0x09, 0x06];
    let mut catalogues = catalogue::at_limits();
    catalogues.extend((0..=BENCH.len()).map(|length| BENCH[..length].to_vec()));
    for at in 0..BENCH.len() {
        for value in [0, 1, 2, 3, 4, 7, 8, 12, 15, 16, 32, 33, 128, 255] {
            let mut changed = BENCH.to_vec();
            changed[at] = value;
            catalogues.push(changed);
        }
    }
    let mut checks = 0;
    for bytes in catalogues {
        let mut input = Vec::from((bytes.len() as u16).to_le_bytes());
        input.extend(bytes);
        input.push(PUBLISH);
        checks += check_replay(input)?;
    }
    Ok(checks)
}
