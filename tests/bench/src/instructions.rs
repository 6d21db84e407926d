//! Instructions as callgrind counts them.

use crate::cases::Case;
use crate::programs::{self, Input};
use second_reader::generate::{line, list, replay, text};
use second_reader::line::{line_output, LINE_LIMIT};
use second_reader::list::LIST_LIMIT;
use second_reader::random::Random;
use second_reader::replay::replay_output;
use second_reader::stream::{run_output, show_output, RUN_LIMIT};
use std::io::Read;
use std::path::Path;
use std::process::{Command, ExitCode, Stdio};

const TIMES: u64 = 50;

/// Instructions for one call of each side of the case.
pub fn of_case(case: &dyn Case) -> Result<Vec<f64>, String> {
    case.sides().iter().map(|side| of_side(case.name(), side.name())).collect()
}

fn of_side(name: &str, side: &str) -> Result<f64, String> {
    let mut command = Command::new("valgrind");
    command
        .args(["--tool=callgrind", "--callgrind-out-file=/dev/null"])
        .arg("--toggle-collect=bench_measured")
        .arg(std::env::current_exe().map_err(|error| error.to_string())?)
        .args(["--one", name, side, &TIMES.to_string()]);
    Ok(collected(&mut command)? as f64 / TIMES as f64)
}

/// Runs valgrind and takes its count from the line `Collected : N`.
fn collected(command: &mut Command) -> Result<u64, String> {
    let output = command
        .stdout(Stdio::null())
        .stderr(Stdio::piped())
        .output()
        .map_err(|error| format!("valgrind: {error}"))?;
    let text = String::from_utf8_lossy(&output.stderr);
    text.lines()
        .find_map(|line| line.split("Collected : ").nth(1))
        .and_then(|count| count.split_whitespace().next()?.parse().ok())
        .ok_or_else(|| format!("callgrind gave no count: {}", output.status))
}

/// The second reader in the place of a program.
pub fn as_program(name: &str) -> ExitCode {
    let mut input = Vec::new();
    if std::io::stdin().read_to_end(&mut input).is_err() {
        return ExitCode::FAILURE;
    }
    match name {
        "run" => print!("{}", run_output(&input)),
        "replay" => print!("{}", replay_output(&input)),
        "show" => print!("{}", show_output(&input)),
        "line" => print!("{}", line_output(&input)),
        _ => return ExitCode::from(2),
    }
    ExitCode::SUCCESS
}

/// The programs on one long input each, less what they take on the shortest one.
pub fn of_programs() {
    println!("{:<24} {:>5}  {:>14} {:>14} {:>6}", "program", "bytes", "reader ins", "ins", "ratio");
    let mut random = Random::new(1);
    let mut lists = Vec::new();
    while lists.len() < RUN_LIMIT - LIST_LIMIT {
        lists.extend(list::image(&list::legal(&mut random)));
    }
    let script = replay::good(&mut random, 400);
    let mut shown = Vec::new();
    while shown.len() < RUN_LIMIT - LIST_LIMIT {
        shown.extend(list::image(&text::small(&mut random, LIST_LIMIT)));
    }
    of_program("run", &lists, &[]);
    of_program("replay", &script, &[3, 0, 0, 0, 0]);
    let mut arrived = Vec::new();
    while arrived.len() < LINE_LIMIT {
        arrived.extend(line::any(&mut random));
    }
    arrived.truncate(LINE_LIMIT);
    of_program("show", &shown, &[]);
    of_program("line", &arrived, &[]);
}

fn of_program(name: &str, long: &[u8], short: &[u8]) {
    let program = programs::folder().join(name);
    if !program.is_file() {
        println!("{name:<24} {:>5}  not built", long.len());
        return;
    }
    let counted = || -> Result<(f64, f64), String> {
        let reader = std::env::current_exe().map_err(|error| error.to_string())?;
        let reader = |input: &[u8]| of_process(&reader, &["--as", name], input);
        let product = |input: &[u8]| of_process(&program, &[], input);
        Ok((reader(long)? - reader(short)?, product(long)? - product(short)?))
    };
    match counted() {
        Ok((reader, product)) => println!(
            "{name:<24} {:>5}  {reader:>14} {product:>14} {:>6.2}",
            long.len(),
            product / reader
        ),
        Err(message) => println!("{name:<24} {message}"),
    }
}

/// The instructions of a whole process on this standard input.
fn of_process(program: &Path, words: &[&str], input: &[u8]) -> Result<f64, String> {
    let input = Input::new(input)?;
    let mut valgrind = Command::new("valgrind");
    valgrind
        .args(["--tool=callgrind", "--callgrind-out-file=/dev/null"])
        .arg(program)
        .args(words)
        .stdin(input.stdin()?);
    Ok(collected(&mut valgrind)? as f64)
}
