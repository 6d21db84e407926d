//! Measures the archive's calls against the second reader, and the readers, the writer of
//! packets and lines also against calls in C, plain and tuned by hand, on the same inputs in
//! one run: time for each call, then instructions for each call as callgrind counts them. For
//! a stream, a call is the reading of all of it, and for a line the taking of all its scraps.
//! Buffers are not cleared between calls.
//!
//!   bench                            all cases
//!   bench --no-instructions          time only
//!   bench --one CASE SIDE TIMES      just those calls, for callgrind; SIDE is reader,
//!                                    plain, tuned or archive
//!   bench --as run|replay|show|line  the second reader as that program

#[cfg(not(any(
    feature = "packet",
    feature = "list",
    feature = "stream",
    feature = "hub",
    feature = "writers",
    feature = "text",
    feature = "setting",
    feature = "push"
)))]
compile_error!(
    "name the calls to measure: --features packet, list, stream, hub, writers, text, setting, push"
);

#[cfg(feature = "push")]
mod budget;
mod cases;
#[cfg(feature = "hub")]
mod hub;
mod instructions;
#[cfg(feature = "push")]
mod lines;
#[cfg(any(feature = "list", feature = "stream"))]
mod lists;
#[cfg(any(feature = "packet", feature = "hub", feature = "writers", feature = "push"))]
mod packets;
#[cfg(any(
    feature = "packet",
    feature = "list",
    feature = "stream",
    feature = "writers",
    feature = "push"
))]
mod plain;
mod programs;
#[cfg(any(feature = "packet", feature = "list", feature = "stream"))]
mod readers;
#[cfg(feature = "setting")]
mod settings;
#[cfg(feature = "text")]
mod texts;
#[cfg(feature = "writers")]
mod writers;

use cases::{Case, Side};
use std::process::ExitCode;
use std::time::{Duration, Instant};

/// Samples of each side, taken in turn; the fastest counts, as the least disturbed.
const SAMPLES: usize = 60;
const SAMPLE_TIME: Duration = Duration::from_millis(2);

fn main() -> ExitCode {
    let words: Vec<String> = std::env::args().skip(1).collect();
    let words: Vec<&str> = words.iter().map(String::as_str).collect();
    match words[..] {
        [] => table(true),
        ["--no-instructions"] => table(false),
        ["--one", name, side, times] => one(name, side, times),
        ["--as", program] => instructions::as_program(program),
        _ => {
            eprintln!("usage: bench [--no-instructions | --one CASE SIDE TIMES | --as PROGRAM]");
            ExitCode::from(2)
        }
    }
}

fn table(with_instructions: bool) -> ExitCode {
    let mut cases = cases::all();
    headings("ns");
    for case in &mut cases {
        if !case.sides_agree() {
            println!("{:<24} the sides differ: nothing to measure", case.name());
            return ExitCode::FAILURE;
        }
        let numbers = time(case.as_mut());
        line(case.as_ref(), Ok(numbers));
    }
    #[cfg(feature = "push")]
    budget::table("ns", |case| Ok(time(case)));
    if with_instructions {
        headings("ins");
        for case in &cases {
            line(case.as_ref(), instructions::of_case(case.as_ref()));
        }
        #[cfg(feature = "push")]
        budget::table("ins", |case| instructions::of_case(case));
        instructions::of_programs();
    }
    ExitCode::SUCCESS
}

/// The sides, and the archive's ratio to each of the others.
fn headings(unit: &str) {
    print!("{:<24} {:>5}", "case", "bytes");
    Side::ALL.iter().for_each(|side| print!(" {:>11}", format!("{} {unit}", side.name())));
    Side::OTHERS.iter().for_each(|side| print!(" {:>14}", format!("archive/{}", side.name())));
    println!();
}

/// The numbers are those of the case's sides, in their order.
fn line(case: &dyn Case, numbers: Result<Vec<f64>, String>) {
    print!("{:<24} {:>5}", case.name(), case.bytes());
    match numbers {
        Ok(numbers) => {
            let at = |wanted| case.sides().iter().position(|&side| side == wanted);
            let of = |side| at(side).map(|at| numbers[at]);
            let ratio = |side| Some(of(Side::Archive)? / of(side)?);
            Side::ALL.iter().for_each(|&side| print!(" {:>11}", cell(of(side), 1)));
            Side::OTHERS.iter().for_each(|&side| print!(" {:>14}", cell(ratio(side), 2)));
            println!();
        }
        Err(message) => println!(" {message}"),
    }
}

/// A dash where the case has not the side.
fn cell(number: Option<f64>, decimals: usize) -> String {
    number.map_or(String::from("-"), |number| format!("{number:.decimals$}"))
}

/// Nanoseconds for one call of each side of the case.
fn time(case: &mut dyn Case) -> Vec<f64> {
    let sides = case.sides();
    let calls: Vec<_> = sides.iter().map(|&side| calls_for_a_sample(case, side)).collect();
    let mut fastest = vec![f64::MAX; sides.len()];
    for _ in 0..SAMPLES {
        for (at, &side) in sides.iter().enumerate() {
            fastest[at] = fastest[at].min(sample(case, side, calls[at]));
        }
    }
    fastest
}

/// How many calls take about the time of one sample.
fn calls_for_a_sample(case: &mut dyn Case, side: Side) -> u64 {
    let mut calls = 1;
    loop {
        let started = Instant::now();
        case.call(side, calls);
        if started.elapsed() >= SAMPLE_TIME {
            return calls;
        }
        calls *= 2;
    }
}

fn sample(case: &mut dyn Case, side: Side, calls: u64) -> f64 {
    let started = Instant::now();
    case.call(side, calls);
    started.elapsed().as_nanos() as f64 / calls as f64
}

/// Calls one side of one case, inside a function that callgrind finds by its name.
fn one(name: &str, side: &str, times: &str) -> ExitCode {
    let mut cases = cases::all().into_iter().chain(cases::of_other_tables());
    let case = cases.find(|case| case.name() == name);
    let side = Side::named(side);
    match (case, side, times.parse()) {
        (Some(mut case), Some(side), Ok(times)) if case.sides().contains(&side) => {
            // The first call also finds functions of shared libraries.
            case.call(side, 1);
            bench_measured(case.as_mut(), side, times);
            ExitCode::SUCCESS
        }
        _ => {
            eprintln!("bench: no such case, side or number: {name} {side:?} {times}");
            ExitCode::from(2)
        }
    }
}

/// The part of the program that is counted.
#[no_mangle]
#[inline(never)]
fn bench_measured(case: &mut dyn Case, side: Side, times: u64) {
    case.call(side, times);
}
