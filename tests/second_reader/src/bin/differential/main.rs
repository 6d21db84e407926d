//! Compares the product with the second reader on seeded inputs, packets, lists, texts,
//! settings and lines also with their definitions: each answer, and every byte of every lent
//! buffer.
//!
//! Sections of archive calls are compiled in by the features of the same names; the
//! programs' sections are always there.

#[cfg(any(
    feature = "packet",
    feature = "list",
    feature = "stream",
    feature = "hub",
    feature = "writers",
    feature = "text",
    feature = "setting",
    feature = "push"
))]
mod buffers;
mod crash;
mod depths;
#[cfg(feature = "hub")]
mod hub;
#[cfg(any(feature = "hub", feature = "setting", feature = "push"))]
mod lent;
#[cfg(feature = "list")]
mod list;
#[cfg(any(feature = "list", feature = "stream"))]
mod lists;
mod options;
#[cfg(feature = "packet")]
mod packet;
mod programs;
#[cfg(feature = "push")]
mod push;
mod report;
#[cfg(feature = "setting")]
mod setting;
#[cfg(feature = "stream")]
mod stream;
#[cfg(feature = "text")]
mod text;
#[cfg(feature = "writers")]
mod writers;

use options::Options;
use report::{Difference, Section, Told};
use second_reader::random::Random;
use std::process::ExitCode;
use std::time::{Duration, Instant};

/// The sections that are compiled in, each with its part of a thousand cases. The
/// programs cost one process for each case.
fn sections() -> Vec<(Section, u64)> {
    vec![
        #[cfg(feature = "packet")]
        (packet::SECTION, 200),
        #[cfg(feature = "list")]
        (list::SECTION, 200),
        #[cfg(feature = "stream")]
        (stream::SECTION, 90),
        #[cfg(feature = "hub")]
        (hub::SECTION, 110),
        #[cfg(feature = "writers")]
        (writers::SECTION, 100),
        #[cfg(feature = "text")]
        (text::SECTION, 95),
        #[cfg(feature = "setting")]
        (setting::SECTION, 100),
        #[cfg(feature = "push")]
        (push::SECTION, 50),
        (programs::RUN, 15),
        (programs::REPLAY, 15),
        (programs::SHOW, 15),
        (programs::LINE, 10),
    ]
}

fn main() -> ExitCode {
    let options = match options::parse(std::env::args().skip(1)) {
        Ok(options) => options,
        Err(message) => {
            eprintln!("differential: {message}\n{}", options::USAGE);
            return ExitCode::from(2);
        }
    };
    match chosen(&options) {
        Ok(sections) => compare(&options, &sections),
        Err(message) => {
            eprintln!("differential: {message}");
            ExitCode::from(2)
        }
    }
}

/// The sections to run: those named, or all that are compiled in.
fn chosen(options: &Options) -> Result<Vec<(Section, u64)>, String> {
    let present = sections();
    let Some(names) = &options.only else { return Ok(present) };
    let mut found = Vec::new();
    for name in names {
        match present.iter().find(|(section, _)| section.name == name) {
            Some(&section) => found.push(section),
            None => return Err(format!("section {name} is not compiled in")),
        }
    }
    Ok(found)
}

fn compare(options: &Options, sections: &[(Section, u64)]) -> ExitCode {
    println!("differential: seed {}", options.seed);
    crash::watch(options.seed);
    let outcome = match options.seconds {
        Some(seconds) => for_a_time(options, sections, Duration::from_secs(seconds)),
        None => counted(options, sections),
    };
    match outcome {
        Ok(summary) => {
            println!("differential: seed {}: {summary}, 0 differences", options.seed);
            ExitCode::SUCCESS
        }
        Err(Failure::Differs(name, number, difference)) => {
            report::print(options, name, number, &difference);
            ExitCode::FAILURE
        }
        Err(Failure::Lacking(faults)) => {
            faults.iter().for_each(|fault| println!("differential: {fault}"));
            ExitCode::FAILURE
        }
    }
}

enum Failure {
    /// The section, the number of a random case, and the difference.
    Differs(&'static str, Option<u64>, Difference),
    /// What the cases do not show, although nothing differed.
    Lacking(Vec<String>),
}

/// Comparing nothing proves nothing.
fn some(checks: u64, of: &str) -> Result<u64, Failure> {
    match checks {
        0 => Err(Failure::Lacking(vec![format!("{of}: nothing was compared")])),
        _ => Ok(checks),
    }
}

/// The enumerated cases, then the number of random cases asked for.
fn counted(options: &Options, sections: &[(Section, u64)]) -> Result<String, Failure> {
    let parts: u64 = sections.iter().map(|(_, part)| part).sum();
    let mut all_cases = 0;
    let mut all_checks = 0;
    for (section, part) in sections {
        let started = Instant::now();
        let mut checks = enumerated(options, section)?;
        let cases = (options.cases * part).div_ceil(parts);
        for number in options.first..options.first + cases {
            checks += one(options, section, number)?;
            if (number + 1) % section.progress == 0 {
                println!("{}: {} cases", section.name, number + 1 - options.first);
            }
        }
        let seconds = started.elapsed().as_secs_f64();
        println!("{}: {cases} random cases, {checks} checks, {seconds:.1} s", section.name);
        answers(options, section)?;
        all_cases += cases;
        all_checks += some(checks, section.name)?;
    }
    some(all_checks, "all sections")?;
    Ok(format!("{all_cases} random cases, {all_checks} checks"))
}

/// Prints the answers that were met. They must be all that are possible, unless a random
/// case is repeated.
fn answers(options: &Options, section: &Section) -> Result<(), Failure> {
    let told = Told::take();
    print!("{}", told.lines(section));
    let faults = told.faults(section);
    if options.first == 0 && !faults.is_empty() {
        return Err(Failure::Lacking(faults));
    }
    Ok(())
}

/// The enumerated cases, which are passed over where a random case is repeated.
fn enumerated(options: &Options, section: &Section) -> Result<u64, Failure> {
    if options.first > 0 {
        return Ok(0);
    }
    crash::enter(section.name, None);
    let checks =
        (section.enumerated)().map_err(|found| Failure::Differs(section.name, None, found))?;
    println!("{}: {checks} checks of enumerated cases", section.name);
    Ok(checks)
}

/// Random cases of all sections in turn until the time has passed.
fn for_a_time(
    options: &Options,
    sections: &[(Section, u64)],
    time: Duration,
) -> Result<String, Failure> {
    let started = Instant::now();
    let mut next = options.first;
    let mut last_minute = 0;
    let mut cases = 0;
    while started.elapsed() < time {
        for (section, part) in sections {
            for number in (next * part)..((next + 1) * part) {
                one(options, section, number)?;
                cases += 1;
            }
        }
        next += 1;
        let minute = started.elapsed().as_secs() / 60;
        if minute != last_minute {
            last_minute = minute;
            println!("{minute} min: {cases} cases");
        }
    }
    some(cases, "all sections")?;
    Ok(format!("{cases} cases in {:.0} s", started.elapsed().as_secs_f64()))
}

/// One random case, which depends on seed, section and number alone.
fn one(options: &Options, section: &Section, number: u64) -> Result<u64, Failure> {
    crash::enter(section.name, Some(number));
    let mut random = Random::for_case(options.seed, section.name, number);
    (section.random)(&mut random)
        .map_err(|found| Failure::Differs(section.name, Some(number), found))
}
