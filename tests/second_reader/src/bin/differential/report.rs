//! What a section is, and how a difference is told.

use crate::options::Options;
use std::collections::BTreeMap;
use std::fmt::Write;
use std::sync::Mutex;

/// One kind of comparison. Both functions answer how many comparisons they made.
#[derive(Clone, Copy)]
pub struct Section {
    pub name: &'static str,
    /// Random cases between two lines of progress.
    pub progress: u64,
    pub answers: &'static [Answers],
    pub enumerated: fn() -> Result<u64, Difference>,
    pub random: fn(&mut second_reader::random::Random) -> Result<u64, Difference>,
}

/// A call or program, and the numbers that it can answer: its errors and 0 for none.
pub struct Answers {
    pub of: &'static str,
    pub numbers: &'static [u64],
}

/// How often each number was the answer.
type Met = BTreeMap<(&'static str, u64), u64>;

static MET: Mutex<Met> = Mutex::new(Met::new());

pub fn count_answer(of: &'static str, number: u64) {
    *MET.lock().unwrap().entry((of, number)).or_insert(0) += 1;
}

/// The answers met since the last telling, and how often each.
pub struct Told(Met);

impl Told {
    pub fn take() -> Told {
        Told(std::mem::take(&mut *MET.lock().unwrap()))
    }

    /// A line for each call of a section.
    pub fn lines(&self, section: &Section) -> String {
        let mut text = String::new();
        for answers in section.answers {
            let _ = write!(text, "{}: {} answers", section.name, answers.of);
            for ((_, number), times) in self.0.iter().filter(|((of, _), _)| *of == answers.of) {
                let _ = write!(text, " {number}:{times}");
            }
            text.push('\n');
        }
        text
    }

    /// What is wrong with the answers: one that is possible and was not met, so that the
    /// cases say nothing about it, or one that was met and is not possible.
    pub fn faults(&self, section: &Section) -> Vec<String> {
        let possible = |of, number| {
            section
                .answers
                .iter()
                .any(|answers| answers.of == of && answers.numbers.contains(&number))
        };
        let missing = section.answers.iter().flat_map(|answers| {
            let not_met = |number: &&u64| !self.0.contains_key(&(answers.of, **number));
            let tell = |number: &u64| format!("no case in which {} answers {number}", answers.of);
            answers.numbers.iter().filter(not_met).map(tell)
        });
        let strange = self.0.keys().filter(|&&(of, number)| !possible(of, number));
        missing.chain(strange.map(|(of, number)| format!("{of} answered {number}"))).collect()
    }
}

/// The name of the side that all sections compare the product with.
pub const READER: &str = "second reader";

/// A case on which two sides differ.
pub struct Difference {
    /// Name and content of each part of the case.
    pub case: Vec<(&'static str, String)>,
    /// Standard input of a program, to be written to a file of its own.
    pub input: Option<Vec<u8>>,
    /// What the product is compared with: the second reader or a definition.
    pub side: &'static str,
    pub expected: String,
    pub found: String,
}

/// Prints both answers and writes the case to the folder for differing cases.
pub fn print(options: &Options, name: &str, number: Option<u64>, difference: &Difference) {
    let mut text = String::new();
    let _ = match number {
        Some(number) => writeln!(
            text,
            "{name}: difference; repeat it with --only {name} --seed {} --from {number} --cases 1",
            options.seed
        ),
        None => writeln!(text, "{name}: difference in an enumerated case"),
    };
    for (part, content) in &difference.case {
        let _ = writeln!(text, "{part}: {content}");
    }
    let _ = writeln!(text, "{:<14} {}", format!("{}:", difference.side), difference.expected);
    let _ = writeln!(text, "{:<14} {}", "product:", difference.found);
    print!("{text}");
    if let Err(error) = write(options, name, &text, difference.input.as_deref()) {
        println!("{}: not written: {error}", options.out.display());
    }
}

fn write(options: &Options, name: &str, text: &str, input: Option<&[u8]>) -> std::io::Result<()> {
    std::fs::create_dir_all(&options.out)?;
    let case = options.out.join(format!("{name}.case"));
    std::fs::write(&case, text)?;
    println!("written to {}", case.display());
    if let Some(bytes) = input {
        let file = options.out.join(format!("{name}.stdin"));
        std::fs::write(&file, bytes)?;
        println!("standard input in {}", file.display());
    }
    Ok(())
}

pub fn hex(bytes: &[u8]) -> String {
    bytes.iter().fold(String::with_capacity(2 * bytes.len()), |mut text, byte| {
        let _ = write!(text, "{byte:02x}");
        text
    })
}
