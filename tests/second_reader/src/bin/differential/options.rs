//! The words of the command line.

use std::path::{Path, PathBuf};

pub const USAGE: &str = "usage: differential [--only SECTION,...] [--cases N] [--seed S] \
    [--from K] [--seconds N] [--out FOLDER]
  --only     packet, list, stream, hub, writers, text, setting, push, run, replay, show,
             line; all that are compiled in otherwise
  --cases    random cases in all, spread over the sections (100000)
  --seed     where the random numbers start (1)
  --from     the number of the first random case, to repeat a difference; skips the
             enumerated cases unless 0
  --seconds  random cases until the time has passed, in the place of --cases
  --out      where a differing case is written (target/differential)";

pub struct Options {
    pub only: Option<Vec<String>>,
    pub cases: u64,
    pub seed: u64,
    pub first: u64,
    pub seconds: Option<u64>,
    pub out: PathBuf,
}

pub fn parse(mut words: impl Iterator<Item = String>) -> Result<Options, String> {
    let mut options = Options {
        only: None,
        cases: 100_000,
        seed: 1,
        first: 0,
        seconds: None,
        out: repository().join("target/differential"),
    };
    while let Some(word) = words.next() {
        let value = words.next().ok_or_else(|| format!("{word} needs a value"))?;
        match word.as_str() {
            "--only" => options.only = Some(value.split(',').map(String::from).collect()),
            "--cases" => options.cases = number(&word, &value)?,
            "--seed" => options.seed = number(&word, &value)?,
            "--from" => options.first = number(&word, &value)?,
            "--seconds" => options.seconds = Some(number(&word, &value)?),
            "--out" => options.out = PathBuf::from(value),
            _ => return Err(format!("unknown word {word}")),
        }
    }
    Ok(options)
}

fn number(word: &str, value: &str) -> Result<u64, String> {
    value.parse().map_err(|_| format!("{word} {value} is no number"))
}

/// The repository's root, two folders above this package.
pub fn repository() -> PathBuf {
    Path::new(env!("CARGO_MANIFEST_DIR")).join("../..")
}
