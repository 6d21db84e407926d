//! Reads the listings of some crates and prints each function that ROOT reaches, with its
//! number of locals, then each fault. Exits with 1 where there is a fault.

use listing::Listing;
use std::fs;
use std::process::ExitCode;

fn main() -> ExitCode {
    let words: Vec<String> = std::env::args().skip(1).collect();
    let [root, files @ ..] = &words[..] else {
        eprintln!("usage: listing ROOT MIR.json ..");
        return ExitCode::from(2);
    };
    match faults(root, files) {
        Ok(faults) if faults.is_empty() => ExitCode::SUCCESS,
        Ok(faults) => {
            faults.iter().for_each(|fault| println!("{fault}"));
            ExitCode::FAILURE
        }
        Err(why) => {
            println!("no listing: {why}");
            ExitCode::FAILURE
        }
    }
}

/// Prints the functions that are reached, and answers the faults.
fn faults(root: &str, files: &[String]) -> Result<Vec<String>, String> {
    let mut texts = Vec::new();
    for file in files {
        texts.push(fs::read_to_string(file).map_err(|error| format!("{file}: {error}"))?);
    }
    let texts: Vec<&str> = texts.iter().map(String::as_str).collect();
    let reached = Listing::parse(&texts)?.reach(root);
    for (name, locals) in &reached.functions {
        println!("{name}: {locals} locals");
    }
    Ok(reached.faults)
}
