//! Runs the proved printing program on many histories.
//!
//! `printed <program> [generated]` runs it on the outline's example, on bad records of each
//! kind, on books of a wrong size and on so many generated histories, and holds what it prints
//! against the outline's lines and the independent implementation.

use reference::trials::{trials, Scratch};
use std::path::Path;
use std::process::ExitCode;

const GENERATED: u64 = 100;

fn main() -> ExitCode {
    match run() {
        Ok(agreed) => {
            println!("{agreed}");
            ExitCode::SUCCESS
        }
        Err(error) => {
            eprintln!("printed: {error}");
            ExitCode::FAILURE
        }
    }
}

fn run() -> Result<String, String> {
    const USAGE: &str = "usage: printed <program> [generated]";
    let mut words = std::env::args().skip(1);
    let program = words.next().ok_or(USAGE)?;
    let generated = match words.next() {
        None => GENERATED,
        Some(word) => word.parse().map_err(|_| USAGE)?,
    };
    // The program is run in a folder of its own, so that its path has to be a whole one.
    let program = Path::new(&program)
        .canonicalize()
        .map_err(|error| format!("{program} can't be run: {error}"))?;
    let scratch = Scratch::new()?;
    let trials = trials(generated);
    let mut lines = 0;
    for trial in &trials {
        lines += scratch.run(&program, trial)?;
    }
    let count = trials.len();
    Ok(format!(
        "{count} histories agreed, {lines} lines, {generated} of the histories generated"
    ))
}
