//! Explains in words what the printing program printed.
//!
//! `explain [script] < printed`. With the script that the records were made from, each
//! explanation stands under the line that asked for it.

use reference::{explain, script};
use std::io::{BufRead, Write};
use std::process::ExitCode;

fn main() -> ExitCode {
    match run() {
        Ok(()) => ExitCode::SUCCESS,
        Err(error) => {
            eprintln!("explain: {error}");
            ExitCode::FAILURE
        }
    }
}

fn run() -> Result<(), String> {
    let asked = match std::env::args().nth(1) {
        None => Vec::new(),
        some => asking_lines(some)?,
    };
    let mut output = std::io::stdout().lock();
    for (nth, line) in std::io::stdin().lock().lines().enumerate() {
        let line = line.map_err(|error| format!("the printed lines can't be read: {error}"))?;
        let words = explain::line(&line).map_err(|error| format!("line {}: {error}", nth + 1))?;
        let said = match asked.get(nth) {
            Some(asked) => writeln!(output, "{asked}\n    {words}"),
            None => writeln!(output, "{words}"),
        };
        said.map_err(|error| format!("the explanation can't be written: {error}"))?;
    }
    Ok(())
}

/// The lines of a script that give a record each.
fn asking_lines(file: Option<String>) -> Result<Vec<String>, String> {
    let (name, text) = reference::input::named_or_standard(file)?;
    let orders = script::orders(&text).map_err(|error| format!("{name}, {error}"))?;
    let lines: Vec<&str> = text.lines().collect();
    Ok(orders
        .iter()
        .map(|scripted| lines[scripted.line - 1].trim().to_string())
        .collect())
}
