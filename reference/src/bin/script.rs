//! Turns a readable script into records of the printing program.
//!
//! `script [file] > records` reads the script from the file, else from standard input.

use reference::script;
use std::io::Write;
use std::process::ExitCode;

fn main() -> ExitCode {
    match run() {
        Ok(()) => ExitCode::SUCCESS,
        Err(error) => {
            eprintln!("script: {error}");
            ExitCode::FAILURE
        }
    }
}

fn run() -> Result<(), String> {
    let (name, text) = reference::input::named_or_standard(std::env::args().nth(1))?;
    let orders = script::orders(&text).map_err(|error| format!("{name}, {error}"))?;
    let mut records = Vec::new();
    for scripted in orders {
        records.extend_from_slice(&scripted.order.record());
    }
    std::io::stdout()
        .write_all(&records)
        .map_err(|error| format!("the records can't be written: {error}"))
}
