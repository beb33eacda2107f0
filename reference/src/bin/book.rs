//! Turns a readable description into an account book.
//!
//! `book [file] > accounts.bin` reads lines such as
//! `account 0 paging secret VMA callback 1/1/447700900000`.

use reference::script;
use std::io::Write;
use std::process::ExitCode;

fn main() -> ExitCode {
    match run() {
        Ok(()) => ExitCode::SUCCESS,
        Err(error) => {
            eprintln!("book: {error}");
            ExitCode::FAILURE
        }
    }
}

fn run() -> Result<(), String> {
    let (name, text) = reference::input::named_or_standard(std::env::args().nth(1))?;
    let book = script::book(&text).map_err(|error| format!("{name}, {error}"))?;
    std::io::stdout()
        .write_all(&book)
        .map_err(|error| format!("the book can't be written: {error}"))
}
