//! The printing program, run on the independent implementation.
//!
//! `print [book] < records` reads the book from the named file, else from accounts.bin.

use reference::printing;
use std::fs::File;
use std::io::{stdin, stdout, BufReader, BufWriter};
use std::process::ExitCode;

fn main() -> ExitCode {
    let path = std::env::args()
        .nth(1)
        .unwrap_or_else(|| "accounts.bin".to_string());
    let book = match File::open(&path).and_then(printing::read_book) {
        Ok(book) => book,
        Err(error) => {
            eprintln!("print: the book {path} can't be read: {error}");
            return ExitCode::FAILURE;
        }
    };
    let input = BufReader::new(stdin().lock());
    let output = BufWriter::new(stdout().lock());
    match printing::run(&book, input, output) {
        Ok(()) => ExitCode::SUCCESS,
        Err(error) => {
            eprintln!("print: {error}");
            ExitCode::FAILURE
        }
    }
}
