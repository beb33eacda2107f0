//! Writes a generated history for the printing program.
//!
//! `history <book> <records> [count] [seed]` writes the account book into the first file and
//! so many records into the second; what they reach is told on standard error.

use reference::centre::Reference;
use reference::compare::{compare, History, Tally, World};
use reference::generate::{history, Manner};
use reference::recorded;
use std::process::ExitCode;

const RECORDS: usize = 10_000;
const SEED: u64 = 1;

fn main() -> ExitCode {
    match run() {
        Ok(()) => ExitCode::SUCCESS,
        Err(error) => {
            eprintln!("history: {error}");
            eprintln!("usage: history <book> <records> [count] [seed]");
            ExitCode::FAILURE
        }
    }
}

fn run() -> Result<(), String> {
    let mut words = std::env::args().skip(1);
    let book_file = words.next().ok_or("expected a file for the book")?;
    let records_file = words.next().ok_or("expected a file for the records")?;
    let count = number(words.next(), RECORDS)?;
    let seed = number(words.next(), SEED)?;
    let mut history = history(seed, count, Manner::Records);
    history.steps.truncate(count);
    let orders = recorded::orders(&history).ok_or("a step can't be said in a record")?;
    let records: Vec<u8> = orders.iter().flat_map(|order| order.record()).collect();
    write(&book_file, &history.book)?;
    write(&records_file, &records)?;
    tell(&history);
    Ok(())
}

fn number<N: std::str::FromStr>(word: Option<String>, usual: N) -> Result<N, String> {
    let Some(word) = word else {
        return Ok(usual);
    };
    word.parse()
        .map_err(|_| format!("expected a number, found {word}"))
}

fn write(file: &str, octets: &[u8]) -> Result<(), String> {
    std::fs::write(file, octets).map_err(|error| format!("{file} can't be written: {error}"))
}

/// What the records reach, and how many ids each account issues on the way.
fn tell(history: &History) {
    let reference = Reference::sound();
    let mut tally = Tally::default();
    compare(&reference, &reference, history, &mut tally);
    let mut world = World::new(history);
    for step in &history.steps {
        world.play(&reference, step);
    }
    eprint!("{tally}");
    eprintln!("ids issued by account: {:?}", world.state.lasts);
}
