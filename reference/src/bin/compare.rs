//! Compares the proved library with the independent implementation, step by step.
//!
//! `compare [steps] [seed] [fault]`. With a fault's name, the independent implementation is
//! compared with one that errs in that way, to show that a difference is found.

use reference::campaign;
use reference::centre::{Fault, Reference};
use reference::compare::Engine;
use std::process::ExitCode;
use std::time::Instant;

const STEPS: u64 = 100_000;

struct Arguments {
    steps: u64,
    seed: u64,
    fault: Option<Fault>,
}

fn main() -> ExitCode {
    let arguments = match read(std::env::args().skip(1)) {
        Ok(arguments) => arguments,
        Err(error) => {
            eprintln!("compare: {error}");
            eprintln!("usage: compare [steps] [seed] [fault]");
            return ExitCode::from(2);
        }
    };
    let second = second_engine(arguments.fault);
    println!(
        "comparing the reference with {}, {} steps, seed {}",
        second.name(),
        arguments.steps,
        arguments.seed
    );
    let start = Instant::now();
    let first = Reference::sound();
    let outcome = campaign::run(&first, &*second, arguments.steps, arguments.seed);
    print!("{}", outcome.tally);
    println!("{:.1} seconds", start.elapsed().as_secs_f64());
    match outcome.difference {
        None => {
            println!("no difference in {} steps", outcome.tally.steps);
            ExitCode::SUCCESS
        }
        Some(difference) => {
            println!("a difference:\n{difference}");
            ExitCode::FAILURE
        }
    }
}

fn read(mut words: impl Iterator<Item = String>) -> Result<Arguments, String> {
    let steps = number(words.next(), STEPS, "a count of steps")?;
    let seed = number(words.next(), 1, "a seed")?;
    let fault = match words.next() {
        None => None,
        Some(name) => Some(Fault::named(&name).ok_or_else(|| unknown_fault(&name))?),
    };
    match words.next() {
        None => Ok(Arguments { steps, seed, fault }),
        Some(word) => Err(format!("expected nothing more, found {word}")),
    }
}

fn number(word: Option<String>, usual: u64, what: &str) -> Result<u64, String> {
    let Some(word) = word else {
        return Ok(usual);
    };
    word.parse()
        .map_err(|_| format!("expected {what}, found {word}"))
}

fn unknown_fault(name: &str) -> String {
    let names = Fault::ALL.map(Fault::name).join(", ");
    format!("expected one of {names}, found {name}")
}

fn second_engine(fault: Option<Fault>) -> Box<dyn Engine> {
    match fault {
        Some(fault) => Box::new(Reference::with_fault(fault)),
        None => counterpart(),
    }
}

#[cfg(feature = "proved")]
fn counterpart() -> Box<dyn Engine> {
    Box::new(reference::proved::Proved)
}

/// Without the proved library there is nothing to compare with but itself: this shows only
/// that the histories run and what they reach.
#[cfg(not(feature = "proved"))]
fn counterpart() -> Box<dyn Engine> {
    println!("the feature `proved` is off: the reference is compared with itself");
    Box::new(Reference::sound())
}
