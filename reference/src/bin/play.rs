//! Plays a readable script and says in words what came of each step.
//!
//! `play <book> [script]` reads a readable book from the file, and the script from the second one,
//! else from standard input. Unlike the printing program it writes receipts too. It plays on the
//! proved library where that is linked, else on the independent implementation.

use reference::compare::{Engine, History, Step, World};
use reference::engines::engines;
use reference::{explain, hex, input, script};
use std::process::ExitCode;

fn main() -> ExitCode {
    match run() {
        Ok(()) => ExitCode::SUCCESS,
        Err(error) => {
            eprintln!("play: {error}");
            ExitCode::FAILURE
        }
    }
}

fn run() -> Result<(), String> {
    let mut words = std::env::args().skip(1);
    let book = words.next().ok_or("usage: play <book> [script]")?;
    let (name, description) = input::named_or_standard(Some(book))?;
    let book = script::book(&description).map_err(|error| format!("{name}, {error}"))?;
    let (name, text) = input::named_or_standard(words.next())?;
    let steps = script::steps(&text).map_err(|error| format!("{name}, {error}"))?;

    let engine = *engines().last().ok_or("there is no engine")?;
    println!("on the engine \"{}\"", engine.name());
    let lines: Vec<&str> = text.lines().collect();
    let mut world = World::new(&History {
        book,
        steps: Vec::new(),
    });
    for scripted in steps {
        println!("{}", lines[scripted.line - 1].trim());
        println!("    {}", played(&mut world, engine, &scripted.step)?);
    }
    Ok(())
}

/// Plays a step, and explains the line that it would print.
fn played(world: &mut World, engine: &dyn Engine, step: &Step) -> Result<String, String> {
    let answer = world.play(engine, step);
    let written = match answer.written {
        0 => "-".to_string(),
        count => hex::text(&world.space()[..count]),
    };
    explain::line(&format!("{} {} {written}", answer.number, answer.consumed))
}
