//! Plays a case on an engine.

use super::expected::Expected;
use super::read::{Case, Does, Line};
use crate::centre::State;
use crate::compare::{Engine, History, Step, World};
use crate::explain::Header;
use std::fmt;

/// A line that an engine doesn't do as it says.
#[derive(Clone, Debug, PartialEq, Eq)]
pub struct Failure {
    /// Counted from 1.
    pub line: usize,
    pub text: String,
    pub expected: String,
    pub found: String,
}

impl fmt::Display for Failure {
    fn fmt(&self, f: &mut fmt::Formatter<'_>) -> fmt::Result {
        writeln!(f, "{}", self.text)?;
        writeln!(f, "  expected {}", self.expected)?;
        write!(f, "  found    {}", self.found)
    }
}

/// Plays all lines, and tells how many calls there were.
pub fn play(case: &Case, engine: &dyn Engine) -> Result<usize, Failure> {
    let mut world = World::new(&History {
        book: Vec::new(),
        steps: Vec::new(),
    });
    let mut before = world.clone();
    let mut calls = 0;
    for line in &case.lines {
        match &line.does {
            Does::Put(step) => {
                world.play(engine, step);
            }
            Does::Look(look) => {
                if let Some((expected, found)) = look.difference(&before, &world) {
                    return Err(failure(line, expected, found));
                }
            }
            Does::Call(step, expected) => {
                world.clear_space();
                before = world.clone();
                call(line, step, expected, &mut world, engine)?;
                kept(line, step, expected, &before, &world)?;
                calls += 1;
            }
        }
    }
    Ok(calls)
}

fn failure(line: &Line, expected: String, found: String) -> Failure {
    Failure {
        line: line.number,
        text: line.text.clone(),
        expected,
        found,
    }
}

fn call(
    line: &Line,
    step: &Step,
    expected: &Expected,
    world: &mut World,
    engine: &dyn Engine,
) -> Result<(), Failure> {
    let answer = world.play(engine, step);
    let found = Expected::found(answer, world);
    if *expected == found {
        return Ok(());
    }
    Err(failure(line, expected.words(step), found.words(step)))
}

/// What every call keeps, whatever the line says besides.
fn kept(
    line: &Line,
    step: &Step,
    expected: &Expected,
    before: &World,
    world: &World,
) -> Result<(), Failure> {
    let written = expected.answer.written;
    let refused = expected.answer.number != 0;
    let declined = Header::of(&expected.reply).is_some_and(|reply| reply.status != 0);
    let same_messages = before.table_and_behind() == world.table_and_behind()
        && before.state.lasts == world.state.lasts;
    // The state that comes back stands for the one that was passed.
    let same_state = State::from(&before.state) == State::from(&world.state);
    let broken = if refused && !(same_messages && same_state) {
        "a refused call changes nothing"
    } else if matches!(step, Step::Deliver(_)) && !same_messages {
        "a receipt that is written changes no message and no last id"
    } else if declined && !same_messages {
        "a refused request changes no message and no last id"
    } else if before.space()[written..] != world.space()[written..] {
        "the response space behind the reply is unchanged"
    } else {
        return Ok(());
    };
    Err(failure(line, broken.to_string(), "a change".to_string()))
}
