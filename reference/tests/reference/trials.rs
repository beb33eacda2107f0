//! The trials of a printing program, on the independent one and on programs that aren't it.

use reference::trials::{trials, Scratch};
use std::path::Path;

const PRINT: &str = env!("CARGO_BIN_EXE_print");

#[test]
fn the_independent_program_agrees_with_itself() {
    let scratch = Scratch::new().unwrap();
    for trial in trials(20) {
        if let Err(error) = scratch.run(Path::new(PRINT), &trial) {
            panic!("{error}");
        }
    }
}

#[test]
fn another_output_is_a_failure_that_names_the_line() {
    let scratch = Scratch::new().unwrap();
    let mut trials = trials(1);
    let generated = trials.pop().unwrap();
    let error = scratch.run(Path::new("/bin/true"), &generated).unwrap_err();
    assert!(
        error.starts_with("the generated history of seed 1, line 1:"),
        "{error}"
    );
    assert!(error.ends_with("found    the end"), "{error}");
}

#[test]
fn a_program_that_cannot_be_run_or_fails_is_a_failure() {
    let scratch = Scratch::new().unwrap();
    let trial = &trials(0)[0];
    let error = scratch.run(Path::new("/nowhere/print"), trial).unwrap_err();
    assert!(error.contains("can't be run"), "{error}");
    let error = scratch.run(Path::new("/bin/false"), trial).unwrap_err();
    assert!(error.contains("ended with"), "{error}");
}

/// Lines that the outline gives are held against the independent implementation too.
#[test]
fn what_the_outline_prints_is_what_is_expected() {
    let scratch = Scratch::new().unwrap();
    let mut example = trials(0).swap_remove(0);
    example.outline = Some("0 0 -\n");
    let error = scratch.run(Path::new(PRINT), &example).unwrap_err();
    assert!(error.contains("the outline has"), "{error}");
}
