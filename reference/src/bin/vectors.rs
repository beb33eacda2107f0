//! Plays the files of vectors on every engine.
//!
//! `vectors [folder]`, else the folder `vectors`. It fails where an engine does otherwise than
//! a line says, and tells file, line, what was expected and what was found.

use reference::compare::Engine;
use reference::engines::engines;
use reference::vectors::{files, play, File};
use std::path::PathBuf;
use std::process::ExitCode;

fn main() -> ExitCode {
    let folder = std::env::args_os()
        .nth(1)
        .map_or_else(|| "vectors".into(), PathBuf::from);
    let files = match files(&folder) {
        Ok(files) => files,
        Err(error) => {
            eprintln!("vectors: {error}");
            return ExitCode::FAILURE;
        }
    };
    let cases: usize = files.iter().map(|file| file.cases.len()).sum();
    let mut failed = false;
    for engine in engines() {
        let (calls, failures) = play_all(&files, engine);
        println!(
            "{}: {} files, {cases} cases, {calls} calls, {failures} not as expected",
            engine.name(),
            files.len()
        );
        failed |= failures > 0;
    }
    match failed {
        true => ExitCode::FAILURE,
        false => ExitCode::SUCCESS,
    }
}

/// The calls that were as expected, and the cases that weren't.
fn play_all(files: &[File], engine: &dyn Engine) -> (usize, usize) {
    let (mut calls, mut failures) = (0, 0);
    for file in files {
        for case in &file.cases {
            match play(case, engine) {
                Ok(count) => calls += count,
                Err(failure) => {
                    let (name, line) = (&file.name, failure.line);
                    let (case, engine) = (&case.name, engine.name());
                    println!("{name}:{line}: on {engine}, case {case}:\n  {failure}");
                    failures += 1;
                }
            }
        }
    }
    (calls, failures)
}
