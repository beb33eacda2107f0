//! One number over all answers, response spaces, tables and states of a long run, for each
//! engine: two builds that do the same print the same.
//!
//! `digest [steps] [seed] [recorded]`. The histories are those of `compare` with the same
//! arguments. It fails where two engines' numbers differ, or differ from a recorded one.

use reference::campaign;
use reference::engines::engines;
use std::process::ExitCode;

const STEPS: u64 = 1_000_000;

fn main() -> ExitCode {
    let words: Vec<String> = std::env::args().skip(1).collect();
    let Some((steps, seed, recorded)) = arguments(&words) else {
        eprintln!("usage: digest [steps] [seed] [recorded]");
        return ExitCode::from(2);
    };
    let mut digests: Vec<u64> = recorded.into_iter().collect();
    for engine in engines() {
        let (digest, played) = campaign::digest(engine, steps, seed);
        println!(
            "{}: digest {digest:016X} of {played} steps, seed {seed}",
            engine.name()
        );
        digests.push(digest);
    }
    match digests.iter().all(|digest| *digest == digests[0]) {
        true => ExitCode::SUCCESS,
        false => ExitCode::FAILURE,
    }
}

fn arguments(words: &[String]) -> Option<(u64, u64, Option<u64>)> {
    let steps = words
        .first()
        .map_or(Some(STEPS), |word| word.parse().ok())?;
    let seed = words.get(1).map_or(Some(1), |word| word.parse().ok())?;
    let recorded = match words.get(2) {
        Some(word) => Some(u64::from_str_radix(word, 16).ok()?),
        None => None,
    };
    (words.len() <= 3).then_some((steps, seed, recorded))
}
