//! A long comparison: history after history until the steps are done or engines differ.

use crate::compare::{compare, describe, shrink, Digest, Engine, History, Tally};
use crate::generate::{history, Manner};

/// The steps of one history: long enough to fill tables, short enough to shrink quickly.
const HISTORY: usize = 400;

pub struct Outcome {
    pub tally: Tally,
    /// The smallest history that was found to show a difference, in words.
    pub difference: Option<String>,
}

/// Compares two engines over at least so many steps.
pub fn run(first: &dyn Engine, second: &dyn Engine, steps: u64, seed: u64) -> Outcome {
    let mut tally = Tally::default();
    for history in histories(seed) {
        if tally.steps >= steps {
            break;
        }
        if compare(first, second, &history, &mut tally).is_some() {
            let smallest = shrink(first, second, &history);
            let difference = compare(first, second, &smallest, &mut Tally::default())
                .expect("shrinking keeps the difference");
            return Outcome {
                tally,
                difference: Some(describe(first, second, &smallest, &difference)),
            };
        }
    }
    Outcome {
        tally,
        difference: None,
    }
}

/// One number over all that an engine does in the same histories, and how many steps they have.
pub fn digest(engine: &dyn Engine, steps: u64, seed: u64) -> (u64, u64) {
    let mut digest = Digest::default();
    let mut played = 0;
    for history in histories(seed) {
        if played >= steps {
            break;
        }
        digest.play(engine, &history);
        played += history.steps.len() as u64;
    }
    (digest.value(), played)
}

/// The histories of a run, without end.
fn histories(seed: u64) -> impl Iterator<Item = History> {
    (0..).map(move |number| history(seed_of(seed, number), HISTORY, Manner::Everything))
}

/// Seeds of the same run are far apart from those of a run with the next seed.
fn seed_of(seed: u64, number: u64) -> u64 {
    seed.wrapping_mul(0x1_0000_0001).wrapping_add(number)
}
