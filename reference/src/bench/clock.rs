//! Time.

use super::scenarios::Scenario;
use crate::compare::Engine;
use std::hint::black_box;
use std::time::{Duration, Instant};

const LEAST_ROUNDS: usize = 40;

/// The nanoseconds of a call on one engine, round by round.
#[derive(Clone, Debug, Default)]
pub struct Timing {
    rounds: Vec<f64>,
}

impl Timing {
    /// The middle round.
    pub fn median(&self) -> f64 {
        median(self.rounds.clone())
    }

    /// From the tenth of the rounds that was quickest to the tenth that was slowest, as a
    /// part of the median: the machine's noise.
    pub fn spread(&self) -> f64 {
        let sorted = sorted(self.rounds.clone());
        let at = |tenths: usize| sorted[(sorted.len() - 1) * tenths / 10];
        (at(9) - at(1)) / at(5)
    }

    /// How many times as long as the other engine this one takes. Rounds are compared with
    /// the round beside them, since the machine may be slower at one time than at another.
    pub fn ratio_to(&self, other: &Timing) -> f64 {
        let ratios = self.rounds.iter().zip(&other.rounds);
        median(ratios.map(|(own, other)| own / other).collect())
    }
}

/// Times a scenario on every engine, in turn round by round, so that whatever else the
/// machine does meets all of them alike.
pub fn time(engines: &[&dyn Engine], scenario: &Scenario, long: Duration) -> Vec<Timing> {
    let mut timings = vec![Timing::default(); engines.len()];
    let start = Instant::now();
    let long = long * engines.len() as u32;
    while timings[0].rounds.len() < LEAST_ROUNDS || start.elapsed() < long {
        for (engine, timing) in engines.iter().zip(&mut timings) {
            timing.rounds.push(one_round(*engine, scenario));
        }
    }
    timings
}

/// The nanoseconds of a call in one round. The world is made anew outside of the time.
fn one_round(engine: &dyn Engine, scenario: &Scenario) -> f64 {
    let mut world = scenario.world.clone();
    let start = Instant::now();
    for step in &scenario.steps {
        black_box(world.play(engine, step));
    }
    start.elapsed().as_nanos() as f64 / scenario.calls() as f64
}

fn median(numbers: Vec<f64>) -> f64 {
    let sorted = sorted(numbers);
    sorted[(sorted.len() - 1) / 2]
}

fn sorted(mut numbers: Vec<f64>) -> Vec<f64> {
    numbers.sort_by(f64::total_cmp);
    numbers
}

#[cfg(test)]
mod tests {
    use super::*;

    fn timing(rounds: &[f64]) -> Timing {
        Timing {
            rounds: rounds.to_vec(),
        }
    }

    #[test]
    fn rounds_summed_up() {
        let one = timing(&[30.0, 10.0, 20.0]);
        assert_eq!(one.median(), 20.0);
        assert_eq!(timing(&[60.0, 20.0, 20.0]).ratio_to(&one), 2.0);
        assert_eq!(timing(&[5.0; 40]).spread(), 0.0);
    }
}
