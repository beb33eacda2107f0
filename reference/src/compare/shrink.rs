//! Makes a history that shows a difference as small as it gets.

use super::difference::compare;
use super::engine::Engine;
use super::history::{Deliver, History, Outcome, Sizes, Step, Take, PLAIN_STAMP};
use super::tally::Tally;
use crate::centre::{BOOK_RECORD, LONGEST_RECEIPT, LONGEST_REPLY, SESSIONS};

/// Leaves out and simplifies whatever can go while the engines still differ.
pub fn shrink(first: &dyn Engine, second: &dyn Engine, history: &History) -> History {
    let mut shrinker = Shrinker {
        first,
        second,
        smallest: history.clone(),
    };
    shrinker.keep_if_different(history.clone());
    loop {
        let before = shrinker.smallest.clone();
        shrinker.leave_out_steps();
        shrinker.leave_out_accounts();
        shrinker.merge_sessions();
        shrinker.repeat_requests();
        shrinker.simplify_steps();
        if shrinker.smallest == before {
            return before;
        }
    }
}

struct Shrinker<'a> {
    first: &'a dyn Engine,
    second: &'a dyn Engine,
    smallest: History,
}

impl Shrinker<'_> {
    /// Keeps a candidate that still shows a difference, cut off behind it.
    fn keep_if_different(&mut self, mut candidate: History) -> bool {
        let seen = compare(self.first, self.second, &candidate, &mut Tally::default());
        let Some(difference) = seen else {
            return false;
        };
        candidate.steps.truncate(difference.step + 1);
        self.smallest = candidate;
        true
    }

    /// Long runs of steps first, then shorter ones, then one by one.
    fn leave_out_steps(&mut self) {
        let mut run = self.smallest.steps.len().div_ceil(2);
        while run > 0 {
            let mut at = 0;
            while at < self.smallest.steps.len() {
                let mut candidate = self.smallest.clone();
                let end = (at + run).min(candidate.steps.len());
                candidate.steps.drain(at..end);
                if !self.keep_if_different(candidate) {
                    at += run;
                }
            }
            run /= 2;
        }
    }

    fn leave_out_accounts(&mut self) {
        for at in (0..self.smallest.book.len()).step_by(BOOK_RECORD) {
            let mut candidate = self.smallest.clone();
            candidate.book[at..at + BOOK_RECORD].fill(0);
            if candidate != self.smallest {
                self.keep_if_different(candidate);
            }
        }
    }

    /// Moves what one session does to another; opening it twice then becomes superfluous.
    fn merge_sessions(&mut self) {
        for from in (1..SESSIONS).rev() {
            for to in 0..from {
                let mut candidate = self.smallest.clone();
                for step in &mut candidate.steps {
                    rename_session(step, from, to);
                }
                if candidate != self.smallest && self.keep_if_different(candidate) {
                    break;
                }
            }
        }
    }

    /// Tries shorter requests of the same kind instead, which makes histories that need
    /// many requests alike.
    fn repeat_requests(&mut self) {
        let mut at = 0;
        while at < self.smallest.steps.len() {
            if let Some(simpler) = shortest_alike(&self.smallest.steps, at) {
                let mut candidate = self.smallest.clone();
                candidate.steps[at] = simpler;
                self.keep_if_different(candidate);
            }
            at += 1;
        }
    }

    fn simplify_steps(&mut self) {
        let mut at = 0;
        while at < self.smallest.steps.len() {
            for simpler in simpler_steps(&self.smallest.steps[at]) {
                let mut candidate = self.smallest.clone();
                candidate.steps[at] = simpler;
                self.keep_if_different(candidate);
                if at >= self.smallest.steps.len() {
                    return;
                }
            }
            at += 1;
        }
    }
}

fn rename_session(step: &mut Step, from: usize, to: usize) {
    let session = match step {
        Step::Open { session } | Step::Close { session } => session,
        Step::SetEntry { session, .. } | Step::SetReceipt { session, .. } => session,
        Step::Take(take) => &mut take.session,
        Step::Deliver(deliver) => &mut deliver.session,
        _ => return,
    };
    if *session == from {
        *session = to;
    }
}

/// This step with the octets of the shortest request of the same command, if one is shorter.
fn shortest_alike(steps: &[Step], at: usize) -> Option<Step> {
    let Step::Take(take) = &steps[at] else {
        return None;
    };
    let command = take.octets.get(4..8)?;
    let octets = steps
        .iter()
        .filter_map(|step| match step {
            Step::Take(other) => Some(&other.octets),
            _ => None,
        })
        .filter(|octets| octets.get(4..8) == Some(command))
        .min_by_key(|octets| octets.len())?;
    (octets.len() < take.octets.len()).then(|| {
        Step::Take(Take {
            octets: octets.clone(),
            ..take.clone()
        })
    })
}

/// Steps that are like this one but plainer in one respect.
fn simpler_steps(step: &Step) -> Vec<Step> {
    let mut simpler = match step {
        Step::Take(take) => simpler_takes(take).into_iter().map(Step::Take).collect(),
        Step::Outcome(outcome) => simpler_outcomes(outcome)
            .into_iter()
            .map(Step::Outcome)
            .collect(),
        Step::Deliver(deliver) => simpler_delivers(deliver)
            .into_iter()
            .map(Step::Deliver)
            .collect(),
        Step::SetTable { at, octets } if octets.len() > 1 => {
            let (front, back) = octets.split_at(octets.len() / 2);
            [(*at, front), (*at + front.len(), back)]
                .map(|(at, half)| Step::SetTable {
                    at,
                    octets: half.to_vec(),
                })
                .to_vec()
        }
        _ => Vec::new(),
    };
    simpler.retain(|candidate| candidate != step);
    simpler
}

fn simpler_takes(take: &Take) -> Vec<Take> {
    let one_pdu = take
        .octets
        .first_chunk()
        .map_or(0, |length| u32::from_be_bytes(*length) as usize);
    vec![
        Take {
            sizes: Sizes::default(),
            ..take.clone()
        },
        Take {
            stamp: PLAIN_STAMP.to_vec(),
            ..take.clone()
        },
        Take {
            space: LONGEST_REPLY,
            ..take.clone()
        },
        Take {
            octets: take.octets[..one_pdu.min(take.octets.len())].to_vec(),
            ..take.clone()
        },
    ]
}

fn simpler_delivers(deliver: &Deliver) -> Vec<Deliver> {
    vec![
        Deliver {
            sizes: Sizes::default(),
            ..deliver.clone()
        },
        Deliver {
            space: LONGEST_RECEIPT,
            ..deliver.clone()
        },
    ]
}

fn simpler_outcomes(outcome: &Outcome) -> Vec<Outcome> {
    vec![
        Outcome {
            sizes: Sizes::default(),
            ..outcome.clone()
        },
        Outcome {
            stamp: PLAIN_STAMP.to_vec(),
            ..outcome.clone()
        },
    ]
}
