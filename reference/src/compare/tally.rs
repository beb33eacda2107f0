//! Counts what a history brought about, to see that nothing was left out.

use super::history::Step;
use super::world::Answer;
use crate::centre::{command, PlainState, SESSIONS};
use crate::explain::{command_name, Header};
use std::collections::BTreeMap;
use std::fmt;

#[derive(Clone, Debug, Default)]
pub struct Tally {
    pub steps: u64,
    /// By operation and number.
    pub numbers: BTreeMap<(&'static str, u8), u64>,
    /// By reply and status, of calls that answered 0.
    pub replies: BTreeMap<(u32, u32), u64>,
    /// PDUs that were taken without a reply.
    pub silent: u64,
    /// What became of the receipts that were outstanding, and of answers that settled none.
    pub receipts: BTreeMap<&'static str, u64>,
}

impl Tally {
    pub fn count(&mut self, step: &Step, answer: &Answer, space: &[u8]) {
        self.steps += 1;
        let Some(operation) = operation(step) else {
            return;
        };
        *self.numbers.entry((operation, answer.number)).or_default() += 1;
        if !matches!(step, Step::Take(_)) || answer.number != 0 {
            return;
        }
        match Header::of(&space[..answer.written.min(space.len())]) {
            Some(reply) => {
                let key = (reply.command, reply.status);
                *self.replies.entry(key).or_default() += 1;
            }
            None => self.silent += 1,
        }
    }

    /// Looks at what a step did to the receipts that were outstanding before it.
    pub fn count_receipts(&mut self, step: &Step, before: &PlainState, after: &PlainState) {
        let mut count = |what| *self.receipts.entry(what).or_default() += 1;
        let settled = (0..SESSIONS)
            .filter(|&session| before.receipt(session).is_some())
            .filter(|&session| before.receipt(session) != after.receipt(session))
            .count();
        let answer = answer_to_receipt(step);
        match (step, answer) {
            (Step::Close { .. }, _) if settled > 0 => count("closed"),
            (Step::Take(_), Some(0)) if settled > 0 => count("acknowledged"),
            (Step::Take(_), Some(_)) if settled > 0 => count("refused"),
            (Step::Take(_), Some(_)) => count("not settled"),
            (Step::Take(_), None) if settled > 0 => count("ended"),
            _ => {}
        }
    }

    /// How many replies of a command there were, and how many of them with status 0.
    pub fn accepted(&self, reply: u32) -> (u64, u64) {
        let of_reply = |wanted: fn(u32) -> bool| {
            self.replies
                .iter()
                .filter(|((command, status), _)| *command == reply && wanted(*status))
                .map(|(_, count)| count)
                .sum()
        };
        (of_reply(|_| true), of_reply(|status| status == 0))
    }
}

/// The operation that a step calls, if it calls one.
fn operation(step: &Step) -> Option<&'static str> {
    match step {
        Step::Open { .. } => Some("open"),
        Step::Close { .. } => Some("close"),
        Step::Take(_) => Some("octets"),
        Step::Outcome(_) => Some("outcome"),
        Step::Deliver(_) => Some("deliver"),
        Step::Pick { .. } => Some("pick"),
        _ => None,
    }
}

/// The status of a deliver_sm_resp.
fn answer_to_receipt(step: &Step) -> Option<u32> {
    let Step::Take(take) = step else {
        return None;
    };
    Header::of(&take.octets)
        .filter(|header| header.command == command::DELIVER_SM_RESP)
        .map(|header| header.status)
}

impl fmt::Display for Tally {
    fn fmt(&self, f: &mut fmt::Formatter<'_>) -> fmt::Result {
        writeln!(f, "{} steps", self.steps)?;
        let mut operation = "";
        for ((name, number), count) in &self.numbers {
            if *name != operation {
                operation = name;
                writeln!(f, "{name}")?;
            }
            writeln!(f, "  number {number:2} {count:10}")?;
        }
        let mut command = 0;
        for ((reply, status), count) in &self.replies {
            if *reply != command {
                command = *reply;
                writeln!(f, "{}", command_name(command).unwrap_or("unknown reply"))?;
            }
            writeln!(f, "  status {status:2} {count:10}")?;
        }
        writeln!(f, "no reply    {:10}", self.silent)?;
        writeln!(f, "receipts")?;
        for (what, count) in &self.receipts {
            writeln!(f, "  {what:14} {count:6}")?;
        }
        Ok(())
    }
}
