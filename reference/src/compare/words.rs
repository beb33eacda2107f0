//! A difference in words, with the history that leads to it.

use super::difference::Difference;
use super::engine::Engine;
use super::history::{Deliver, History, Outcome, Sizes, Step, Take, PLAIN_STAMP};
use crate::centre::{BookRecord, BOOK_RECORD, LONGEST_RECEIPT, LONGEST_REPLY};
use crate::explain;
use crate::hex;
use std::fmt;

/// The history step by step and, at its end, what the two engines made of the last one.
pub fn describe(
    first: &dyn Engine,
    second: &dyn Engine,
    history: &History,
    difference: &Difference,
) -> String {
    let mut text = book_words(&history.book);
    text += &steps_words(&history.steps);
    text += &format!("differs after step {}: ", difference.step + 1);
    text += &format!("{}\n", difference.what);
    for (engine, nth) in [(first, 0), (second, 1)] {
        let answer = &difference.answers[nth];
        text += &format!(
            "{}: number {}, {} consumed, {} written, {}\n",
            engine.name(),
            answer.number,
            answer.consumed,
            answer.written,
            reply_words(&difference.replies[nth])
        );
    }
    text
}

/// One step a line, and steps that repeat the one before them told by their numbers only.
fn steps_words(steps: &[Step]) -> String {
    let mut text = String::new();
    let mut number = 0;
    for run in steps.chunk_by(|one, next| one == next) {
        text += &format!("{:4}  {}\n", number + 1, run[0]);
        number += run.len();
        if run.len() > 1 {
            text += &format!("      the same again, up to step {number}\n");
        }
    }
    text
}

fn reply_words(reply: &[u8]) -> String {
    if reply.is_empty() {
        return "no reply".to_string();
    }
    explain::reply(reply).unwrap_or_else(|_| hex::text(reply))
}

fn book_words(book: &[u8]) -> String {
    let mut text = String::new();
    for (account, octets) in book.as_chunks::<BOOK_RECORD>().0.iter().enumerate() {
        let record = BookRecord(octets);
        if !record.is_used() {
            continue;
        }
        let callback = record.callback();
        text += &format!(
            "account {account}: system_id {}, password {}, system_type {}, callback {}/{}/{}{}\n",
            quoted(record.system_id()),
            quoted(record.password()),
            quoted(record.system_type()),
            callback.ton,
            callback.npi,
            quoted(callback.address),
            if record.is_well_formed() {
                ""
            } else {
                " (ill formed)"
            }
        );
    }
    text
}

fn quoted(text: &[u8]) -> String {
    format!("\"{}\"", text.escape_ascii())
}

impl fmt::Display for Step {
    fn fmt(&self, f: &mut fmt::Formatter<'_>) -> fmt::Result {
        match self {
            Step::Open { session } => write!(f, "open {session}"),
            Step::Close { session } => write!(f, "close {session}"),
            Step::Take(take) => write!(f, "{take}"),
            Step::Outcome(outcome) => write!(f, "{outcome}"),
            Step::Deliver(deliver) => write!(f, "{deliver}"),
            Step::Pick { sizes, account } => write!(f, "pick {account}{sizes}"),
            Step::SetEntry {
                session,
                kind,
                account,
            } => write!(
                f,
                "(entry of session {session} becomes kind {kind}, account {account})"
            ),
            Step::SetReceipt {
                session,
                id,
                sequence,
            } => write!(
                f,
                "(receipt of session {session} becomes id {id:08X}, sequence {sequence})"
            ),
            Step::SetLast { account, last } => {
                write!(f, "(last id of account {account} becomes {last:08X})")
            }
            Step::SetBook { at, octets } => {
                write!(f, "(book from octet {at} becomes {})", hex::text(octets))
            }
            Step::SetTable { at, octets } => write!(
                f,
                "(table, account {} place {} from octet {} becomes {})",
                at / 4096,
                at / 256 % 16,
                at % 256,
                hex::text(octets)
            ),
        }
    }
}

impl fmt::Display for Take {
    fn fmt(&self, f: &mut fmt::Formatter<'_>) -> fmt::Result {
        write!(f, "octets {} {}", self.session, hex::text(&self.octets))?;
        write!(f, "{}", self.sizes)?;
        write_stamp(f, &self.stamp)?;
        if self.space != LONGEST_REPLY {
            write!(f, "  [space {}]", self.space)?;
        }
        if let Some(request) = explain::request(&self.octets) {
            write!(f, "\n      {request}")?;
        }
        Ok(())
    }
}

impl fmt::Display for Deliver {
    fn fmt(&self, f: &mut fmt::Formatter<'_>) -> fmt::Result {
        write!(f, "deliver {} {}", self.session, self.sequence)?;
        write!(f, "{}", self.sizes)?;
        if self.space != LONGEST_RECEIPT {
            write!(f, "  [space {}]", self.space)?;
        }
        Ok(())
    }
}

impl fmt::Display for Outcome {
    fn fmt(&self, f: &mut fmt::Formatter<'_>) -> fmt::Result {
        let report = self.report;
        write!(
            f,
            "outcome {} {:08X} {} error {}{}",
            report.account, report.id, report.outcome, report.error, self.sizes
        )?;
        write_stamp(f, &self.stamp)
    }
}

impl fmt::Display for Sizes {
    fn fmt(&self, f: &mut fmt::Formatter<'_>) -> fmt::Result {
        if *self == Sizes::default() {
            return Ok(());
        }
        write!(f, "  [book {}, table {}]", self.book, self.table)
    }
}

fn write_stamp(f: &mut fmt::Formatter<'_>, stamp: &[u8]) -> fmt::Result {
    if stamp == PLAIN_STAMP {
        return Ok(());
    }
    write!(f, "  [stamp {}]", quoted(stamp))
}
