//! Lines into cases.

use super::expected::Expected;
use super::look::{entry, outstanding, record_start, session, Look};
use super::pieces;
use crate::centre::{
    command::RESPONSE, PlainState, BOOK_RECORD, LONGEST_RECEIPT, LONGEST_REPLY, PLACE,
};
use crate::compare::{Deliver, Outcome, Sizes, Step, Take, PLAIN_STAMP};
use crate::compose::pdu;
use crate::explain::command_name;
use crate::script::book::{account, record};
use crate::script::steps::{answer, only_session, receipt, report, request};
use crate::script::words::{unexpected, Word, Words};
use crate::script::ScriptError;

/// A case, with the lines above the first one in front of its own.
#[derive(Clone, Debug)]
pub struct Case {
    pub name: String,
    pub lines: Vec<Line>,
}

#[derive(Clone, Debug)]
pub struct Line {
    /// Counted from 1.
    pub number: usize,
    pub text: String,
    pub does: Does,
}

#[derive(Clone, Debug)]
pub enum Does {
    Call(Step, Expected),
    /// The caller's own doing between two calls.
    Put(Step),
    Look(Look),
}

/// Reads a whole file.
pub fn read(text: &str) -> Result<Vec<Case>, ScriptError> {
    let mut cases: Vec<Case> = Vec::new();
    let mut above = Vec::new();
    let mut settings = Settings::default();
    let mut reader = settings.clone();
    for (number, text) in (1..).zip(text.lines()) {
        if let Some(name) = text.strip_prefix("case ") {
            if cases.is_empty() {
                settings = reader;
            }
            reader = settings.clone();
            cases.push(Case {
                name: name.trim().to_string(),
                lines: above.clone(),
            });
            continue;
        }
        let does = reader.line(text).map_err(|message| ScriptError {
            line: number,
            message,
        })?;
        let lines = match cases.last_mut() {
            None => &mut above,
            Some(case) => &mut case.lines,
        };
        lines.extend(does.map(|does| Line {
            number,
            text: text.trim().to_string(),
            does,
        }));
    }
    Ok(cases)
}

/// What lines set for the lines behind them.
#[derive(Clone)]
struct Settings {
    stamp: Vec<u8>,
    sequence: u32,
    /// As much as the call needs, unless a line says otherwise.
    space: Option<usize>,
    sizes: Sizes,
}

impl Default for Settings {
    fn default() -> Self {
        Settings {
            stamp: PLAIN_STAMP.to_vec(),
            sequence: 1,
            space: None,
            sizes: Sizes::default(),
        }
    }
}

const CALLS: [&str; 15] = [
    "open", "close", "bind", "submit", "query", "cancel", "replace", "unbind", "enquire", "octets",
    "pdu", "outcome", "pick", "deliver", "answer",
];

const LINES: &str = "a case, a call, something to look at or something to set";

impl Settings {
    /// What a line does, if it does more than set something for those behind it.
    fn line(&mut self, line: &str) -> Result<Option<Does>, String> {
        let (mut words, behind) = Words::of(line)?.divided_at("=>");
        let Some(first) = words.any() else {
            return match behind {
                None => Ok(None),
                Some(_) => Err("expected a call, found \"=>\"".to_string()),
            };
        };
        match behind {
            Some(expected) => {
                let step = self.call(&first, words)?;
                let expected = Expected::read(expected, &step)?;
                Ok(Some(Does::Call(step, expected)))
            }
            None => self.no_call(&first, words),
        }
    }

    fn no_call(&mut self, first: &Word, mut words: Words) -> Result<Option<Does>, String> {
        match first.text().as_str() {
            "stamp" => self.stamp = words.octets("a stamp")?,
            "sequence" => self.sequence = words.number("a sequence number")?,
            "space" => self.space = Some(words.number("a size")? as usize),
            "lend" => {
                self.sizes = Sizes {
                    book: words.number("a size of the book")? as usize,
                    table: words.number("a size of the table")? as usize,
                }
            }
            "account" => {
                let at = BOOK_RECORD * account(&mut words)?;
                let octets = record(words, 0)?.to_vec();
                return Ok(Some(Does::Put(Step::SetBook { at, octets })));
            }
            "put" => return Ok(Some(Does::Put(put(words)?))),
            call if CALLS.contains(&call) => {
                return Err("expected \"=>\" behind a call, found the end of the line".to_string())
            }
            _ => {
                let look = Look::read(first, words)?;
                let complaint = || unexpected(LINES, first);
                return look.map(Does::Look).map(Some).ok_or_else(complaint);
            }
        }
        words.end().map(|()| None)
    }

    fn call(&mut self, first: &Word, mut words: Words) -> Result<Step, String> {
        Ok(match first.text().as_str() {
            "open" => Step::Open {
                session: only_session(words)?.into(),
            },
            "close" => Step::Close {
                session: only_session(words)?.into(),
            },
            "pick" => Step::Pick {
                sizes: self.sizes,
                account: only_session(words)?.into(),
            },
            "outcome" => Step::Outcome(Outcome {
                sizes: self.sizes,
                stamp: self.stamp.clone(),
                report: report(words)?.for_centre(),
            }),
            "deliver" => self.deliver(words)?,
            "answer" => {
                let (session, octets) = answer(words)?;
                self.take(session, octets)
            }
            "octets" => {
                let session = words.octet("a session number")?;
                self.take(session, pieces::octets(words)?)
            }
            "pdu" => {
                let session = words.octet("a session number")?;
                let command = command(&words.word("a command")?)?;
                let body = pieces::octets(words)?;
                let octets = pdu(command, self.next_sequence(), &body);
                self.take(session, octets)
            }
            _ => {
                let (session, request) =
                    request(first, words)?.ok_or_else(|| unexpected("a call", first))?;
                let octets = request.octets(self.next_sequence());
                self.take(session, octets)
            }
        })
    }

    fn deliver(&self, mut words: Words) -> Result<Step, String> {
        let (session, sequence) = receipt(&mut words)?;
        words.end()?;
        Ok(Step::Deliver(Deliver {
            sizes: self.sizes,
            session: session.into(),
            sequence,
            space: self.space.unwrap_or(LONGEST_RECEIPT),
        }))
    }

    fn next_sequence(&mut self) -> u32 {
        let sequence = self.sequence;
        self.sequence = sequence.wrapping_add(1);
        sequence
    }

    fn take(&self, session: u8, octets: Vec<u8>) -> Step {
        Step::Take(Take {
            sizes: self.sizes,
            session: session.into(),
            octets,
            stamp: self.stamp.clone(),
            space: self.space.unwrap_or(LONGEST_REPLY),
        })
    }
}

/// A command by its name, or by its id in hex.
fn command(word: &Word) -> Result<u32, String> {
    let text = word.text();
    let named = (0..=0x15)
        .flat_map(|id| [id, RESPONSE | id])
        .find(|&id| command_name(id) == Some(text.as_str()));
    named
        .or_else(|| u32::from_str_radix(&text, 16).ok())
        .ok_or_else(|| unexpected("a command's name or its id in hex", word))
}

fn put(mut words: Words) -> Result<Step, String> {
    match words.one_of(&["book", "record", "last", "entry", "outstanding"])? {
        0 => {
            let start = BOOK_RECORD * account(&mut words)?;
            let (at, octets) = pieces::stretch(words, BOOK_RECORD)?;
            Ok(Step::SetBook {
                at: start + at,
                octets,
            })
        }
        1 => {
            let start = record_start(&mut words)?;
            let (at, octets) = pieces::stretch(words, PLACE)?;
            Ok(Step::SetTable {
                at: start + at,
                octets,
            })
        }
        2 => {
            let (account, last) = (account(&mut words)?, words.id()?);
            words.end()?;
            Ok(Step::SetLast { account, last })
        }
        3 => put_entry(words),
        _ => {
            let session = session(&mut words)?;
            let (id, sequence) = outstanding(words)?;
            Ok(Step::SetReceipt {
                session,
                id,
                sequence,
            })
        }
    }
}

fn put_entry(mut words: Words) -> Result<Step, String> {
    let session = session(&mut words)?;
    let mut state = PlainState::default();
    state.set_entry(session, entry(words)?);
    Ok(Step::SetEntry {
        session,
        kind: state.kinds[session],
        account: state.accounts[session],
    })
}
