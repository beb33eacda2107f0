//! Lines into steps, and steps into orders for the printing program.

use super::words::{unexpected, Word, Words};
use super::ScriptError;
use crate::centre::{LONGEST_PDU, STAMP};
use crate::compare::{Deliver, Outcome, Sizes, Step, Take};
use crate::compose::{deliver_sm_resp, Bind, Cancel, Query, Replace, Request, Role, Submit, Text};
use crate::hex;
use crate::printing::{Order, RecordedReport};
use crate::recorded;

const STEPS: &str = "stamp, sequence, open, bind, submit, query, cancel, replace, outcome, \
                     octets, deliver, answer, unbind, enquire or close";

const DEFAULT_STAMP: [u8; STAMP] = *b"960701120000000+";

/// A step and the line that asked for it.
#[derive(Clone, Debug, PartialEq, Eq)]
pub struct ScriptedStep {
    pub line: usize,
    pub step: Step,
}

/// Reads a whole script.
pub fn steps(script: &str) -> Result<Vec<ScriptedStep>, ScriptError> {
    let mut reader = Reader {
        stamp: DEFAULT_STAMP,
        sequence: 1,
    };
    let mut steps = Vec::new();
    for (line, text) in (1..).zip(script.lines()) {
        match reader.line(text) {
            Ok(None) => {}
            Ok(Some(step)) => steps.push(ScriptedStep { line, step }),
            Err(message) => return Err(ScriptError { line, message }),
        }
    }
    Ok(steps)
}

/// An order and the line that asked for it.
#[derive(Clone, Debug, PartialEq, Eq)]
pub struct ScriptedOrder {
    pub line: usize,
    pub order: Order,
}

/// Reads a whole script for the printing program, which has no record for a receipt.
pub fn orders(script: &str) -> Result<Vec<ScriptedOrder>, ScriptError> {
    let order = |ScriptedStep { line, step }| match recorded::order(&step) {
        Some(order) => Ok(ScriptedOrder { line, order }),
        None => Err(ScriptError {
            line,
            message: format!("expected a step that a record can say, found \"{step}\""),
        }),
    };
    steps(script)?.into_iter().map(order).collect()
}

/// What lines set for the lines behind them.
struct Reader {
    stamp: [u8; STAMP],
    sequence: u32,
}

impl Reader {
    /// The step of a line, if it gives one.
    fn line(&mut self, line: &str) -> Result<Option<Step>, String> {
        let mut words = Words::of(line)?;
        let Some(step) = words.any() else {
            return Ok(None);
        };
        match step.octets.as_slice() {
            b"stamp" => self.set_stamp(words).map(|()| None),
            b"sequence" => self.set_sequence(words).map(|()| None),
            b"open" => Ok(Some(Step::Open {
                session: only_session(words)?.into(),
            })),
            b"close" => Ok(Some(Step::Close {
                session: only_session(words)?.into(),
            })),
            b"outcome" => self.outcome(words).map(Some),
            b"octets" => self.octets(words).map(Some),
            b"deliver" => deliver(words).map(Some),
            b"answer" => self.answer(words).map(Some),
            _ => self.request(&step, words).map(Some),
        }
    }

    fn set_stamp(&mut self, mut words: Words) -> Result<(), String> {
        let what = format!("a stamp of {STAMP} characters");
        let stamp = words.word(&what)?;
        let octets = stamp.octets.as_slice().try_into();
        self.stamp = octets.map_err(|_| unexpected(&what, &stamp))?;
        words.end()
    }

    fn set_sequence(&mut self, mut words: Words) -> Result<(), String> {
        self.sequence = words.number("a sequence number")?;
        words.end()
    }

    fn outcome(&mut self, words: Words) -> Result<Step, String> {
        Ok(Step::Outcome(Outcome {
            sizes: Sizes::default(),
            stamp: self.stamp.to_vec(),
            report: report(words)?.for_centre(),
        }))
    }

    fn answer(&mut self, words: Words) -> Result<Step, String> {
        let (session, octets) = answer(words)?;
        self.take(session, octets)
    }

    fn octets(&mut self, mut words: Words) -> Result<Step, String> {
        let session = words.octet("a session number")?;
        let mut digits = String::new();
        while let Some(word) = words.any() {
            digits += &word.text();
        }
        self.take(session, hex::octets(&digits)?)
    }

    fn request(&mut self, step: &Word, words: Words) -> Result<Step, String> {
        let (session, request) = request(step, words)?.ok_or_else(|| unexpected(STEPS, step))?;
        let octets = request.octets(self.sequence);
        self.sequence = self.sequence.wrapping_add(1);
        self.take(session, octets)
    }

    fn take(&self, session: u8, octets: Vec<u8>) -> Result<Step, String> {
        if octets.len() > LONGEST_PDU {
            return Err(format!(
                "expected at most {LONGEST_PDU} octets, found {}",
                octets.len()
            ));
        }
        Ok(Step::Take(Take {
            stamp: self.stamp.to_vec(),
            ..Take::plain(session.into(), octets)
        }))
    }
}

/// A session and the sequence number that its receipt gets.
fn deliver(mut words: Words) -> Result<Step, String> {
    let (session, sequence) = receipt(&mut words)?;
    words.end()?;
    Ok(Step::Deliver(Deliver::plain(session.into(), sequence)))
}

/// A session and a receipt's sequence number.
pub fn receipt(words: &mut Words) -> Result<(u8, u32), String> {
    let session = words.octet("a session number")?;
    Ok((session, words.number("a sequence number")?))
}

/// The session that an answer to a receipt is sent on, and its octets.
pub fn answer(mut words: Words) -> Result<(u8, Vec<u8>), String> {
    let (session, sequence) = receipt(&mut words)?;
    let status = match words.any() {
        None => 0,
        Some(word) if word.is("status") => words.number("a status")?,
        Some(word) => return Err(unexpected("status or the end of the line", &word)),
    };
    words.end()?;
    const NO_ID: &[u8] = &[0];
    Ok((session, deliver_sm_resp(status, sequence, NO_ID)))
}

/// A request and the session that it is sent on; none where the first word names no request.
pub fn request(step: &Word, mut words: Words) -> Result<Option<(u8, Request)>, String> {
    let read = match step.octets.as_slice() {
        b"bind" => bind,
        b"submit" => submit,
        b"query" => query,
        b"cancel" => cancel,
        b"replace" => replace,
        b"unbind" => unbind,
        b"enquire" => enquire,
        _ => return Ok(None),
    };
    let session = words.octet("a session number")?;
    Ok(Some((session, read(words)?)))
}

/// An account, an id, an outcome and an error code.
pub fn report(mut words: Words) -> Result<RecordedReport, String> {
    let account = words.octet("an account number")?;
    let id = words.id()?;
    let outcome = outcome_number(words.word(OUTCOMES)?)?;
    let error = match words.any() {
        None => 0,
        Some(word) if word.octets == b"error" => words.octet("an error code")?,
        Some(word) => return Err(unexpected("\"error\" or the end of the line", &word)),
    };
    words.end()?;
    Ok(RecordedReport {
        account,
        id,
        outcome,
        error,
    })
}

pub fn only_session(mut words: Words) -> Result<u8, String> {
    let session = words.octet("a session number")?;
    words.end()?;
    Ok(session)
}

const OUTCOMES: &str = "delivered, expired, undeliverable or a number from 0 to 255";

fn outcome_number(word: Word) -> Result<u8, String> {
    match word.octets.as_slice() {
        b"delivered" => Ok(2),
        b"expired" => Ok(3),
        b"undeliverable" => Ok(5),
        _ => word.text().parse().map_err(|_| unexpected(OUTCOMES, &word)),
    }
}

fn unbind(words: Words) -> Result<Request, String> {
    words.end()?;
    Ok(Request::Unbind)
}

fn enquire(words: Words) -> Result<Request, String> {
    words.end()?;
    Ok(Request::EnquireLink)
}

fn bind(mut words: Words) -> Result<Request, String> {
    let role = match words.one_of(&["transmitter", "receiver"])? {
        0 => Role::Transmitter,
        _ => Role::Receiver,
    };
    let mut bind = Bind {
        role,
        system_id: words.octets("a system_id")?,
        password: words.octets("a password")?,
        system_type: words.octets("a system_type")?,
        interface_version: 0x33,
        range: Default::default(),
    };
    while let Some(option) = words.any() {
        match option.octets.as_slice() {
            b"version" => bind.interface_version = words.octet("a version")?,
            b"range" => bind.range = words.address("an address range")?,
            _ => return Err(unexpected("version, range or the end of the line", &option)),
        }
    }
    Ok(Request::Bind(bind))
}

const SUBMIT_OPTIONS: &str = "a text in quotation marks, service, class, protocol, priority, \
                              schedule, validity, registered, replace, coding, default or the \
                              end of the line";

fn submit(words: Words) -> Result<Request, String> {
    submission(words).map(Request::Submit)
}

/// Source and destination, and then a text and any of the other fields.
pub fn submission(mut words: Words) -> Result<Submit, String> {
    words.keyword("from")?;
    let source = words.address("a source")?;
    words.keyword("to")?;
    let mut submit = Submit {
        source,
        destination: words.address("a destination")?,
        ..Submit::default()
    };
    while let Some(option) = words.any() {
        match option.octets.as_slice() {
            _ if option.quoted => put_text(&mut submit.text, option)?,
            b"service" => submit.service_type = words.octets("a service_type")?,
            b"class" => submit.esm_class = words.octet("an esm_class")?,
            b"protocol" => submit.protocol_id = words.octet("a protocol id")?,
            b"priority" => submit.priority = words.octet("a priority")?,
            b"schedule" => submit.schedule = words.octets("a time")?,
            b"validity" => submit.validity = words.octets("a time")?,
            b"registered" => submit.registered = words.octet("a flag")?,
            b"replace" => submit.replace_if_present = words.octet("a flag")?,
            b"coding" => submit.data_coding = words.octet("a data coding")?,
            b"default" => submit.text.default_id = words.octet("a default message id")?,
            _ => return Err(unexpected(SUBMIT_OPTIONS, &option)),
        }
    }
    Ok(submit)
}

fn query(mut words: Words) -> Result<Request, String> {
    let id = words.octets("a message id")?;
    words.keyword("from")?;
    let source = words.address("a source")?;
    words.end()?;
    Ok(Request::Query(Query { id, source }))
}

fn cancel(mut words: Words) -> Result<Request, String> {
    let mut cancel = Cancel {
        id: words.octets("a message id")?,
        ..Cancel::default()
    };
    words.keyword("from")?;
    cancel.source = words.address("a source")?;
    while let Some(option) = words.any() {
        match option.octets.as_slice() {
            b"to" => cancel.destination = words.address("a destination")?,
            b"service" => cancel.service_type = words.octets("a service_type")?,
            _ => return Err(unexpected("to, service or the end of the line", &option)),
        }
    }
    Ok(Request::Cancel(cancel))
}

const REPLACE_OPTIONS: &str = "a text in quotation marks, schedule, validity, registered, \
                               default or the end of the line";

fn replace(mut words: Words) -> Result<Request, String> {
    let mut replace = Replace {
        id: words.octets("a message id")?,
        ..Replace::default()
    };
    words.keyword("from")?;
    replace.source = words.address("a source")?;
    while let Some(option) = words.any() {
        match option.octets.as_slice() {
            _ if option.quoted => put_text(&mut replace.text, option)?,
            b"schedule" => replace.schedule = words.octets("a time")?,
            b"validity" => replace.validity = words.octets("a time")?,
            b"registered" => replace.registered = words.octet("a flag")?,
            b"default" => replace.text.default_id = words.octet("a default message id")?,
            _ => return Err(unexpected(REPLACE_OPTIONS, &option)),
        }
    }
    Ok(Request::Replace(replace))
}

/// The wire has one octet for a text's length.
fn put_text(text: &mut Text, word: Word) -> Result<(), String> {
    if word.octets.len() > 255 {
        return Err(format!(
            "expected a text of at most 255 octets, found {}",
            word.octets.len()
        ));
    }
    text.octets = word.octets;
    Ok(())
}
