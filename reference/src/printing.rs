//! The printing program: records in, one line a record out.

use crate::centre::{Lent, Reference, Refusal, Report, State, DONE, LONGEST_REPLY, TABLE};
use crate::centre::{BOOK, LONGEST_PDU, STAMP};
use crate::hex;
use std::io::{self, Read, Write};

/// The size of an input record.
pub const RECORD: usize = 544;

/// The book is lent as read; one octet more than a book has shows that it is too long.
pub const MOST_OF_BOOK: usize = BOOK + 1;

const OPEN: u8 = 0;
const OCTETS: u8 = 1;
const CLOSE: u8 = 2;
const OUTCOME: u8 = 3;

/// Where a record's payload begins.
pub const PAYLOAD: usize = 20;
const OUTCOME_LENGTH: usize = 7;

/// What one record asks for.
#[derive(Clone, Debug, PartialEq, Eq)]
pub enum Order {
    Open {
        session: u8,
    },
    Octets {
        session: u8,
        stamp: [u8; STAMP],
        octets: Vec<u8>,
    },
    Close {
        session: u8,
    },
    Outcome {
        stamp: [u8; STAMP],
        report: RecordedReport,
    },
}

/// A report as a record's payload has it: one octet names the account.
#[derive(Clone, Copy, Debug, PartialEq, Eq)]
pub struct RecordedReport {
    pub account: u8,
    pub id: u32,
    pub outcome: u8,
    pub error: u8,
}

impl RecordedReport {
    fn read(payload: &[u8; OUTCOME_LENGTH]) -> Self {
        let [account, a, b, c, d, outcome, error] = *payload;
        RecordedReport {
            account,
            id: u32::from_be_bytes([a, b, c, d]),
            outcome,
            error,
        }
    }

    fn payload(self) -> [u8; OUTCOME_LENGTH] {
        let [a, b, c, d] = self.id.to_be_bytes();
        [self.account, a, b, c, d, self.outcome, self.error]
    }

    /// The same report with the account as the centre takes it: any number, to be examined.
    pub(crate) fn for_centre(self) -> Report {
        Report {
            account: usize::from(self.account),
            id: self.id,
            outcome: self.outcome,
            error: self.error,
        }
    }
}

impl Order {
    /// Reads a record; none where it is a bad one.
    pub fn read(record: &[u8; RECORD]) -> Option<Order> {
        let session = record[1];
        let length = usize::from(u16::from_be_bytes([record[2], record[3]]));
        let stamp = std::array::from_fn(|nth| record[4 + nth]);
        match record[0] {
            OPEN => Some(Order::Open { session }),
            OCTETS if length <= LONGEST_PDU => Some(Order::Octets {
                session,
                stamp,
                octets: record[PAYLOAD..PAYLOAD + length].to_vec(),
            }),
            CLOSE => Some(Order::Close { session }),
            OUTCOME if length == OUTCOME_LENGTH => Some(Order::Outcome {
                stamp,
                report: RecordedReport::read(record[PAYLOAD..].first_chunk()?),
            }),
            _ => None,
        }
    }

    /// The record that asks for this. The octets fit: there are at most 512.
    pub fn record(&self) -> [u8; RECORD] {
        match self {
            Order::Open { session } => record(OPEN, *session, &[0; STAMP], &[]),
            Order::Octets {
                session,
                stamp,
                octets,
            } => record(OCTETS, *session, stamp, octets),
            Order::Close { session } => record(CLOSE, *session, &[0; STAMP], &[]),
            Order::Outcome { stamp, report } => record(OUTCOME, 0, stamp, &report.payload()),
        }
    }
}

fn record(kind: u8, session: u8, stamp: &[u8; STAMP], payload: &[u8]) -> [u8; RECORD] {
    let mut record = [0; RECORD];
    record[0] = kind;
    record[1] = session;
    record[2..4].copy_from_slice(&(payload.len() as u16).to_be_bytes());
    record[4..PAYLOAD].copy_from_slice(stamp);
    record[PAYLOAD..PAYLOAD + payload.len()].copy_from_slice(payload);
    record
}

/// The centre that the program runs: its table starts all zero, its state fresh.
struct Printer<'a> {
    reference: Reference,
    book: &'a [u8],
    table: Vec<u8>,
    state: State,
}

impl Printer<'_> {
    fn lent(&mut self) -> (Lent<'_>, &mut State) {
        (Lent::new(self.book, &mut self.table), &mut self.state)
    }

    /// The line that an order prints.
    fn line(&mut self, order: &Order) -> String {
        let reference = self.reference;
        match order {
            Order::Open { session } => {
                line_without_reply(reference.open(&mut self.state, usize::from(*session)))
            }
            Order::Close { session } => {
                line_without_reply(reference.close(&mut self.state, usize::from(*session)))
            }
            Order::Octets {
                session,
                stamp,
                octets,
            } => self.octets_line(usize::from(*session), stamp, octets),
            Order::Outcome { stamp, report } => {
                let (lent, state) = self.lent();
                line_without_reply(reference.outcome(lent, state, stamp, report.for_centre()))
            }
        }
    }

    fn octets_line(&mut self, session: usize, stamp: &[u8], octets: &[u8]) -> String {
        let mut space = [0; LONGEST_REPLY];
        let reference = self.reference;
        let (lent, state) = self.lent();
        match reference.take(lent, state, session, octets, stamp, &mut space) {
            Err(refusal) => line_without_reply(Err(refusal)),
            Ok(taken) if taken.written == 0 => format!("{DONE} {} -", taken.consumed),
            Ok(taken) => {
                let reply = hex::text(&space[..taken.written]);
                format!("{DONE} {} {reply}", taken.consumed)
            }
        }
    }
}

fn line_without_reply(result: Result<(), Refusal>) -> String {
    let number = result.err().map_or(DONE, Refusal::number);
    format!("{number} 0 -")
}

/// Reads as much of a book as is lent.
pub fn read_book(input: impl Read) -> io::Result<Vec<u8>> {
    let mut book = Vec::new();
    input.take(MOST_OF_BOOK as u64).read_to_end(&mut book)?;
    Ok(book)
}

/// Runs the program until its input ends or a record is bad.
pub fn run(book: &[u8], mut input: impl Read, mut output: impl Write) -> io::Result<()> {
    let mut printer = Printer {
        reference: Reference::sound(),
        book,
        table: vec![0; TABLE],
        state: State::default(),
    };
    let mut record = Vec::with_capacity(RECORD);
    loop {
        record.clear();
        input
            .by_ref()
            .take(RECORD as u64)
            .read_to_end(&mut record)?;
        if record.is_empty() {
            return output.flush();
        }
        // A cut record doesn't convert, so it is bad like one that can't be read.
        let order = record.as_slice().try_into().ok().and_then(Order::read);
        let Some(order) = order else {
            writeln!(output, "bad record")?;
            return output.flush();
        };
        writeln!(output, "{}", printer.line(&order))?;
    }
}
