//! A message centre for Rust programs: a type that owns what the C interface wants lent.
//!
//! The C side asks its caller for valid pointers with their right lengths, for buffers that
//! don't overlap, and for the state of the call before. Here all of that is the type's own
//! affair, so a program can't get it wrong: a book or a table of another size is refused
//! when the centre is made, outcomes that don't exist can't be named, and what the library
//! hands back is never used without being looked at.

use crate::centre::{
    Lent, PlainState, Refusal, Report, View, BOOK, DONE, LONGEST_RECEIPT, LONGEST_REPLY, PLACE,
    TABLE,
};
use crate::compare::{Engine, Sent};
use std::ops::Deref;

/// A centre with its book, its table and its state.
pub struct Centre<E> {
    engine: E,
    book: Box<[u8]>,
    table: Box<[u8]>,
    state: PlainState,
}

/// What became of a message that was picked.
#[derive(Clone, Copy, Debug, PartialEq, Eq)]
pub enum Outcome {
    Delivered,
    Expired,
    Undeliverable,
}

impl Outcome {
    fn number(self) -> u8 {
        match self {
            Outcome::Delivered => 2,
            Outcome::Expired => 3,
            Outcome::Undeliverable => 5,
        }
    }
}

/// One PDU was taken.
#[derive(Clone, Debug, PartialEq, Eq)]
pub struct Taken {
    /// So many octets are done with; the others stay with the caller.
    pub consumed: usize,
    pub reply: Reply,
}

/// The octets to send back; none of them where a response was taken.
pub type Reply = Octets<LONGEST_REPLY>;

/// The octets of a deliver_sm to send to a receiver.
pub type Receipt = Octets<LONGEST_RECEIPT>;

/// Octets that were written to a space with some room.
#[derive(Clone, Debug, PartialEq, Eq)]
pub struct Octets<const ROOM: usize> {
    space: [u8; ROOM],
    written: usize,
}

impl<const ROOM: usize> Octets<ROOM> {
    fn new(space: [u8; ROOM], written: usize) -> Self {
        assert!(written <= ROOM, "more written than there was room");
        Octets { space, written }
    }
}

impl<const ROOM: usize> Deref for Octets<ROOM> {
    type Target = [u8];

    fn deref(&self) -> &[u8] {
        &self.space[..self.written]
    }
}

#[cfg(feature = "proved")]
impl Centre<crate::proved::Proved> {
    /// A centre on the proved library, with an empty table and every session closed.
    pub fn new(book: &[u8]) -> Result<Self, Refusal> {
        Centre::over(crate::proved::Proved, book)
    }
}

impl<E: Engine> Centre<E> {
    /// A fresh centre on an engine.
    pub fn over(engine: E, book: &[u8]) -> Result<Self, Refusal> {
        Centre::resume(engine, book, &[0; TABLE], PlainState::default())
    }

    /// A centre that goes on from a table and a state that were kept.
    pub fn resume(
        engine: E,
        book: &[u8],
        table: &[u8],
        state: PlainState,
    ) -> Result<Self, Refusal> {
        if book.len() != BOOK || table.len() != TABLE {
            return Err(Refusal::WrongSize);
        }
        Ok(Centre {
            engine,
            book: book.into(),
            table: table.into(),
            state,
        })
    }

    /// The table, to be kept.
    pub fn table(&self) -> &[u8] {
        &self.table
    }

    /// The state, to be kept.
    pub fn state(&self) -> PlainState {
        self.state
    }

    pub fn open(&mut self, session: usize) -> Result<(), Refusal> {
        let moved = self.engine.open(&self.state, session);
        accept(moved.number)?;
        self.state = moved.state;
        Ok(())
    }

    pub fn close(&mut self, session: usize) -> Result<(), Refusal> {
        let moved = self.engine.close(&self.state, session);
        accept(moved.number)?;
        self.state = moved.state;
        Ok(())
    }

    /// Takes at most one PDU from the front of the octets; none where more are needed.
    pub fn take(
        &mut self,
        session: usize,
        octets: &[u8],
        stamp: &[u8],
    ) -> Result<Option<Taken>, Refusal> {
        let mut space = [0; LONGEST_REPLY];
        let lent = Lent::new(&self.book, &mut self.table);
        let sent = Sent {
            session,
            octets,
            stamp,
        };
        let taken = self.engine.take(lent, &self.state, sent, &mut space);
        match accept(taken.number) {
            Err(Refusal::MoreNeeded) => return Ok(None),
            result => result?,
        }
        let consumed = taken.consumed;
        assert!(consumed <= octets.len(), "more consumed than there was");
        self.state = taken.state;
        Ok(Some(Taken {
            consumed,
            reply: Reply::new(space, taken.written),
        }))
    }

    /// The next receipt for a receiver; none where nothing is owed. It is to be sent to the
    /// session's peer with the sequence number given here, and its answer comes through `take`.
    /// Until then the session gets no other; closing the session makes the receipt owed again.
    pub fn deliver(&mut self, session: usize, sequence: u32) -> Result<Option<Receipt>, Refusal> {
        let mut space = [0; LONGEST_RECEIPT];
        let view = View::new(&self.book, &self.table);
        let delivered = self
            .engine
            .deliver(view, &self.state, session, sequence, &mut space);
        match accept(delivered.number) {
            Err(Refusal::NothingOwed) => return Ok(None),
            result => result?,
        }
        self.state = delivered.state;
        Ok(Some(Receipt::new(space, delivered.written)))
    }

    /// Reports what became of a waiting message.
    pub fn outcome(
        &mut self,
        stamp: &[u8],
        account: usize,
        id: u32,
        outcome: Outcome,
        error: u8,
    ) -> Result<(), Refusal> {
        let lent = Lent::new(&self.book, &mut self.table);
        let report = Report {
            account,
            id,
            outcome: outcome.number(),
            error,
        };
        accept(self.engine.outcome(lent, &self.state, stamp, report))
    }

    /// The record of the message to send next, in its place in the table; none where
    /// nothing is waiting.
    pub fn pick(&self, account: usize) -> Result<Option<&[u8; PLACE]>, Refusal> {
        let number = self
            .engine
            .pick_number(&self.book, &self.table, &self.state, account);
        match accept(number) {
            Err(Refusal::NothingWaiting) => return Ok(None),
            result => result?,
        }
        let at = self
            .engine
            .pick_at(&self.book, &self.table, &self.state, account);
        let record = self.table.get(at..).and_then(<[u8]>::first_chunk);
        Ok(Some(record.expect("a picked record lies in the table")))
    }
}

/// Turns a number into a result. A number that the documents don't have would mean that the
/// library isn't the one that this was written for.
fn accept(number: u8) -> Result<(), Refusal> {
    if number == DONE {
        return Ok(());
    }
    match Refusal::of_number(number) {
        Some(refusal) => Err(refusal),
        None => panic!("the library answered {number}, which is no number of the documents"),
    }
}
