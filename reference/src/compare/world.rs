//! What a caller keeps between calls, and how a step is played on it.

use super::engine::{Engine, Sent};
use super::history::{Deliver, History, Outcome, Sizes, Step, Take};
use crate::centre::{Lent, PlainState, View, BOOK, PLACE, TABLE};

/// Octets behind the book and the table, for calls that lend too much.
const BEHIND: usize = 256;

/// What the response space is filled with before a call, to see what is written. No reply
/// is all of this.
const UNTOUCHED: u8 = 0xA5;

/// The most response space that a step can ask for.
const SPACE: usize = 1024;

/// Room for a picked record, and some octets behind it.
const COPY: usize = PLACE + 8;

/// The book, the table, the state and the response space.
#[derive(Clone, Debug, PartialEq, Eq)]
pub struct World {
    book: Vec<u8>,
    table: Vec<u8>,
    pub state: PlainState,
    space: Vec<u8>,
    /// What the last pick copied, and how many octets it said that were.
    copied: Vec<u8>,
    copied_count: usize,
}

/// What a step answered. A step that calls nothing answers 0.
#[derive(Clone, Copy, Debug, Default, PartialEq, Eq)]
pub struct Answer {
    pub number: u8,
    pub consumed: usize,
    pub written: usize,
    /// Where the picked record starts.
    pub picked: usize,
}

impl World {
    pub fn new(history: &History) -> Self {
        let mut book = history.book.clone();
        book.resize(BOOK + BEHIND, 0);
        World {
            book,
            table: vec![0; TABLE + BEHIND],
            state: PlainState::default(),
            space: vec![UNTOUCHED; SPACE],
            copied: vec![UNTOUCHED; COPY],
            copied_count: 0,
        }
    }

    pub fn book(&self) -> &[u8] {
        &self.book[..BOOK]
    }

    pub fn table(&self) -> &[u8] {
        &self.table[..TABLE]
    }

    /// What the last pick copied, and how many octets it said that were.
    pub fn copied(&self) -> (&[u8], usize) {
        (&self.copied, self.copied_count)
    }

    /// The table and the octets behind it.
    pub fn table_and_behind(&self) -> &[u8] {
        &self.table
    }

    /// The response space, all of it.
    pub fn space(&self) -> &[u8] {
        &self.space
    }

    /// Forgets what an earlier call wrote into the response space, and what a pick copied.
    pub fn clear_space(&mut self) {
        self.space.fill(UNTOUCHED);
        self.copied.fill(UNTOUCHED);
        self.copied_count = 0;
    }

    pub fn play(&mut self, engine: &dyn Engine, step: &Step) -> Answer {
        match step {
            Step::Open { session } => {
                let moved = engine.open(&self.state, *session);
                self.moved(moved.number, moved.state)
            }
            Step::Close { session } => {
                let moved = engine.close(&self.state, *session);
                self.moved(moved.number, moved.state)
            }
            Step::Take(take) => self.take(engine, take),
            Step::Outcome(outcome) => self.outcome(engine, outcome),
            Step::Deliver(deliver) => self.deliver(engine, deliver),
            Step::Pick { sizes, account } => self.pick(engine, *sizes, *account),
            _ => self.tamper(step),
        }
    }

    fn moved(&mut self, number: u8, state: PlainState) -> Answer {
        self.state = state;
        Answer {
            number,
            ..Answer::default()
        }
    }

    fn take(&mut self, engine: &dyn Engine, take: &Take) -> Answer {
        let Sizes { book, table } = take.sizes;
        let lent = Lent::new(&self.book[..book], &mut self.table[..table]);
        let sent = Sent {
            session: take.session,
            octets: &take.octets,
            stamp: &take.stamp,
        };
        let space = &mut self.space[..take.space];
        let taken = engine.take(lent, &self.state, sent, space);
        self.state = taken.state;
        Answer {
            number: taken.number,
            consumed: taken.consumed,
            written: taken.written,
            ..Answer::default()
        }
    }

    fn outcome(&mut self, engine: &dyn Engine, outcome: &Outcome) -> Answer {
        let Sizes { book, table } = outcome.sizes;
        let lent = Lent::new(&self.book[..book], &mut self.table[..table]);
        Answer {
            number: engine.outcome(lent, &self.state, &outcome.stamp, outcome.report),
            ..Answer::default()
        }
    }

    fn deliver(&mut self, engine: &dyn Engine, deliver: &Deliver) -> Answer {
        let Sizes { book, table } = deliver.sizes;
        let view = View::new(&self.book[..book], &self.table[..table]);
        let (session, sequence) = (deliver.session, deliver.sequence);
        let space = &mut self.space[..deliver.space];
        let delivered = engine.deliver(view, &self.state, session, sequence, space);
        self.state = delivered.state;
        Answer {
            number: delivered.number,
            written: delivered.written,
            ..Answer::default()
        }
    }

    /// After a pick: its record copied too, for every fourth account to a space that is one
    /// octet too short.
    pub fn copy_picked(&mut self, engine: &dyn Engine, step: &Step) {
        let Step::Pick { sizes, account } = step else {
            return;
        };
        let book = &self.book[..sizes.book];
        let table = &self.table[..sizes.table];
        let short = account % 4 == 3;
        let room = if short { PLACE - 1 } else { COPY - 1 };
        let space = &mut self.copied[..room];
        self.copied_count = engine.pick_record(book, table, &self.state, *account, space);
    }

    fn pick(&self, engine: &dyn Engine, sizes: Sizes, account: usize) -> Answer {
        let book = &self.book[..sizes.book];
        let table = &self.table[..sizes.table];
        Answer {
            number: engine.pick_number(book, table, &self.state, account),
            picked: engine.pick_at(book, table, &self.state, account),
            ..Answer::default()
        }
    }

    fn tamper(&mut self, step: &Step) -> Answer {
        match step {
            Step::SetEntry {
                session,
                kind,
                account,
            } => {
                self.state.kinds[*session] = *kind;
                self.state.accounts[*session] = *account;
            }
            Step::SetReceipt {
                session,
                id,
                sequence,
            } => {
                self.state.receipts[*session] = *id;
                self.state.sequences[*session] = *sequence;
            }
            Step::SetLast { account, last } => self.state.lasts[*account] = *last,
            Step::SetBook { at, octets } => put(&mut self.book, *at, octets),
            Step::SetTable { at, octets } => put(&mut self.table, *at, octets),
            _ => unreachable!("every call is played on an engine"),
        }
        Answer::default()
    }
}

fn put(into: &mut [u8], at: usize, octets: &[u8]) {
    into[at..at + octets.len()].copy_from_slice(octets);
}
