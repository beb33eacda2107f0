//! Histories: a book, and steps that any engine can play.

use crate::centre::{Report, BOOK, LONGEST_RECEIPT, LONGEST_REPLY, TABLE};

/// The stamp that is used where nothing depends on it.
pub const PLAIN_STAMP: &[u8] = b"960701120000000+";

/// How much of the book and the table is lent. More than there is means octets behind.
#[derive(Clone, Copy, Debug, PartialEq, Eq)]
pub struct Sizes {
    pub book: usize,
    pub table: usize,
}

impl Default for Sizes {
    fn default() -> Self {
        Sizes {
            book: BOOK,
            table: TABLE,
        }
    }
}

#[derive(Clone, Debug, PartialEq, Eq)]
pub struct Take {
    pub sizes: Sizes,
    pub session: usize,
    pub octets: Vec<u8>,
    pub stamp: Vec<u8>,
    /// The size of the response space.
    pub space: usize,
}

impl Take {
    /// A call in which everything around the octets is as it should be.
    pub fn plain(session: usize, octets: Vec<u8>) -> Self {
        Take {
            sizes: Sizes::default(),
            session,
            octets,
            stamp: PLAIN_STAMP.to_vec(),
            space: LONGEST_REPLY,
        }
    }
}

#[derive(Clone, Debug, PartialEq, Eq)]
pub struct Outcome {
    pub sizes: Sizes,
    pub stamp: Vec<u8>,
    pub report: Report,
}

/// A receipt is asked for.
#[derive(Clone, Debug, PartialEq, Eq)]
pub struct Deliver {
    pub sizes: Sizes,
    pub session: usize,
    pub sequence: u32,
    /// The size of the space that it is written to.
    pub space: usize,
}

impl Deliver {
    /// A call in which everything around the session is as it should be.
    pub fn plain(session: usize, sequence: u32) -> Self {
        Deliver {
            sizes: Sizes::default(),
            session,
            sequence,
            space: LONGEST_RECEIPT,
        }
    }
}

#[derive(Clone, Debug, PartialEq, Eq)]
pub enum Step {
    Open {
        session: usize,
    },
    Close {
        session: usize,
    },
    Take(Take),
    Outcome(Outcome),
    Deliver(Deliver),
    Pick {
        sizes: Sizes,
        account: usize,
    },
    /// From here on, the caller's own doing between two calls: what it lends is its own.
    SetEntry {
        session: usize,
        kind: u8,
        account: u8,
    },
    SetReceipt {
        session: usize,
        id: u32,
        sequence: u32,
    },
    SetLast {
        account: usize,
        last: u32,
    },
    SetBook {
        at: usize,
        octets: Vec<u8>,
    },
    SetTable {
        at: usize,
        octets: Vec<u8>,
    },
}

/// The table starts all zero and the state fresh.
#[derive(Clone, Debug, PartialEq, Eq)]
pub struct History {
    pub book: Vec<u8>,
    pub steps: Vec<Step>,
}
