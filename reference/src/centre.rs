//! The message centre, read from the outline alone and written in plain Rust.
//!
//! The book and the table are octets that the caller lends for one call; the state is the
//! caller's too. A refused call leaves all three as they were.

mod account;
mod book;
pub mod command;
mod fault;
mod message;
mod operations;
mod out;
mod party;
mod reader;
mod receipt;
mod refusal;
mod reply;
mod request;
mod same;
mod state;
mod status;
mod take;
mod text;

pub use book::{BookRecord, BOOK_RECORD};
pub use fault::Fault;
pub use message::{layout, Message, Place, PLACE};
pub use operations::Report;
pub use party::Party;
pub use receipt::LONGEST_RECEIPT;
pub use refusal::{Refusal, DONE};
pub use reply::LONGEST_REPLY;
pub use same::Same;
pub use state::{Entry, PlainState, Receipt, State, ACCOUNTS, SESSIONS};
pub use status::Status;
pub use take::{Taken, LONGEST_PDU};
pub use text::{is_time, message_id, without_leading_spaces, STAMP};

/// The size of the whole account book.
pub const BOOK: usize = ACCOUNTS * BOOK_RECORD;
/// How many messages an account can hold.
pub const PLACES: usize = 16;
/// The size of one account's part of the table.
pub const PART: usize = PLACES * PLACE;
/// The size of the whole table.
pub const TABLE: usize = ACCOUNTS * PART;

/// The independent implementation, sound unless a fault is planted in it.
#[derive(Clone, Copy, Debug)]
pub struct Reference {
    fault: Option<Fault>,
}

impl Reference {
    pub const fn sound() -> Self {
        Reference { fault: None }
    }

    /// An implementation that errs on purpose in one way, to show that a comparison notices.
    pub fn with_fault(fault: Fault) -> Self {
        Reference { fault: Some(fault) }
    }

    pub fn fault(&self) -> Option<Fault> {
        self.fault
    }

    fn errs(&self, fault: Fault) -> bool {
        self.fault == Some(fault)
    }
}

/// What the caller lends for one call that changes the table.
pub struct Lent<'a> {
    pub book: &'a [u8],
    pub table: &'a mut [u8],
}

impl<'a> Lent<'a> {
    pub fn new(book: &'a [u8], table: &'a mut [u8]) -> Self {
        Lent { book, table }
    }

    /// Splits both into records, if they have the outline's sizes.
    fn records(self) -> Result<Records<'a>, Refusal> {
        if self.book.len() != BOOK || self.table.len() != TABLE {
            return Err(Refusal::WrongSize);
        }
        Ok(Records {
            book: self.book.as_chunks().0,
            places: self.table.as_chunks_mut().0,
        })
    }
}

/// The book's 8 records and the table's 128 places.
struct Records<'a> {
    book: &'a [[u8; BOOK_RECORD]],
    places: &'a mut [Place],
}

/// What the caller lends for one call that leaves the table as it is.
#[derive(Clone, Copy)]
pub struct View<'a> {
    pub book: &'a [u8],
    pub table: &'a [u8],
}

impl<'a> View<'a> {
    pub fn new(book: &'a [u8], table: &'a [u8]) -> Self {
        View { book, table }
    }

    /// Splits both into records, if they have the outline's sizes.
    fn records(self) -> Result<(&'a [[u8; BOOK_RECORD]], &'a [Place]), Refusal> {
        if self.book.len() != BOOK || self.table.len() != TABLE {
            return Err(Refusal::WrongSize);
        }
        Ok((self.book.as_chunks().0, self.table.as_chunks().0))
    }
}

/// Number 9: an account is worked on only while all of it is well formed.
fn check_account(
    book: &[[u8; BOOK_RECORD]],
    places: &[Place],
    state: &State,
    account: usize,
) -> Result<(), Refusal> {
    let record = BookRecord(&book[account]);
    let last = state.lasts[account];
    if account::is_well_formed(record, part(places, account), last) {
        Ok(())
    } else {
        Err(Refusal::AccountIllFormed)
    }
}

/// The sixteen places of one account.
fn part(places: &[Place], account: usize) -> &[Place] {
    &places[PLACES * account..PLACES * (account + 1)]
}

/// The sixteen places of one account, to be changed.
fn part_mut(places: &mut [Place], account: usize) -> &mut [Place] {
    &mut places[PLACES * account..PLACES * (account + 1)]
}
