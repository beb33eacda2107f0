//! The operations that take no octets: opening, closing, outcomes and picking.

use super::account::{next_to_send, waiting_with_id};
use super::fault::Fault;
use super::message::{self, layout, DELIVERED, EXPIRED, PLACE, UNDELIVERABLE};
use super::refusal::Refusal;
use super::state::{Entry, State, ACCOUNTS};
use super::take::sound_stamp;
use super::{check_account, part, part_mut, Lent, Reference, View, PART};

/// What became of a message.
#[derive(Clone, Copy, Debug, PartialEq, Eq)]
pub struct Report {
    pub account: usize,
    pub id: u32,
    /// The table's number of the final state.
    pub outcome: u8,
    pub error: u8,
}

impl Reference {
    pub fn open(&self, state: &mut State, session: usize) -> Result<(), Refusal> {
        let entry = state.entries.get(session).ok_or(Refusal::NoSuchSession)?;
        if *entry != Entry::Closed {
            return Err(Refusal::WrongEntry);
        }
        state.enter(session, Entry::Open);
        Ok(())
    }

    /// A receipt that was outstanding is owed again.
    pub fn close(&self, state: &mut State, session: usize) -> Result<(), Refusal> {
        let receipt = *state.receipts.get(session).ok_or(Refusal::NoSuchSession)?;
        state.enter(session, Entry::Closed);
        if self.errs(Fault::CloseKeepsReceipt) {
            state.receipts[session] = receipt;
        }
        Ok(())
    }

    pub fn outcome(
        &self,
        lent: Lent<'_>,
        state: &State,
        stamp: &[u8],
        report: Report,
    ) -> Result<(), Refusal> {
        let records = lent.records()?;
        let stamp = sound_stamp(stamp)?;
        if report.account >= ACCOUNTS {
            return Err(Refusal::NoSuchAccount);
        }
        if !matches!(report.outcome, DELIVERED | EXPIRED | UNDELIVERABLE) {
            return Err(Refusal::NoSuchOutcome);
        }
        check_account(records.book, records.places, state, report.account)?;
        let places = part_mut(records.places, report.account);
        let at = waiting_with_id(places, report.id).ok_or(Refusal::NoSuchMessage)?;
        message::finish(&mut places[at], report.outcome, report.error, stamp);
        if self.errs(Fault::UnregisteredMarked) {
            places[at][layout::MARK] = 1;
        }
        Ok(())
    }

    /// The octet of the table at which the message to be sent next starts.
    pub fn pick(
        &self,
        book: &[u8],
        table: &[u8],
        state: &State,
        account: usize,
    ) -> Result<usize, Refusal> {
        let (book, places) = View::new(book, table).records()?;
        if account >= ACCOUNTS {
            return Err(Refusal::NoSuchAccount);
        }
        check_account(book, places, state, account)?;
        let place = next_to_send(part(places, account)).ok_or(Refusal::NothingWaiting)?;
        Ok(PART * account + PLACE * place)
    }
}
