//! Taking octets: at most one PDU, from its frame to its reply.

use super::account::{with_id, Account, Report};
use super::book::{BookRecord, BOOK_RECORD};
use super::command::{self, RESPONSE};
use super::fault::Fault;
use super::message::{clear_mark, Place};
use super::refusal::Refusal;
use super::reply::{Body, Reply, LONGEST_REPLY};
use super::request::{read_nothing, Bind, Cancel, Query, Replace, Submit};
use super::same::Same;
use super::state::{Entry, State, ACCOUNTS};
use super::status::Status;
use super::text::{is_time, STAMP};
use super::{check_account, part_mut, Lent, Records, Reference};

/// The longest PDU that is read.
pub const LONGEST_PDU: usize = 512;

const HEADER: usize = 16;
const LENGTH_FIELD: usize = 4;

/// How far a call came.
#[derive(Clone, Copy, Debug, PartialEq, Eq)]
pub struct Taken {
    pub consumed: usize,
    pub written: usize,
}

impl Reference {
    pub fn take(
        &self,
        lent: Lent<'_>,
        state: &mut State,
        session: usize,
        octets: &[u8],
        stamp: &[u8],
        space: &mut [u8],
    ) -> Result<Taken, Refusal> {
        let entry = *state.entries.get(session).ok_or(Refusal::NoSuchSession)?;
        let records = lent.records()?;
        if space.len() < LONGEST_REPLY {
            return Err(Refusal::SpaceTooSmall);
        }
        let stamp = sound_stamp(stamp)?;
        if !entry.is_live() {
            return Err(Refusal::WrongEntry);
        }
        self.check_bound_account(records.book, records.places, state, entry)?;
        let mut desk = Desk {
            records,
            state,
            session,
            stamp,
            fault: self.fault,
        };
        Ok(match frame(octets)? {
            Frame::BadLength => desk.end_session(space),
            Frame::Pdu(pdu) => desk.take(&pdu, space),
        })
    }

    /// An unbound session concerns no account; a bound one concerns its own only.
    pub(super) fn check_bound_account(
        &self,
        book: &[[u8; BOOK_RECORD]],
        places: &[Place],
        state: &State,
        entry: Entry,
    ) -> Result<(), Refusal> {
        let Some(account) = entry.account() else {
            return Ok(());
        };
        let account = usize::from(account);
        if account >= ACCOUNTS {
            return Err(Refusal::AccountIllFormed);
        }
        check_account(book, places, state, account)?;
        if self.errs(Fault::NeighbourRaisesNine) {
            for neighbour in 0..ACCOUNTS {
                if BookRecord(&book[neighbour]).is_used() {
                    check_account(book, places, state, neighbour)?;
                }
            }
        }
        Ok(())
    }
}

/// The call's stamp is a time and never empty.
pub(super) fn sound_stamp(stamp: &[u8]) -> Result<&[u8; STAMP], Refusal> {
    stamp
        .try_into()
        .ok()
        .filter(|stamp: &&[u8; STAMP]| is_time(&stamp[..]))
        .ok_or(Refusal::StampIllFormed)
}

enum Frame<'a> {
    BadLength,
    Pdu(Pdu<'a>),
}

struct Pdu<'a> {
    length: usize,
    command: u32,
    /// Only an answer to a receipt has one that is looked at.
    status: u32,
    sequence: u32,
    body: &'a [u8],
}

/// Finds the first PDU among the octets.
fn frame(octets: &[u8]) -> Result<Frame<'_>, Refusal> {
    let length = word(octets, 0).ok_or(Refusal::MoreNeeded)? as usize;
    if !(HEADER..=LONGEST_PDU).contains(&length) {
        return Ok(Frame::BadLength);
    }
    let pdu = octets.get(..length).ok_or(Refusal::MoreNeeded)?;
    let header_word = |at| word(pdu, at).expect("a PDU has a whole header");
    Ok(Frame::Pdu(Pdu {
        length,
        command: header_word(4),
        status: header_word(8),
        sequence: header_word(12),
        body: &pdu[HEADER..],
    }))
}

/// The four octets at this point as a number, most significant first.
fn word(octets: &[u8], at: usize) -> Option<u32> {
    let octets = octets.get(at..at + 4)?;
    octets.try_into().ok().map(u32::from_be_bytes)
}

/// Everything that one PDU of one live session may touch.
struct Desk<'a> {
    records: Records<'a>,
    state: &'a mut State,
    session: usize,
    stamp: &'a [u8; STAMP],
    fault: Option<Fault>,
}

impl Desk<'_> {
    /// Nobody knows where the next PDU starts, so this is the session's end.
    fn end_session(&mut self, space: &mut [u8]) -> Taken {
        self.state.enter(self.session, Entry::Ended);
        Taken {
            consumed: LENGTH_FIELD,
            written: Reply::generic_nak(Status::CommandLength, 0).write(space),
        }
    }

    fn take(&mut self, pdu: &Pdu<'_>, space: &mut [u8]) -> Taken {
        Taken {
            consumed: pdu.length,
            written: self.answer(pdu).map_or(0, |reply| reply.write(space)),
        }
    }

    /// Carries a PDU out and says what is to be replied; nothing, where it was a response.
    fn answer(&mut self, pdu: &Pdu<'_>) -> Option<Reply<'_>> {
        let (command, sequence, body) = (pdu.command, pdu.sequence, pdu.body);
        if command == command::DELIVER_SM_RESP {
            self.settle(pdu);
        }
        let (status, reply_body) = match command {
            command::BIND_RECEIVER => (self.bind(body, Entry::Receiver), Body::SystemId),
            command::BIND_TRANSMITTER => (self.bind(body, Entry::Transmitter), Body::SystemId),
            command::QUERY_SM => with_body(self.query(body), Body::Report),
            command::SUBMIT_SM => with_body(self.submit(body), Body::MessageId),
            command::UNBIND => (status_of(self.unbind(body)), Body::Nothing),
            command::REPLACE_SM => (status_of(self.replace(body)), Body::Nothing),
            command::CANCEL_SM => (status_of(self.cancel(body)), Body::Nothing),
            command::ENQUIRE_LINK => (status_of(read_nothing(body)), Body::Nothing),
            RESPONSE.. if !self.errs(Fault::ReplyToResponse) => return None,
            _ => return Some(Reply::generic_nak(Status::CommandId, sequence)),
        };
        Some(Reply::new(command, status, sequence, reply_body))
    }

    fn entry(&self) -> Entry {
        self.state.entries[self.session]
    }

    /// The answer to the receipt that this receiver was sent: it is told, or it is owed again.
    /// With another sequence number it is an answer to nothing.
    fn settle(&mut self, pdu: &Pdu<'_>) {
        let Some(receipt) = self.state.receipts[self.session] else {
            return;
        };
        if receipt.sequence != pdu.sequence && !self.errs(Fault::AnySequenceClears) {
            return;
        }
        self.state.receipts[self.session] = None;
        if pdu.status == Status::Accepted.code() || self.errs(Fault::AnyStatusClears) {
            self.acknowledge(receipt.id);
        }
    }

    /// The message may be gone: the caller keeps the table.
    fn acknowledge(&mut self, id: u32) {
        let Entry::Receiver(account) = self.entry() else {
            return;
        };
        let places = part_mut(self.records.places, usize::from(account));
        if let Some(at) = with_id(places, id) {
            clear_mark(&mut places[at]);
        }
    }

    fn errs(&self, fault: Fault) -> bool {
        self.fault == Some(fault)
    }

    fn bind(&mut self, body: &[u8], role: fn(u8) -> Entry) -> Status {
        status_of(self.try_bind(body, role))
    }

    fn try_bind(&mut self, body: &[u8], role: fn(u8) -> Entry) -> Result<(), Status> {
        if self.entry() != Entry::Open {
            return Err(Status::AlreadyBound);
        }
        let bind = Bind::read(body)?;
        let account = self.account_to_bind(&bind).ok_or(Status::Password)?;
        self.state.enter(self.session, role(account));
        Ok(())
    }

    /// Only the lowest record with that name and type counts, even if its password is wrong
    /// and a higher one's would be right.
    fn account_to_bind(&self, bind: &Bind<'_>) -> Option<u8> {
        let same = Same::with(self.fault);
        let (account, record) = (0u8..)
            .zip(self.records.book.iter().map(BookRecord))
            .find(|(_, record)| record.is_named(same, bind.system_id, bind.system_type))?;
        same.password(bind.password, record.password())
            .then_some(account)
    }

    fn unbind(&mut self, body: &[u8]) -> Result<(), Status> {
        if self.entry().account().is_none() {
            return Err(Status::BindStatus);
        }
        read_nothing(body)?;
        self.state.enter(self.session, Entry::Ended);
        Ok(())
    }

    fn submit(&mut self, body: &[u8]) -> Result<u32, Status> {
        let mut account = self.transmitting_account()?;
        account.submit(&Submit::read(body)?)
    }

    fn query(&mut self, body: &[u8]) -> Result<Report<'_>, Status> {
        let account = self.transmitting_account()?;
        account.query(&Query::read(body)?)
    }

    fn cancel(&mut self, body: &[u8]) -> Result<(), Status> {
        let mut account = self.transmitting_account()?;
        account.cancel(&Cancel::read(body)?)
    }

    fn replace(&mut self, body: &[u8]) -> Result<(), Status> {
        let mut account = self.transmitting_account()?;
        account.replace(&Replace::read(body)?)
    }

    /// The account of a transmitter; other sessions may not touch messages.
    fn transmitting_account(&mut self) -> Result<Account<'_>, Status> {
        let Entry::Transmitter(number) = self.entry() else {
            return Err(Status::BindStatus);
        };
        let number = usize::from(number);
        Ok(Account {
            number,
            callback: BookRecord(&self.records.book[number]).callback(),
            places: part_mut(self.records.places, number),
            lasts: &mut self.state.lasts,
            stamp: self.stamp,
            fault: self.fault,
        })
    }
}

fn status_of(result: Result<(), Status>) -> Status {
    result.err().unwrap_or(Status::Accepted)
}

/// A status, and a body that has something to tell only on success.
fn with_body<T, B>(result: Result<T, Status>, body: impl Fn(Option<T>) -> B) -> (Status, B) {
    match result {
        Ok(told) => (Status::Accepted, body(Some(told))),
        Err(status) => (status, body(None)),
    }
}
