//! One account: its callback, its sixteen places, its last id, and what requests do to them.

use super::book::BookRecord;
use super::fault::Fault;
use super::message::{self, layout, Message, Place};
use super::party::Party;
use super::request::{Cancel, Query, Replace, ShortMessage, Submit};
use super::same::Same;
use super::state::ACCOUNTS;
use super::status::Status;
use super::text::{without_leading_spaces, STAMP};
use std::cmp::Reverse;

/// Whether an account may be worked on at all.
pub fn is_well_formed(book: BookRecord<'_>, places: &[Place], last: u32) -> bool {
    book.is_usable()
        && places
            .iter()
            .all(|place| Message(place).is_well_formed(last))
        && ids_differ(places)
}

fn ids_differ(places: &[Place]) -> bool {
    let messages = || places.iter().map(Message).filter(|m| !m.is_empty());
    messages()
        .enumerate()
        .all(|(nth, message)| messages().take(nth).all(|other| other.id() != message.id()))
}

/// The waiting message that is sent next: priority first, then the lowest id.
pub fn next_to_send(places: &[Place]) -> Option<usize> {
    best(places, |message| {
        message
            .is_waiting()
            .then(|| (Reverse(message.priority()), message.id()))
    })
}

/// The place of the waiting message with this id.
pub fn waiting_with_id(places: &[Place], id: u32) -> Option<usize> {
    places
        .iter()
        .position(|place| Message(place).is_waiting() && Message(place).id() == id)
}

/// The place of the message with this id, in whatever state.
pub fn with_id(places: &[Place], id: u32) -> Option<usize> {
    places
        .iter()
        .position(|place| !Message(place).is_empty() && Message(place).id() == id)
}

/// The place of the marked message with the lowest id among those that may be told of.
pub fn lowest_marked(places: &[Place], may_be_told: impl Fn(u32) -> bool) -> Option<usize> {
    best(places, |message| {
        let id = message.id();
        (message.is_marked() && may_be_told(id)).then_some(id)
    })
}

/// The place whose message has the least rank among those that have one.
fn best<R: Ord>(places: &[Place], rank: impl Fn(Message<'_>) -> Option<R>) -> Option<usize> {
    let ranked = places
        .iter()
        .enumerate()
        .filter_map(|(at, place)| Some((rank(Message(place))?, at)));
    ranked.min().map(|(_, at)| at)
}

/// What a query tells.
pub struct Report<'a> {
    pub id: u32,
    pub final_date: &'a [u8],
    pub state: u8,
    pub error: u8,
}

/// A well-formed account, lent for one request.
pub struct Account<'a> {
    pub number: usize,
    pub callback: Party<'a>,
    pub places: &'a mut [Place],
    pub lasts: &'a mut [u32; ACCOUNTS],
    pub stamp: &'a [u8; STAMP],
    pub fault: Option<Fault>,
}

impl<'a> Account<'a> {
    pub fn submit(&mut self, submit: &Submit<'_>) -> Result<u32, Status> {
        if submit.destination.is_empty() {
            return Err(Status::Destination);
        }
        if submit.replace_if_present {
            if let Some(at) = self.lowest_waiting_between(submit.source, submit.destination) {
                self.put_message(at, submit.message);
                return Ok(Message(&self.places[at]).id());
            }
        }
        self.store(submit)
    }

    /// The id is issued only when a place is found.
    fn store(&mut self, submit: &Submit<'_>) -> Result<u32, Status> {
        let id = self.last().checked_add(1).ok_or(Status::System)?;
        let at = self.place_for_another().ok_or(Status::QueueFull)?;
        let mut source = if submit.source.is_empty() {
            self.callback
        } else {
            submit.source
        };
        if self.errs(Fault::StoredUnspaced) {
            source.address = without_leading_spaces(source.address);
        }
        self.places[at] = message::waiting(id, source, submit);
        self.lasts[self.number] = id;
        Ok(id)
    }

    pub fn query(self, query: &Query<'_>) -> Result<Report<'a>, Status> {
        let at = self.find(query.id)?;
        if !self.is_from(at, query.source) {
            return Err(Status::MessageId);
        }
        let places: &'a [Place] = self.places;
        let message = Message(&places[at]);
        Ok(Report {
            id: message.id(),
            final_date: message.final_date(),
            state: message.state(),
            error: message.error(),
        })
    }

    pub fn cancel(&mut self, cancel: &Cancel<'_>) -> Result<(), Status> {
        if cancel.id.is_some() {
            self.cancel_one(cancel)
        } else {
            self.cancel_all(cancel)
        }
    }

    fn cancel_one(&mut self, cancel: &Cancel<'_>) -> Result<(), Status> {
        let at = self.find(cancel.id)?;
        let message = Message(&self.places[at]);
        let elsewhere = !cancel.destination.is_empty() && !self.is_to(at, cancel.destination);
        if !message.is_waiting() || !self.is_from(at, cancel.source) || elsewhere {
            return Err(Status::CannotCancel);
        }
        self.delete(at);
        Ok(())
    }

    fn cancel_all(&mut self, cancel: &Cancel<'_>) -> Result<(), Status> {
        if cancel.destination.is_empty() {
            return Err(Status::Destination);
        }
        let mut found = false;
        for at in 0..self.places.len() {
            if self.is_waiting_between(at, cancel.source, cancel.destination) {
                self.delete(at);
                found = true;
            }
        }
        found.then_some(()).ok_or(Status::CannotCancel)
    }

    pub fn replace(&mut self, replace: &Replace<'_>) -> Result<(), Status> {
        let at = self.find(replace.id)?;
        if !Message(&self.places[at]).is_waiting() || !self.is_from(at, replace.source) {
            return Err(Status::CannotReplace);
        }
        message::put_times(&mut self.places[at], replace.schedule, replace.validity);
        self.places[at][layout::REGISTERED] = replace.registered;
        self.put_message(at, replace.message);
        Ok(())
    }

    fn delete(&mut self, at: usize) {
        message::finish(&mut self.places[at], message::DELETED, 0, self.stamp);
    }

    fn put_message(&mut self, at: usize, message: ShortMessage<'_>) {
        if self.errs(Fault::OldTextBehind) {
            message::put_message_leaving_rest(&mut self.places[at], message);
        } else {
            message::put_message(&mut self.places[at], message);
        }
    }

    /// The place of the message that a request names.
    fn find(&self, id: Option<u32>) -> Result<usize, Status> {
        id.and_then(|id| with_id(self.places, id))
            .ok_or(Status::MessageId)
    }

    /// Whether the message came from the source that a request names, or from the callback
    /// where it names none.
    fn is_from(&self, at: usize, source: Party<'_>) -> bool {
        let stored = Message(&self.places[at]).source();
        if source.is_empty() {
            self.errs(Fault::EmptySourceMatchesAny) || self.same().party(self.callback, stored)
        } else {
            self.same().party(source, stored)
        }
    }

    fn is_to(&self, at: usize, destination: Party<'_>) -> bool {
        let stored = Message(&self.places[at]).destination();
        self.same().party(destination, stored)
    }

    fn is_waiting_between(&self, at: usize, source: Party<'_>, destination: Party<'_>) -> bool {
        Message(&self.places[at]).is_waiting()
            && self.is_to(at, destination)
            && self.is_from(at, source)
    }

    fn lowest_waiting_between(&self, source: Party<'_>, destination: Party<'_>) -> Option<usize> {
        (0..self.places.len())
            .filter(|&at| self.is_waiting_between(at, source, destination))
            .min_by_key(|&at| Message(&self.places[at]).id())
    }

    /// The lowest empty place, else the one of the oldest finished message that no receipt is
    /// owed for.
    fn place_for_another(&self) -> Option<usize> {
        let empty = || {
            self.places
                .iter()
                .position(|place| Message(place).is_empty())
        };
        let told = |m: Message<'_>| !m.is_marked() || self.errs(Fault::MarkedOverwritten);
        let finished = || {
            best(self.places, |m| {
                (m.is_finished() && told(m)).then(|| m.id())
            })
        };
        if self.errs(Fault::FullTooEarly) {
            empty()
        } else if self.errs(Fault::ReuseOfWaiting) {
            empty().or_else(|| best(self.places, |m| Some(m.id())))
        } else {
            empty().or_else(finished)
        }
    }

    fn last(&self) -> u32 {
        if self.errs(Fault::OneCounter) {
            self.lasts.iter().copied().fold(0, u32::max)
        } else {
            self.lasts[self.number]
        }
    }

    fn same(&self) -> Same {
        Same::with(self.fault)
    }

    fn errs(&self, fault: Fault) -> bool {
        self.fault == Some(fault)
    }
}
