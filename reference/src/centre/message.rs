//! One record of the table: a message, or an empty place.

use super::party::Party;
use super::request::{ShortMessage, Submit};
use super::text::{is_address, is_ascii, is_time, is_zero, stored, up_to_zero, STAMP};

/// The size of a place.
pub const PLACE: usize = 256;

/// The octets of one place.
pub type Place = [u8; PLACE];

/// Where each part of a record stands.
pub mod layout {
    use std::ops::Range;

    pub const STATE: usize = 0;
    pub const ID: Range<usize> = 1..5;
    /// Ton, npi and address.
    pub const SOURCE: Range<usize> = 5..27;
    /// Ton, npi and address.
    pub const DESTINATION: Range<usize> = 27..49;
    pub const SERVICE_TYPE: Range<usize> = 49..54;
    pub const ESM_CLASS: usize = 54;
    pub const PROTOCOL_ID: usize = 55;
    pub const PRIORITY: usize = 56;
    pub const SCHEDULE: Range<usize> = 57..73;
    pub const VALIDITY: Range<usize> = 73..89;
    pub const REGISTERED: usize = 89;
    pub const DATA_CODING: usize = 90;
    pub const DEFAULT_ID: usize = 91;
    pub const LENGTH: usize = 92;
    pub const TEXT: Range<usize> = 93..233;
    pub const FINAL_DATE: Range<usize> = 233..249;
    pub const ERROR: usize = 249;
    /// 1 where a receipt is owed.
    pub const MARK: usize = 250;
    pub const SPARE: Range<usize> = 251..256;
}

pub const EMPTY: u8 = 0;
pub const WAITING: u8 = 1;
pub const DELIVERED: u8 = 2;
pub const EXPIRED: u8 = 3;
pub const DELETED: u8 = 4;
pub const UNDELIVERABLE: u8 = 5;

/// The longest short message that is stored.
pub const LONGEST_TEXT: u8 = 140;
/// The highest default message id.
pub const HIGHEST_DEFAULT: u8 = 100;

/// A place, to be read.
#[derive(Clone, Copy)]
pub struct Message<'a>(pub &'a Place);

impl<'a> Message<'a> {
    pub fn state(self) -> u8 {
        self.0[layout::STATE]
    }

    pub fn id(self) -> u32 {
        let [_, a, b, c, d, ..] = *self.0;
        u32::from_be_bytes([a, b, c, d])
    }

    pub fn source(self) -> Party<'a> {
        party(&self.0[layout::SOURCE])
    }

    pub fn destination(self) -> Party<'a> {
        party(&self.0[layout::DESTINATION])
    }

    pub fn priority(self) -> u8 {
        self.0[layout::PRIORITY]
    }

    /// The final date, or an empty text while there is none.
    pub fn final_date(self) -> &'a [u8] {
        up_to_zero(&self.0[layout::FINAL_DATE])
    }

    pub fn error(self) -> u8 {
        self.0[layout::ERROR]
    }

    pub fn is_empty(self) -> bool {
        self.state() == EMPTY
    }

    pub fn is_waiting(self) -> bool {
        self.state() == WAITING
    }

    pub fn is_finished(self) -> bool {
        (DELIVERED..=UNDELIVERABLE).contains(&self.state())
    }

    pub fn is_registered(self) -> bool {
        self.0[layout::REGISTERED] == 1
    }

    /// Whether a receipt is owed that nobody has acknowledged.
    pub fn is_marked(self) -> bool {
        self.0[layout::MARK] == 1
    }

    pub fn is_well_formed(self, last: u32) -> bool {
        if self.is_empty() {
            return is_zero(self.0);
        }
        (self.is_waiting() || self.is_finished())
            && (1..=last).contains(&self.id())
            && is_stored_party(&self.0[layout::SOURCE])
            && is_stored_party(&self.0[layout::DESTINATION])
            && self.has_sound_options()
            && self.has_sound_text()
            && self.has_sound_ending()
            && self.has_sound_mark()
            && is_zero(&self.0[layout::SPARE])
    }

    fn has_sound_options(self) -> bool {
        stored(&self.0[layout::SERVICE_TYPE]).is_some_and(is_ascii)
            && self.priority() <= 1
            && is_stored_time(&self.0[layout::SCHEDULE])
            && is_stored_time(&self.0[layout::VALIDITY])
            && self.0[layout::REGISTERED] <= 1
            && self.0[layout::DEFAULT_ID] <= HIGHEST_DEFAULT
    }

    /// The submission rules for length and default id, and zeros behind the text.
    fn has_sound_text(self) -> bool {
        let length = self.0[layout::LENGTH];
        length <= LONGEST_TEXT
            && (length == 0 || self.0[layout::DEFAULT_ID] == 0)
            && is_zero(&self.0[layout::TEXT][usize::from(length)..])
    }

    /// A final date exactly when the message is finished, and an error code only where
    /// something can have gone wrong.
    fn has_sound_ending(self) -> bool {
        let date = &self.0[layout::FINAL_DATE];
        let dated = if self.is_waiting() {
            is_zero(date)
        } else {
            is_time(date)
        };
        dated && (!matches!(self.state(), WAITING | DELETED) || self.error() == 0)
    }

    /// A receipt can be owed only for what was registered and is finished.
    fn has_sound_mark(self) -> bool {
        match self.0[layout::MARK] {
            0 => true,
            1 => self.is_registered() && self.is_finished(),
            _ => false,
        }
    }
}

fn party(field: &[u8]) -> Party<'_> {
    Party {
        ton: field[0],
        npi: field[1],
        address: up_to_zero(&field[2..]),
    }
}

fn is_stored_party(field: &[u8]) -> bool {
    stored(&field[2..]).is_some_and(|address| !address.is_empty() && is_address(address))
}

fn is_stored_time(field: &[u8]) -> bool {
    is_zero(field) || is_time(field)
}

/// A new waiting record, every octet of it.
pub fn waiting(id: u32, source: Party<'_>, submit: &Submit<'_>) -> Place {
    let mut place = [0; PLACE];
    place[layout::STATE] = WAITING;
    place[layout::ID].copy_from_slice(&id.to_be_bytes());
    put_party(&mut place[layout::SOURCE], source);
    put_party(&mut place[layout::DESTINATION], submit.destination);
    put_text(&mut place[layout::SERVICE_TYPE], submit.service_type);
    place[layout::ESM_CLASS] = submit.esm_class;
    place[layout::PROTOCOL_ID] = submit.protocol_id;
    place[layout::PRIORITY] = submit.priority;
    put_text(&mut place[layout::SCHEDULE], submit.schedule);
    put_text(&mut place[layout::VALIDITY], submit.validity);
    place[layout::REGISTERED] = submit.registered;
    place[layout::DATA_CODING] = submit.data_coding;
    put_message(&mut place, submit.message);
    place
}

/// Gives a record a new default id, length and text, and zeros behind the text.
pub fn put_message(place: &mut Place, message: ShortMessage<'_>) {
    put_text(&mut place[layout::TEXT], message.text);
    put_message_leaving_rest(place, message);
}

/// The same without the zeros: for the fault of that name only.
pub fn put_message_leaving_rest(place: &mut Place, message: ShortMessage<'_>) {
    let length = message.text.len();
    place[layout::DEFAULT_ID] = message.default_id;
    place[layout::LENGTH] = length as u8;
    place[layout::TEXT][..length].copy_from_slice(message.text);
}

/// Non-empty times replace the stored ones.
pub fn put_times(place: &mut Place, schedule: &[u8], validity: &[u8]) {
    for (field, time) in [(layout::SCHEDULE, schedule), (layout::VALIDITY, validity)] {
        if !time.is_empty() {
            put_text(&mut place[field], time);
        }
    }
}

/// Brings a message to its final state. From then on a receipt is owed for a registered one.
pub fn finish(place: &mut Place, state: u8, error: u8, stamp: &[u8; STAMP]) {
    place[layout::STATE] = state;
    place[layout::ERROR] = error;
    place[layout::FINAL_DATE].copy_from_slice(stamp);
    place[layout::MARK] = u8::from(Message(place).is_registered());
}

/// The receipt was acknowledged.
pub fn clear_mark(place: &mut Place) {
    place[layout::MARK] = 0;
}

fn put_party(field: &mut [u8], party: Party<'_>) {
    field[0] = party.ton;
    field[1] = party.npi;
    put_text(&mut field[2..], party.address);
}

/// Writes a text and zeros behind it.
fn put_text(field: &mut [u8], text: &[u8]) {
    let (used, unused) = field.split_at_mut(text.len());
    used.copy_from_slice(text);
    unused.fill(0);
}
