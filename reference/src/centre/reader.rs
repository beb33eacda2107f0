//! Reads the fields of a body from left to right.

use super::party::Party;
use super::status::Status;
use super::text::{is_address, is_ascii, is_time, message_id, STAMP};

/// The octets of a body that no field has taken yet.
pub struct Reader<'a> {
    rest: &'a [u8],
}

impl<'a> Reader<'a> {
    pub fn new(body: &'a [u8]) -> Self {
        Reader { rest: body }
    }

    /// Exactly so many octets; the body must not end among them.
    pub fn octets(&mut self, count: usize) -> Result<&'a [u8], Status> {
        let (taken, rest) = self
            .rest
            .split_at_checked(count)
            .ok_or(Status::CommandLength)?;
        self.rest = rest;
        Ok(taken)
    }

    /// A one-octet field that takes any value.
    pub fn octet(&mut self) -> Result<u8, Status> {
        Ok(self.octets(1)?[0])
    }

    /// A one-octet field with a highest value.
    pub fn octet_up_to(&mut self, highest: u8, status: Status) -> Result<u8, Status> {
        let octet = self.octet()?;
        if octet > highest {
            return Err(status);
        }
        Ok(octet)
    }

    /// A text of at most `room` octets, its NUL among them. A body that ends too early comes
    /// before a text without an end: the sender may have been about to end it.
    fn text(&mut self, room: usize, status: Status) -> Result<&'a [u8], Status> {
        let window = &self.rest[..room.min(self.rest.len())];
        match window.iter().position(|&octet| octet == 0) {
            Some(end) => Ok(&self.octets(end + 1)?[..end]),
            None if window.len() < room => Err(Status::CommandLength),
            None => Err(status),
        }
    }

    /// A name, password, service type or range.
    pub fn name(&mut self, room: usize) -> Result<&'a [u8], Status> {
        let text = self.text(room, Status::Parameter)?;
        is_ascii(text).then_some(text).ok_or(Status::Parameter)
    }

    /// Ton, npi and address.
    pub fn party(&mut self, status: Status) -> Result<Party<'a>, Status> {
        let ton = self.octet()?;
        let npi = self.octet()?;
        let address = self.text(21, status)?;
        if !is_address(address) {
            return Err(status);
        }
        Ok(Party { ton, npi, address })
    }

    /// A message id; none where the text is empty.
    pub fn message_id(&mut self) -> Result<Option<u32>, Status> {
        let text = self.text(9, Status::MessageId)?;
        if text.is_empty() {
            return Ok(None);
        }
        message_id(text).map(Some).ok_or(Status::MessageId)
    }

    /// A time; empty where there is one NUL in its place. A time has one length only, so a
    /// NUL further on doesn't end it early.
    pub fn time(&mut self) -> Result<&'a [u8], Status> {
        if self.rest.first() == Some(&0) {
            self.octet()?;
            return Ok(&[]);
        }
        let (time, nul) = self.octets(STAMP + 1)?.split_at(STAMP);
        if !is_time(time) || nul != [0] {
            return Err(Status::Parameter);
        }
        Ok(time)
    }

    /// All fields are read: nothing may be left over.
    pub fn end(self) -> Result<(), Status> {
        if self.rest.is_empty() {
            Ok(())
        } else {
            Err(Status::CommandLength)
        }
    }
}
