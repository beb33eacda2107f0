//! Replies, as they are written into the response space.

use super::account::Report;
use super::command::{GENERIC_NAK, RESPONSE};
use super::out::{hex, write_pdu, Header, Out};
use super::status::Status;

/// A query's reply with a final date.
pub const LONGEST_REPLY: usize = 44;

/// What follows the header.
pub enum Body<'a> {
    Nothing,
    /// The centre's own name, for the binds.
    SystemId,
    /// The message's id, or none where the submission was refused.
    MessageId(Option<u32>),
    /// What is known of the message, or none where the query was refused.
    Report(Option<Report<'a>>),
}

pub struct Reply<'a> {
    command: u32,
    status: Status,
    sequence: u32,
    body: Body<'a>,
}

impl<'a> Reply<'a> {
    pub fn new(request: u32, status: Status, sequence: u32, body: Body<'a>) -> Self {
        Reply {
            command: request | RESPONSE,
            status,
            sequence,
            body,
        }
    }

    pub fn generic_nak(status: Status, sequence: u32) -> Self {
        Reply::new(GENERIC_NAK, status, sequence, Body::Nothing)
    }

    /// Writes the reply at the front of the space and tells its length.
    pub fn write(&self, space: &mut [u8]) -> usize {
        let header = Header {
            command: self.command,
            status: self.status.code(),
            sequence: self.sequence,
        };
        write_pdu(space, header, |out| write_body(out, &self.body))
    }
}

fn write_body(out: &mut Out<'_>, body: &Body<'_>) {
    match body {
        Body::Nothing => {}
        Body::SystemId => out.text(b"SMSC33"),
        Body::MessageId(Some(id)) => out.text(&hex(*id)),
        Body::MessageId(None) => out.text(b""),
        Body::Report(Some(report)) => {
            out.text(&hex(report.id));
            out.text(report.final_date);
            out.octets(&[wire_state(report.state), report.error]);
        }
        Body::Report(None) => out.octets(&[0; 4]),
    }
}

/// SMPP v3.3 lists EN_ROUTE first and counts from 0; the table counts from 1.
fn wire_state(state: u8) -> u8 {
    state - 1
}

#[cfg(test)]
mod tests {
    use super::*;

    #[test]
    fn the_longest_reply_fits_exactly() {
        let report = Report {
            id: 1,
            final_date: b"960701120000000+",
            state: 2,
            error: 9,
        };
        let reply = Reply::new(3, Status::Accepted, 1, Body::Report(Some(report)));
        assert_eq!(reply.write(&mut [0; LONGEST_REPLY]), LONGEST_REPLY);
    }
}
