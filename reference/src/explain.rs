//! Says in words what the printing program printed, and what a request asks for.

mod request;

pub use request::request;

use crate::centre::{command, is_time, Refusal, DONE};
use crate::hex;

/// Explains one printed line.
pub fn line(line: &str) -> Result<String, String> {
    if line == "bad record" {
        return Ok("bad record: the program could not read this record and stopped".to_string());
    }
    let mut parts = line.split(' ');
    let (Some(number), Some(consumed), Some(reply), None) =
        (parts.next(), parts.next(), parts.next(), parts.next())
    else {
        return Err("expected an answer, a count and a reply, or \"bad record\"".to_string());
    };
    let number = number
        .parse()
        .ok()
        .filter(|&number: &u8| number == DONE || Refusal::of_number(number).is_some())
        .ok_or_else(|| format!("expected the number that a call answers, found \"{number}\""))?;
    let consumed: usize = consumed
        .parse()
        .map_err(|_| format!("expected a count of octets, found \"{consumed}\""))?;
    Ok(format!(
        "{}{}{}",
        answer_words(number),
        consumed_words(consumed),
        reply_words(reply)?
    ))
}

fn answer_words(number: u8) -> String {
    match Refusal::of_number(number) {
        None => format!("done ({DONE})"),
        Some(refusal) => format!("refused: {refusal}"),
    }
}

fn consumed_words(consumed: usize) -> String {
    match consumed {
        0 => String::new(),
        count => format!("; {count} octets taken"),
    }
}

fn reply_words(printed: &str) -> Result<String, String> {
    if printed == "-" {
        return Ok("; no reply".to_string());
    }
    let octets = hex::octets(printed)
        .map_err(|error| format!("expected a reply in hex or \"-\": {error}"))?;
    let what = match Header::of(&octets) {
        Some(header) if header.command == command::DELIVER_SM => "to send",
        _ => "reply",
    };
    Ok(format!("; {what}: {}", reply(&octets)?))
}

/// Explains a reply of the centre, or the one request that it sends.
pub fn reply(octets: &[u8]) -> Result<String, String> {
    let header = Header::of(octets).ok_or_else(|| {
        format!(
            "expected a reply of at least 16 octets, found {}",
            octets.len()
        )
    })?;
    if header.length as usize != octets.len() {
        return Err(format!(
            "expected a reply of {} octets, as its length says, found {}",
            header.length,
            octets.len()
        ));
    }
    if header.command == command::DELIVER_SM {
        return Ok(request::in_words(&header, octets));
    }
    let name = command_name(header.command).ok_or_else(|| {
        format!(
            "expected a reply's command id, found {:08X}",
            header.command
        )
    })?;
    let body = body_words(header.command, &octets[16..])?;
    Ok(format!(
        "{name}, sequence {}, status {} ({}){body}",
        header.sequence,
        header.status,
        status_name(header.status)
    ))
}

/// The four words at the front of every PDU.
pub struct Header {
    pub length: u32,
    pub command: u32,
    pub status: u32,
    pub sequence: u32,
}

impl Header {
    pub fn of(octets: &[u8]) -> Option<Header> {
        let (words, _) = octets.get(..16)?.as_chunks::<4>();
        Some(Header {
            length: u32::from_be_bytes(words[0]),
            command: u32::from_be_bytes(words[1]),
            status: u32::from_be_bytes(words[2]),
            sequence: u32::from_be_bytes(words[3]),
        })
    }
}

pub fn command_name(id: u32) -> Option<&'static str> {
    const RESPONSE: u32 = command::RESPONSE;
    Some(match id {
        command::BIND_RECEIVER => "bind_receiver",
        command::BIND_TRANSMITTER => "bind_transmitter",
        command::QUERY_SM => "query_sm",
        command::SUBMIT_SM => "submit_sm",
        command::DELIVER_SM => "deliver_sm",
        command::UNBIND => "unbind",
        command::REPLACE_SM => "replace_sm",
        command::CANCEL_SM => "cancel_sm",
        command::ENQUIRE_LINK => "enquire_link",
        command::GENERIC_NAK => "generic_nak",
        id if id > RESPONSE => match id - RESPONSE {
            command::BIND_RECEIVER => "bind_receiver_resp",
            command::BIND_TRANSMITTER => "bind_transmitter_resp",
            command::QUERY_SM => "query_sm_resp",
            command::SUBMIT_SM => "submit_sm_resp",
            command::DELIVER_SM => "deliver_sm_resp",
            command::UNBIND => "unbind_resp",
            command::REPLACE_SM => "replace_sm_resp",
            command::CANCEL_SM => "cancel_sm_resp",
            command::ENQUIRE_LINK => "enquire_link_resp",
            _ => return None,
        },
        _ => return None,
    })
}

/// SMPP v3.3's name of a status, and its meaning.
pub fn status_name(status: u32) -> &'static str {
    match status {
        0 => "ESME_ROK, accepted",
        1 => "ESME_RINVMSGLEN, invalid message length",
        2 => "ESME_RINVCMDLEN, invalid command length",
        3 => "ESME_RINVCMDID, invalid command id",
        4 => "ESME_RINVBNDSTS, invalid bind status",
        5 => "ESME_RALYBND, already bound",
        6 => "ESME_RINVPRTFLG, invalid priority flag",
        7 => "ESME_RINVREGDLVFLG, invalid registered-delivery flag",
        8 => "ESME_RSYSERR, system error",
        9 => "ESME_RINVPAR, invalid parameter",
        10 => "ESME_RINVSRCADR, invalid source address",
        11 => "ESME_RINVDSTADR, invalid destination address",
        12 => "ESME_RINVMSGID, invalid message id",
        13 => "ESME_RINVPASWD, invalid password",
        17 => "ESME_RCNTCANMSG, cannot cancel a message",
        19 => "ESME_RCNTREPMSG, cannot replace a message",
        20 => "ESME_RMSGQFUL, too many messages in queue",
        _ => "a status that this centre doesn't give",
    }
}

/// A message's state as the table has it, and receipts.
pub fn stored_state_name(state: u8) -> &'static str {
    match state {
        1 => "waiting",
        2 => "delivered",
        3 => "expired",
        4 => "deleted",
        5 => "undeliverable",
        _ => "in no state that a message has",
    }
}

/// SMPP v3.3's name of a message state on the wire.
pub fn state_name(wire_state: u8) -> &'static str {
    match wire_state {
        0 => "EN_ROUTE",
        1 => "DELIVERED",
        2 => "EXPIRED",
        3 => "DELETED",
        4 => "UNDELIVERABLE",
        _ => "a state that this centre doesn't give",
    }
}

fn body_words(command_id: u32, body: &[u8]) -> Result<String, String> {
    match command_id ^ command::RESPONSE {
        command::BIND_RECEIVER | command::BIND_TRANSMITTER => bind_words(body),
        command::SUBMIT_SM => submit_words(body),
        command::QUERY_SM => query_words(body),
        _ if body.is_empty() => Ok(String::new()),
        _ => Err(format!("expected no body, found {} octets", body.len())),
    }
}

fn bind_words(body: &[u8]) -> Result<String, String> {
    match cut_text(body) {
        Some((name, [])) => Ok(format!(", from \"{}\"", name.escape_ascii())),
        _ => Err("expected the centre's name and a NUL".to_string()),
    }
}

fn submit_words(body: &[u8]) -> Result<String, String> {
    match cut_text(body) {
        Some((b"", [])) => Ok(", no id".to_string()),
        Some((id, [])) => Ok(format!(", id {}", id.escape_ascii())),
        _ => Err("expected a message id and a NUL".to_string()),
    }
}

fn query_words(body: &[u8]) -> Result<String, String> {
    let expected = || "expected an id, a final date, a state and an error code".to_string();
    let (id, rest) = cut_text(body).ok_or_else(expected)?;
    let (date, rest) = cut_text(rest).ok_or_else(expected)?;
    let &[state, error] = rest else {
        return Err(expected());
    };
    if id.is_empty() {
        return Ok(", nothing told".to_string());
    }
    Ok(format!(
        ", id {}, state {} ({state}), {}, error code {error}",
        id.escape_ascii(),
        state_name(state),
        date_words(date)
    ))
}

fn date_words(date: &[u8]) -> String {
    if date.is_empty() {
        return "no final date".to_string();
    }
    format!("final date {}", time_words(date))
}

/// A time in a form that people read. The century isn't known.
pub fn time_words(time: &[u8]) -> String {
    if !is_time(time) {
        return format!("\"{}\"", time.escape_ascii());
    }
    let text = String::from_utf8_lossy(time);
    let quarters = 10 * (time[13] - b'0') + time[14] - b'0';
    format!(
        "{}-{}-{} {}:{}:{}.{} UTC{}{:02}:{:02}",
        &text[0..2],
        &text[2..4],
        &text[4..6],
        &text[6..8],
        &text[8..10],
        &text[10..12],
        &text[12..13],
        &text[15..16],
        quarters / 4,
        quarters % 4 * 15
    )
}

fn cut_text(octets: &[u8]) -> Option<(&[u8], &[u8])> {
    let end = octets.iter().position(|&octet| octet == 0)?;
    Some((&octets[..end], &octets[end + 1..]))
}
