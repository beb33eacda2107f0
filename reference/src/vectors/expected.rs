//! What a call is expected to answer. Replies and receipts are laid out here as the documents
//! say, by no code of an engine.

use crate::centre::{command, PART, PLACE, PLACES, TABLE};
use crate::compare::{Answer, Step, World};
use crate::compose::{pdu, Address};
use crate::explain::Header;
use crate::hex;
use crate::script::words::{unexpected, Words};

/// The answer, and the reply that is written.
#[derive(Clone, Debug, PartialEq, Eq)]
pub struct Expected {
    pub answer: Answer,
    pub reply: Vec<u8>,
}

impl Expected {
    /// Reads what stands behind `=>`.
    pub fn read(words: Words, step: &Step) -> Result<Expected, String> {
        match step {
            Step::Pick { account, .. } => picked(words, *account),
            Step::Take(take) => taken(words, &take.octets),
            Step::Deliver(deliver) => delivered(words, deliver.sequence),
            _ => numbered(words),
        }
    }

    /// What was answered, and what stands at the front of the response space.
    pub fn found(answer: Answer, world: &World) -> Expected {
        let written = answer.written.min(world.space().len());
        Expected {
            answer,
            reply: world.space()[..written].to_vec(),
        }
    }

    fn only_number(number: u8) -> Expected {
        Expected {
            answer: Answer {
                number,
                ..Answer::default()
            },
            reply: Vec::new(),
        }
    }

    /// One PDU taken; its reply may be empty.
    fn replied(consumed: usize, reply: Vec<u8>) -> Expected {
        Expected {
            answer: Answer {
                consumed,
                written: reply.len(),
                ..Answer::default()
            },
            reply,
        }
    }

    /// The answer as it is written behind `=>`.
    pub fn words(&self, step: &Step) -> String {
        let Answer {
            number,
            consumed,
            written,
            picked,
        } = self.answer;
        match step {
            Step::Pick { .. } if picked < TABLE && picked.is_multiple_of(PLACE) => {
                let (account, place) = (picked / PART, picked / PLACE % PLACES);
                format!("{number} place {place} (of account {account})")
            }
            Step::Pick { .. } if picked == TABLE => format!("{number}"),
            Step::Pick { .. } => format!("{number} at octet {picked} of the table"),
            Step::Take(_) if consumed == 0 && written == 0 => format!("{number}"),
            Step::Take(_) if written == 0 => format!("{number} {consumed} -"),
            Step::Take(_) => format!("{number} {consumed} {}", hex::text(&self.reply)),
            Step::Deliver(_) if written > 0 => format!("{number} {}", hex::text(&self.reply)),
            _ => format!("{number}"),
        }
    }
}

const NUMBER: &str = "a number";

fn numbered(mut words: Words) -> Result<Expected, String> {
    let number = words.octet(NUMBER)?;
    words.end()?;
    Ok(Expected::only_number(number))
}

fn picked(mut words: Words, account: usize) -> Result<Expected, String> {
    let mut expected = Expected::only_number(words.octet(NUMBER)?);
    expected.answer.picked = match words.next_if("place") {
        true => PART * account + PLACE * usize::from(words.octet("a place")?),
        false => TABLE,
    };
    words.end()?;
    Ok(expected)
}

fn taken(mut words: Words, octets: &[u8]) -> Result<Expected, String> {
    let what = "a number, status, id or found";
    let first = words.word(what)?;
    if let Ok(number) = first.text().parse() {
        return in_full(number, words);
    }
    let request = whole_request(octets)?;
    let (status, body) = match first.text().as_str() {
        "status" => (words.number("a status")?, plain_body(request.command)),
        "id" => (0, id_text(words.id()?)),
        "found" => (0, found_body(&mut words)?),
        _ => return Err(unexpected(what, &first)),
    };
    words.end()?;
    Ok(Expected::replied(
        octets.len(),
        reply(&request, status, &body),
    ))
}

/// A number alone, or consumed count and reply behind it.
fn in_full(number: u8, mut words: Words) -> Result<Expected, String> {
    let Some(consumed) = words.any() else {
        return Ok(Expected::only_number(number));
    };
    let consumed = consumed
        .text()
        .parse()
        .map_err(|_| unexpected("a consumed count", &consumed))?;
    let reply = match rest(words).as_str() {
        "" => return Err("expected a reply in hex or -, found the end of the line".to_string()),
        "-" => Vec::new(),
        digits => hex::octets(digits)?,
    };
    let mut expected = Expected::replied(consumed, reply);
    expected.answer.number = number;
    Ok(expected)
}

/// All words up to the end of the line, as one.
fn rest(mut words: Words) -> String {
    let mut rest = String::new();
    while let Some(word) = words.any() {
        rest += &word.text();
    }
    rest
}

/// A number alone, a number and a deliver_sm in hex, or a receipt in short.
fn delivered(mut words: Words, sequence: u32) -> Result<Expected, String> {
    let what = "a number or receipt";
    let first = words.word(what)?;
    if first.is("receipt") {
        return receipt(words, sequence);
    }
    let number = first.text().parse();
    let number = number.map_err(|_| unexpected(what, &first))?;
    let mut expected = Expected::replied(0, hex::octets(&rest(words))?);
    expected.answer.number = number;
    Ok(expected)
}

/// `ID state N from SOURCE to DESTINATION`, both as the receipt has them.
fn receipt(mut words: Words, sequence: u32) -> Result<Expected, String> {
    let id = words.id()?;
    words.keyword("state")?;
    let state = words.octet("a state")?;
    words.keyword("from")?;
    let source = words.address("a source")?;
    words.keyword("to")?;
    let destination = words.address("a destination")?;
    words.end()?;
    let text = format!("id:{id:08X} stat:{state}").into_bytes();
    let body = [
        // service_type, and then who it is from and who it is to
        vec![0],
        address(&source),
        address(&destination),
        // esm_class, protocol id, priority
        vec![4, 0, 0],
        // schedule time, validity time
        vec![0, 0],
        // registered flag, replace flag, data coding, default id
        vec![0, 0, 0, 0],
        vec![text.len() as u8],
        text,
    ];
    let deliver_sm = pdu(5, sequence, &body.concat());
    Ok(Expected::replied(0, deliver_sm))
}

fn address(address: &Address) -> Vec<u8> {
    [&[address.ton, address.npi][..], &address.text, &[0]].concat()
}

/// The header of octets that are one whole request of the eight.
fn whole_request(octets: &[u8]) -> Result<Header, String> {
    Header::of(octets)
        .filter(|header| header.length as usize == octets.len() && is_request(header.command))
        .ok_or_else(|| {
            "expected a number, a count and a reply: the octets aren't one whole request"
                .to_string()
        })
}

fn is_request(id: u32) -> bool {
    matches!(id, 1..=4 | 6..=8 | 0x15)
}

/// The body that a reply has when the request is refused, and in most cases always.
fn plain_body(request: u32) -> Vec<u8> {
    match request {
        command::BIND_RECEIVER | command::BIND_TRANSMITTER => b"SMSC33\0".to_vec(),
        command::SUBMIT_SM => vec![0],
        command::QUERY_SM => vec![0; 4],
        _ => Vec::new(),
    }
}

fn id_text(id: u32) -> Vec<u8> {
    format!("{id:08X}\0").into_bytes()
}

/// Id, final date, wire state and error code.
fn found_body(words: &mut Words) -> Result<Vec<u8>, String> {
    let mut body = id_text(words.id()?);
    words.keyword("state")?;
    let state = words.octet("a wire state")?;
    let mut error = 0;
    if words.next_if("error") {
        error = words.octet("an error code")?;
    }
    if words.next_if("date") {
        body.extend(words.octets("a final date")?);
    }
    body.extend([0, state, error]);
    Ok(body)
}

fn reply(request: &Header, status: u32, body: &[u8]) -> Vec<u8> {
    let length = (16 + body.len()) as u32;
    let id = request.command + 0x8000_0000;
    let mut reply: Vec<u8> = [length, id, status, request.sequence]
        .into_iter()
        .flat_map(u32::to_be_bytes)
        .collect();
    reply.extend(body);
    reply
}
