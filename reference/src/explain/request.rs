//! Says in words what a request asks for, as far as its fields can be read.

use super::{command_name, status_name, stored_state_name, time_words, Header};
use crate::centre::command;

/// How a field is laid out, which is all that is needed to put it into words. Whether its
/// value is allowed is the centre's business.
#[derive(Clone, Copy)]
enum Field {
    Octet(&'static str),
    Text(&'static str),
    Time(&'static str),
    /// Ton, npi and address.
    Party(&'static str),
    /// sm_length and the text behind it.
    ShortMessage,
}

use Field::{Octet, Party, ShortMessage, Text, Time};

const BIND: &[Field] = &[
    Text("system_id"),
    Text("password"),
    Text("system_type"),
    Octet("interface_version"),
    Party("range"),
];

const QUERY: &[Field] = &[Text("id"), Party("source")];

/// deliver_sm has these too.
const SUBMIT: &[Field] = &[
    Text("service_type"),
    Party("source"),
    Party("destination"),
    Octet("esm_class"),
    Octet("protocol_id"),
    Octet("priority"),
    Time("schedule"),
    Time("validity"),
    Octet("registered"),
    Octet("replace_if_present"),
    Octet("data_coding"),
    Octet("default_id"),
    ShortMessage,
];

const CANCEL: &[Field] = &[
    Text("service_type"),
    Text("id"),
    Party("source"),
    Party("destination"),
];

const REPLACE: &[Field] = &[
    Text("id"),
    Party("source"),
    Time("schedule"),
    Time("validity"),
    Octet("registered"),
    Octet("default_id"),
    ShortMessage,
];

/// The first PDU among the octets in words; none where there isn't even a header.
pub fn request(octets: &[u8]) -> Option<String> {
    let header = Header::of(octets)?;
    Some(in_words(&header, octets))
}

/// The PDU that begins with this header.
pub fn in_words(header: &Header, octets: &[u8]) -> String {
    let name = command_name(header.command).unwrap_or("unknown command");
    let mut words = format!("{name}, sequence {}", header.sequence);
    if header.command == command::DELIVER_SM_RESP {
        let status = header.status;
        words += &format!(", status {status} ({})", status_name(status));
    }
    let Some(fields) = fields(header.command) else {
        return words;
    };
    let end = octets.len().min(header.length as usize).max(16);
    let body = &octets[16..end];
    words += &fields_words(fields, body);
    if header.command == command::DELIVER_SM {
        words += &receipt_words(body);
    }
    words
}

/// Each field in turn, as far as the body goes.
fn fields_words(fields: &[Field], body: &[u8]) -> String {
    let mut words = String::new();
    let mut rest = body;
    for field in fields {
        let Some((said, behind)) = field.say(rest) else {
            words += ", and then it ends early";
            return words;
        };
        words += ", ";
        words += &said;
        rest = behind;
    }
    if !rest.is_empty() {
        words += &format!(", {} octets left over", rest.len());
    }
    words
}

/// What a receipt's text tells; nothing where the body doesn't end in one.
fn receipt_words(body: &[u8]) -> String {
    let told = body.last_chunk::<18>().and_then(|text| {
        let rest = text.strip_prefix(b"id:")?;
        let (id, rest) = rest.split_at(8);
        let digit = rest.strip_prefix(b" stat:")?.first()?;
        Some((id, digit.wrapping_sub(b'0')))
    });
    match told {
        None => String::new(),
        Some((id, state)) => format!(
            ": message {} is {}",
            id.escape_ascii(),
            stored_state_name(state)
        ),
    }
}

/// The fields of a request; none for responses, of which no body is read, and unknown commands.
fn fields(command: u32) -> Option<&'static [Field]> {
    match command {
        command::BIND_RECEIVER | command::BIND_TRANSMITTER => Some(BIND),
        command::QUERY_SM => Some(QUERY),
        command::SUBMIT_SM | command::DELIVER_SM => Some(SUBMIT),
        command::CANCEL_SM => Some(CANCEL),
        command::REPLACE_SM => Some(REPLACE),
        command::UNBIND | command::ENQUIRE_LINK => Some(&[]),
        _ => None,
    }
}

impl Field {
    /// The field in words, and the octets behind it.
    fn say(self, rest: &[u8]) -> Option<(String, &[u8])> {
        match self {
            Octet(name) => {
                let (octet, behind) = rest.split_first()?;
                Some((format!("{name} {octet}"), behind))
            }
            Text(name) => {
                let (text, behind) = super::cut_text(rest)?;
                Some((format!("{name} \"{}\"", text.escape_ascii()), behind))
            }
            Time(name) => {
                let (text, behind) = super::cut_text(rest)?;
                let said = if text.is_empty() {
                    "none".to_string()
                } else {
                    time_words(text)
                };
                Some((format!("{name} {said}"), behind))
            }
            Party(name) => {
                let (numbers, behind) = rest.split_at_checked(2)?;
                let (text, behind) = super::cut_text(behind)?;
                let (ton, npi) = (numbers[0], numbers[1]);
                let address = text.escape_ascii();
                Some((format!("{name} {ton}/{npi}/\"{address}\""), behind))
            }
            ShortMessage => {
                let (length, behind) = rest.split_first()?;
                let (text, behind) = behind.split_at_checked(usize::from(*length))?;
                Some((format!("text \"{}\"", text.escape_ascii()), behind))
            }
        }
    }
}

#[cfg(test)]
mod tests {
    use super::*;
    use crate::compose::{Address, Query, Request};

    fn query() -> Vec<u8> {
        let query = Query {
            id: b"1A".to_vec(),
            source: Address::new(1, 2, b"44"),
        };
        Request::Query(query).octets(9)
    }

    #[test]
    fn fields_are_named() {
        assert_eq!(
            request(&query()).unwrap(),
            "query_sm, sequence 9, id \"1A\", source 1/2/\"44\""
        );
    }

    #[test]
    fn damaged_requests_are_said_as_far_as_they_go() {
        let whole = query();
        assert_eq!(request(&whole[..15]), None);
        assert!(request(&whole[..20]).unwrap().ends_with("ends early"));
        let mut longer = whole.clone();
        longer.extend([1, 2]);
        crate::compose::mend_length(&mut longer);
        assert!(request(&longer).unwrap().ends_with("2 octets left over"));
    }
}
