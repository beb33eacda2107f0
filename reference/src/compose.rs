//! Requests as a sender writes them. Nothing is checked here: a request that the centre
//! must refuse is composed in the same way as one that it must accept.

use crate::centre::command;

/// A source or destination on its way to the centre.
#[derive(Clone, Debug, Default, PartialEq, Eq)]
pub struct Address {
    pub ton: u8,
    pub npi: u8,
    pub text: Vec<u8>,
}

impl Address {
    pub fn new(ton: u8, npi: u8, text: &[u8]) -> Self {
        Address {
            ton,
            npi,
            text: text.to_vec(),
        }
    }
}

#[derive(Clone, Copy, Debug, PartialEq, Eq)]
pub enum Role {
    Receiver,
    Transmitter,
}

#[derive(Clone, Debug)]
pub struct Bind {
    pub role: Role,
    pub system_id: Vec<u8>,
    pub password: Vec<u8>,
    pub system_type: Vec<u8>,
    pub interface_version: u8,
    pub range: Address,
}

/// Default message id, length and text. The length follows the text unless it is forced.
#[derive(Clone, Debug, Default)]
pub struct Text {
    pub default_id: u8,
    pub forced_length: Option<u8>,
    pub octets: Vec<u8>,
}

#[derive(Clone, Debug, Default)]
pub struct Submit {
    pub service_type: Vec<u8>,
    pub source: Address,
    pub destination: Address,
    pub esm_class: u8,
    pub protocol_id: u8,
    pub priority: u8,
    pub schedule: Vec<u8>,
    pub validity: Vec<u8>,
    pub registered: u8,
    pub replace_if_present: u8,
    pub data_coding: u8,
    pub text: Text,
}

#[derive(Clone, Debug, Default)]
pub struct Query {
    pub id: Vec<u8>,
    pub source: Address,
}

#[derive(Clone, Debug, Default)]
pub struct Cancel {
    pub service_type: Vec<u8>,
    pub id: Vec<u8>,
    pub source: Address,
    pub destination: Address,
}

#[derive(Clone, Debug, Default)]
pub struct Replace {
    pub id: Vec<u8>,
    pub source: Address,
    pub schedule: Vec<u8>,
    pub validity: Vec<u8>,
    pub registered: u8,
    pub text: Text,
}

#[derive(Clone, Debug)]
pub enum Request {
    Bind(Bind),
    Unbind,
    Submit(Submit),
    Query(Query),
    Cancel(Cancel),
    Replace(Replace),
    EnquireLink,
}

impl Request {
    pub fn command(&self) -> u32 {
        match self {
            Request::Bind(bind) => match bind.role {
                Role::Receiver => command::BIND_RECEIVER,
                Role::Transmitter => command::BIND_TRANSMITTER,
            },
            Request::Unbind => command::UNBIND,
            Request::Submit(_) => command::SUBMIT_SM,
            Request::Query(_) => command::QUERY_SM,
            Request::Cancel(_) => command::CANCEL_SM,
            Request::Replace(_) => command::REPLACE_SM,
            Request::EnquireLink => command::ENQUIRE_LINK,
        }
    }

    /// The whole PDU.
    pub fn octets(&self, sequence: u32) -> Vec<u8> {
        pdu(self.command(), sequence, &self.body())
    }

    fn body(&self) -> Vec<u8> {
        let body = Body::default();
        match self {
            Request::Bind(bind) => body.bind(bind),
            Request::Unbind | Request::EnquireLink => body,
            Request::Submit(submit) => body.submit(submit),
            Request::Query(query) => body.text(&query.id).address(&query.source),
            Request::Cancel(cancel) => body
                .text(&cancel.service_type)
                .text(&cancel.id)
                .address(&cancel.source)
                .address(&cancel.destination),
            Request::Replace(replace) => body.replace(replace),
        }
        .0
    }
}

/// A header with the right length, and the body behind it.
pub fn pdu(command: u32, sequence: u32, body: &[u8]) -> Vec<u8> {
    let length = (16 + body.len()) as u32;
    let mut pdu = Vec::with_capacity(16 + body.len());
    for word in [length, command, 0, sequence] {
        pdu.extend_from_slice(&word.to_be_bytes());
    }
    pdu.extend_from_slice(body);
    pdu
}

/// The answer to a receipt. SMPP v3.3 gives it a message id, which the centre doesn't read.
pub fn deliver_sm_resp(status: u32, sequence: u32, body: &[u8]) -> Vec<u8> {
    let mut answer = pdu(command::DELIVER_SM_RESP, sequence, body);
    answer[8..12].copy_from_slice(&status.to_be_bytes());
    answer
}

/// Writes a new command length into a PDU.
pub fn set_length(pdu: &mut [u8], length: u32) {
    pdu[..4].copy_from_slice(&length.to_be_bytes());
}

/// Makes the command length what the PDU's length is.
pub fn mend_length(pdu: &mut [u8]) {
    set_length(pdu, pdu.len() as u32);
}

/// Writes a new command id into a PDU.
pub fn set_command(pdu: &mut [u8], command: u32) {
    pdu[4..8].copy_from_slice(&command.to_be_bytes());
}

#[derive(Default)]
struct Body(Vec<u8>);

impl Body {
    fn octets(mut self, octets: &[u8]) -> Self {
        self.0.extend_from_slice(octets);
        self
    }

    fn text(self, text: &[u8]) -> Self {
        self.octets(text).octets(&[0])
    }

    fn address(self, address: &Address) -> Self {
        self.octets(&[address.ton, address.npi]).text(&address.text)
    }

    fn short_message(self, text: &Text) -> Self {
        let length = text.forced_length.unwrap_or(text.octets.len() as u8);
        self.octets(&[text.default_id, length]).octets(&text.octets)
    }

    fn bind(self, bind: &Bind) -> Self {
        self.text(&bind.system_id)
            .text(&bind.password)
            .text(&bind.system_type)
            .octets(&[bind.interface_version])
            .address(&bind.range)
    }

    fn submit(self, submit: &Submit) -> Self {
        self.text(&submit.service_type)
            .address(&submit.source)
            .address(&submit.destination)
            .octets(&[submit.esm_class, submit.protocol_id, submit.priority])
            .text(&submit.schedule)
            .text(&submit.validity)
            .octets(&[submit.registered, submit.replace_if_present])
            .octets(&[submit.data_coding])
            .short_message(&submit.text)
    }

    fn replace(self, replace: &Replace) -> Self {
        self.text(&replace.id)
            .address(&replace.source)
            .text(&replace.schedule)
            .text(&replace.validity)
            .octets(&[replace.registered])
            .short_message(&replace.text)
    }
}
