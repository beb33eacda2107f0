//! The bodies of the requests, field by field as SMPP v3.3 lists them.

use super::message::{HIGHEST_DEFAULT, LONGEST_TEXT};
use super::party::Party;
use super::reader::Reader;
use super::status::Status;

pub struct Bind<'a> {
    pub system_id: &'a [u8],
    pub password: &'a [u8],
    pub system_type: &'a [u8],
}

impl<'a> Bind<'a> {
    pub fn read(body: &'a [u8]) -> Result<Self, Status> {
        let mut fields = Reader::new(body);
        let bind = Bind {
            system_id: fields.name(16)?,
            password: fields.name(9)?,
            system_type: fields.name(13)?,
        };
        let _interface_version = fields.octet()?;
        let _addr_ton = fields.octet()?;
        let _addr_npi = fields.octet()?;
        let _address_range = fields.name(41)?;
        fields.end()?;
        Ok(bind)
    }
}

/// Default message id and text, of which at most one is given.
#[derive(Clone, Copy)]
pub struct ShortMessage<'a> {
    pub default_id: u8,
    /// A part of the received octets.
    pub text: &'a [u8],
}

impl<'a> ShortMessage<'a> {
    fn read(fields: &mut Reader<'a>) -> Result<Self, Status> {
        let default_id = fields.octet_up_to(HIGHEST_DEFAULT, Status::Parameter)?;
        let length = fields.octet_up_to(LONGEST_TEXT, Status::MessageLength)?;
        if length != 0 && default_id != 0 {
            return Err(Status::Parameter);
        }
        let text = fields.octets(usize::from(length))?;
        Ok(ShortMessage { default_id, text })
    }
}

pub struct Submit<'a> {
    pub service_type: &'a [u8],
    pub source: Party<'a>,
    pub destination: Party<'a>,
    pub esm_class: u8,
    pub protocol_id: u8,
    pub priority: u8,
    pub schedule: &'a [u8],
    pub validity: &'a [u8],
    pub registered: u8,
    pub replace_if_present: bool,
    pub data_coding: u8,
    pub message: ShortMessage<'a>,
}

impl<'a> Submit<'a> {
    pub fn read(body: &'a [u8]) -> Result<Self, Status> {
        let mut fields = Reader::new(body);
        // The fields of a struct expression are read in the order in which they are written.
        let submit = Submit {
            service_type: fields.name(6)?,
            source: fields.party(Status::Source)?,
            destination: fields.party(Status::Destination)?,
            esm_class: fields.octet()?,
            protocol_id: fields.octet()?,
            priority: fields.octet_up_to(1, Status::Priority)?,
            schedule: fields.time()?,
            validity: fields.time()?,
            registered: fields.octet_up_to(1, Status::RegisteredFlag)?,
            replace_if_present: fields.octet_up_to(1, Status::Parameter)? == 1,
            data_coding: fields.octet()?,
            message: ShortMessage::read(&mut fields)?,
        };
        fields.end()?;
        Ok(submit)
    }
}

pub struct Query<'a> {
    pub id: Option<u32>,
    pub source: Party<'a>,
}

impl<'a> Query<'a> {
    pub fn read(body: &'a [u8]) -> Result<Self, Status> {
        let mut fields = Reader::new(body);
        let query = Query {
            id: fields.message_id()?,
            source: fields.party(Status::Source)?,
        };
        fields.end()?;
        Ok(query)
    }
}

pub struct Cancel<'a> {
    pub id: Option<u32>,
    pub source: Party<'a>,
    pub destination: Party<'a>,
}

impl<'a> Cancel<'a> {
    pub fn read(body: &'a [u8]) -> Result<Self, Status> {
        let mut fields = Reader::new(body);
        let _service_type = fields.name(6)?;
        let cancel = Cancel {
            id: fields.message_id()?,
            source: fields.party(Status::Source)?,
            destination: fields.party(Status::Destination)?,
        };
        fields.end()?;
        Ok(cancel)
    }
}

pub struct Replace<'a> {
    pub id: Option<u32>,
    pub source: Party<'a>,
    pub schedule: &'a [u8],
    pub validity: &'a [u8],
    pub registered: u8,
    pub message: ShortMessage<'a>,
}

impl<'a> Replace<'a> {
    pub fn read(body: &'a [u8]) -> Result<Self, Status> {
        let mut fields = Reader::new(body);
        let replace = Replace {
            id: fields.message_id()?,
            source: fields.party(Status::Source)?,
            schedule: fields.time()?,
            validity: fields.time()?,
            registered: fields.octet_up_to(1, Status::RegisteredFlag)?,
            message: ShortMessage::read(&mut fields)?,
        };
        fields.end()?;
        Ok(replace)
    }
}

/// unbind and enquire_link have no fields.
pub fn read_nothing(body: &[u8]) -> Result<(), Status> {
    Reader::new(body).end()
}
