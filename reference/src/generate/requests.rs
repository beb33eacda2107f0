//! Requests that are meant to succeed, most of the time.

use super::{texts, Generator, Manner};
use crate::centre::{BookRecord, Message, Party, Place, Report, Same, ACCOUNTS, BOOK_RECORD};
use crate::compose::{Address, Bind, Cancel, Query, Replace, Role, Submit, Text};
use crate::random::Random;

/// Few addresses, so that requests meet the messages of earlier ones. Half of the time they are
/// written with other spaces in front.
const SOURCES: [(u8, u8, &[u8]); 6] = [
    (1, 1, b"447700900001"),
    (1, 2, b"447700900001"),
    (2, 1, b"447700900001"),
    (0, 0, b"5"),
    (0, 0, b"55"),
    (1, 1, b"01234567890123456789"),
];

const DESTINATIONS: [(u8, u8, &[u8]); 5] = [
    (1, 1, b"447700900123"),
    (1, 1, b"447700900123"),
    (1, 0, b"447700900123"),
    (0, 0, b"447700900001"),
    (1, 1, b"99999999999999999999"),
];

impl Generator {
    pub(super) fn book_record(&self, account: usize) -> BookRecord<'_> {
        let records: &[[u8; BOOK_RECORD]] = self.world.book().as_chunks().0;
        BookRecord(&records[account])
    }

    /// Whether the account's own names lead to it.
    pub(super) fn can_be_bound(&self, account: usize) -> bool {
        let own = self.book_record(account);
        let found = |other: &usize| {
            let other = self.book_record(*other);
            other.is_named(Same::sound(), own.system_id(), own.system_type())
        };
        (0..ACCOUNTS).find(found) == Some(account)
    }

    /// A bind to the account, with a wrong name or password now and then.
    pub(super) fn bind(&mut self, account: usize, role: Role) -> Bind {
        let record = self.book_record(account);
        let mut bind = Bind {
            role,
            system_id: record.system_id().to_vec(),
            password: record.password().to_vec(),
            system_type: record.system_type().to_vec(),
            interface_version: 0x33,
            range: Address::default(),
        };
        let random = &mut self.random;
        bind.system_id = texts::respaced_if_any(random, &bind.system_id, texts::SYSTEM_ID);
        bind.system_type = texts::respaced(random, &bind.system_type, texts::SYSTEM_TYPE);
        if self.random.percent(15) {
            bind.interface_version = self.random.octet();
            let range = self.random.choose(&[&b"^44770090"[..], &[b'4'; 40]]);
            bind.range = Address::new(1, 1, range);
        }
        if self.random.percent(8) {
            mislead(&mut self.random, &mut bind);
        }
        bind
    }

    /// How many messages in a hundred ask for a receipt. Records can't have it written, so that
    /// such messages would soon take up every place.
    fn registered(&self, usual: usize) -> usize {
        match self.manner {
            Manner::Records => 3,
            _ => usual,
        }
    }

    pub(super) fn submit(&mut self, account: usize) -> Submit {
        let source = self.a_source(account);
        let registered = self.registered(30);
        let random = &mut self.random;
        let default_id = random.choose(&[0, 0, 0, 0, 0, 0, 1, 100]);
        let text = if default_id == 0 {
            texts::message(random)
        } else {
            Vec::new()
        };
        Submit {
            service_type: a_service_type(random),
            source,
            destination: a_destination(random),
            esm_class: seldom_free(random),
            protocol_id: seldom_free(random),
            priority: u8::from(random.percent(25)),
            schedule: maybe_time(random),
            validity: maybe_time(random),
            registered: u8::from(random.percent(registered)),
            replace_if_present: u8::from(random.percent(20)),
            data_coding: seldom_free(random),
            text: Text {
                default_id,
                forced_length: None,
                octets: text,
            },
        }
    }

    pub(super) fn query(&mut self, account: usize) -> Query {
        let place = self.a_place(account, |message| !message.is_empty());
        Query {
            id: self.id_of(account, place),
            source: self.source_of(account, place),
        }
    }

    pub(super) fn cancel_one(&mut self, account: usize) -> Cancel {
        let place = self.a_waiting_place(account);
        let destination = match self.random.below(10) {
            0..5 => Address::default(),
            5..9 => destination_of(&mut self.random, place).unwrap_or_default(),
            _ => a_destination(&mut self.random),
        };
        Cancel {
            service_type: a_service_type(&mut self.random),
            id: self.id_of(account, place),
            source: self.source_of(account, place),
            destination,
        }
    }

    pub(super) fn cancel_all(&mut self, account: usize) -> Cancel {
        let place = self.a_waiting_place(account);
        let destination = match self.random.below(10) {
            0 => Address::default(),
            1 => a_destination(&mut self.random),
            _ => destination_of(&mut self.random, place)
                .unwrap_or_else(|| a_destination(&mut self.random)),
        };
        Cancel {
            service_type: a_service_type(&mut self.random),
            id: Vec::new(),
            source: self.source_of(account, place),
            destination,
        }
    }

    pub(super) fn replace(&mut self, account: usize) -> Replace {
        let place = self.a_waiting_place(account);
        let (id, source) = (self.id_of(account, place), self.source_of(account, place));
        let registered = self.registered(50);
        let random = &mut self.random;
        let default_id = random.choose(&[0, 0, 0, 2, 100]);
        let text = if default_id == 0 {
            texts::message(random)
        } else {
            Vec::new()
        };
        Replace {
            id,
            source,
            schedule: maybe_time(random),
            validity: maybe_time(random),
            registered: u8::from(random.percent(registered)),
            text: Text {
                default_id,
                forced_length: None,
                octets: text,
            },
        }
    }

    pub(super) fn report(&mut self, account: usize) -> Report {
        let place = self.a_waiting_place(account);
        let id = match place {
            Some(place) if !self.random.percent(4) => Message(&place).id(),
            _ => self.an_unknown_id(account),
        };
        Report {
            account,
            id,
            outcome: self.random.choose(&[2, 3, 5]),
            error: self.random.octet(),
        }
    }

    /// A waiting message, or any message now and then.
    fn a_waiting_place(&mut self, account: usize) -> Option<Place> {
        if self.random.percent(6) {
            return self.a_place(account, |message| !message.is_empty());
        }
        self.a_place(account, |message| message.is_waiting())
            .or_else(|| self.a_place(account, |message| !message.is_empty()))
    }

    fn id_of(&mut self, account: usize, place: Option<Place>) -> Vec<u8> {
        match place {
            Some(place) if !self.random.percent(5) => {
                texts::id(&mut self.random, Message(&place).id())
            }
            _ => match self.random.below(4) {
                0 => Vec::new(),
                _ => {
                    let unknown = self.an_unknown_id(account);
                    texts::id(&mut self.random, unknown)
                }
            },
        }
    }

    /// An id that most likely no message has.
    fn an_unknown_id(&mut self, account: usize) -> u32 {
        let last = self.world.state.lasts[account];
        let random = self.random.number() as u32;
        self.random
            .choose(&[0, last.wrapping_add(1), last, u32::MAX, random])
    }

    /// The source that the message has, written in one of the ways that match it.
    fn source_of(&mut self, account: usize, place: Option<Place>) -> Address {
        match place {
            Some(place) if !self.random.percent(8) => {
                let source = Message(&place).source();
                let callback = self.book_record(account).callback();
                let from_callback = Same::sound().party(callback, source);
                if from_callback && self.random.percent(70) {
                    no_source(&mut self.random)
                } else {
                    respaced(&mut self.random, address_of(source))
                }
            }
            _ => self.a_source(account),
        }
    }

    fn a_source(&mut self, account: usize) -> Address {
        let source = match self.random.below(10) {
            0..5 => no_source(&mut self.random),
            5 => address_of(self.book_record(account).callback()),
            _ => {
                let (ton, npi, text) = self.random.choose(&SOURCES);
                Address::new(ton, npi, text)
            }
        };
        respaced(&mut self.random, source)
    }
}

/// Names and a password that lead elsewhere or nowhere, most of the time.
fn mislead(random: &mut Random, bind: &mut Bind) {
    let field = match random.below(3) {
        0 => &mut bind.system_id,
        1 => &mut bind.password,
        _ => &mut bind.system_type,
    };
    match random.below(4) {
        0 => *field = vec![b' '; random.between(1, 8)],
        1 => field.push(b' '),
        2 if field.starts_with(b" ") => drop(field.remove(0)),
        2 => field.insert(0, b' '),
        _ if field.is_empty() => field.push(b'x'),
        _ => drop(field.pop()),
    }
}

/// An empty address; ton and npi say nothing then.
fn no_source(random: &mut Random) -> Address {
    Address::new(seldom_free(random), seldom_free(random), b"")
}

fn a_destination(random: &mut Random) -> Address {
    if random.percent(2) {
        return Address::new(1, 1, b"");
    }
    let (ton, npi, text) = random.choose(&DESTINATIONS);
    respaced(random, Address::new(ton, npi, text))
}

fn destination_of(random: &mut Random, place: Option<Place>) -> Option<Address> {
    place.map(|place| respaced(random, address_of(Message(&place).destination())))
}

fn address_of(party: Party<'_>) -> Address {
    Address::new(party.ton, party.npi, party.address)
}

fn respaced(random: &mut Random, address: Address) -> Address {
    Address {
        text: texts::respaced_if_any(random, &address.text, texts::ADDRESS),
        ..address
    }
}

fn a_service_type(random: &mut Random) -> Vec<u8> {
    random.choose(&[&b""[..], b"VMA", b"ABCDE"]).to_vec()
}

fn maybe_time(random: &mut Random) -> Vec<u8> {
    if random.percent(25) {
        texts::time(random)
    } else {
        Vec::new()
    }
}

/// An octet that takes any value, 0 most of the time.
fn seldom_free(random: &mut Random) -> u8 {
    if random.percent(20) {
        random.octet()
    } else {
        0
    }
}
