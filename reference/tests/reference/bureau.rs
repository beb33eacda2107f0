//! A small world for the tests: a book of three accounts and a centre to call.

use reference::centre::{
    Entry, Lent, Place, Reference, Refusal, Report, State, Taken, View, BOOK, LONGEST_RECEIPT,
    LONGEST_REPLY, PART, PLACE, TABLE,
};
use reference::compose::{deliver_sm_resp, Address, Bind, Request, Role, Submit};
use reference::explain::Header;

pub const STAMP: &[u8; 16] = b"960701120000000+";
pub const CALLBACK: &[u8] = b"447700900000";

pub struct Bureau {
    pub book: Vec<u8>,
    pub table: Vec<u8>,
    pub state: State,
    pub stamp: Vec<u8>,
}

/// A book record in the outline's layout.
pub fn book_record(system_id: &[u8], password: &[u8], system_type: &[u8]) -> [u8; 64] {
    let mut record = [0; 64];
    record[..system_id.len()].copy_from_slice(system_id);
    record[16..16 + password.len()].copy_from_slice(password);
    record[25..25 + system_type.len()].copy_from_slice(system_type);
    record[38] = 1;
    record[39] = 2;
    record[40..40 + CALLBACK.len()].copy_from_slice(CALLBACK);
    record
}

impl Bureau {
    pub fn new() -> Self {
        let mut book = vec![0; BOOK];
        book[..64].copy_from_slice(&book_record(b"paging", b"secret", b"VMA"));
        book[64..128].copy_from_slice(&book_record(b"voice", b"mail", b"VMA"));
        book[448..].copy_from_slice(&book_record(b"last", b"", b""));
        Bureau {
            book,
            table: vec![0; TABLE],
            state: State::default(),
            stamp: STAMP.to_vec(),
        }
    }

    /// Session 0 is a transmitter of account 0.
    pub fn bound() -> Self {
        let mut bureau = Bureau::new();
        bureau.state.entries[0] = Entry::Transmitter(0);
        bureau
    }

    pub fn open(&mut self, session: usize) -> Result<(), Refusal> {
        Reference::sound().open(&mut self.state, session)
    }

    pub fn close(&mut self, session: usize) -> Result<(), Refusal> {
        Reference::sound().close(&mut self.state, session)
    }

    pub fn take_into(
        &mut self,
        session: usize,
        octets: &[u8],
        space: &mut [u8],
    ) -> Result<Taken, Refusal> {
        let lent = Lent::new(&self.book, &mut self.table);
        Reference::sound().take(lent, &mut self.state, session, octets, &self.stamp, space)
    }

    pub fn take(&mut self, session: usize, octets: &[u8]) -> Result<(usize, Vec<u8>), Refusal> {
        let mut space = [0xEE; LONGEST_REPLY];
        let taken = self.take_into(session, octets, &mut space)?;
        assert!(space[taken.written..].iter().all(|&octet| octet == 0xEE));
        Ok((taken.consumed, space[..taken.written].to_vec()))
    }

    /// Sends a request on session 0 and gives the reply's status and body.
    pub fn send(&mut self, request: &Request) -> (u32, Vec<u8>) {
        self.send_octets(&request.octets(77))
    }

    pub fn send_octets(&mut self, octets: &[u8]) -> (u32, Vec<u8>) {
        let (consumed, reply) = self.take(0, octets).unwrap();
        assert_eq!(consumed, octets.len());
        let header = Header::of(&reply).unwrap();
        assert_eq!(header.length as usize, reply.len());
        assert_eq!(header.sequence, 77);
        (header.status, reply[16..].to_vec())
    }

    pub fn status(&mut self, request: &Request) -> u32 {
        self.send(request).0
    }

    pub fn submit(&mut self, submit: Submit) -> u32 {
        let (status, body) = self.send(&Request::Submit(submit));
        assert_eq!(status, 0);
        let id = std::str::from_utf8(&body[..8]).unwrap();
        u32::from_str_radix(id, 16).unwrap()
    }

    pub fn outcome(&mut self, account: usize, id: u32, outcome: u8) -> Result<(), Refusal> {
        let lent = Lent::new(&self.book, &mut self.table);
        let report = Report {
            account,
            id,
            outcome,
            error: 9,
        };
        Reference::sound().outcome(lent, &self.state, &self.stamp, report)
    }

    pub fn deliver_into(
        &mut self,
        session: usize,
        sequence: u32,
        space: &mut [u8],
    ) -> Result<usize, Refusal> {
        let view = View::new(&self.book, &self.table);
        Reference::sound().deliver(view, &mut self.state, session, sequence, space)
    }

    /// The receipt that is written, and the id that it has in its text.
    pub fn deliver(&mut self, session: usize, sequence: u32) -> Result<(u32, Vec<u8>), Refusal> {
        let mut space = [0xEE; LONGEST_RECEIPT];
        let written = self.deliver_into(session, sequence, &mut space)?;
        assert!(space[written..].iter().all(|&octet| octet == 0xEE));
        let text = std::str::from_utf8(&space[written - 15..written - 7]).unwrap();
        let id = u32::from_str_radix(text, 16).unwrap();
        Ok((id, space[..written].to_vec()))
    }

    /// The answer to a receipt, which nothing is replied to.
    pub fn answer(&mut self, session: usize, status: u32, sequence: u32) {
        let octets = deliver_sm_resp(status, sequence, &[0]);
        assert_eq!(self.take(session, &octets), Ok((17, vec![])));
    }

    pub fn pick(&self, account: usize) -> Result<usize, Refusal> {
        Reference::sound().pick(&self.book, &self.table, &self.state, account)
    }

    pub fn place(&self, account: usize, place: usize) -> &Place {
        let at = PART * account + PLACE * place;
        self.table[at..at + PLACE].try_into().unwrap()
    }

    pub fn place_mut(&mut self, account: usize, place: usize) -> &mut Place {
        let at = PART * account + PLACE * place;
        (&mut self.table[at..at + PLACE]).try_into().unwrap()
    }
}

pub fn bind(role: Role, system_id: &[u8], password: &[u8], system_type: &[u8]) -> Request {
    Request::Bind(Bind {
        role,
        system_id: system_id.to_vec(),
        password: password.to_vec(),
        system_type: system_type.to_vec(),
        interface_version: 0x33,
        range: Address::default(),
    })
}

pub fn to(text: &[u8]) -> Address {
    Address::new(1, 1, text)
}

/// One that a receipt is wanted for.
pub fn registered_submit() -> Submit {
    Submit {
        registered: 1,
        ..plain_submit()
    }
}

/// A submission that is accepted: from the callback, with a text.
pub fn plain_submit() -> Submit {
    let mut submit = Submit {
        destination: to(b"447700900123"),
        ..Submit::default()
    };
    submit.text.octets = b"hello".to_vec();
    submit
}
