//! Damage to the octets of a PDU, and octets that were never a sound PDU.

use super::{faults, Generator, Manner};
use crate::centre::{command, SESSIONS};
use crate::compare::Step;
use crate::compose::{mend_length, pdu, set_command, set_length};
use crate::random::Random;

impl Generator {
    /// A request with bad fields, with damaged octets, or with both.
    pub(super) fn damaged_request(&mut self) {
        let session = self.a_session();
        let mut request = self.request_for(session);
        let spoilt = match self.random.below(10) {
            0..5 => 1,
            5..7 => 2,
            7 => 3,
            _ => 0,
        };
        for _ in 0..spoilt {
            faults::spoil(&mut self.random, &mut request);
        }
        let mut octets = request.octets(self.next_sequence());
        if spoilt == 0 || self.random.percent(15) {
            damage(&mut self.random, &mut octets);
        }
        self.take_octets(session, octets);
    }

    /// Two or three PDUs in one buffer, taken one by one as a caller would.
    pub(super) fn several_pdus(&mut self) {
        let session = self.a_session();
        let mut octets = Vec::new();
        for _ in 0..self.random.between(2, 3) {
            let request = self.request_for(session);
            octets.extend(request.octets(self.next_sequence()));
        }
        if self.random.percent(20) {
            octets.truncate(self.random.below(octets.len()));
        }
        if self.manner == Manner::Records {
            octets.truncate(512);
        }
        self.take_one_by_one(session, octets);
    }

    pub(super) fn take_one_by_one(&mut self, session: usize, mut octets: Vec<u8>) {
        while !octets.is_empty() {
            let take = self.take(session, octets.clone());
            let answer = self.push(Step::Take(take));
            if answer.consumed == 0 {
                return;
            }
            octets.drain(..answer.consumed);
        }
    }

    /// Octets with little or no form.
    pub(super) fn raw_octets(&mut self) {
        let session = self.random.below(SESSIONS);
        let count = self.random.below(60);
        let octets = if self.random.percent(30) {
            self.random.octets(count)
        } else {
            let few = b"\0\0\0 11aZ\x01\x02\x80";
            let body: Vec<u8> = (0..count).map(|_| self.random.choose(few)).collect();
            let command = self.random.below(10) as u32;
            pdu(command, self.next_sequence(), &body)
        };
        self.take_octets(session, octets);
    }

    fn take_octets(&mut self, session: usize, mut octets: Vec<u8>) {
        if self.manner == Manner::Records {
            octets.truncate(512);
        }
        let take = self.take(session, octets);
        self.push(Step::Take(take));
    }
}

/// Damages a PDU that has a whole header.
fn damage(random: &mut Random, octets: &mut Vec<u8>) {
    match random.below(16) {
        0..3 => cut(random, octets),
        3 => octets.truncate(random.below(octets.len())),
        4 => lengthen(random, octets),
        5 => octets.extend(random.octets(5)),
        6 => {
            let length = a_length(random, octets.len() as u32);
            set_length(octets, length);
        }
        7 => set_command(octets, an_unknown_command(random)),
        8..10 => {
            let command = a_response(random, octets);
            set_command(octets, command);
        }
        10..12 => remove_nul(random, octets),
        12 => octets[8..12].fill(0xFF),
        _ => change_octet(random, octets),
    }
}

/// Cut, with a length that says so: the body ends early.
fn cut(random: &mut Random, octets: &mut Vec<u8>) {
    octets.truncate(random.between(16, octets.len()));
    mend_length(octets);
}

/// Lengthened, with a length that says so: octets are left over.
fn lengthen(random: &mut Random, octets: &mut Vec<u8>) {
    let more = match random.below(4) {
        0 => 512usize.saturating_sub(octets.len()),
        1 => 513usize.saturating_sub(octets.len()),
        _ => 1 + random.below(10),
    };
    octets.extend(random.octets(more));
    mend_length(octets);
}

fn a_length(random: &mut Random, right: u32) -> u32 {
    let lengths = [
        0,
        1,
        4,
        15,
        16,
        17,
        511,
        512,
        513,
        0x8000_0010,
        0x0001_0010,
        u32::MAX,
        right - 1,
        right + 1,
    ];
    random.choose(&lengths)
}

/// Among them requests that the centre doesn't cover and ids of which an octet is right.
fn an_unknown_command(random: &mut Random) -> u32 {
    let ids = [
        0,
        5,
        9,
        0x0A,
        0x14,
        0x16,
        0x21,
        0xFF,
        0x104,
        0x0100_0004,
        0x7FFF_FFFF,
    ];
    random.choose(&ids)
}

fn a_response(random: &mut Random, octets: &[u8]) -> u32 {
    let own = command::RESPONSE | u32::from(octets[7]);
    random.choose(&[own, own, command::GENERIC_NAK, 0x8000_0009, 0xFFFF_FFFF])
}

/// Makes a text run on into the next field.
fn remove_nul(random: &mut Random, octets: &mut [u8]) {
    let nuls: Vec<usize> = (16..octets.len()).filter(|&at| octets[at] == 0).collect();
    if !nuls.is_empty() {
        octets[random.choose(&nuls)] = random.choose(b"1 x\x80");
    }
}

fn change_octet(random: &mut Random, octets: &mut [u8]) {
    let at = random.below(octets.len());
    octets[at] = match random.below(3) {
        0 => random.octet(),
        1 => octets[at] ^ 1 << random.below(8),
        _ => random.choose(b"\0 1\x01\x02\x80\xFF"),
    };
}
