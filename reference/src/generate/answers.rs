//! Answers to receipts, of every kind, and receipts that are left without one.

use super::{Generator, Manner};
use crate::centre::{Receipt, SESSIONS};
use crate::compare::Step;
use crate::compose::{deliver_sm_resp, Request};

impl Generator {
    /// What becomes of a receipt that is outstanding: most often it is acknowledged.
    pub(super) fn settle_receipt(&mut self, session: usize, receipt: Receipt) {
        let unfit = usize::from(self.manner != Manner::WellBehaved);
        let settle = self.random.weighted::<fn(&mut Self, usize, Receipt)>(&[
            (70, Self::acknowledge),
            (10, Self::refuse),
            (2, |own, session, _| own.end(session)),
            (6 * unfit, Self::answer_with_anything_behind),
            (5 * unfit, Self::answer_with_another_sequence),
            (5 * unfit, Self::answer_elsewhere),
            (4 * unfit, Self::answer_twice),
            (2 * unfit, Self::answer_in_parts),
            (4 * unfit, |own, session, _| own.deliver(session)),
        ]);
        settle(self, session, receipt);
    }

    fn acknowledge(&mut self, session: usize, receipt: Receipt) {
        self.answer(session, 0, receipt.sequence, &[0]);
    }

    fn refuse(&mut self, session: usize, receipt: Receipt) {
        let status = self.random.choose(&[1, 8, 20, 256, 0x0100_0000, u32::MAX]);
        self.answer(session, status, receipt.sequence, &[0]);
    }

    /// Closed, unbound, or ended by a length that can't be.
    fn end(&mut self, session: usize) {
        let ways = match self.manner {
            Manner::WellBehaved => 2,
            _ => 3,
        };
        match self.random.below(ways) {
            0 => {
                self.push(Step::Close { session });
            }
            1 => self.send(session, &Request::Unbind),
            _ => {
                let take = self.take(session, vec![0; 4]);
                self.push(Step::Take(take));
            }
        }
    }

    fn answer_with_anything_behind(&mut self, session: usize, receipt: Receipt) {
        let count = self.random.choose(&[0, 0, 9, 40, 496]);
        let body = self.random.octets(count);
        let status = self.random.choose(&[0, 0, 0, 8]);
        self.answer(session, status, receipt.sequence, &body);
    }

    /// Among them numbers of which most octets are right.
    fn answer_with_another_sequence(&mut self, session: usize, receipt: Receipt) {
        let right = receipt.sequence;
        let random = self.random.number() as u32;
        let others = [
            right.wrapping_add(1),
            right.wrapping_sub(1),
            right ^ 0x8000_0000,
            right.swap_bytes() ^ 0x0100,
            0,
            receipt.id,
            random,
        ];
        let sequence = self.random.choose(&others);
        let status = self.random.choose(&[0, 0, 0, 8]);
        self.answer(session, status, sequence, &[0]);
    }

    /// The right answer on a session that wasn't asked.
    fn answer_elsewhere(&mut self, session: usize, receipt: Receipt) {
        let account = self.world.state.entry(session).account();
        let near = |other: &usize| {
            *other != session && self.world.state.entry(*other).account() == account
        };
        let near: Vec<usize> = (0..SESSIONS).filter(near).collect();
        let other = if near.is_empty() || self.random.percent(20) {
            self.random.below(SESSIONS)
        } else {
            self.random.choose(&near)
        };
        self.answer(other, 0, receipt.sequence, &[0]);
    }

    fn answer_twice(&mut self, session: usize, receipt: Receipt) {
        let statuses = self.random.choose(&[[0, 0], [8, 0], [0, 8]]);
        for status in statuses {
            self.answer(session, status, receipt.sequence, &[0]);
        }
    }

    /// An answer that nobody waits for, on whatever session.
    pub(super) fn answer_to_nothing(&mut self) {
        let (session, sequence) = (self.a_session(), self.next_sequence());
        self.answer(session, 0, sequence, &[0]);
    }

    /// Cut first, and then whole with another request behind it.
    fn answer_in_parts(&mut self, session: usize, receipt: Receipt) {
        let mut octets = deliver_sm_resp(0, receipt.sequence, &[0]);
        let cut = octets[..self.random.below(octets.len())].to_vec();
        let take = self.take(session, cut);
        self.push(Step::Take(take));
        octets.extend(Request::EnquireLink.octets(self.next_sequence()));
        self.take_one_by_one(session, octets);
    }

    pub(super) fn answer(&mut self, session: usize, status: u32, sequence: u32, body: &[u8]) {
        let octets = deliver_sm_resp(status, sequence, body);
        let take = self.take(session, octets);
        self.push(Step::Take(take));
    }
}
