//! Calls that are refused for what stands around the octets.

use super::{texts, Generator, Manner};
use crate::centre::{BOOK, LONGEST_REPLY, SESSIONS, TABLE};
use crate::compare::{Sizes, Step};
use crate::random::Random;

impl Generator {
    pub(super) fn spoiled_call(&mut self) {
        match self.random.below(10) {
            0 => {
                let session = self.a_bad_session();
                self.push(Step::Open { session });
            }
            1 => {
                let session = self.a_bad_session();
                self.push(Step::Close { session });
            }
            2 => {
                // Most sessions aren't closed by now.
                let session = self.random.below(SESSIONS);
                self.push(Step::Open { session });
            }
            3 => self.take_on_any_session(),
            4 | 5 => self.spoiled_outcome(),
            6 if self.manner == Manner::Everything => self.spoiled_pick(),
            _ => self.spoiled_take(),
        }
    }

    /// On a session that may be closed or ended.
    fn take_on_any_session(&mut self) {
        let session = self.random.below(SESSIONS);
        let request = self.request_for(session);
        self.send(session, &request);
    }

    fn spoiled_take(&mut self) {
        let session = self.a_session();
        let request = self.request_for(session);
        let octets = request.octets(self.next_sequence());
        let mut take = self.take(session, octets);
        // Two wrong things show which of them is tested first.
        for _ in 0..self.random.between(1, 2) {
            match self.random.below(5) {
                0 => take.session = self.a_bad_session(),
                1 => take.sizes = self.bad_sizes(),
                2 if self.manner == Manner::Everything => {
                    take.space = self.random.choose(&[0, 1, 16, LONGEST_REPLY - 1]);
                }
                3 => take.octets.truncate(self.random.below(16)),
                _ => take.stamp = self.a_bad_stamp(),
            }
        }
        self.push(Step::Take(take));
    }

    fn spoiled_outcome(&mut self) {
        let mut outcome = self.outcome();
        for _ in 0..self.random.between(1, 2) {
            match self.random.below(5) {
                0 => outcome.sizes = self.bad_sizes(),
                1 => outcome.stamp = self.a_bad_stamp(),
                2 => outcome.report.account = self.a_bad_account(),
                3 => outcome.report.outcome = self.random.choose(&[0, 1, 4, 6, 255]),
                _ => outcome.report.id = self.random.below(40) as u32,
            }
        }
        self.push(Step::Outcome(outcome));
    }

    fn spoiled_pick(&mut self) {
        let (mut sizes, mut account) = (Sizes::default(), self.an_account());
        for _ in 0..self.random.between(1, 2) {
            match self.random.below(2) {
                0 => sizes = self.bad_sizes(),
                _ => account = self.a_bad_account(),
            }
        }
        self.push(Step::Pick { sizes, account });
    }

    /// Among them numbers that look right in their lowest octets.
    pub(super) fn a_bad_session(&mut self) -> usize {
        self.a_number_above(SESSIONS)
    }

    fn a_bad_account(&mut self) -> usize {
        self.a_number_above(8)
    }

    fn a_number_above(&mut self, limit: usize) -> usize {
        if self.manner == Manner::Records {
            return self.random.choose(&[limit, limit + 1, 255]);
        }
        let numbers = [limit, limit + 1, 255, 256, 65_536, 1 << 32, usize::MAX];
        self.random.choose(&numbers)
    }

    pub(super) fn bad_sizes(&mut self) -> Sizes {
        let mut sizes = Sizes::default();
        if self.manner == Manner::Records {
            return sizes;
        }
        match self.random.below(3) {
            0 => sizes.book = a_bad_size(&mut self.random, BOOK),
            1 => sizes.table = a_bad_size(&mut self.random, TABLE),
            _ => {
                sizes.book = a_bad_size(&mut self.random, BOOK);
                sizes.table = a_bad_size(&mut self.random, TABLE);
            }
        }
        sizes
    }

    fn a_bad_stamp(&mut self) -> Vec<u8> {
        if self.manner == Manner::Records || self.random.percent(60) {
            return texts::bad_time(&mut self.random);
        }
        let mut stamp = texts::time(&mut self.random);
        match self.random.below(4) {
            0 => stamp.clear(),
            1 => stamp.truncate(15),
            2 => stamp.push(0),
            _ => stamp.push(b'+'),
        }
        stamp
    }
}

fn a_bad_size(random: &mut Random, right: usize) -> usize {
    random.choose(&[0, 1, 64, 256, right - 1, right + 1, right + 64])
}
