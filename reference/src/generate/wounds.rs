//! Damage to what the caller keeps: the book, the table, the state. It is undone after a
//! few steps, so that most of a history goes well.

use super::{accounts, places, Generator};
use crate::centre::{Entry, Place, BOOK_RECORD, PART, PLACE, PLACES, SESSIONS};
use crate::compare::Step;

/// An account as it was before it was damaged.
pub struct Wound {
    heals_at: usize,
    account: usize,
    book: Vec<u8>,
    part: Vec<u8>,
    last: u32,
}

impl Generator {
    pub(super) fn wound(&mut self) {
        if self.random.percent(25) {
            self.tamper_with_entry();
            return;
        }
        let account = self.an_account();
        if self.is_wounded(account) {
            return;
        }
        self.remember(account);
        match self.random.below(8) {
            0 => self.hurt_book(account),
            1 => self.repeat_id(account),
            2 => self.lower_last(account),
            _ => self.hurt_place(account),
        }
        self.look_at(account);
    }

    pub(super) fn is_wounded(&self, account: usize) -> bool {
        self.wounds.iter().any(|wound| wound.account == account)
    }

    pub(super) fn remember(&mut self, account: usize) {
        let delay = self.random.between(3, 9);
        self.wounds.push(Wound {
            heals_at: self.history.steps.len() + delay,
            account,
            book: self.book_part(account),
            part: self.table_part(account),
            last: self.world.state.lasts[account],
        });
    }

    /// Undoes what is due, whatever has happened to the account since.
    pub(super) fn heal(&mut self) {
        let now = self.history.steps.len();
        while let Some(due) = self.wounds.iter().position(|w| w.heals_at <= now) {
            let wound = self.wounds.swap_remove(due);
            let account = wound.account;
            if self.book_part(account) != wound.book {
                let (at, octets) = (BOOK_RECORD * account, wound.book);
                self.push(Step::SetBook { at, octets });
            }
            if self.table_part(account) != wound.part {
                let (at, octets) = (PART * account, wound.part);
                self.push(Step::SetTable { at, octets });
            }
            let last = wound.last;
            if self.world.state.lasts[account] != last {
                self.push(Step::SetLast { account, last });
            }
        }
    }

    /// Touches the account in every way in which it can be concerned.
    pub(super) fn look_at(&mut self, account: usize) {
        let bound = |session: &usize| {
            self.world.state.entry(*session).account().map(usize::from) == Some(account)
        };
        if let Some(session) = (0..SESSIONS).find(bound) {
            let request = self.request_for(session);
            self.send(session, &request);
        }
        match self.random.below(3) {
            0 => {
                let sizes = Default::default();
                self.push(Step::Pick { sizes, account });
            }
            1 => {
                let mut outcome = self.outcome();
                outcome.report = self.report(account);
                self.push(Step::Outcome(outcome));
            }
            _ => {}
        }
    }

    fn hurt_book(&mut self, account: usize) {
        let mut octets = self.book_part(account);
        accounts::hurt(&mut self.random, &mut octets);
        let at = BOOK_RECORD * account;
        self.push(Step::SetBook { at, octets });
    }

    fn hurt_place(&mut self, account: usize) {
        let nth = self.a_nth_place(account);
        let mut place: Place = self.places(account)[nth];
        let last = self.world.state.lasts[account];
        places::hurt(&mut self.random, &mut place, last);
        self.set_place(account, nth, &place);
    }

    /// Copies a message to another place.
    fn repeat_id(&mut self, account: usize) {
        let from = self.a_nth_place(account);
        let to = self.random.below(PLACES);
        let place = self.places(account)[from];
        self.set_place(account, to, &place);
    }

    fn lower_last(&mut self, account: usize) {
        let last = self.world.state.lasts[account];
        let last = match self.random.below(3) {
            0 => 0,
            1 => last.saturating_sub(1),
            _ => last / 2,
        };
        self.push(Step::SetLast { account, last });
    }

    /// Entries that name an account above 7, kinds above 4, and sound ones at odd moments.
    fn tamper_with_entry(&mut self) {
        let session = self.random.below(SESSIONS);
        let kind = self.random.choose(&[0, 1, 2, 2, 2, 3, 3, 4, 5, 255]);
        let account = match self.random.below(4) {
            0 => self.random.choose(&[8, 9, 16, 128, 255]),
            _ => self.an_account() as u8,
        };
        self.push(Step::SetEntry {
            session,
            kind,
            account,
        });
        match self.world.state.entry(session) {
            Entry::Closed | Entry::Ended if self.random.percent(50) => {
                self.push(Step::Open { session });
            }
            _ => {
                let request = self.request_for(session);
                self.send(session, &request);
            }
        }
    }

    /// A place with a message in it, if there is one.
    fn a_nth_place(&mut self, account: usize) -> usize {
        let first = self.random.below(PLACES);
        let places = self.places(account);
        (0..PLACES)
            .map(|nth| (first + nth) % PLACES)
            .find(|&nth| places[nth][0] != 0)
            .unwrap_or(first)
    }

    pub(super) fn set_place(&mut self, account: usize, nth: usize, place: &Place) {
        let at = PART * account + PLACE * nth;
        let octets = place.to_vec();
        self.push(Step::SetTable { at, octets });
    }

    fn book_part(&self, account: usize) -> Vec<u8> {
        self.world.book()[BOOK_RECORD * account..][..BOOK_RECORD].to_vec()
    }

    fn table_part(&self, account: usize) -> Vec<u8> {
        self.world.table()[PART * account..][..PART].to_vec()
    }
}
