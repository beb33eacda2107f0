//! Receipts: written to receivers, asked for in vain, and tampered with.
//!
//! These steps draw from a stream of numbers of their own and count sequence numbers of their
//! own. So the other steps of a history change only where they meet something else: a place that
//! is kept for a receipt, or a session that was bound to take one.

use super::{Generator, Manner};
use crate::centre::{layout, Entry, Message, Place, ACCOUNTS, LONGEST_RECEIPT, PLACES, SESSIONS};
use crate::compare::{Deliver, Step};
use crate::compose::{Request, Role};
use crate::random::Random;

/// What steps draw from.
pub struct Stream {
    pub random: Random,
    pub sequence: u32,
}

impl Stream {
    /// A stream far apart from the one that the seed gives to the other steps.
    pub fn aside(seed: u64) -> Self {
        let mut random = Random::new(!seed.rotate_left(32));
        let sequence = random.number() as u32;
        Stream { random, sequence }
    }
}

impl Generator {
    /// In every so many steps something about receipts.
    pub(super) fn receipts(&mut self) {
        self.exchange_streams();
        let [told, spoiled, tampered, hurt, answered] = match self.manner {
            Manner::Everything => [200, 7, 5, 5, 3],
            Manner::Records => [0, 0, 0, 0, 10],
            Manner::WellBehaved => [200, 0, 0, 0, 0],
        };
        let nothing = 1000 - told - spoiled - tampered - hurt - answered;
        let step = self.random.weighted::<fn(&mut Self)>(&[
            (nothing, |_| {}),
            (told, Self::tell_an_account),
            (spoiled, Self::spoiled_deliver),
            (tampered, Self::tamper_with_receipt),
            (hurt, Self::hurt_mark),
            (answered, Self::answer_to_nothing),
        ]);
        step(self);
        self.exchange_streams();
    }

    fn exchange_streams(&mut self) {
        std::mem::swap(&mut self.random, &mut self.aside.random);
        std::mem::swap(&mut self.sequence, &mut self.aside.sequence);
    }

    /// Moves an account's receipts on: a receiver is bound, sent a receipt, or answers it.
    fn tell_an_account(&mut self) {
        let account = self.an_owed_account();
        let receivers = self.receivers(account);
        let wanted = 1 + usize::from(self.random.percent(10));
        if receivers.len() < wanted && self.is_owed(account) {
            self.bring_up_receiver(account);
            return;
        }
        let Some(session) = self.one_of(&receivers) else {
            return;
        };
        match self.world.state.receipt(session) {
            Some(receipt) => self.settle_receipt(session, receipt),
            None if self.is_owed(account) || self.random.percent(10) => self.deliver(session),
            None => {}
        }
    }

    /// An account that owes a receipt and can be told, if there is one.
    fn an_owed_account(&mut self) -> usize {
        let accounts = self.accounts.iter().copied();
        let owed: Vec<usize> = accounts
            .filter(|&account| self.has_mark(account) && self.can_be_bound(account))
            .collect();
        match self.one_of(&owed) {
            Some(account) => account,
            None => self.an_account(),
        }
    }

    fn one_of(&mut self, choices: &[usize]) -> Option<usize> {
        (!choices.is_empty()).then(|| self.random.choose(choices))
    }

    fn has_mark(&self, account: usize) -> bool {
        let mut messages = self.places(account).iter().map(Message);
        messages.any(|message| message.is_marked())
    }

    /// Whether the account has more marks than receipts that are outstanding.
    fn is_owed(&self, account: usize) -> bool {
        let messages = self.places(account).iter().map(Message);
        let marks = messages.filter(|message| message.is_marked()).count();
        let outstanding = self
            .receivers(account)
            .into_iter()
            .filter(|&session| self.world.state.receipt(session).is_some());
        marks > outstanding.count()
    }

    fn receivers(&self, account: usize) -> Vec<usize> {
        let receiver = Entry::Receiver(account as u8);
        (0..SESSIONS)
            .filter(|&session| self.world.state.entry(session) == receiver)
            .collect()
    }

    /// Makes the highest session that isn't bound a receiver of the account: other steps prefer
    /// low ones.
    fn bring_up_receiver(&mut self, account: usize) {
        let unbound = |session: &usize| self.world.state.entry(*session).account().is_none();
        let Some(session) = (0..SESSIONS).rev().find(unbound) else {
            let session = self.random.below(SESSIONS);
            self.push(Step::Close { session });
            return;
        };
        if self.world.state.entry(session) == Entry::Ended {
            self.push(Step::Close { session });
        }
        if self.world.state.entry(session) == Entry::Closed {
            self.push(Step::Open { session });
        }
        let request = Request::Bind(self.bind(account, Role::Receiver));
        self.send(session, &request);
    }

    pub(super) fn deliver(&mut self, session: usize) {
        let deliver = self.a_deliver(session);
        self.push(Step::Deliver(deliver));
    }

    fn a_deliver(&mut self, session: usize) -> Deliver {
        let mut deliver = Deliver::plain(session, self.next_sequence());
        if self.manner == Manner::Everything {
            deliver.space += self.random.choose(&[0, 0, 0, 1, 20, 500]);
        }
        deliver
    }

    /// A receipt that is refused for what stands around it, or for the session. Two wrong
    /// things show which of them is tested first.
    fn spoiled_deliver(&mut self) {
        let account = self.an_owed_account();
        let session = match self.receivers(account)[..] {
            [receiver, ..] => receiver,
            [] => self.random.below(SESSIONS),
        };
        let mut deliver = self.a_deliver(session);
        for _ in 0..self.random.between(1, 2) {
            match self.random.below(6) {
                0 => deliver.session = self.a_bad_session(),
                1 => deliver.sizes = self.bad_sizes(),
                2 => deliver.space = self.random.choose(&[0, 1, 44, LONGEST_RECEIPT - 1]),
                _ => deliver.session = self.random.below(SESSIONS),
            }
        }
        self.push(Step::Deliver(deliver));
    }

    /// Numbers of receipts that no call gave, on a session of whatever kind.
    fn tamper_with_receipt(&mut self) {
        let session = self.random.below(SESSIONS);
        let id = match self.world.state.entry(session).account() {
            Some(account) if usize::from(account) < ACCOUNTS => self.an_id(account.into()),
            _ => self.random.number() as u32,
        };
        let random = self.random.number() as u32;
        let sequence = self.random.choose(&[0, 1, u32::MAX, random]);
        self.push(Step::SetReceipt {
            session,
            id,
            sequence,
        });
        match self.random.below(4) {
            0 => self.deliver(session),
            1 => {
                self.push(Step::Close { session });
            }
            _ => self.answer(session, 0, sequence, &[0]),
        }
    }

    /// The id of one of the account's messages, or none, or any other.
    fn an_id(&mut self, account: usize) -> u32 {
        let place = self.a_place(account, |message| !message.is_empty());
        match (self.random.below(4), place) {
            (0, _) | (_, None) => self.random.choose(&[0, 1, u32::MAX]),
            (_, Some(place)) => Message(&place).id(),
        }
    }

    /// A mark where none may be, and one that may.
    fn hurt_mark(&mut self) {
        let account = self.an_owed_account();
        if self.is_wounded(account) {
            return;
        }
        self.remember(account);
        let nth = self.random.below(PLACES);
        let mut place: Place = self.places(account)[nth];
        match self.random.below(6) {
            0 => place[layout::MARK] = self.random.choose(&[2, 3, 128, 255]),
            1 => place[layout::REGISTERED] ^= 1,
            2 => place[layout::SPARE][self.random.below(5)] = 1,
            _ => place[layout::MARK] ^= 1,
        }
        self.set_place(account, nth, &place);
        let receivers = self.receivers(account);
        if let Some(&session) = receivers.first() {
            self.deliver(session);
        }
        self.look_at(account);
    }
}
