//! Writes histories: most requests succeed, and then things are damaged in every way that
//! the outline names.
//!
//! The generator plays its own steps on the independent implementation, only to know what
//! is in the table and so to ask for messages that exist.

mod accounts;
mod answers;
mod calls;
mod damage;
mod faults;
mod places;
mod receipts;
mod requests;
mod texts;
mod wounds;

use crate::centre::{Entry, Message, Place, Reference, ACCOUNTS, PLACES, SESSIONS};
use crate::compare::{Answer, History, Outcome, Sizes, Step, Take, World};
use crate::compose::{Request, Role};
use crate::random::Random;
use receipts::Stream;
use wounds::Wound;

pub use accounts::book;

/// Which steps a history may have.
#[derive(Clone, Copy, Debug, PartialEq, Eq)]
pub enum Manner {
    /// Whatever a caller can do, damaged lent octets and states included.
    Everything,
    /// Only what records of the printing program can say.
    Records,
    /// Only what a well-behaved caller does for well-behaved bureaus.
    WellBehaved,
}

/// A history of about so many steps.
pub fn history(seed: u64, steps: usize, manner: Manner) -> History {
    let mut generator = Generator::new(seed, manner);
    generator.prologue();
    while generator.history.steps.len() < steps {
        generator.advance();
    }
    generator.history
}

struct Generator {
    random: Random,
    manner: Manner,
    history: History,
    world: World,
    /// The accounts that this history is about; few accounts fill up sooner.
    accounts: Vec<usize>,
    /// How many steps in a hundred report an outcome; with few, tables fill up.
    outcomes: usize,
    sequence: u32,
    wounds: Vec<Wound>,
    /// What steps about receipts draw from.
    aside: Stream,
}

impl Generator {
    fn new(seed: u64, manner: Manner) -> Self {
        let mut random = Random::new(seed);
        let history = History {
            book: accounts::book(&mut random, manner),
            steps: Vec::new(),
        };
        let all: Vec<usize> = (0..ACCOUNTS).collect();
        let accounts = if manner == Manner::Records || random.percent(50) {
            all
        } else {
            let first = random.below(ACCOUNTS);
            vec![first, (first + 1) % ACCOUNTS]
        };
        Generator {
            world: World::new(&history),
            manner,
            history,
            accounts,
            outcomes: random.choose(&[1, 8, 20]),
            sequence: random.below(1000) as u32,
            wounds: Vec::new(),
            random,
            aside: Stream::aside(seed),
        }
    }

    /// Plays a step and keeps it.
    fn push(&mut self, step: Step) -> Answer {
        self.world.clear_space();
        let answer = self.world.play(&Reference::sound(), &step);
        self.history.steps.push(step);
        answer
    }

    /// Accounts with a past: last ids near their end, and tables that are not empty.
    fn prologue(&mut self) {
        if self.manner != Manner::Everything {
            return;
        }
        for account in self.accounts.clone() {
            if self.random.percent(25) {
                let below = self.random.below(24) as u32;
                let last = u32::MAX - below;
                self.push(Step::SetLast { account, last });
            }
            if self.random.percent(30) {
                self.settle(account);
            }
        }
    }

    fn advance(&mut self) {
        self.heal();
        self.receipts();
        let [sound, request, call, wound, several, raw] = match self.manner {
            Manner::Everything => [74, 12, 5, 5, 3, 1],
            Manner::Records => [80, 13, 3, 0, 3, 1],
            Manner::WellBehaved => [100, 0, 0, 0, 0, 0],
        };
        let step = self.random.weighted::<fn(&mut Self)>(&[
            (sound, Self::sound_step),
            (request, Self::damaged_request),
            (call, Self::spoiled_call),
            (wound, Self::wound),
            (several, Self::several_pdus),
            (raw, Self::raw_octets),
        ]);
        step(self);
    }

    fn sound_step(&mut self) {
        let outcomes = self.outcomes;
        if self.random.percent(outcomes) {
            let outcome = self.outcome();
            self.push(Step::Outcome(outcome));
        } else if self.manner != Manner::Records && self.random.percent(8) {
            let account = self.an_account();
            let sizes = Sizes::default();
            self.push(Step::Pick { sizes, account });
        } else {
            let session = self.a_session();
            self.sound_step_on(session);
        }
    }

    /// Moves a session on in its life.
    fn sound_step_on(&mut self, session: usize) {
        match self.world.state.entry(session) {
            Entry::Closed => {
                self.push(Step::Open { session });
            }
            Entry::Ended => {
                self.push(Step::Close { session });
            }
            Entry::Transmitter(account) if usize::from(account) >= ACCOUNTS => {
                self.push(Step::Close { session });
            }
            entry => {
                if entry != Entry::Open && self.random.percent(1) {
                    self.push(Step::Close { session });
                    return;
                }
                let request = self.request_for(session);
                self.send(session, &request);
            }
        }
    }

    /// A request that suits the session, most of the time.
    fn request_for(&mut self, session: usize) -> Request {
        match self.world.state.entry(session) {
            Entry::Transmitter(account) if usize::from(account) < ACCOUNTS => {
                self.message_request(usize::from(account))
            }
            Entry::Receiver(_) => self.receiver_request(),
            _ => self.bind_request(),
        }
    }

    fn receiver_request(&mut self) -> Request {
        let unfit = self.manner != Manner::WellBehaved;
        match self.random.below(10) {
            0 => Request::Unbind,
            1 if unfit => self.bind_request(),
            2 if unfit => {
                let account = self.an_account();
                self.message_request(account)
            }
            _ => Request::EnquireLink,
        }
    }

    fn message_request(&mut self, account: usize) -> Request {
        let unfit = usize::from(self.manner != Manner::WellBehaved);
        let request = self.random.weighted::<fn(&mut Self, usize) -> Request>(&[
            (40, |own, account| Request::Submit(own.submit(account))),
            (16, |own, account| Request::Query(own.query(account))),
            (9, |own, account| Request::Cancel(own.cancel_one(account))),
            (5, |own, account| Request::Cancel(own.cancel_all(account))),
            (15, |own, account| Request::Replace(own.replace(account))),
            (3, |_, _| Request::EnquireLink),
            (1, |_, _| Request::Unbind),
            (unfit, |own, _| own.bind_request()),
        ]);
        request(self, account)
    }

    /// A bind, seldom to an account that can't be bound.
    fn bind_request(&mut self) -> Request {
        let mut account = self.an_account();
        if !self.can_be_bound(account) {
            account = self.an_account();
        }
        let role = if self.random.percent(80) {
            Role::Transmitter
        } else {
            Role::Receiver
        };
        Request::Bind(self.bind(account, role))
    }

    fn send(&mut self, session: usize, request: &Request) {
        let sequence = self.next_sequence();
        let take = self.take(session, request.octets(sequence));
        self.push(Step::Take(take));
    }

    /// A call in which everything but the octets is in order.
    fn take(&mut self, session: usize, octets: Vec<u8>) -> Take {
        let mut take = Take::plain(session, octets);
        take.stamp = texts::time(&mut self.random);
        if self.manner == Manner::Everything {
            take.space += self.random.choose(&[0, 0, 0, 1, 20, 500]);
        }
        take
    }

    fn outcome(&mut self) -> Outcome {
        let account = self.an_account();
        let report = self.report(account);
        Outcome {
            sizes: Sizes::default(),
            stamp: texts::time(&mut self.random),
            report,
        }
    }

    fn an_account(&mut self) -> usize {
        self.random.choose(&self.accounts)
    }

    /// Bound sessions more often than others.
    fn a_session(&mut self) -> usize {
        let first = self.random.below(SESSIONS);
        if self.world.state.entry(first).account().is_some() || self.random.percent(40) {
            return first;
        }
        let bound = |session: &usize| self.world.state.entry(*session).account().is_some();
        (0..SESSIONS).find(bound).unwrap_or(first)
    }

    fn next_sequence(&mut self) -> u32 {
        self.sequence = match self.random.below(50) {
            0 => self.random.number() as u32,
            _ => self.sequence.wrapping_add(1),
        };
        self.sequence
    }

    fn places(&self, account: usize) -> &[Place] {
        let places: &[Place] = self.world.table().as_chunks().0;
        &places[PLACES * account..PLACES * (account + 1)]
    }

    /// A message of the account for which this holds, if there is one.
    fn a_place(&mut self, account: usize, holds: fn(Message<'_>) -> bool) -> Option<Place> {
        let fitting: Vec<Place> = self
            .places(account)
            .iter()
            .filter(|place| holds(Message(place)))
            .copied()
            .collect();
        if fitting.is_empty() {
            return None;
        }
        Some(self.random.choose(&fitting))
    }
}
