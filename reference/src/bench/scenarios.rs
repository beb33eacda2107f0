//! What is measured: each kind of request by itself, and a mixed load.

use crate::centre::{Reference, ACCOUNTS, PLACES, SESSIONS};
use crate::compare::{Deliver, History, Outcome, Sizes, Step, Take, World, PLAIN_STAMP};
use crate::compose::{
    deliver_sm_resp, set_command, Address, Bind, Cancel, Query, Replace, Request, Role, Submit,
    Text,
};
use crate::generate::{history, Manner};

/// A world to start from, and the steps that are timed.
pub struct Scenario {
    pub name: &'static str,
    pub world: World,
    pub steps: Vec<Step>,
}

impl Scenario {
    /// The octets that the steps hand over.
    pub fn octets(&self) -> usize {
        let of_step = |step: &Step| match step {
            Step::Take(take) => take.octets.len(),
            _ => 0,
        };
        self.steps.iter().map(of_step).sum()
    }

    /// The steps that call an engine. The others set something between two calls, which takes
    /// next to no time.
    pub fn calls(&self) -> usize {
        let call = |step: &&Step| !matches!(step, Step::SetReceipt { .. });
        self.steps.iter().filter(call).count()
    }
}

const MIXED_STEPS: usize = 5_000;
const TEXT: usize = 80;

pub fn scenarios() -> Vec<Scenario> {
    let submitted = || [bound(), each(submit)].concat();
    let finished = || [submitted(), each(finish)].concat();
    let owed = || [with_receivers(), each(submit_registered), each(finish)].concat();
    vec![
        scenario("open", vec![], sessions(|session| Step::Open { session })),
        scenario(
            "close",
            opened(),
            sessions(|session| Step::Close { session }),
        ),
        scenario("bind_transmitter", opened(), sessions(bind)),
        scenario(
            "bind_receiver",
            opened(),
            sessions(|session| bind_as(Role::Receiver, session)),
        ),
        scenario(
            "unbind",
            submitted(),
            sessions(|session| take(session, Request::Unbind)),
        ),
        scenario("enquire_link", submitted(), each(enquire)),
        scenario("submit_sm, empty place", bound(), each(submit)),
        scenario("submit_sm, finished place", finished(), each(submit)),
        scenario("submit_sm, replacing", submitted(), each(submit_again)),
        scenario(
            "submit_sm, replacing, spaces",
            submitted(),
            each(submit_again_with_spaces),
        ),
        scenario("submit_sm, table full", submitted(), each(submit)),
        scenario("submit_sm, bad field", submitted(), each(submit_badly)),
        scenario("query_sm, waiting", submitted(), each(query)),
        scenario("query_sm, finished", finished(), each(query)),
        scenario("cancel_sm, by id", submitted(), each(cancel_one)),
        scenario("cancel_sm, all between two", submitted(), each(cancel_all)),
        scenario(
            "cancel_sm, all, spaces",
            submitted(),
            each(cancel_all_with_spaces),
        ),
        scenario("replace_sm", submitted(), each(replace)),
        scenario("unknown command", submitted(), each(unknown)),
        scenario("response", submitted(), each(response)),
        scenario("outcome", submitted(), each(finish)),
        scenario("pick", submitted(), each(pick)),
        scenario("enquire_link, receiver", owed(), each(enquire_as_receiver)),
        scenario("deliver_sm", owed(), pairs(each(deliver), each(forget))),
        scenario(
            "deliver_sm_resp",
            owed(),
            pairs(each(outstanding), each(acknowledge)),
        ),
        scenario(
            "deliver_sm and its answer",
            owed(),
            pairs(each(deliver), each(acknowledge)),
        ),
        mixed(),
    ]
}

/// Plays what leads to the scenario on the reference: every engine starts from there.
fn scenario(name: &'static str, before: Vec<Step>, steps: Vec<Step>) -> Scenario {
    let mut world = World::new(&History {
        book: book(),
        steps: Vec::new(),
    });
    for step in &before {
        let answer = world.play(&Reference::sound(), step);
        assert_eq!(answer.number, 0, "{name}: the way there is smooth");
    }
    Scenario { name, world, steps }
}

/// Well-behaved bureaus on all accounts: the generator's proportions.
fn mixed() -> Scenario {
    let history = (1..)
        .map(|seed| history(seed, MIXED_STEPS, Manner::WellBehaved))
        .find(uses_all_accounts)
        .expect("every other history is about all accounts");
    Scenario {
        name: "mixed load",
        world: World::new(&history),
        steps: history.steps,
    }
}

fn uses_all_accounts(history: &History) -> bool {
    let mut world = World::new(history);
    for step in &history.steps {
        world.play(&Reference::sound(), step);
    }
    world.state.lasts.iter().all(|&last| last > 0)
}

fn book() -> Vec<u8> {
    let mut book = Vec::new();
    for account in 0..ACCOUNTS as u8 {
        let mut record = [0; 64];
        record[..6].copy_from_slice(b"paging");
        record[6] = b'0' + account;
        record[16..22].copy_from_slice(b"secret");
        record[25..28].copy_from_slice(b"VMA");
        record[38..40].fill(1);
        record[40..52].copy_from_slice(b"447700900000");
        book.extend_from_slice(&record);
    }
    book
}

fn sessions(step: fn(usize) -> Step) -> Vec<Step> {
    (0..SESSIONS).map(step).collect()
}

/// A step for each place of each account, account by account in turn; session and account
/// have the same number, and messages get their ids in the order of their places.
fn each(step: fn(usize, usize) -> Step) -> Vec<Step> {
    (0..PLACES)
        .flat_map(|place| (0..ACCOUNTS).map(move |account| step(account, place)))
        .collect()
}

/// Each step with the one that follows it.
fn pairs(first: Vec<Step>, second: Vec<Step>) -> Vec<Step> {
    let pairs = first.into_iter().zip(second);
    pairs.flat_map(|(one, other)| [one, other]).collect()
}

fn opened() -> Vec<Step> {
    sessions(|session| Step::Open { session })
}

fn bound() -> Vec<Step> {
    [opened(), sessions(bind)].concat()
}

/// A transmitter of each account, and above them a receiver of each.
fn with_receivers() -> Vec<Step> {
    let bound = sessions(|session| match session < ACCOUNTS {
        true => bind(session),
        false => bind_as(Role::Receiver, session),
    });
    [opened(), bound].concat()
}

fn receiver(account: usize) -> usize {
    ACCOUNTS + account
}

fn take(session: usize, request: Request) -> Step {
    Step::Take(Take::plain(session, request.octets(1)))
}

fn bind(session: usize) -> Step {
    bind_as(Role::Transmitter, session)
}

fn bind_as(role: Role, session: usize) -> Step {
    let account = (session % ACCOUNTS) as u8;
    take(
        session,
        Request::Bind(Bind {
            role,
            system_id: [&b"paging"[..], &[b'0' + account]].concat(),
            password: b"secret".to_vec(),
            system_type: b"VMA".to_vec(),
            interface_version: 0x33,
            range: Address::default(),
        }),
    )
}

fn destination(place: usize) -> Address {
    Address::new(1, 1, format!("4477009001{place:02}").as_bytes())
}

/// The same with as many spaces in front as there is room for.
fn spaced_destination(place: usize) -> Address {
    let Address { ton, npi, text } = destination(place);
    let spaces = &[b' '; 20][text.len()..];
    Address::new(ton, npi, &[spaces, &text].concat())
}

fn id(place: usize) -> Vec<u8> {
    format!("{:08X}", place + 1).into_bytes()
}

fn text() -> Text {
    Text {
        octets: vec![b'x'; TEXT],
        ..Text::default()
    }
}

fn submission(place: usize) -> Submit {
    Submit {
        service_type: b"VMA".to_vec(),
        destination: destination(place),
        validity: b"960801120000000+".to_vec(),
        text: text(),
        ..Submit::default()
    }
}

fn submit(account: usize, place: usize) -> Step {
    take(account, Request::Submit(submission(place)))
}

fn submit_registered(account: usize, place: usize) -> Step {
    let mut submit = submission(place);
    submit.registered = 1;
    take(account, Request::Submit(submit))
}

fn submit_again(account: usize, place: usize) -> Step {
    submit_again_to(destination(place), account, place)
}

fn submit_again_with_spaces(account: usize, place: usize) -> Step {
    submit_again_to(spaced_destination(place), account, place)
}

fn submit_again_to(destination: Address, account: usize, place: usize) -> Step {
    let submit = Submit {
        destination,
        replace_if_present: 1,
        ..submission(place)
    };
    take(account, Request::Submit(submit))
}

/// The bad field is the last but one, so that the others are read first.
fn submit_badly(account: usize, place: usize) -> Step {
    let mut submit = submission(place);
    submit.text.default_id = 101;
    take(account, Request::Submit(submit))
}

fn query(account: usize, place: usize) -> Step {
    let query = Query {
        id: id(place),
        source: Address::default(),
    };
    take(account, Request::Query(query))
}

fn cancel_one(account: usize, place: usize) -> Step {
    let cancel = Cancel {
        id: id(place),
        ..Cancel::default()
    };
    take(account, Request::Cancel(cancel))
}

fn cancel_all(account: usize, place: usize) -> Step {
    cancel_all_to(destination(place), account)
}

fn cancel_all_with_spaces(account: usize, place: usize) -> Step {
    cancel_all_to(spaced_destination(place), account)
}

fn cancel_all_to(destination: Address, account: usize) -> Step {
    let cancel = Cancel {
        destination,
        ..Cancel::default()
    };
    take(account, Request::Cancel(cancel))
}

fn replace(account: usize, place: usize) -> Step {
    let replace = Replace {
        id: id(place),
        validity: b"960901120000000+".to_vec(),
        text: text(),
        ..Replace::default()
    };
    take(account, Request::Replace(replace))
}

fn enquire(account: usize, _place: usize) -> Step {
    take(account, Request::EnquireLink)
}

fn enquire_as_receiver(account: usize, _place: usize) -> Step {
    take(receiver(account), Request::EnquireLink)
}

const RECEIPT: u32 = 700;

fn deliver(account: usize, _place: usize) -> Step {
    Step::Deliver(Deliver::plain(receiver(account), RECEIPT))
}

/// The receipt that was written is owed again.
fn forget(account: usize, _place: usize) -> Step {
    Step::SetReceipt {
        session: receiver(account),
        id: 0,
        sequence: 0,
    }
}

/// As if the receipt had been written.
fn outstanding(account: usize, place: usize) -> Step {
    Step::SetReceipt {
        session: receiver(account),
        id: place as u32 + 1,
        sequence: RECEIPT,
    }
}

fn acknowledge(account: usize, _place: usize) -> Step {
    let octets = deliver_sm_resp(0, RECEIPT, &[0]);
    Step::Take(Take::plain(receiver(account), octets))
}

fn unknown(account: usize, _place: usize) -> Step {
    with_command(account, 5)
}

fn response(account: usize, _place: usize) -> Step {
    with_command(account, 0x8000_0015)
}

fn with_command(session: usize, command: u32) -> Step {
    let mut octets = Request::EnquireLink.octets(1);
    set_command(&mut octets, command);
    Step::Take(Take::plain(session, octets))
}

/// The message is delivered.
fn finish(account: usize, place: usize) -> Step {
    Step::Outcome(Outcome {
        sizes: Sizes::default(),
        stamp: PLAIN_STAMP.to_vec(),
        report: crate::centre::Report {
            account,
            id: place as u32 + 1,
            outcome: 2,
            error: 0,
        },
    })
}

fn pick(account: usize, _place: usize) -> Step {
    Step::Pick {
        sizes: Sizes::default(),
        account,
    }
}

#[cfg(test)]
mod tests {
    use super::*;
    use crate::centre::Message;

    /// Every reply of a scenario, and the table that it leaves.
    fn played(name: &str) -> (Vec<Vec<u8>>, Vec<u8>) {
        let named = |scenario: &Scenario| scenario.name == name;
        let mut scenario = scenarios().into_iter().find(named).unwrap();
        let world = &mut scenario.world;
        let reply = |step: &Step| {
            let written = world.play(&Reference::sound(), step).written;
            world.space()[..written].to_vec()
        };
        let replies = scenario.steps.iter().map(reply).collect();
        (replies, world.table().to_vec())
    }

    #[test]
    fn spaces_change_what_is_sent_and_nothing_else() {
        for (plain, spaced) in [
            ("submit_sm, replacing", "submit_sm, replacing, spaces"),
            ("cancel_sm, all between two", "cancel_sm, all, spaces"),
        ] {
            assert_eq!(played(plain), played(spaced));
        }
    }

    #[test]
    fn each_receipt_is_written_and_each_answer_clears_a_mark() {
        let receipts = |scenario: &Scenario| scenario.name.starts_with("deliver_sm");
        for mut scenario in scenarios().into_iter().filter(receipts) {
            let marks = |world: &World| {
                let places = world.table().as_chunks().0.iter();
                places.filter(|place| Message(place).is_marked()).count()
            };
            assert_eq!(marks(&scenario.world), ACCOUNTS * PLACES);
            let mut answers = 0;
            for step in &scenario.steps {
                let answer = scenario.world.play(&Reference::sound(), step);
                assert_eq!(answer.number, 0, "{}: {step}", scenario.name);
                answers += usize::from(matches!(step, Step::Take(_)));
            }
            assert_eq!(marks(&scenario.world), ACCOUNTS * PLACES - answers);
        }
    }
}
