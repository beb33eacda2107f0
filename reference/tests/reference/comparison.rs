//! The comparison: that it reaches everything, and that it can fail.

use reference::campaign;
use reference::centre::{command, Fault, Reference};
use reference::compare::{compare, shrink, Tally};
use reference::generate::{history, Manner};

const STEPS: u64 = 100_000;

fn tally() -> Tally {
    let reference = Reference::sound();
    let outcome = campaign::run(&reference, &reference, STEPS, 1);
    assert_eq!(outcome.difference, None);
    outcome.tally
}

#[test]
fn every_number_and_every_status_is_reached() {
    let tally = tally();
    for (operation, numbers) in [
        ("open", &[0, 2, 6][..]),
        ("close", &[0, 2]),
        ("octets", &[0, 1, 2, 3, 4, 5, 6, 9]),
        ("outcome", &[0, 3, 5, 7, 8, 9, 10]),
        ("pick", &[0, 3, 7, 9, 11]),
        ("deliver", &[0, 2, 3, 4, 6, 9, 12, 13]),
    ] {
        let seen: Vec<u8> = tally
            .numbers
            .keys()
            .filter(|(name, _)| *name == operation)
            .map(|(_, number)| *number)
            .collect();
        assert_eq!(seen, numbers, "{operation}");
    }
    for (request, statuses) in [
        (command::BIND_RECEIVER, &[0, 2, 5, 9, 13][..]),
        (command::BIND_TRANSMITTER, &[0, 2, 5, 9, 13]),
        (command::QUERY_SM, &[0, 2, 4, 10, 12]),
        (command::SUBMIT_SM, &[0, 1, 2, 4, 6, 7, 8, 9, 10, 11, 20]),
        (command::UNBIND, &[0, 2, 4]),
        (command::REPLACE_SM, &[0, 1, 2, 4, 7, 9, 10, 12, 19]),
        (command::CANCEL_SM, &[0, 2, 4, 9, 10, 11, 12, 17]),
        (command::ENQUIRE_LINK, &[0, 2]),
        (command::GENERIC_NAK, &[2, 3]),
    ] {
        let reply = request | command::RESPONSE;
        let seen: Vec<u32> = tally
            .replies
            .keys()
            .filter(|(command, _)| *command == reply)
            .map(|(_, status)| *status)
            .collect();
        assert_eq!(seen, statuses, "{reply:08X}");
    }
    assert!(tally.silent > 100);
    let ways = ["acknowledged", "closed", "ended", "not settled", "refused"];
    let seen: Vec<&str> = tally.receipts.keys().copied().collect();
    assert_eq!(seen, ways);
    assert!(tally.receipts.values().all(|&count| count > 20));
}

#[test]
fn most_requests_succeed() {
    let tally = tally();
    for request in [
        command::BIND_RECEIVER,
        command::BIND_TRANSMITTER,
        command::QUERY_SM,
        command::SUBMIT_SM,
        command::UNBIND,
        command::REPLACE_SM,
        command::CANCEL_SM,
        command::ENQUIRE_LINK,
    ] {
        let (all, accepted) = tally.accepted(request | command::RESPONSE);
        assert!(2 * accepted > all, "{request}: {accepted} of {all}");
    }
    let delivers = tally
        .numbers
        .iter()
        .filter(|((name, _), _)| *name == "deliver");
    let all: u64 = delivers.map(|(_, count)| count).sum();
    let written = tally.numbers[&("deliver", 0)];
    assert!(3 * written > 2 * all, "deliver: {written} of {all}");
    let acknowledged = tally.receipts["acknowledged"];
    assert!(2 * acknowledged > written, "{acknowledged} of {written}");
}

#[test]
fn every_planted_fault_is_found_and_made_small() {
    for fault in Fault::ALL {
        let faulty = Reference::with_fault(fault);
        let outcome = campaign::run(&Reference::sound(), &faulty, STEPS, 1);
        let Some(difference) = outcome.difference else {
            panic!("{} was not found", fault.name());
        };
        let lines = difference.lines().count();
        assert!(lines <= 80, "{}: {lines} lines", fault.name());
    }
}

#[test]
fn a_small_history_needs_each_of_its_steps() {
    let reference = Reference::sound();
    let faulty = Reference::with_fault(Fault::OldTextBehind);
    let long = (0..)
        .map(|seed| history(seed, 400, Manner::Everything))
        .find(|history| compare(&reference, &faulty, history, &mut Tally::default()).is_some())
        .unwrap();
    let small = shrink(&reference, &faulty, &long);
    assert!(small.steps.len() < long.steps.len());
    for at in 0..small.steps.len() {
        let mut less = small.clone();
        less.steps.remove(at);
        assert_eq!(
            compare(&reference, &faulty, &less, &mut Tally::default()),
            None,
            "step {at} can be left out"
        );
    }
}

#[test]
fn a_seed_gives_the_same_history() {
    for manner in [Manner::Everything, Manner::Records, Manner::WellBehaved] {
        assert_eq!(history(7, 300, manner), history(7, 300, manner));
        assert_ne!(history(7, 300, manner), history(8, 300, manner));
    }
}

#[test]
fn a_digest_is_the_same_for_the_same_and_another_where_an_engine_errs() {
    let digest = |engine: Reference| campaign::digest(&engine, 20_000, 1);
    let sound = digest(Reference::sound());
    assert_eq!(sound, digest(Reference::sound()));
    assert_ne!(sound, digest(Reference::with_fault(Fault::OldTextBehind)));
}
