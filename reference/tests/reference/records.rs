//! Which stored records are well formed.

use crate::bureau::{plain_submit, registered_submit, Bureau};
use reference::centre::{Entry, Place, Refusal};
use reference::compose::Request;

/// A waiting record, id 1.
fn waiting() -> Place {
    let mut bureau = Bureau::bound();
    bureau.submit(plain_submit());
    *bureau.place(0, 0)
}

/// A finished record, id 1, in state 5 with error 9.
fn finished() -> Place {
    let mut bureau = Bureau::bound();
    bureau.submit(plain_submit());
    bureau.outcome(0, 1, 5).unwrap();
    *bureau.place(0, 0)
}

fn is_well_formed_with_last(place: &Place, last: u32) -> bool {
    let mut bureau = Bureau::bound();
    bureau.state.lasts[0] = last;
    *bureau.place_mut(0, 13) = *place;
    match bureau.take(0, &Request::EnquireLink.octets(1)) {
        Ok(_) => true,
        Err(refusal) => {
            assert_eq!(refusal, Refusal::AccountIllFormed);
            false
        }
    }
}

fn is_well_formed(place: &Place) -> bool {
    is_well_formed_with_last(place, 1)
}

fn with(mut place: Place, at: usize, octets: &[u8]) -> bool {
    place[at..at + octets.len()].copy_from_slice(octets);
    is_well_formed(&place)
}

#[test]
fn the_two_to_start_from() {
    assert!(is_well_formed(&waiting()));
    assert!(is_well_formed(&finished()));
    assert!(is_well_formed(&[0; 256]));
}

#[test]
fn states() {
    assert!(!with(waiting(), 0, &[0]), "an empty place is all zero");
    assert!(!with([0; 256], 255, &[1]), "an empty place is all zero");
    assert!(!with(waiting(), 0, &[6]));
    assert!(!with(waiting(), 0, &[2]), "a final date is missing");
    assert!(!with(finished(), 0, &[1]), "a final date is too many");
    assert!(with(finished(), 0, &[2]) && with(finished(), 0, &[3]));
    assert!(!with(finished(), 0, &[4]), "a deleted message has no error");
    let mut deleted = finished();
    deleted[249] = 0;
    assert!(with(deleted, 0, &[4]));
    assert!(!with(waiting(), 249, &[1]), "nor has a waiting one");
}

#[test]
fn ids() {
    assert!(!with(waiting(), 1, &[0, 0, 0, 0]));
    assert!(!with(waiting(), 1, &[0, 0, 0, 2]));
    assert!(!is_well_formed_with_last(&waiting(), 0));
    assert!(is_well_formed_with_last(&waiting(), u32::MAX));
}

#[test]
fn ids_differ_within_an_account_only() {
    let mut bureau = Bureau::bound();
    bureau.state.lasts = [1; 8];
    *bureau.place_mut(0, 0) = waiting();
    *bureau.place_mut(7, 0) = waiting();
    assert!(bureau.pick(0).is_ok());
    assert!(bureau.pick(7).is_ok());
    *bureau.place_mut(0, 15) = finished();
    assert_eq!(bureau.pick(0), Err(Refusal::AccountIllFormed));
    assert!(bureau.pick(7).is_ok());
    bureau.state.entries[0] = Entry::Receiver(7);
    assert!(bureau.take(0, &Request::EnquireLink.octets(1)).is_ok());
}

#[test]
fn addresses() {
    for address in [7, 29] {
        let mut place = waiting();
        place[address..address + 20].fill(0);
        assert!(!is_well_formed(&place), "empty");
        assert!(with(place, address, b"1"));
        assert!(with(place, address, b" 1"));
        assert!(with(place, address, b"01234567890123456789"));
        assert!(!with(place, address, b" "));
        assert!(!with(place, address, b"x"));
        assert!(!with(place, address, b"\x001"));
        assert!(!with(place, address, b"1\x001"));
        assert!(with(waiting(), address - 2, &[255, 255]), "ton and npi");
    }
}

#[test]
fn one_octet_fields() {
    assert!(
        with(waiting(), 54, &[255, 255]),
        "esm_class and protocol id"
    );
    assert!(with(waiting(), 56, &[1]) && !with(waiting(), 56, &[2]));
    assert!(with(waiting(), 89, &[1]) && !with(waiting(), 89, &[2]));
    assert!(with(waiting(), 90, &[255]));
    assert!(!with(waiting(), 91, &[1]), "a default id and a text");
    for spare in 251..256 {
        assert!(!with(waiting(), spare, &[1]));
        assert!(!with(finished(), spare, &[1]));
    }
}

#[test]
fn marks() {
    let mut bureau = Bureau::bound();
    bureau.submit(registered_submit());
    let waiting = *bureau.place(0, 0);
    bureau.outcome(0, 1, 3).unwrap();
    let told = *bureau.place(0, 0);
    assert_eq!((waiting[250], told[250]), (0, 1));
    assert!(is_well_formed(&told) && with(told, 250, &[0]));
    assert!(!with(told, 250, &[2]) && !with(told, 250, &[255]));
    assert!(!with(told, 89, &[0]), "the flag of a marked record");
    assert!(!with(waiting, 250, &[1]), "nothing is owed yet");
    assert!(!with(finished(), 250, &[1]), "nor without the flag");
    assert!(!with([0; 256], 250, &[1]), "nor in an empty place");
    let mut deleted = told;
    deleted[249] = 0;
    assert!(with(deleted, 0, &[4]));
}

#[test]
fn texts() {
    assert!(with(waiting(), 49, b"ABCDE"));
    assert!(!with(waiting(), 49, b"\x80"));
    assert!(!with(waiting(), 49, b"A\0B"));
    let mut none = waiting();
    none[92..233].fill(0);
    assert!(is_well_formed(&none));
    assert!(with(none, 91, &[100]) && !with(none, 91, &[101]));
    assert!(!with(none, 232, &[1]), "octets behind the text");
    assert!(with(none, 92, &[140]) && !with(none, 92, &[141]));
    none[92..233].fill(255);
    assert!(with(none, 92, &[140]) && !with(none, 92, &[139]));
}

#[test]
fn times() {
    for time in [57, 73] {
        assert!(with(waiting(), time, b"960701120000000+"));
        assert!(!with(waiting(), time, b"961301120000000+"));
        assert!(!with(waiting(), time, b"96070112000000"));
        assert!(!with(waiting(), time + 15, b"+"));
    }
    assert!(!with(finished(), 233, b"961301120000000+"));
    assert!(!with(finished(), 248, &[0]));
    assert!(!with(waiting(), 233, b"960701120000000+"));
}
