//! The wrapper, on the independent implementation: it is the same on the proved library.

use crate::bureau::{bind, plain_submit, registered_submit, Bureau, STAMP};
use reference::centre::{Message, PlainState, Reference, Refusal, BOOK, TABLE};
use reference::compose::{deliver_sm_resp, Request, Role};
use reference::explain::Header;
use reference::wrapper::{Centre, Outcome};

fn centre() -> Centre<Reference> {
    Centre::over(Reference::sound(), &Bureau::new().book).unwrap()
}

fn bound() -> Centre<Reference> {
    let mut centre = centre();
    centre.open(0).unwrap();
    let request = bind(Role::Transmitter, b"paging", b"secret", b"VMA");
    assert_eq!(status(&mut centre, &request), 0);
    centre
}

fn status(centre: &mut Centre<Reference>, request: &Request) -> u32 {
    let octets = request.octets(1);
    let taken = centre.take(0, &octets, STAMP).unwrap().unwrap();
    assert_eq!(taken.consumed, octets.len());
    Header::of(&taken.reply).unwrap().status
}

#[test]
fn a_message_from_submission_to_delivery() {
    let mut centre = bound();
    assert_eq!(centre.pick(0), Ok(None));
    assert_eq!(status(&mut centre, &Request::Submit(plain_submit())), 0);
    let picked = *centre.pick(0).unwrap().unwrap();
    assert_eq!(picked[..], centre.table()[..256]);
    let id = Message(&picked).id();
    centre.outcome(STAMP, 0, id, Outcome::Delivered, 0).unwrap();
    assert_eq!(centre.pick(0), Ok(None));
    assert_eq!(
        centre.outcome(STAMP, 0, id, Outcome::Expired, 0),
        Err(Refusal::NoSuchMessage)
    );
    assert_eq!(status(&mut centre, &Request::Unbind), 0);
    centre.close(0).unwrap();
    assert_eq!(centre.open(0), Ok(()));
}

#[test]
fn a_receipt_from_its_message_to_its_answer() {
    let mut centre = bound();
    centre.open(1).unwrap();
    let request = bind(Role::Receiver, b"paging", b"secret", b"VMA").octets(1);
    centre.take(1, &request, STAMP).unwrap().unwrap();
    assert_eq!(
        status(&mut centre, &Request::Submit(registered_submit())),
        0
    );
    assert_eq!(centre.deliver(1, 7), Ok(None));
    centre.outcome(STAMP, 0, 1, Outcome::Delivered, 0).unwrap();
    assert_eq!(centre.deliver(0, 7), Err(Refusal::NoReceiver));
    let receipt = centre.deliver(1, 7).unwrap().unwrap();
    let header = Header::of(&receipt).unwrap();
    assert_eq!((header.command, header.sequence), (5, 7));
    assert_eq!(header.length as usize, receipt.len());
    assert!(receipt.ends_with(b"id:00000001 stat:2"));
    assert_eq!(centre.deliver(1, 8), Err(Refusal::NoReceiver));
    assert_eq!(centre.state().receipts[1], 1);
    let taken = centre.take(1, &deliver_sm_resp(0, 7, &[0]), STAMP);
    assert!(taken.unwrap().unwrap().reply.is_empty());
    assert_eq!(centre.state().receipts[1], 0);
    assert_eq!(centre.deliver(1, 8), Ok(None));
}

#[test]
fn wrong_sizes_are_refused_when_the_centre_is_made() {
    let make = |book: usize, table: usize| {
        Centre::resume(
            Reference::sound(),
            &vec![0; book],
            &vec![0; table],
            PlainState::default(),
        )
        .err()
    };
    assert_eq!(make(BOOK, TABLE), None);
    assert_eq!(make(BOOK - 1, TABLE), Some(Refusal::WrongSize));
    assert_eq!(make(BOOK, TABLE + 1), Some(Refusal::WrongSize));
}

#[test]
fn refusals_have_names() {
    let mut centre = centre();
    assert_eq!(centre.open(16), Err(Refusal::NoSuchSession));
    assert_eq!(centre.take(0, &[], STAMP), Err(Refusal::WrongEntry));
    centre.open(0).unwrap();
    assert_eq!(centre.take(0, &[], b""), Err(Refusal::StampIllFormed));
    assert_eq!(centre.take(0, &[0; 3], STAMP), Ok(None));
    assert_eq!(centre.pick(8), Err(Refusal::NoSuchAccount));
    assert_eq!(centre.pick(3), Err(Refusal::AccountIllFormed));
}

#[test]
fn a_kept_centre_goes_on() {
    let mut before = bound();
    assert_eq!(status(&mut before, &Request::Submit(plain_submit())), 0);
    let book = Bureau::new().book;
    let mut after =
        Centre::resume(Reference::sound(), &book, before.table(), before.state()).unwrap();
    assert_eq!(after.pick(0), before.pick(0));
    assert_eq!(status(&mut after, &Request::Submit(plain_submit())), 0);
    assert_eq!(after.state().lasts[0], 2);
}
