//! The proved library, where it is linked.

use crate::bureau::{bind, plain_submit, Bureau, STAMP};
use reference::campaign;
use reference::centre::{PlainState, Reference, SESSIONS};
use reference::compare::{Engine, World};
use reference::compose::{Request, Role};
use reference::explain::Header;
use reference::generate::{history, Manner};
use reference::proved::Proved;
use reference::wrapper::{Centre, Outcome};

#[test]
fn it_does_what_the_reference_does() {
    let outcome = campaign::run(&Reference::sound(), &Proved, 100_000, 2);
    if let Some(difference) = outcome.difference {
        panic!("{difference}");
    }
}

/// The comparison holds states against the reference's; here their form is looked at.
#[test]
fn states_come_back_in_their_plain_form() {
    let history = history(3, 5_000, Manner::WellBehaved);
    let mut world = World::new(&history);
    for step in &history.steps {
        world.play(&Proved, step);
        assert!(is_plain(&world.state), "{step}");
    }
    assert_eq!(Proved.open(&PlainState::default(), 16).number, 2);
}

fn is_plain(state: &PlainState) -> bool {
    (0..SESSIONS).all(|session| {
        let (kind, account) = (state.kinds[session], state.accounts[session]);
        let (id, sequence) = (state.receipts[session], state.sequences[session]);
        kind <= 4
            && (account == 0 || matches!(kind, 2 | 3))
            && (id == 0 || kind == 3)
            && (sequence == 0 || id != 0)
    })
}

#[test]
fn the_wrapper_on_the_library() {
    let mut centre = Centre::new(&Bureau::new().book).unwrap();
    centre.open(0).unwrap();
    for request in [
        bind(Role::Transmitter, b"paging", b"secret", b"VMA"),
        Request::Submit(plain_submit()),
    ] {
        let taken = centre.take(0, &request.octets(1), STAMP).unwrap().unwrap();
        assert_eq!(Header::of(&taken.reply).unwrap().status, 0);
    }
    assert_eq!(centre.pick(0).unwrap().unwrap()[..5], [1, 0, 0, 0, 1]);
    centre.outcome(STAMP, 0, 1, Outcome::Delivered, 0).unwrap();
    assert_eq!(centre.pick(0), Ok(None));
}
