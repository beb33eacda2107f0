//! The comparison itself.

use super::engine::Engine;
use super::history::{History, Step};
use super::tally::Tally;
use super::world::{Answer, World};
use crate::centre::{PlainState, PLACE, SESSIONS};

/// The first step after which two engines differ, and in what.
#[derive(Clone, Debug, PartialEq, Eq)]
pub struct Difference {
    pub step: usize,
    pub answers: [Answer; 2],
    pub replies: [Vec<u8>; 2],
    pub what: String,
}

/// Plays a history on both engines, each with a world of its own, and compares after each
/// step.
pub fn compare(
    first: &dyn Engine,
    second: &dyn Engine,
    history: &History,
    tally: &mut Tally,
) -> Option<Difference> {
    let mut worlds = [World::new(history), World::new(history)];
    for (nth, step) in history.steps.iter().enumerate() {
        let [one, other] = &mut worlds;
        one.clear_space();
        other.clear_space();
        let before = one.state;
        let answers = [one.play(first, step), other.play(second, step)];
        one.copy_picked(first, step);
        other.copy_picked(second, step);
        tally.count(step, &answers[0], one.space());
        tally.count_receipts(step, &before, &one.state);
        if let Some(what) = difference(step, &answers, one, other) {
            return Some(Difference {
                step: nth,
                answers,
                replies: [reply(one, &answers[0]), reply(other, &answers[1])],
                what,
            });
        }
    }
    None
}

fn reply(world: &World, answer: &Answer) -> Vec<u8> {
    let end = answer.written.min(world.space().len());
    world.space()[..end].to_vec()
}

fn difference(step: &Step, answers: &[Answer; 2], one: &World, other: &World) -> Option<String> {
    answer_difference(step, answers)
        .or_else(|| state_difference(one, other))
        .or_else(|| space_difference(one, other))
        .or_else(|| table_difference(one, other))
        .or_else(|| copy_difference(one, other))
}

fn answer_difference(step: &Step, [one, other]: &[Answer; 2]) -> Option<String> {
    let differ = |what: &str, a: usize, b: usize| unequal(what, [a, b].map(|n| n.to_string()));
    differ("number", one.number.into(), other.number.into())
        .or_else(|| differ("octets consumed", one.consumed, other.consumed))
        .or_else(|| differ("octets written", one.written, other.written))
        .or_else(|| match step {
            Step::Pick { .. } => differ("picked record at", one.picked, other.picked),
            _ => None,
        })
}

/// States are compared octet for octet: what isn't looked at comes back as it should too.
fn state_difference(one: &World, other: &World) -> Option<String> {
    let (one, other) = (&one.state, &other.state);
    if one == other {
        return None;
    }
    for session in 0..SESSIONS {
        let entries = [one, other].map(|state| entry_words(state, session));
        if let Some(what) = unequal(&format!("session {session}"), entries) {
            return Some(what);
        }
    }
    for account in 0..one.lasts.len() {
        let lasts = [one, other].map(|state| format!("{:08X}", state.lasts[account]));
        if let Some(what) = unequal(&format!("last id of account {account}"), lasts) {
            return Some(what);
        }
    }
    None
}

fn unequal(what: &str, [one, other]: [String; 2]) -> Option<String> {
    (one != other).then(|| format!("{what}: {one} or {other}"))
}

/// All that the state says of a session.
fn entry_words(state: &PlainState, session: usize) -> String {
    format!(
        "{:?} (kind {}, account {}), receipt {:08X} with sequence {}",
        state.entry(session),
        state.kinds[session],
        state.accounts[session],
        state.receipts[session],
        state.sequences[session]
    )
}

fn space_difference(one: &World, other: &World) -> Option<String> {
    let (at, a, b) = first_difference(one.space(), other.space())?;
    Some(format!("response space, octet {at}: {a:02X} or {b:02X}"))
}

fn copy_difference(one: &World, other: &World) -> Option<String> {
    let ((a, m), (b, n)) = (one.copied(), other.copied());
    if m != n {
        return Some(format!("octets of the picked record copied: {m} or {n}"));
    }
    let (at, a, b) = first_difference(a, b)?;
    Some(format!(
        "copy of the picked record, octet {at}: {a:02X} or {b:02X}"
    ))
}

fn table_difference(one: &World, other: &World) -> Option<String> {
    let (at, a, b) = first_difference(one.table_and_behind(), other.table_and_behind())?;
    let (place, octet) = (at / PLACE, at % PLACE);
    Some(format!(
        "table, account {} place {} octet {octet}: {a:02X} or {b:02X}",
        place / 16,
        place % 16
    ))
}

fn first_difference(one: &[u8], other: &[u8]) -> Option<(usize, u8, u8)> {
    if one == other {
        return None;
    }
    let at = one.iter().zip(other).position(|(a, b)| a != b)?;
    Some((at, one[at], other[at]))
}
