//! What is looked at in a world: the state, records of the table, and what the last call
//! changed. A record is laid out here as the outline's table has it, by no code of an engine.

use super::pieces::{repeated, stretch};
use crate::centre::{Entry, PART, PLACE, PLACES, SESSIONS};
use crate::compare::World;
use crate::compose::{Address, Submit};
use crate::hex;
use crate::script::book::account;
use crate::script::steps::submission;
use crate::script::words::{unexpected, Word, Words};

#[derive(Clone, Debug, PartialEq, Eq)]
pub enum Look {
    Entry {
        session: usize,
        entry: Entry,
    },
    /// The id and the sequence number as they stand in the state: both 0 for none.
    Outstanding {
        session: usize,
        id: u32,
        sequence: u32,
    },
    Last {
        account: usize,
        last: u32,
    },
    States {
        account: usize,
        states: Vec<u32>,
    },
    Marks {
        account: usize,
        marks: Vec<u32>,
    },
    Ids {
        account: usize,
        ids: Vec<u32>,
    },
    /// A stretch of the table, by its first octet.
    Holds {
        start: usize,
        octets: Vec<u8>,
    },
    /// Octets of the table.
    Changed(Vec<usize>),
}

impl Look {
    /// Reads a line by its first word; none where it asks for no look.
    pub fn read(first: &Word, mut words: Words) -> Result<Option<Look>, String> {
        Ok(Some(match first.text().as_str() {
            "entry" => Look::Entry {
                session: session(&mut words)?,
                entry: entry(words)?,
            },
            "outstanding" => {
                let session = session(&mut words)?;
                let (id, sequence) = outstanding(words)?;
                Look::Outstanding {
                    session,
                    id,
                    sequence,
                }
            }
            "last" => {
                let (account, last) = (account(&mut words)?, words.id()?);
                words.end()?;
                Look::Last { account, last }
            }
            "states" => Look::States {
                account: account(&mut words)?,
                states: sixteen(words, 10)?,
            },
            "marks" => Look::Marks {
                account: account(&mut words)?,
                marks: sixteen(words, 10)?,
            },
            "ids" => Look::Ids {
                account: account(&mut words)?,
                ids: sixteen(words, 16)?,
            },
            "record" => Look::Holds {
                start: record_start(&mut words)?,
                octets: record(words)?,
            },
            "holds" => {
                let start = record_start(&mut words)?;
                let (at, octets) = stretch(words, PLACE)?;
                Look::Holds {
                    start: start + at,
                    octets,
                }
            }
            "changed" => Look::Changed(changed(words)?),
            _ => return Ok(None),
        }))
    }

    /// What was expected and what was found, where they differ.
    pub fn difference(&self, before: &World, world: &World) -> Option<(String, String)> {
        match self {
            Look::Entry { session, entry } => unequal(entry, &world.state.entry(*session)),
            Look::Outstanding {
                session,
                id,
                sequence,
            } => {
                let (state, session) = (&world.state, *session);
                let found = (state.receipts[session], state.sequences[session]);
                unequal(&(*id, *sequence), &found)
            }
            Look::Last { account, last } => {
                let found = world.state.lasts[*account];
                (*last != found).then(|| (format!("{last:08X}"), format!("{found:08X}")))
            }
            Look::States { account, states } => {
                let found = of_places(world, *account, |record| u32::from(record[0]));
                unequal(states, &found)
            }
            Look::Marks { account, marks } => {
                let found = of_places(world, *account, |record| u32::from(record[250]));
                unequal(marks, &found)
            }
            Look::Ids { account, ids } => {
                let found = of_places(world, *account, |record| {
                    u32::from_be_bytes([record[1], record[2], record[3], record[4]])
                });
                (*ids != found).then(|| (format!("{ids:X?}"), format!("{found:X?}")))
            }
            Look::Holds { start, octets } => {
                octets_difference(*start, octets, &world.table()[*start..])
            }
            Look::Changed(octets) => {
                let found = changed_octets(before, world);
                (*octets != found).then(|| (places(octets), places(&found)))
            }
        }
    }
}

fn unequal<T: PartialEq + std::fmt::Debug>(expected: &T, found: &T) -> Option<(String, String)> {
    (expected != found).then(|| (format!("{expected:?}"), format!("{found:?}")))
}

fn of_places(world: &World, account: usize, what: fn(&[u8]) -> u32) -> Vec<u32> {
    let part = &world.table()[PART * account..][..PART];
    part.chunks_exact(PLACE).map(what).collect()
}

/// From the first octet that differs on, a few of them.
fn octets_difference(start: usize, expected: &[u8], found: &[u8]) -> Option<(String, String)> {
    let at = expected.iter().zip(found).position(|(a, b)| a != b)?;
    let shown = |octets: &[u8]| {
        let few = &octets[at..expected.len().min(at + 8)];
        let octet = (start + at) % PLACE;
        format!("{} from octet {octet} of the record on", hex::text(few))
    };
    Some((shown(expected), shown(found)))
}

fn changed_octets(before: &World, world: &World) -> Vec<usize> {
    let pairs = before.table().iter().zip(world.table());
    let differ = pairs.enumerate().filter(|(_, (a, b))| a != b);
    differ.map(|(at, _)| at).collect()
}

/// Octets of the table in words, those that follow each other as one range.
fn places(octets: &[usize]) -> String {
    if octets.is_empty() {
        return "nothing".to_string();
    }
    let follows = |one: &usize, next: &usize| next - one == 1 && one / PLACE == next / PLACE;
    let ranges = octets.chunk_by(follows).map(|range| {
        let (first, last) = (range[0], range[range.len() - 1]);
        let (account, place) = (first / PART, first / PLACE % PLACES);
        let (from, to) = (first % PLACE, last % PLACE);
        format!("{account} place {place} at {from}-{to}")
    });
    ranges.collect::<Vec<String>>().join(", ")
}

/// The number of a session that there is.
pub fn session(words: &mut Words) -> Result<usize, String> {
    below(words, "a session number", SESSIONS)
}

/// Where in the table a record starts, by its account and its place.
pub fn record_start(words: &mut Words) -> Result<usize, String> {
    Ok(PART * account(words)? + PLACE * place(words)?)
}

/// The number of one of an account's places.
fn place(words: &mut Words) -> Result<usize, String> {
    below(words, "a place", PLACES)
}

fn below(words: &mut Words, what: &str, limit: usize) -> Result<usize, String> {
    match usize::from(words.octet(what)?) {
        number if number < limit => Ok(number),
        number => Err(format!("expected {what} below {limit}, found {number}")),
    }
}

/// An entry in words, up to the end of the line. An account may be one that there isn't.
pub fn entry(mut words: Words) -> Result<Entry, String> {
    let choices = ["closed", "open", "ended", "transmitter", "receiver"];
    let entry = match words.one_of(&choices)? {
        0 => Entry::Closed,
        1 => Entry::Open,
        2 => Entry::Ended,
        3 => Entry::Transmitter(words.octet("an account number")?),
        _ => Entry::Receiver(words.octet("an account number")?),
    };
    words.end()?;
    Ok(entry)
}

/// `none`, or an id and a sequence number.
pub fn outstanding(mut words: Words) -> Result<(u32, u32), String> {
    let mut receipt = (0, 0);
    if !words.next_if("none") {
        receipt = (words.id()?, words.number("a sequence number")?);
    }
    words.end()?;
    Ok(receipt)
}

fn sixteen(words: Words, radix: u32) -> Result<Vec<u32>, String> {
    let number = |word: &Word| {
        u32::from_str_radix(&word.text(), radix).map_err(|_| unexpected("a number", word))
    };
    let numbers = repeated(words, number)?;
    match numbers.len() {
        PLACES => Ok(numbers),
        count => Err(format!("expected {PLACES} numbers, found {count}")),
    }
}

/// `place 0 at 0 233-248 place 2 at 91`, behind the account's number.
fn changed(mut words: Words) -> Result<Vec<usize>, String> {
    let mut octets = Vec::new();
    if words.next_if("nothing") {
        words.end()?;
        return Ok(octets);
    }
    let part = PART * account(&mut words)?;
    words.keyword("place")?;
    let mut start = part + PLACE * place(&mut words)?;
    words.keyword("at")?;
    while let Some(word) = words.any() {
        if word.is("place") {
            start = part + PLACE * place(&mut words)?;
            words.keyword("at")?;
            continue;
        }
        let (first, last) = range(&word)?;
        octets.extend((first..=last).map(|at| start + at));
    }
    Ok(octets)
}

/// One octet of a record, or the first and the last of several.
fn range(word: &Word) -> Result<(usize, usize), String> {
    let text = word.text();
    let (first, last) = text.split_once('-').unwrap_or((&text, &text));
    match (first.parse(), last.parse()) {
        (Ok(first), Ok(last)) if last < PLACE => Ok((first, last)),
        _ => Err(unexpected("an octet of a record, or a range", word)),
    }
}

/// A record in words: `empty`, or state and id, `final`, `error` and `marked`, and what was
/// submitted.
fn record(mut words: Words) -> Result<Vec<u8>, String> {
    let states = [
        "empty",
        "waiting",
        "delivered",
        "expired",
        "deleted",
        "undeliverable",
    ];
    let state = words.one_of(&states)? as u8;
    if state == 0 {
        words.end()?;
        return Ok(vec![0; PLACE]);
    }
    let id = words.id()?;
    let mut ending = Ending::default();
    if words.next_if("final") {
        ending.date = words.octets("a final date")?;
    }
    if words.next_if("error") {
        ending.error = words.octet("an error code")?;
    }
    ending.mark = words.next_if("marked").into();
    laid_out(state, id, &submission(words)?, &ending)
}

/// What a message has besides when it is finished.
#[derive(Default)]
struct Ending {
    date: Vec<u8>,
    error: u8,
    mark: u8,
}

/// The outline's table, line by line.
fn laid_out(state: u8, id: u32, message: &Submit, ending: &Ending) -> Result<Vec<u8>, String> {
    let record = [
        vec![state],
        id.to_be_bytes().to_vec(),
        address(&message.source)?,
        address(&message.destination)?,
        padded(&message.service_type, 5)?,
        vec![message.esm_class, message.protocol_id, message.priority],
        padded(&message.schedule, 16)?,
        padded(&message.validity, 16)?,
        vec![message.registered, message.data_coding],
        vec![message.text.default_id, message.text.octets.len() as u8],
        padded(&message.text.octets, 140)?,
        padded(&ending.date, 16)?,
        vec![ending.error, ending.mark],
        vec![0; 5],
    ];
    Ok(record.concat())
}

fn address(address: &Address) -> Result<Vec<u8>, String> {
    let mut octets = vec![address.ton, address.npi];
    octets.extend(padded(&address.text, 20)?);
    Ok(octets)
}

/// A text with zeros behind it.
fn padded(text: &[u8], size: usize) -> Result<Vec<u8>, String> {
    if text.len() > size {
        return Err(format!(
            "expected at most {size} octets, found {}",
            text.len()
        ));
    }
    let mut octets = text.to_vec();
    octets.resize(size, 0);
    Ok(octets)
}
