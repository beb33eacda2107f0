//! docs/ANSWER.md shows what the centre does: its table and its list of stored messages are
//! computed here from the shipped history, and the page must show the same.

use reference::centre::{layout, BookRecord, Fault, Message, Place, Reference};
use reference::centre::{BOOK_RECORD, PART, PLACES};
use reference::compare::Engine;
use reference::hex;
use reference::printing::{run, Order};
use reference::script::{self, ScriptedOrder};
use reference::wrapper::{Centre, Outcome};

const BOOK: &str = include_str!("../../examples/incident.book");
const SCRIPT: &str = include_str!("../../examples/incident.script");

fn page() -> String {
    let path = concat!(env!("CARGO_MANIFEST_DIR"), "/../docs/ANSWER.md");
    std::fs::read_to_string(path).unwrap_or_else(|error| panic!("{path}: {error}"))
}

fn book() -> Vec<u8> {
    script::book(BOOK).unwrap()
}

fn steps() -> Vec<ScriptedOrder> {
    script::orders(SCRIPT).unwrap()
}

/// A row of the page's table, without what is said of the old centre and of this one.
#[derive(Debug, PartialEq, Eq)]
struct Row {
    number: usize,
    done: String,
    printed: String,
}

impl Row {
    /// None where the line isn't a row of that table.
    fn shown(line: &str) -> Option<Row> {
        let cells = line.strip_prefix("| ")?.strip_suffix(" |")?;
        let cells: Vec<&str> = cells.split(" | ").collect();
        let [number, done, _, _, printed] = cells[..] else {
            return None;
        };
        Some(Row {
            number: number.parse().ok()?,
            done: done.to_string(),
            printed: printed.strip_prefix('`')?.strip_suffix('`')?.to_string(),
        })
    }

    /// What is done is said in the script, on the line above the step.
    fn computed(number: usize, step: &ScriptedOrder, printed: &str) -> Row {
        let above = SCRIPT.lines().nth(step.line - 2).unwrap();
        Row {
            number,
            done: above.strip_prefix("# ").unwrap().to_string(),
            printed: printed.to_string(),
        }
    }
}

fn assert_shown(printed: &[String]) {
    let steps = steps();
    assert_eq!(printed.len(), steps.len());
    let shown: Vec<Row> = page().lines().filter_map(Row::shown).collect();
    for (nth, (step, printed)) in steps.iter().zip(printed).enumerate() {
        let computed = Row::computed(nth + 1, step, printed);
        assert_eq!(shown.get(nth), Some(&computed), "the page, and what is so");
    }
    assert_eq!(shown.len(), steps.len(), "the page's rows, and the steps");
}

#[test]
fn the_table_is_what_is_printed() {
    let records: Vec<u8> = steps().iter().flat_map(|s| s.order.record()).collect();
    let mut output = Vec::new();
    run(&book(), &records[..], &mut output).unwrap();
    let printed = String::from_utf8(output).unwrap();
    assert_shown(&printed.lines().map(String::from).collect::<Vec<_>>());
}

/// Northgate has session 0 and is account 0, Carrick has session 1 and is account 1.
fn stranger_to(order: &Order) -> usize {
    match order {
        Order::Open { session } | Order::Octets { session, .. } => 1 - usize::from(*session),
        Order::Outcome { report, .. } => 1 - usize::from(report.account),
        Order::Close { .. } => unreachable!("no session is closed on that day"),
    }
}

/// Does a step; all are answered 0. Gives what is printed for it.
fn play<E: Engine>(centre: &mut Centre<E>, order: &Order) -> String {
    match order {
        Order::Open { session } => centre.open(usize::from(*session)).unwrap(),
        Order::Octets {
            session,
            stamp,
            octets,
        } => {
            let taken = centre.take(usize::from(*session), octets, stamp);
            let taken = taken.unwrap().unwrap();
            return format!("0 {} {}", taken.consumed, hex::text(&taken.reply));
        }
        Order::Outcome { stamp, report } => {
            let account = usize::from(report.account);
            let picked = Message(centre.pick(account).unwrap().unwrap());
            assert_eq!(picked.id(), report.id, "the message picked and reported");
            assert_eq!(report.outcome, 2, "delivered");
            let delivered = Outcome::Delivered;
            let reported = centre.outcome(stamp, account, report.id, delivered, report.error);
            reported.unwrap();
        }
        Order::Close { .. } => unreachable!("no session is closed on that day"),
    }
    "0 0 -".to_string()
}

/// A stored message as the page lists it.
fn listed(account: usize, place: &Place) -> String {
    let book = book();
    let record = book[BOOK_RECORD * account..].first_chunk().unwrap();
    let name = BookRecord(record).system_id().escape_ascii();
    let message = Message(place);
    let state = match message.state() {
        1 => "waiting",
        2 => "delivered",
        other => panic!("state {other}"),
    };
    let text = &place[layout::TEXT][..usize::from(place[layout::LENGTH])];
    let text = text.escape_ascii();
    format!("    {name} {:08X} {state} \"{text}\"\n", message.id())
}

fn list<E: Engine>(centre: &Centre<E>) -> String {
    let places = centre.table().as_chunks().0;
    let used = places.iter().enumerate().filter(|(_, p)| p[0] != 0);
    used.map(|(nth, place)| listed(nth / PLACES, place))
        .collect()
}

/// The page shows what an engine does, and no step changes an octet of the other account.
fn assert_apart(engine: impl Engine) {
    let mut centre = Centre::over(engine, &book()).unwrap();
    let mut printed = Vec::new();
    for ScriptedOrder { order, .. } in steps() {
        let theirs = PART * stranger_to(&order)..PART * (stranger_to(&order) + 1);
        let before = centre.table()[theirs.clone()].to_vec();
        printed.push(play(&mut centre, &order));
        assert_eq!(centre.table()[theirs], before, "{order:?}");
    }
    assert_shown(&printed);
    let list = list(&centre);
    let block = format!("\n\n{list}\n");
    assert!(page().contains(&block), "not on the page:\n{list}");
}

#[test]
fn each_step_leaves_the_other_account_alone() {
    assert_apart(Reference::sound());
}

/// One of the three faults put back: Carrick's first id is 2 again.
#[test]
#[should_panic(expected = "the message picked and reported")]
fn one_counter_does_otherwise() {
    assert_apart(Reference::with_fault(Fault::OneCounter));
}

#[cfg(feature = "proved")]
#[test]
fn so_it_is_on_the_proved_library() {
    assert_apart(reference::proved::Proved);
}
