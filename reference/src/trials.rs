//! Runs a printing program on many histories and holds what it prints against the outline's own
//! lines, where there are any, and against the independent implementation.

use crate::centre::STAMP;
use crate::compare::PLAIN_STAMP;
use crate::compose::Request;
use crate::generate::{history, Manner};
use crate::printing::{self, Order, RecordedReport, MOST_OF_BOOK, PAYLOAD, RECORD};
use crate::random::Random;
use crate::recorded;
use std::fs::{self, File};
use std::path::{Path, PathBuf};
use std::process::Command;
use std::sync::atomic::{AtomicUsize, Ordering};

/// A book, records, and what is to be printed.
pub struct Trial {
    pub name: String,
    pub book: Vec<u8>,
    pub records: Vec<u8>,
    /// Where the outline gives the lines, or a rule of it does.
    pub outline: Option<&'static str>,
}

impl Trial {
    fn given(name: String, book: Vec<u8>, records: Vec<u8>, outline: &'static str) -> Trial {
        Trial {
            name,
            book,
            records,
            outline: Some(outline),
        }
    }

    /// What the independent implementation prints.
    fn expected(&self) -> Result<String, String> {
        let lent = &self.book[..self.book.len().min(MOST_OF_BOOK)];
        let mut printed = Vec::new();
        printing::run(lent, &self.records[..], &mut printed)
            .map_err(|error| format!("{}: {error}", self.name))?;
        let printed = String::from_utf8_lossy(&printed).into_owned();
        match self.outline {
            Some(lines) if lines != printed => Err(format!(
                "{}: the outline has\n{lines}and the independent implementation\n{printed}",
                self.name
            )),
            _ => Ok(printed),
        }
    }
}

/// How many records a generated history has.
const GENERATED: usize = 300;

/// The outline's example, bad records, books of a wrong size, and so many generated histories.
pub fn trials(generated: u64) -> Vec<Trial> {
    let mut trials = vec![outlines_example()];
    trials.extend(bad_records().into_iter().map(bad_record));
    trials.extend([0, 511, 513, 600].map(wrong_book));
    trials.extend((1..=generated).map(generated_history));
    trials
}

fn enquiry() -> Order {
    Order::Octets {
        session: 0,
        stamp: stamp(),
        octets: Request::EnquireLink.octets(7),
    }
}

fn stamp() -> [u8; STAMP] {
    PLAIN_STAMP.try_into().expect("a stamp's size")
}

const OPEN: Order = Order::Open { session: 0 };
const CLOSE: Order = Order::Close { session: 0 };

fn report() -> Order {
    Order::Outcome {
        stamp: stamp(),
        report: RecordedReport {
            account: 0,
            id: 1,
            outcome: 2,
            error: 0,
        },
    }
}

fn records(orders: &[Order]) -> Vec<u8> {
    orders.iter().flat_map(Order::record).collect()
}

fn outlines_example() -> Trial {
    Trial::given(
        "the outline's example".to_string(),
        vec![0; 512],
        records(&[OPEN, enquiry(), CLOSE]),
        "0 0 -\n0 16 00000010800000150000000000000007\n0 0 -\n",
    )
}

/// The outline's kinds of bad records, each by its name.
fn bad_records() -> Vec<(&'static str, Vec<u8>)> {
    let with = |order: Order, at: usize, octets: &[u8]| {
        let mut record = order.record().to_vec();
        record[at..at + octets.len()].copy_from_slice(octets);
        record
    };
    vec![
        ("kind 4", with(OPEN, 0, &[4])),
        ("kind 255", with(OPEN, 0, &[255])),
        ("octets of length 513", with(enquiry(), 2, &[2, 1])),
        ("octets of length 65535", with(enquiry(), 2, &[255, 255])),
        ("an outcome of length 6", with(report(), 2, &[0, 6])),
        ("an outcome of length 8", with(report(), 2, &[0, 8])),
        ("a record of one octet", OPEN.record()[..1].to_vec()),
        ("a record cut short", OPEN.record()[..RECORD - 1].to_vec()),
    ]
}

/// Between two good records, of which the second must not be read. A cut record has nothing
/// behind it, or else it wouldn't be cut.
fn bad_record((name, bad): (&'static str, Vec<u8>)) -> Trial {
    let mut records = [&OPEN.record()[..], &bad].concat();
    if bad.len() == RECORD {
        records.extend(CLOSE.record());
    }
    Trial::given(
        name.to_string(),
        vec![0; 512],
        records,
        "0 0 -\nbad record\n",
    )
}

/// Number 3, of octets and of an outcome; opening and closing lend no book.
fn wrong_book(size: usize) -> Trial {
    Trial::given(
        format!("a book of {size} octets"),
        vec![0; size],
        records(&[OPEN, enquiry(), report(), CLOSE]),
        "0 0 -\n3 0 -\n3 0 -\n0 0 -\n",
    )
}

/// Every other one has noise where nothing is examined, and some end in a bad record.
fn generated_history(seed: u64) -> Trial {
    let history = history(seed, GENERATED, Manner::Records);
    let orders = recorded::orders(&history).expect("the generator keeps to records");
    let mut records = records(&orders);
    if seed.is_multiple_of(2) {
        let mut random = Random::new(seed);
        let (records, _) = records.as_chunks_mut();
        records
            .iter_mut()
            .for_each(|record| noise(record, &mut random));
    }
    let bad = bad_records();
    if let Some((_, bad)) = bad.get(seed as usize % (2 * bad.len())) {
        records.extend(bad);
    }
    Trial {
        name: format!("the generated history of seed {seed}"),
        book: history.book,
        records,
        outline: None,
    }
}

/// Fills the fields that the record's kind has no use for, and the 12 zeros.
fn noise(record: &mut [u8; RECORD], random: &mut Random) {
    let length = usize::from(u16::from_be_bytes([record[2], record[3]]));
    let unused = match Order::read(record) {
        Some(Order::Octets { .. }) => PAYLOAD + length..RECORD,
        Some(Order::Outcome { .. }) => {
            record[1] = random.octet();
            PAYLOAD + length..RECORD
        }
        _ => 2..RECORD,
    };
    record[unused].fill_with(|| random.octet());
}

/// A line as it is shown in a complaint: a program that isn't ours may print anything.
fn shown(line: Option<&str>) -> String {
    let line = line.unwrap_or("the end");
    line.chars()
        .take(100)
        .flat_map(char::escape_debug)
        .collect()
}

/// A folder of its own, to run the program in; it is gone in the end.
pub struct Scratch(PathBuf);

impl Scratch {
    pub fn new() -> Result<Scratch, String> {
        static NEXT: AtomicUsize = AtomicUsize::new(0);
        let nth = NEXT.fetch_add(1, Ordering::Relaxed);
        let name = format!("inverook-printed-{}-{nth}", std::process::id());
        let folder = std::env::temp_dir().join(name);
        fs::create_dir_all(&folder).map_err(|error| format!("{}: {error}", folder.display()))?;
        Ok(Scratch(folder))
    }

    /// Runs the program on a trial, and tells how many lines agreed.
    pub fn run(&self, program: &Path, trial: &Trial) -> Result<usize, String> {
        let expected = trial.expected()?;
        let found = self
            .printed(program, trial)
            .map_err(|error| format!("{}: {} {error}", trial.name, program.display()))?;
        if expected == found {
            return Ok(found.lines().count());
        }
        let same = expected
            .lines()
            .zip(found.lines())
            .take_while(|(a, b)| a == b);
        let at = same.count();
        let line = |text: &str| shown(text.lines().nth(at));
        Err(format!(
            "{}, line {}:\n  expected {}\n  found    {}",
            trial.name,
            at + 1,
            line(&expected),
            line(&found)
        ))
    }

    fn printed(&self, program: &Path, trial: &Trial) -> Result<String, String> {
        let failed = |error: std::io::Error| format!("can't be run: {error}");
        let input = self.0.join("records");
        fs::write(self.0.join("accounts.bin"), &trial.book).map_err(failed)?;
        fs::write(&input, &trial.records).map_err(failed)?;
        let output = Command::new(program)
            .current_dir(&self.0)
            .stdin(File::open(&input).map_err(failed)?)
            .output()
            .map_err(failed)?;
        if !output.status.success() {
            return Err(format!("ended with {}", output.status));
        }
        Ok(String::from_utf8_lossy(&output.stdout).into_owned())
    }
}

impl Drop for Scratch {
    fn drop(&mut self) {
        // Nothing depends on it: the next run has a folder of its own.
        let _ = fs::remove_dir_all(&self.0);
    }
}
