//! Readable scripts: one step a line, to be played or turned into records of the printing program.
//!
//! ```text
//! # what stands behind a sharp sign isn't read
//! stamp 960701120000000+
//! open 0
//! bind 0 transmitter paging secret VMA
//! submit 0 from "" to 447700900123 "hello" priority 1
//! query 0 00000001 from ""
//! replace 0 00000001 from "" "hello again"
//! cancel 0 00000001 from "" to 447700900123
//! outcome 0 00000001 delivered error 0
//! deliver 1 700
//! answer 1 700 status 8
//! octets 0 00000010 00000015 00000000 00000007
//! enquire 0
//! unbind 0
//! close 0
//! ```
//!
//! `deliver` asks for a receipt on a session, to be sent with that sequence number, and `answer`
//! is its deliver_sm_resp, with status 0 unless another is said. The printing program has no
//! record for a receipt: a script that asks for one can only be played.
//!
//! Requests are numbered from 1 unless `sequence` says otherwise. An address is written as
//! digits, or as ton/npi/digits. A text stands in quotation marks, where `\"`, `\\` and `\x`
//! with two hex digits are understood. Nothing is checked that the centre checks: a script
//! can ask for what is going to be refused.
//!
//! Behind what is shown above there may stand, each with a value: for `bind`, version and
//! range; for `submit`, service, class, protocol, priority, schedule, validity, registered,
//! replace, coding and default; for `cancel`, to and service; for `replace`, schedule,
//! validity, registered and default; for `outcome`, error.

pub(crate) mod book;
pub(crate) mod steps;
pub(crate) mod words;

pub use book::book;
pub use steps::{orders, steps, ScriptedOrder, ScriptedStep};

/// A line that can't be read.
#[derive(Clone, Debug, PartialEq, Eq)]
pub struct ScriptError {
    /// Counted from 1.
    pub line: usize,
    /// What was expected there, and what was found.
    pub message: String,
}

impl std::fmt::Display for ScriptError {
    fn fmt(&self, f: &mut std::fmt::Formatter<'_>) -> std::fmt::Result {
        write!(f, "line {}: {}", self.line, self.message)
    }
}

impl std::error::Error for ScriptError {}
