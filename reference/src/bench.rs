//! Measures engines on the same histories: time, octets a second, and stack.

mod clock;
mod scenarios;
mod stack;

pub use clock::{time, Timing};
pub use scenarios::{scenarios, Scenario};
pub use stack::deepest;
