//! Plays a history on two engines and compares everything that a caller can see.

mod difference;
mod digest;
mod engine;
mod history;
mod shrink;
mod tally;
mod words;
mod world;

pub use difference::{compare, Difference};
pub use digest::Digest;
pub use engine::{Delivered, Engine, Moved, Sent, Taken};
pub use history::{Deliver, History, Outcome, Sizes, Step, Take, PLAIN_STAMP};
pub use shrink::shrink;
pub use tally::Tally;
pub use words::describe;
pub use world::{Answer, World};
