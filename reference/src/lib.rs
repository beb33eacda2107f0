//! A second reading of the message centre's documents.
//!
//! `centre` is an implementation written from the documents alone. `generate` writes
//! histories, `compare` plays them on two engines and looks for a difference. The rest
//! serves people: the printing program, readable scripts and explanations of replies.

pub mod bench;
pub mod campaign;
pub mod centre;
pub mod compare;
pub mod compose;
pub mod engines;
pub mod explain;
pub mod generate;
pub mod hex;
pub mod input;
pub mod printing;
#[cfg(feature = "proved")]
pub mod proved;
pub mod random;
pub mod recorded;
pub mod refusals;
pub mod script;
pub mod trials;
pub mod vectors;
pub mod wrapper;
