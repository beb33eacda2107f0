//! The independent implementation against the outline, rule by rule.

mod answer;
mod bureau;
mod companions;
mod comparison;
mod effects;
mod examples;
mod fields;
mod numbers;
mod printed;
#[cfg(feature = "proved")]
mod proved;
mod receipts;
mod records;
mod trials;
mod vectors;
mod wrapped;
