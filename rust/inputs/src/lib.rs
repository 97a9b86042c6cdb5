//! Inputs for the tests and the benchmark: random numbers, policy records, kernel entries.
//! A seed gives the same inputs on every machine.
#![forbid(unsafe_code)]

mod entry;
mod random;
mod record;

pub use entry::KernelEntry;
pub use random::Random;
pub use record::{random_record, record, Parts};
