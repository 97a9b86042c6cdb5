//! The proved archive and the reference on the same lists of calls: answers, state, every table, written record and walk are compared.
//! Half of the lists begin with an accepted start, and one-page guards check demand 3 there; the rest damage what they lend.
#![forbid(unsafe_code)]

mod aim;
mod approvals;
mod call;
mod compare;
mod damage;
mod damaged;
mod devices;
mod entries;
mod list;
mod pending;
mod plan;
mod run;
mod sides;
mod started;
mod table;
mod tally;
mod transfers;
mod trees;
mod walked;
mod walks;
mod windows;
mod written;

pub use damage::Damage;
pub use plan::Plan;
pub use run::run;
pub use started::{run_claim, run_from_ask_on, run_windows};
pub use tally::Tally;
