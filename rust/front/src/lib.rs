//! The readable front of the page guard: scripts become drill input or calls of the library, policies sizes and arrays, answers words.
//! The words of the refusal numbers come from docs/refusals.txt alone.
#![forbid(unsafe_code)]

mod call;
mod cause;
pub mod console;
mod explain;
mod input;
mod library;
mod policy;
mod refusals;
mod run;
mod script;
mod text;
mod words;

use std::fmt;

pub use call::Call;
pub use explain::{explain, share};
pub use input::DrillInput;
pub use library::{explain_end, Answer, Script, ScriptCall};
pub use policy::{Number, Policy};
pub use refusals::{refusals, refusals_page, RefusalWords};
pub use run::{run, Explained, RunError};
pub use script::encode;
pub use text::text;

/// What is wrong with a line of a script, a policy or drill output. Lines are counted from 1.
#[derive(Clone, Debug, PartialEq, Eq)]
pub struct LineError {
    pub line: usize,
    pub message: String,
}

impl LineError {
    fn new(line: usize, message: impl Into<String>) -> Self {
        LineError { line, message: message.into() }
    }
}

impl fmt::Display for LineError {
    fn fmt(&self, f: &mut fmt::Formatter) -> fmt::Result {
        write!(f, "line {}: {}", self.line, self.message)
    }
}

impl std::error::Error for LineError {}
