//! What the front's programs share: standard input as text, standard output, messages and exit status.
//! Bad input gives a message on standard error and exit status 1; wrong use gives the usage there and 2.

use std::io::{self, Read, Write};
use std::process::ExitCode;

use crate::text;

/// The whole of standard input.
pub fn input() -> Result<String, String> {
    let mut bytes = Vec::new();
    let read = io::stdin().read_to_end(&mut bytes);
    read.map_err(|error| format!("standard input cannot be read: {error}"))?;
    text(bytes).map_err(|error| error.to_string())
}

/// Writes to standard output.
pub fn print(bytes: &[u8]) -> Result<(), String> {
    let mut out = io::stdout().lock();
    out.write_all(bytes)
        .and_then(|()| out.flush())
        .map_err(|error| format!("standard output cannot be written: {error}"))
}

/// The exit status of a program that is done, or that has a message to tell.
pub fn done(outcome: Result<(), String>) -> ExitCode {
    match outcome {
        Ok(()) => ExitCode::SUCCESS,
        Err(message) => {
            complain(&(message + "\n"));
            ExitCode::FAILURE
        }
    }
}

/// The exit status of a program that was called otherwise than its usage says.
pub fn misused(usage: &str) -> ExitCode {
    complain(usage);
    ExitCode::from(2)
}

/// Where standard error is closed too, the exit status says it alone.
fn complain(message: &str) {
    let _ = io::stderr().write_all(message.as_bytes());
}
