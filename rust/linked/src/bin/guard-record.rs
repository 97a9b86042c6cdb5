//! `guard-record`: the policy record of a readable policy, written by the proved library.
//! Bad input and a refused policy give a message on standard error, nothing on standard output and exit status 1; wrong use gives 2.

use std::process::ExitCode;

use front::console::{done, input, misused, print};
use front::{LineError, Number, Policy};
use guard::{write_record, Refusal};

const USAGE: &str = "\
usage: guard-record < POLICY > RECORD    a readable policy becomes its policy record

A policy has one item a line; # begins a comment; numbers are decimal, or hexadecimal with 0x.
  policy pages V frames F          first, then its approve lines; n and e are counted,
                                   or given: policy pages V frames F listed N entries E,
                                   where E is the number of pages marked entry
  approve page P frame F [entry]   entry pages come first in the record
The proved library writes the record. What it refuses is told with its number, its line and why.
";

fn main() -> ExitCode {
    let arguments: Vec<_> = std::env::args_os().skip(1).collect();
    let arguments: Vec<_> = arguments.iter().map(|argument| argument.to_str()).collect();
    match arguments[..] {
        [] => done(write()),
        [Some("help" | "--help" | "-h")] => done(print(USAGE.as_bytes())),
        _ => misused(USAGE),
    }
}

fn write() -> Result<(), String> {
    let policy = Policy::read(&input()?).map_err(|error| error.to_string())?;
    let record = record(&policy).map_err(|refusal| in_words(refusal, &policy))?;
    print(&record)
}

/// The record, in a buffer of the length that it is to have.
fn record(policy: &Policy) -> Result<Vec<u8>, Refusal> {
    let Policy { pages, frames, listed, entries, listed_pages, listed_frames } = policy;
    let mut record = vec![0; 8 + 4 * usize::from(listed.value)];
    write_record(
        pages.value.into(),
        frames.value.into(),
        listed.value.into(),
        entries.value.into(),
        &values(listed_pages),
        &values(listed_frames),
        &mut record,
    )?;
    Ok(record)
}

fn values(numbers: &[Number]) -> Vec<u16> {
    numbers.iter().map(|number| number.value).collect()
}

/// A refusal with the line of the policy that caused it and why, where that can be said.
fn in_words(refusal: Refusal, policy: &Policy) -> String {
    let refused = format!("record refused: {}, {}", refusal.number(), refusal.words());
    match policy.cause(refusal.number().into()) {
        Some(LineError { line, message }) => format!("line {line}: {refused} ({message})"),
        None => refused,
    }
}
