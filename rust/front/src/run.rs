//! Runs a drill program on a script and explains what it prints.
//! The drill may stop reading early, so its input is written beside the reading of its output.

use std::ffi::OsString;
use std::fmt;
use std::io::{self, ErrorKind, Read, Write};
use std::path::Path;
use std::process::{Command, ExitStatus, Stdio};
use std::thread;

use crate::{encode, explain, text, LineError};

/// What came of a script.
#[derive(Debug)]
pub struct Explained {
    /// The drill's output in words.
    pub words: String,
    /// How the drill ended; where it failed, the words may be the beginning only.
    pub status: ExitStatus,
}

/// Why there is nothing to explain.
#[derive(Debug)]
pub enum RunError {
    Script(LineError),
    /// The drill program, and why it was not run.
    Start(OsString, io::Error),
    Stream(io::Error),
    Output(LineError, ExitStatus),
}

impl fmt::Display for RunError {
    fn fmt(&self, f: &mut fmt::Formatter) -> fmt::Result {
        match self {
            RunError::Script(error) => error.fmt(f),
            RunError::Start(drill, error) => {
                let name = drill.to_string_lossy();
                let name = name.escape_debug();
                // A file that is there and not found lacks its interpreter, or is no name in PATH.
                if error.kind() == ErrorKind::NotFound && !Path::new(drill).exists() {
                    let cure = "`make drill` at the repository's root builds target/bin/drill";
                    write!(f, "{name} is not there: {cure}")
                } else {
                    write!(f, "{name} cannot be run: {error}")
                }
            }
            RunError::Stream(error) => write!(f, "the drill's input or output failed: {error}"),
            RunError::Output(error, status) => {
                write!(f, "the drill's output, {error} (the drill ended with {status})")
            }
        }
    }
}

impl std::error::Error for RunError {}

/// Encodes the script, runs the drill on it, and explains the drill's output.
pub fn run(drill: &mut Command, script: &str) -> Result<Explained, RunError> {
    let input = encode(script).map_err(RunError::Script)?;
    let piped = drill.stdin(Stdio::piped()).stdout(Stdio::piped());
    let spawned = piped.spawn();
    let mut child = spawned.map_err(|error| RunError::Start(drill.get_program().into(), error))?;
    let mut to_drill = child.stdin.take().expect("the drill's input is a pipe");
    let mut from_drill = child.stdout.take().expect("the drill's output is a pipe");
    let bytes = input.bytes.clone();
    let writer = thread::spawn(move || to_drill.write_all(&bytes));
    let mut output = Vec::new();
    let read = from_drill.read_to_end(&mut output);
    let written = writer.join().expect("writing to a pipe does not panic");
    let status = child.wait().map_err(RunError::Stream)?;
    read.map_err(RunError::Stream)?;
    match written {
        Err(error) if error.kind() != ErrorKind::BrokenPipe => return Err(RunError::Stream(error)),
        _ => {}
    }
    let words = text(output).and_then(|lines| explain(&lines, Some(&input)));
    let words = words.map_err(|error| RunError::Output(error, status))?;
    Ok(Explained { words, status })
}
