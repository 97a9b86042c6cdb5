//! `guard-front`: scripts to drill input, drill output to words, and the page of refusal numbers.
//! Bad input gives a message on standard error, nothing on standard output and exit status 1; wrong use gives 2.

use std::error::Error;
use std::ffi::{OsStr, OsString};
use std::fs;
use std::process::{Command, ExitCode};

use front::console::{done, input, misused, print};
use front::{encode, explain, refusals_page, run, text, DrillInput};

const USAGE: &str = "\
usage: guard-front encode < SCRIPT > BYTES    a script becomes the drill's input
       guard-front explain [SCRIPT] < LINES   the drill's output becomes words; with the
                                              script, they name its lines
       guard-front run DRILL [ARGUMENT..] < SCRIPT
                                              encodes, runs the drill program, explains
       guard-front refusals                   prints docs/REFUSALS.md

A script has one item a line; # begins a comment; numbers are decimal, or hexadecimal with 0x.
  policy pages V frames F          first, then its approve lines; n and e are counted,
                                   or given: policy pages V frames F listed N entries E
  approve page P frame F [entry]   entry pages come first in the record
  edit page P entry X              synchronise page P            synchronise all
  fetch page P                     write address A length L      enter index I
  leave page P
  device-write [device D] address A length L
                                   device 0 where none is named; the drill has devices
                                   0 to 63, and all frames are the window of each
  call kind K index I length L value X     any call, also one of an unknown kind
  bytes [B ..]                             bytes as they are, also in place of the policy
At most 1024 calls follow the policy. The drill has no ask, commit and drop: guard-script runs a
script with them through the library.
";

fn main() -> ExitCode {
    let arguments: Vec<_> = std::env::args_os().skip(1).collect();
    let (command, rest) = match arguments.split_first() {
        Some((command, rest)) => (command.to_str(), rest),
        None => (None, &[][..]),
    };
    done(match (command, rest) {
        (Some("encode"), []) => encode_input(),
        (Some("explain"), []) => explain_input(None),
        (Some("explain"), [script]) => explain_input(Some(script)),
        (Some("run"), [drill, arguments @ ..]) => run_and_print(drill, arguments),
        (Some("refusals"), []) => print(refusals_page().as_bytes()),
        (Some("help" | "--help" | "-h"), []) => print(USAGE.as_bytes()),
        _ => return misused(USAGE),
    })
}

fn encode_input() -> Result<(), String> {
    let script = encode(&input()?).map_err(in_words)?;
    print(&script.bytes)
}

fn explain_input(script: Option<&OsString>) -> Result<(), String> {
    let script = script.map(|path| read_script(path)).transpose()?;
    let words = explain(&input()?, script.as_ref()).map_err(in_words)?;
    print(words.as_bytes())
}

fn run_and_print(drill: &OsStr, arguments: &[OsString]) -> Result<(), String> {
    let explained = run(Command::new(drill).args(arguments), &input()?).map_err(in_words)?;
    print(explained.words.as_bytes())?;
    if explained.status.success() {
        Ok(())
    } else {
        Err(format!("the drill ended with {}", explained.status))
    }
}

fn in_words(error: impl Error) -> String {
    error.to_string()
}

/// A script from a file; what is wrong with it is told with the file's name.
fn read_script(path: &OsStr) -> Result<DrillInput, String> {
    let name = path.to_string_lossy();
    let name = name.escape_debug();
    let bytes = fs::read(path).map_err(|error| format!("{name} cannot be read: {error}"))?;
    let script = text(bytes).and_then(|script| encode(&script));
    script.map_err(|error| format!("{name}, {error}"))
}
