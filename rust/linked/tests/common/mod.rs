//! A program as a person runs it, and where the examples are.

use std::ffi::OsStr;
use std::fs;
use std::io::Write;
use std::os::unix::ffi::OsStrExt;
use std::path::Path;
use std::process::{Child, Command, Output, Stdio};

/// A program, started, with pipes for its input, output and messages.
pub fn started(program: &str, arguments: &[&OsStr]) -> Child {
    let mut command = Command::new(program);
    let piped = command.stdin(Stdio::piped()).stdout(Stdio::piped()).stderr(Stdio::piped());
    piped.args(arguments).spawn().unwrap()
}

/// Gives a program its input, and waits for its end.
pub fn finished(mut child: Child, input: &[u8]) -> Output {
    // A program that ends before it reads closes the pipe.
    let _ = child.stdin.take().unwrap().write_all(input);
    child.wait_with_output().unwrap()
}

pub fn example(name: &str) -> String {
    let path = Path::new(env!("CARGO_MANIFEST_DIR")).join("../../examples").join(name);
    fs::read_to_string(&path).unwrap_or_else(|error| panic!("{}: {error}", path.display()))
}

/// The message on standard error, where the status is 1 and nothing is printed.
pub fn message(program: &str, input: &[u8]) -> String {
    let output = finished(started(program, &[]), input);
    assert_eq!((output.status.code(), &*output.stdout), (Some(1), &b""[..]));
    String::from_utf8(output.stderr).unwrap()
}

/// Arguments that are none give the usage and status 2; a question for help gives it and status 0.
pub fn assert_usage(program: &str, usage: &str, input: &[u8]) {
    let odd = OsStr::from_bytes(b"\xff\x1b");
    for arguments in [&["file".as_ref()][..], &["help".as_ref(), "help".as_ref()], &[odd]] {
        let output = finished(started(program, arguments), input);
        assert_eq!(output.status.code(), Some(2), "{arguments:?}");
        assert!(output.stdout.is_empty() && output.stderr.starts_with(usage.as_bytes()));
    }
    for help in ["help", "--help", "-h"] {
        let output = finished(started(program, &[help.as_ref()]), b"");
        assert_eq!(output.status.code(), Some(0), "{help}");
        assert!(output.stderr.is_empty() && output.stdout.starts_with(usage.as_bytes()));
    }
}

/// No panic, which would end with 101, where nobody reads what the program writes.
pub fn assert_closed_pipes(program: &str, input: &[u8]) {
    let mut child = started(program, &[]);
    drop(child.stdout.take());
    let output = finished(child, input);
    assert_eq!(output.status.code(), Some(1));
    let told = String::from_utf8(output.stderr).unwrap();
    assert!(told.starts_with("standard output cannot be written: "), "{told}");
    let mut child = started(program, &[]);
    drop(child.stderr.take());
    assert_eq!(finished(child, b"no policy").status.code(), Some(1));
}
