//! The program `guard-front` as a person runs it: output, messages and exit status.
//! The shell stands in for a drill program, so that what reaches the drill can be looked at.

mod common;

use std::ffi::OsStr;
use std::fs;
use std::io::Write;
use std::os::unix::ffi::OsStrExt;
use std::process::{Child, Command, Output, Stdio};
use std::thread::sleep;
use std::time::Duration;

const POLICY: &str = "policy pages 4 frames 4\napprove page 1 frame 2 entry\n";

/// The program, started, with pipes for its input, output and messages.
fn started(arguments: &[impl AsRef<OsStr>]) -> Child {
    let mut command = Command::new(env!("CARGO_BIN_EXE_guard-front"));
    let piped = command.stdin(Stdio::piped()).stdout(Stdio::piped()).stderr(Stdio::piped());
    piped.args(arguments).spawn().unwrap()
}

/// Gives the program its input, and waits for its end.
fn finished(mut child: Child, input: &[u8]) -> Output {
    // A program that ends before it reads closes the pipe.
    let _ = child.stdin.take().unwrap().write_all(input);
    child.wait_with_output().unwrap()
}

fn guard_front(arguments: &[impl AsRef<OsStr>], input: &[u8]) -> Output {
    finished(started(arguments), input)
}

fn printed(arguments: &[&str], input: &[u8]) -> Vec<u8> {
    let output = guard_front(arguments, input);
    assert_eq!(output.status.code(), Some(0), "{arguments:?}");
    assert!(output.stderr.is_empty(), "{arguments:?}");
    output.stdout
}

fn words(arguments: &[&str], input: &[u8]) -> String {
    String::from_utf8(printed(arguments, input)).unwrap()
}

/// The message on standard error, where the status is 1 and nothing is printed.
fn message(arguments: &[&str], input: &[u8]) -> String {
    let output = guard_front(arguments, input);
    assert_eq!(output.status.code(), Some(1), "{arguments:?}");
    assert!(output.stdout.is_empty(), "{arguments:?}");
    String::from_utf8(output.stderr).unwrap()
}

/// A path below the repository's root, as an argument.
fn path(below_root: &str) -> String {
    common::path(below_root).to_str().unwrap().to_string()
}

#[test]
fn encode_prints_bytes() {
    let script = common::read("examples/worked.script");
    let vector = fs::read(common::vector("worked-example.in")).unwrap();
    assert_eq!(printed(&["encode"], script.as_bytes()), vector);
    let marked = format!("\u{feff}{script}");
    assert_eq!(printed(&["encode"], marked.as_bytes()), vector, "with a byte order mark");
}

#[test]
fn explain_prints_words() {
    let lines = fs::read(common::vector("worked-example.out")).unwrap();
    let with_lines = common::read("examples/worked.explained");
    let arguments = ["explain", &path("examples/worked.script")];
    assert_eq!(words(&arguments, &lines), with_lines);
    // Without the script no line can be named, and no device.
    let without = with_lines.lines().map(|line| match line.strip_prefix("line ") {
        Some(answer) => {
            let words = answer.split_once(": ").unwrap().1;
            format!("{}\n", words.replace(" by device 0", ""))
        }
        None => format!("{line}\n"),
    });
    assert_eq!(words(&["explain"], &lines), without.collect::<String>());
}

#[test]
fn explain_tells_of_a_script_that_does_not_fit() {
    let lines = fs::read(common::vector("worked-example.out")).unwrap();
    let hotel = message(&["explain", &path("examples/hotel.script")], &lines);
    assert_eq!(hotel, "line 3: this does not answer line 11 of the script\n");
    let faulty = path("README.md");
    let bad = message(&["explain", &faulty], &lines);
    assert!(bad.starts_with(&format!("{faulty}, line ")), "{bad}");
    let missing = message(&["explain", "no-such-script"], &lines);
    assert!(missing.starts_with("no-such-script cannot be read: "), "{missing}");
}

#[test]
fn refusals_prints_the_page() {
    assert_eq!(words(&["refusals"], b""), common::read("docs/REFUSALS.md"));
}

#[test]
fn bad_input_gives_a_line_and_nothing_else() {
    let bad_script = format!("{POLICY}fetch page x\n");
    let bad_page = "line 3: the page is a number, decimal or hexadecimal with 0x, not 'x'\n";
    let long_script = format!("{POLICY}{}", "synchronise all\n".repeat(1025));
    let too_many = "line 1027: this is call 1025, and the drill takes 1024 at most\n";
    let utf16 = b"\xff\xfep\0o\0l\0i\0c\0y\0";
    for arguments in [&["encode"][..], &["run", "cat"]] {
        assert_eq!(message(arguments, bad_script.as_bytes()), bad_page);
        assert_eq!(message(arguments, long_script.as_bytes()), too_many);
        assert_eq!(message(arguments, utf16), "line 1: the text is UTF-16: save it as UTF-8\n");
        assert_eq!(message(arguments, b"# 1\n# \xff\n"), "line 2: the text is not UTF-8\n");
    }
    assert_eq!(message(&["explain"], b"S 0 1 1 K 1\nT\n"), "line 2: 'T' is no line of the drill\n");
}

/// The drill has no ask, commit and drop: a script with one is refused by the line of the first.
#[test]
fn scripts_for_the_library() {
    let script = common::read("examples/driver.script");
    let told = "line 21: 'ask' is no call of the drill; guard-script runs a script with it through the library\n";
    assert_eq!(message(&["encode"], script.as_bytes()), told);
    assert_eq!(message(&["run", "cat"], script.as_bytes()), told);
    let path = path("examples/driver.script");
    assert_eq!(message(&["explain", &path], b"S 0 1 1 K 1\n"), format!("{path}, {told}"));
}

#[test]
fn wrong_use_gives_the_usage() {
    let uses = [
        &[][..],
        &["decode"],
        &["run"],
        &["encode", "file"],
        &["explain", "file", "file"],
        &["refusals", "file"],
    ];
    for arguments in uses {
        let output = guard_front(arguments, b"");
        assert_eq!(output.status.code(), Some(2), "{arguments:?}");
        assert!(output.stdout.is_empty() && output.stderr.starts_with(b"usage: guard-front"));
    }
    assert!(printed(&["help"], b"").starts_with(b"usage: guard-front"));
}

#[test]
fn run_hands_the_bytes_to_the_drill_and_explains_its_lines() {
    // This drill prints its output only where its input is the worked example's.
    let drill = "cmp -s - \"$1.in\" && cat \"$1.out\"";
    let vector = common::vector("worked-example");
    let script = common::read("examples/worked.script");
    let arguments = ["run", "sh", "-c", drill, "drill", vector.to_str().unwrap()];
    assert_eq!(words(&arguments, script.as_bytes()), common::read("examples/worked.explained"));
}

/// The longest list that can be written does not fit a pipe.
#[test]
fn run_copes_with_a_drill_that_stops_reading() {
    let list = "approve page 0 frame 0 entry\n".repeat(65535);
    let script = format!("policy pages 1 frames 1\n{list}");
    let explained = words(&["run", "sh", "-c", "echo S 3 0 0 U 0"], script.as_bytes());
    let expected = "line 3: start refused: 3, n, e or the number of devices is out of range \
                    (65535 pages are listed, and the policy has 1); user mode, page 0; no guard was started\n";
    assert_eq!(explained, expected);
}

#[test]
fn run_tells_of_a_drill_that_is_not_there() {
    let missing = message(&["run", "no-such-folder/drill"], POLICY.as_bytes());
    assert_eq!(
        missing,
        "no-such-folder/drill is not there: `make drill` at the repository's root builds target/bin/drill\n"
    );
    let no_program = message(&["run", "./Cargo.toml"], POLICY.as_bytes());
    assert!(no_program.starts_with("./Cargo.toml cannot be run: "), "{no_program}");
}

#[test]
fn run_tells_of_a_drill_that_fails() {
    let silent = message(&["run", "sh", "-c", "cat > /dev/null; exit 3"], POLICY.as_bytes());
    assert!(silent.starts_with("the drill's output, line 1: "), "{silent}");
    assert!(silent.contains("exit status: 3"), "{silent}");
    for (end, told) in [("exit 3", "exit status: 3"), ("kill -9 $$", "signal: 9 (SIGKILL)")] {
        let drill = format!("cat > /dev/null; echo S 0 1 1 K 1; {end}");
        let output = guard_front(&["run", "sh", "-c", &drill], POLICY.as_bytes());
        assert_eq!(output.status.code(), Some(1));
        assert!(output.stdout.starts_with(b"line 1: start accepted: "), "what came is explained");
        assert_eq!(
            String::from_utf8(output.stderr).unwrap(),
            format!("the drill ended with {told}\n")
        );
    }
}

/// No panic, which would end with 101, where nobody reads what the program writes.
#[test]
fn closed_pipes() {
    let mut child = started(&["encode"]);
    drop(child.stdout.take());
    // A program that another test starts just now has a copy of the pipe until its `exec`.
    sleep(Duration::from_millis(500));
    let output = finished(child, POLICY.as_bytes());
    assert_eq!(output.status.code(), Some(1));
    let told = String::from_utf8(output.stderr).unwrap();
    assert!(told.starts_with("standard output cannot be written: "), "{told}");
    let mut child = started(&["encode"]);
    drop(child.stderr.take());
    assert_eq!(finished(child, b"no policy").status.code(), Some(1));
}

#[test]
fn arguments_that_are_no_text() {
    let odd = OsStr::from_bytes(b"\xff\x1b");
    assert_eq!(guard_front(&[odd], b"").status.code(), Some(2));
    let output = guard_front(&[OsStr::new("run"), odd], POLICY.as_bytes());
    assert_eq!(output.status.code(), Some(1));
    let told = String::from_utf8(output.stderr).unwrap();
    assert!(told.starts_with("\u{fffd}\\u{1b} is not there: "), "{told:?}");
}
