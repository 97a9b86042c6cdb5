//! The program `guard-script` as a person runs it: scripts through the library, messages and exit status.
//! Expected words are written out; a script of the drill has the words that the front makes of the drill's lines.

mod common;

use common::{assert_closed_pipes, assert_usage, example, finished, started};

const PROGRAM: &str = env!("CARGO_BIN_EXE_guard-script");

/// V 4, F 4: the worked example's policy.
const POLICY: &str = "policy pages 4 frames 4\napprove page 1 frame 2 entry\n";

/// What is printed for a script, where nothing is told.
fn explained(script: impl AsRef<[u8]>) -> String {
    let output = finished(started(PROGRAM, &[]), script.as_ref());
    assert_eq!((output.status.code(), &*output.stderr), (Some(0), &b""[..]));
    String::from_utf8(output.stdout).unwrap()
}

fn message(script: impl AsRef<[u8]>) -> String {
    common::message(PROGRAM, script.as_ref())
}

/// The lines that calls after the policy are answered with, from line 3 on, without the start's.
fn answers(calls: &str) -> Vec<String> {
    let words = explained(format!("{POLICY}{calls}"));
    let answers = words.lines().filter_map(|line| line.strip_prefix("line ")).skip(1);
    answers.map(str::to_string).collect()
}

#[test]
fn a_driver_arrives() {
    assert_eq!(explained(example("driver.script")), example("driver.explained"));
}

/// Scripts of the drill come out as the front explains the drill's lines, but for the words about its devices.
#[test]
fn scripts_of_the_drill() {
    assert_eq!(explained(example("worked.script")), example("worked.explained"));
    let hotel = example("hotel.explained");
    let devices = ("(the drill has devices 0 to 63)", "(there are devices 0 to 63)");
    assert!(hotel.contains(devices.0));
    assert_eq!(explained(example("hotel.script")), hotel.replace(devices.0, devices.1));
}

/// The comments of the script say which calls are refused, and with which number. The explained lines name the line of each call,
/// every one once.
#[test]
fn the_comments_of_the_driver_are_true() {
    let script = example("driver.script");
    let words = example("driver.explained");
    let mut answers = words.lines().filter_map(|line| line.strip_prefix("line ")).skip(1);
    let mut refused = 0;
    for (at, item) in script.lines().enumerate() {
        let others = ["#", "policy", "approve"];
        if item.trim().is_empty() || others.iter().any(|other| item.starts_with(other)) {
            continue;
        }
        let (line, words) = answers.next().unwrap().split_once(": ").unwrap();
        assert_eq!(line, (at + 1).to_string());
        let number = words.split_once("refused: ").map(|(_, words)| words.split(',').next());
        let comment = item.split_once("# refused, ");
        let comment = comment.map(|(_, words)| words.split(':').next());
        assert_eq!(number, comment, "{item}");
        refused += u32::from(number.is_some());
    }
    assert_eq!((answers.next(), refused > 10), (None, true));
}

/// A guard in which a pair is pending: its page, an alias from before the ask, and the last line.
#[test]
fn what_is_pending_at_the_end() {
    let script = format!(
        "{POLICY}edit page 0 entry 0x3001\nsynchronise page 0\nask page 3 frame 3\n\
         edit page 3 entry 0x301f\nsynchronise page 3\n"
    );
    let expected = "\
line 1: start accepted: 1 page listed, 1 entry page; kernel mode, page 1
line 3: edit accepted; kernel mode, page 1
line 4: synchronise page accepted: 1 shadow entry changed, 0 pages joined the map; kernel mode, page 1
line 5: ask for page 3 with frame 3 accepted; kernel mode, page 1
line 6: edit accepted; kernel mode, page 1
line 7: synchronise page accepted: 1 shadow entry changed, 0 pages joined the map; kernel mode, page 1
page 0: present, no-execute, frame 3
page 1: present, approved, frame 2
page 2: absent
page 3: present, user, write-through, cache disable, no-execute while pending, no-execute, frame 3
share: 50 percent of the frames are excluded, to the nearest percent
pending: page 3 with frame 3
";
    assert_eq!(explained(&script), expected);
    // After a drop the entry stays until it is synchronised.
    let dropped = explained(script + "drop\n");
    let entry = "page 3: present, user, write-through, cache disable, \
                 no-execute in the kernel entry, no-execute, frame 3\n";
    assert!(dropped.contains(entry), "{dropped}");
    assert_eq!(dropped.lines().last(), Some(&*share_line(25)));
}

fn share_line(share: u64) -> String {
    format!("share: {share} percent of the frames are excluded, to the nearest percent")
}

/// "To the nearest, an exact half to the even number": 1 to 8 frames of 8, of which the policy lists one and each commit adds one.
#[test]
fn the_share_of_eight_frames() {
    let mut script = "policy pages 8 frames 8\napprove page 0 frame 0 entry\n".to_string();
    for (frame, share) in (1..).zip([12, 25, 38, 50, 62, 75, 88]) {
        assert_eq!(explained(&script).lines().last(), Some(&*share_line(share)));
        script += &format!("ask page {frame} frame {frame}\ncommit\n");
    }
    assert_eq!(explained(&script).lines().last(), Some(&*share_line(100)));
}

/// A pending frame counts as well, and one that is dropped no longer.
#[test]
fn the_share_of_two_hundred_frames() {
    let mut script = "policy pages 4 frames 200\napprove page 0 frame 7 entry\n".to_string();
    let last = |script: &str, back| explained(script).lines().nth_back(back).map(str::to_string);
    let of_one = share_line(0) + " (at least one is)";
    assert_eq!(last(&script, 0), Some(of_one));
    script += "ask page 1 frame 199\ncommit\n";
    assert_eq!(last(&script, 0), Some(share_line(1)));
    script += "ask page 2 frame 0\n";
    assert_eq!(last(&script, 1), Some(share_line(2)));
    assert_eq!(last(&script, 0).as_deref(), Some("pending: page 2 with frame 0"));
    assert_eq!(last(&(script + "drop\n"), 0), Some(share_line(1)));
}

/// Each number that an ask, a commit and a drop are refused with, and which of its reasons it was.
#[test]
fn refused_asks_commits_and_drops() {
    let conflict = "refused: 20, a pair is pending, the page is approved or the frame is excluded";
    let missing = "refused: 9, the thing named does not exist";
    let asks = [
        ("page 4 frame 3", format!("{missing} (page 4 is not below 4, the number of pages)")),
        ("page 3 frame 4", format!("{missing} (frame 4 is not below 4, the number of frames)")),
        ("page 1 frame 3", format!("{conflict} (page 1 is approved with frame 2)")),
        ("page 3 frame 2", format!("{conflict} (frame 2 is excluded)")),
        (
            "page 18446744073709551615 frame 3",
            format!("{missing} (page 18446744073709551615 is not below 4, the number of pages)"),
        ),
    ];
    for (ask, expected) in asks {
        let words = ask.replace(" frame", " with frame");
        let expected = format!("3: ask for {words} {expected}; kernel mode, page 1");
        assert_eq!(answers(&format!("ask {ask}\n")), [expected]);
    }
    let twice = answers("ask page 3 frame 3\nask page 0 frame 1\n");
    let expected = "4: ask for page 0 with frame 1";
    let pending = "(page 3 with frame 3 is pending); kernel mode, page 1";
    assert_eq!(twice[1], format!("{expected} {conflict} {pending}"));
    let writable = answers("edit page 2 entry 0x3003\nsynchronise all\nask page 3 frame 3\n");
    let expected =
        "5: ask for page 3 with frame 3 refused: 21, a present shadow entry maps the frame \
                    writable (that of page 2); kernel mode, page 1";
    assert_eq!(writable[2], expected);
    let joined = "ask page 3 frame 3\nedit page 3 entry 0x2001\nsynchronise page 3\ncommit\n";
    let by_now = "(page 3 is approved with frame 2 by now); kernel mode, page 1";
    assert_eq!(answers(joined)[3], format!("6: commit {conflict} {by_now}"));
    let none = "refused: 22, no pair is pending; kernel mode, page 1";
    let expected = [format!("3: commit {none}"), format!("4: drop {none}")];
    assert_eq!(answers("commit\ndrop\n"), expected);
}

#[test]
fn accepted_asks_commits_and_drops() {
    let calls = "ask page 3 frame 3\ndrop\nask page 0x3 frame 0x0\ncommit\n";
    let expected = [
        "3: ask for page 3 with frame 3 accepted; kernel mode, page 1",
        "4: drop accepted; kernel mode, page 1",
        "5: ask for page 3 with frame 0 accepted; kernel mode, page 1",
        "6: commit accepted: 1 shadow entry changed, 1 page joined the map; kernel mode, page 1",
    ];
    assert_eq!(answers(calls), expected);
}

/// A refused start names the line of the policy that caused it, and no call is made.
#[test]
fn refused_starts() {
    let policies = [
        (
            "policy pages 0 frames 4",
            "line 1: start refused: 2, V or F is out of range \
             (the number of pages is 0, not 1 to 2048)",
        ),
        (
            "policy pages 4 frames 0\napprove page 1 frame 2 entry\n",
            "line 1: start refused: 2, V or F is out of range \
             (the number of frames is 0, not 1 to 4096)",
        ),
        (
            "policy pages 4 frames 4\n\napprove page 1 frame 4 entry\nask page 1 frame 1\n",
            "line 3: start refused: 6, a listed frame is out of range \
             (frame 4 is not below 4, the number of frames)",
        ),
        (
            "policy pages 4 frames 4 listed 1\napprove page 1 frame 2 entry\napprove page 2 frame 2\n",
            "line 1: start refused: 4, the length of the policy record or of an array does not fit n \
             (n is given as 1, and 2 pages are approved)",
        ),
    ];
    for (script, expected) in policies {
        let expected = format!("{expected}; user mode, page 0; no guard was started\n");
        assert_eq!(explained(script), expected);
    }
}

/// The library takes any number of calls, where the drill takes 1,024.
#[test]
fn more_calls_than_the_drill_takes() {
    assert_eq!(answers(&"ask page 3 frame 3\ndrop\n".repeat(1000)).len(), 2000);
}

#[test]
fn bad_input_gives_a_line_and_nothing_else() {
    assert_eq!(message(""), "line 1: the script has no policy\n");
    assert_eq!(message(format!("{POLICY}ask page 3\n")), "line 3: 'frame' is missing\n");
    assert_eq!(message(b"\xff\xfep\0"), "line 1: the text is UTF-16: save it as UTF-8\n");
    assert_eq!(message(b"# 1\n# \xff\n"), "line 2: the text is not UTF-8\n");
}

#[test]
fn wrong_use_gives_the_usage() {
    assert_usage(PROGRAM, "usage: guard-script < ", POLICY.as_bytes());
}

#[test]
fn closed_pipes() {
    assert_closed_pipes(PROGRAM, POLICY.as_bytes());
}
