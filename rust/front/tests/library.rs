//! Scripts for the library: every item, the record, and bad scripts.
//! The words of the answers are tried where the library is called, in the tests of guard-script.

mod common;

use front::{encode, Answer, Call, Script};

const POLICY: &str = "policy pages 4 frames 4\napprove page 1 frame 2 entry\n";

fn message(script: &str) -> String {
    Script::read(script).unwrap_err().to_string()
}

/// The one call of a script, and its line.
fn call(item: &str) -> (usize, Call) {
    let script = Script::read(&format!("{POLICY}\n{item} # a comment\n")).unwrap();
    assert_eq!(script.calls.len(), 1, "{item}");
    (script.calls[0].line, script.calls[0].call)
}

#[test]
fn every_item() {
    let (address, length) = (u64::MAX, u32::MAX);
    let entry = 0x8877_6655_4433_2211;
    let items = [
        ("edit page 258 entry 0x8877665544332211", Call::Edit { page: 258, entry }),
        ("synchronise page 65535", Call::SynchronisePage { page: 65535 }),
        ("synchronise all", Call::SynchroniseAll),
        ("fetch page 0x0102", Call::Fetch { page: 258 }),
        ("write address 18446744073709551615 length 4294967295", Call::Write { address, length }),
        ("enter index 15", Call::Enter { index: 15 }),
        ("leave page 3", Call::Leave { page: 3 }),
        (
            "device-write address 0x2000 length 1",
            Call::DeviceWrite { device: 0, address: 8192, length: 1 },
        ),
        (
            "device-write device 64 address 7 length 2",
            Call::DeviceWrite { device: 64, address: 7, length: 2 },
        ),
        ("ask page 3 frame 0x7", Call::Ask { page: 3, frame: 7 }),
        (
            "ask page 18446744073709551615 frame 18446744073709551614",
            Call::Ask { page: u64::MAX, frame: u64::MAX - 1 },
        ),
        ("commit", Call::Commit),
        ("drop", Call::Drop),
    ];
    for (item, expected) in items {
        assert_eq!(call(item), (4, expected), "{item}");
    }
}

/// The record is the one that the drill's input begins with, of a policy that a start refuses too.
#[test]
fn the_record() {
    let policies = [
        POLICY,
        "policy pages 0 frames 4",
        "policy pages 4 frames 4 listed 2 entries 17\napprove page 9 frame 9",
        "policy pages 9 frames 9\napprove page 3 frame 5\napprove page 2 frame 6 entry\n",
    ];
    for policy in policies {
        let record = Script::read(policy).unwrap().record();
        assert_eq!(record, encode(policy).unwrap().bytes, "{policy}");
    }
    let hotel = common::read("examples/hotel.policy");
    let driver = Script::read(&common::read("examples/driver.script")).unwrap();
    assert_eq!(driver.record(), Script::read(&hotel).unwrap().record());
}

#[test]
fn bad_scripts() {
    let late = "'approve' comes after the policy and before the calls";
    let scripts = [
        ("", "line 1: the script has no policy".into()),
        ("# nothing\n\n", "line 2: the script has no policy".into()),
        ("commit", "line 1: a script begins with its policy".into()),
        ("approve page 1 frame 2", format!("line 1: {late}")),
        ("policy pages 4 frames 4\ndrop\napprove page 1 frame 2", format!("line 3: {late}")),
        (
            "policy pages 4 frames 4\npolicy pages 4 frames 4",
            "line 2: a script has one policy, at its beginning".into(),
        ),
        ("policy pages 4", "line 1: 'frames' is missing".into()),
    ];
    for (script, expected) in scripts {
        assert_eq!(message(script), expected);
    }
}

#[test]
fn bad_items() {
    let items = [
        ("asks page 3 frame 7", "'asks' is no item; an item is policy, approve, edit, synchronise, fetch, write, enter, leave, device-write, ask, commit or drop"),
        ("ask", "'page' is missing"),
        ("ask frame 7 page 3", "'page' is expected, not 'frame'"),
        ("ask page 3", "'frame' is missing"),
        ("ask page 3 frame", "the frame is missing"),
        ("ask page -3 frame 7", "the page is a number, decimal or hexadecimal with 0x, not '-3'"),
        ("ask page 3 frame 0x10000000000000000", "the frame 0x10000000000000000 does not fit its field, at most 18446744073709551615"),
        ("ask page 3 frame 7 label 1", "'label' is too much on this line"),
        ("commit page 3", "'page' is too much on this line"),
        ("drop all", "'all' is too much on this line"),
        ("call kind 8 index 0 length 0 value 0", "'call' is for the drill's input, and not for the library"),
        ("bytes 1", "'bytes' is for the drill's input, and not for the library"),
        ("fetch page 65536", "the page 65536 does not fit its field, at most 65535"),
    ];
    for (item, expected) in items {
        assert_eq!(message(&format!("{POLICY}{item}\n")), format!("line 3: {expected}"));
    }
}

/// Each answer begins with the line of its call, and says what was asked and why it was refused.
#[test]
fn answers_in_words() {
    let script = Script::read(&format!("{POLICY}\nask page 3 frame 3\ndrop\n")).unwrap();
    let answer = |outcome| Answer { outcome, is_user: true, running: 3 };
    let expected =
        "line 1: start accepted: 1 page listed, 1 entry page; user mode, page 3".to_string();
    assert_eq!(script.explain_start(answer(Ok((1, 1)))), expected);
    let expected = "line 4: ask for page 3 with frame 3 refused: 21, \
                    a present shadow entry maps the frame writable (why); user mode, page 3";
    assert_eq!(script.calls[0].explain(answer(Err(21)), Some("why".into())), expected);
    let expected = "line 5: drop accepted; user mode, page 3";
    assert_eq!(script.calls[1].explain(answer(Ok((0, 0))), None), expected);
}
