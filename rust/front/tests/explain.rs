//! Drill lines become words: every kind of line, every refusal number, and lines that are none.
//! The refusal words are compared with docs/refusals.txt in tests/refusals.rs.

mod common;

use front::{encode, explain, refusals, share};

/// The words of one line.
fn words(line: &str) -> String {
    let explained = explain(line, None).unwrap();
    explained.strip_suffix('\n').expect("each line ends").to_string()
}

#[test]
fn accepted_calls() {
    let lines = [
        ("S 0 1 1 K 1", "start accepted: 1 page listed, 1 entry page; kernel mode, page 1"),
        ("S 0 10 2 K 0", "start accepted: 10 pages listed, 2 entry pages; kernel mode, page 0"),
        ("0 0 0 0 K 1", "edit accepted; kernel mode, page 1"),
        (
            "1 0 1 1 K 1",
            "synchronise page accepted: 1 shadow entry changed, 1 page joined the map; kernel mode, page 1",
        ),
        (
            "2 0 5 0 U 4",
            "synchronise all accepted: 5 shadow entries changed, 0 pages joined the map; user mode, page 4",
        ),
        ("3 0 2 2 K 7", "fetch accepted: frame 2; kernel mode, page 7"),
        ("4 0 3 5 U 2", "write accepted: first frame 3, last frame 5; user mode, page 2"),
        ("5 0 3 0 K 1", "enter accepted: 3 shadow entries changed; kernel mode, page 1"),
        ("6 0 1 0 U 3", "leave accepted: 1 shadow entry changed; user mode, page 3"),
        ("7 0 1 9 U 3", "device write accepted: first frame 1, last frame 9; user mode, page 3"),
    ];
    for (line, expected) in lines {
        assert_eq!(words(line), expected);
    }
}

#[test]
fn refused_calls() {
    let lines = [
        ("0 9 0 0 K 1", "edit refused: 9, the thing named does not exist; kernel mode, page 1"),
        ("1 9 0 0 U 1", "synchronise page refused: 9, the thing named does not exist; user mode, page 1"),
        ("3 11 0 0 K 1", "fetch refused: 11, a touched page is not present; kernel mode, page 1"),
        ("4 12 0 0 K 1", "write refused: 12, a touched page does not permit it; kernel mode, page 1"),
        ("5 10 0 0 K 1", "enter refused: 10, the mode does not suit the call; kernel mode, page 1"),
        ("6 12 0 0 K 1", "leave refused: 12, a touched page does not permit it; kernel mode, page 1"),
        ("7 13 0 0 U 3", "device write refused: 13, a touched frame is excluded; user mode, page 3"),
        ("7 18 0 0 U 3", "device write refused: 18, the device is not in the list; user mode, page 3"),
        ("7 19 0 0 K 1", "device write refused: 19, the transfer is outside the device's window; kernel mode, page 1"),
        ("X 14 0 0 U 3", "calls ended: 14, the last call is cut short; user mode, page 3"),
        ("X 15 0 0 K 0", "calls ended: 15, the kind of call is unknown; kernel mode, page 0"),
        (
            "S 5 0 0 U 0",
            "start refused: 5, a listed page is out of range or out of order; user mode, page 0; no guard was started",
        ),
    ];
    for (line, expected) in lines {
        assert_eq!(words(line), expected);
    }
}

#[test]
fn every_number_has_its_words() {
    let mut explained = 0;
    for refusal in refusals() {
        let line = format!("4 {} 0 0 K 1", refusal.number);
        let expected =
            format!("write refused: {}, {}; kernel mode, page 1", refusal.number, refusal.words);
        assert_eq!(words(&line), expected);
        explained += 1;
    }
    assert_eq!(explained, 22);
}

#[test]
fn shadow_entries_and_share() {
    let lines = "0000000000000000\n8000000000002401\n0000000000003007\n8000000000003207\n\
                 8000000000003003\n000ffffffffff005\n0000000000001006\n4000000000001801\n\
                 800000000000320b\n0000000000003017\n000000000000301f\n000000000000108d\n\
                 0000000000002411\n0000000000001018\nshare 25\n";
    let expected = "page 0: absent\n\
                    page 1: present, approved, no-execute, frame 2\n\
                    page 2: present, writable, user, frame 3\n\
                    page 3: present, writable, user, no-execute in the kernel entry, no-execute, frame 3\n\
                    page 4: present, writable, no-execute, frame 3\n\
                    page 5: present, user, frame 1099511627775\n\
                    page 6: absent, writable, user, frame 1\n\
                    page 7: present, frame 1, other bits 0x4000000000000800\n\
                    page 8: present, writable, write-through, no-execute in the kernel entry, no-execute, frame 3\n\
                    page 9: present, writable, user, cache disable, frame 3\n\
                    page 10: present, writable, user, write-through, cache disable, frame 3\n\
                    page 11: present, user, write-through, frame 1, other bits 0x80\n\
                    page 12: present, cache disable, approved, frame 2\n\
                    page 13: absent, write-through, cache disable, frame 1\n\
                    share: 25 percent of the frames are excluded, to the nearest percent\n";
    assert_eq!(explain(lines, None).unwrap(), expected);
}

/// A share of 0 is no less than a frame; one of 100 may be less than all.
#[test]
fn shares_in_words() {
    let nearest = "percent of the frames are excluded, to the nearest percent";
    assert_eq!(words("share 0"), format!("share: 0 {nearest} (at least one is)"));
    for share in [1, 12, 50, 99, 100] {
        assert_eq!(words(&format!("share {share}")), format!("share: {share} {nearest}"));
    }
}

/// K7's rows, and the reference's share for each number of frames that a policy can have.
#[test]
fn shares() {
    let rows = [
        (1, 8, 12),
        (3, 8, 38),
        (5, 8, 62),
        (7, 8, 88),
        (8, 8, 100),
        (1, 200, 0),
        (3, 200, 2),
        (199, 200, 100),
        (1, 3, 33),
        (2, 3, 67),
        (3, 16, 19),
    ];
    for (excluded, frames, expected) in rows {
        assert_eq!(share(excluded, frames), expected, "{excluded} of {frames}");
    }
    for frames in 1..=4096 {
        for excluded in 0..=frames {
            let expected = reference::share(excluded, frames);
            let found = share(excluded.into(), frames.into());
            assert_eq!(found, expected.into(), "{excluded} of {frames}");
        }
    }
}

/// With the script, an accepted edit says where its entry is absent for a reserved bit; without it, nothing is known of the entry.
#[test]
fn edits_of_entries_with_reserved_bits() {
    let accepted = "0 0 0 0 K 1";
    let plain = "edit accepted; kernel mode, page 1";
    let absent =
        "edit accepted (an entry with any of bits 52 to 62 set is absent); kernel mode, page 1";
    let refused = "edit refused: 9, the thing named does not exist; kernel mode, page 1";
    let edits = [
        ("edit page 0 entry 0x0010000000003003", accepted, absent, plain),
        ("edit page 0 entry 0x4000000000003003", accepted, absent, plain),
        ("edit page 0 entry 0x8008000000003003", accepted, plain, plain),
        ("edit page 0 entry 0x0010000000003002", accepted, plain, plain),
        ("edit page 4 entry 0x0010000000003003", "0 9 0 0 K 1", refused, refused),
    ];
    for (edit, line, with_script, alone) in edits {
        let script = format!("policy pages 4 frames 4\napprove page 1 frame 2 entry\n{edit}\n");
        let lines = format!("S 0 1 1 K 1\n{line}\n");
        let explained = explain(&lines, Some(&encode(&script).unwrap())).unwrap();
        assert_eq!(explained.lines().nth(1), Some(&*format!("line 3: {with_script}")), "{edit}");
        assert_eq!(words(line), alone);
    }
}

/// With the script, a device write names its device, and 18 and 19 say what the drill has; without it, nothing is known of the device.
#[test]
fn device_writes_name_their_device() {
    let of_any = "device write accepted: first frame 1, last frame 9; kernel mode, page 1";
    let accepted = |device: u16| {
        let outcome = "accepted: first frame 1, last frame 9; kernel mode, page 1";
        format!("device write by device {device} {outcome}")
    };
    let refused = |device: u16, words: &str| {
        format!("device write by device {device} refused: {words}; kernel mode, page 1")
    };
    let no_device = "18, the device is not in the list";
    let outside = "19, the transfer is outside the device's window";
    let writes = [
        ("", "7 0 1 9 K 1", accepted(0)),
        ("device 0 ", "7 0 1 9 K 1", accepted(0)),
        ("device 63 ", "7 0 1 9 K 1", accepted(63)),
        ("device 3 ", "7 13 0 0 K 1", refused(3, "13, a touched frame is excluded")),
        (
            "device 64 ",
            "7 18 0 0 K 1",
            refused(64, &format!("{no_device} (the drill has devices 0 to 63)")),
        ),
        (
            "device 65535 ",
            "7 18 0 0 K 1",
            refused(65535, &format!("{no_device} (the drill has devices 0 to 63)")),
        ),
        // Another drill may have fewer devices, or other windows.
        ("device 63 ", "7 18 0 0 K 1", refused(63, no_device)),
        (
            "device 5 ",
            "7 19 0 0 K 1",
            refused(5, &format!("{outside} (the drill's windows are frames 0 to 3)")),
        ),
    ];
    for (device, line, expected) in writes {
        let script = format!(
            "policy pages 4 frames 4\napprove page 1 frame 2 entry\ndevice-write {device}address 0 length 1\n"
        );
        let lines = format!("S 0 1 1 K 1\n{line}\n");
        let explained = explain(&lines, Some(&encode(&script).unwrap())).unwrap();
        assert_eq!(explained.lines().nth(1), Some(&*format!("line 3: {expected}")), "{device}");
    }
    assert_eq!(words("7 0 1 9 K 1"), of_any);
}

#[test]
fn lines_that_are_none() {
    let lines = [
        ("", "line 1: the drill prints at least one line, and none is here"),
        ("S 0 1 1 K 1\n\n", "line 2: '' is no line of the drill"),
        ("S 0 1 1 K", "line 1: 'S 0 1 1 K' is no line of the drill"),
        ("S 0 1 1 K 1 1", "line 1: 'S 0 1 1 K 1 1' is no line of the drill"),
        ("8 0 1 1 K 1", "line 1: '8' is no kind of call"),
        ("ask 0 0 0 K 1", "line 1: 'ask' is no kind of call"),
        ("1 23 0 0 K 1", "line 1: 23 is no refusal number"),
        ("1 256 0 0 K 1", "line 1: 256 is no refusal number"),
        ("1 +1 0 0 K 1", "line 1: a decimal number is expected, not '+1'"),
        ("1 0 0 x K 1", "line 1: a decimal number is expected, not 'x'"),
        ("1 0 0 0 k 1", "line 1: the mode is K or U, not 'k'"),
        ("X 0 0 0 K 1", "line 1: an X line carries a refusal number"),
        ("S 0 1 1 K 1\n000000000000000", "line 2: '000000000000000' is no line of the drill"),
        ("S 0 1 1 K 1\n00000000000000g0", "line 2: '00000000000000g0' is no line of the drill"),
        ("share", "line 1: 'share' is no line of the drill"),
    ];
    for (line, message) in lines {
        assert_eq!(explain(line, None).unwrap_err().to_string(), message);
    }
}

const SCRIPT: &str = "\
policy pages 4 frames 4 # a comment
approve page 1 frame 2 entry

fetch page 1
# another
bytes 4 0 0 0 1 0 0 0 0 0 0 0 0 0 0 0 2 0 0 0 0 0 0 0 0 0 0 0 0 0 0 0
call kind 9 index 0 length 0 value 0
leave page 3
";

#[test]
fn answers_name_the_lines_of_the_script() {
    let script = encode(SCRIPT).unwrap();
    let lines = "S 0 1 1 K 1\n3 0 2 2 K 1\n4 11 0 0 K 1\n2 0 1 0 K 1\nX 15 0 0 K 1\n\
                 0000000000000000\nshare 25\n";
    let expected = "\
line 1: start accepted: 1 page listed, 1 entry page; kernel mode, page 1
line 4: fetch accepted: frame 2; kernel mode, page 1
line 6: write refused: 11, a touched page is not present; kernel mode, page 1
line 6: synchronise all accepted: 1 shadow entry changed, 0 pages joined the map; kernel mode, page 1
line 7: calls ended: 15, the kind of call is unknown; kernel mode, page 1
page 0: absent
share: 25 percent of the frames are excluded, to the nearest percent
";
    assert_eq!(explain(lines, Some(&script)).unwrap(), expected);
}

/// A drill may refuse what the front finds no fault with; then the start has its line alone.
#[test]
fn a_refused_start_without_a_cause() {
    let script = encode(SCRIPT).unwrap();
    let words = explain("S 7 0 0 U 0", Some(&script)).unwrap();
    let expected = "line 1: start refused: 7, the state or the length of a table does not fit; \
                    user mode, page 0; no guard was started\n";
    assert_eq!(words, expected);
    for number in 1..=6 {
        let words = explain(&format!("S {number} 0 0 U 0"), Some(&script)).unwrap();
        assert!(words.starts_with("line 1: ") && !words.contains('('), "{words}");
    }
}

#[test]
fn lines_that_another_script_made() {
    let script = encode(SCRIPT).unwrap();
    let outputs = [
        ("3 0 2 2 K 1", "line 1: the start's line comes first"),
        ("S 0 1 1 K 1\nS 0 1 1 K 1", "line 2: this does not answer line 4 of the script"),
        ("S 0 1 1 K 1\n4 0 2 2 K 1", "line 2: this does not answer line 4 of the script"),
        (
            "S 0 1 1 K 1\n3 0 2 2 K 1\n4 0 2 2 K 1\n2 0 0 0 K 1\nX 15 0 0 K 1\n6 0 0 0 U 3\n2 0 0 0 U 3",
            "line 7: the script has no call for this line",
        ),
    ];
    for (lines, message) in outputs {
        assert_eq!(explain(lines, Some(&script)).unwrap_err().to_string(), message);
    }
}
