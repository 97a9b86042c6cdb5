//! Scripts become bytes: the worked example, every item, records that the guard refuses, and bad scripts.
//! Expected bytes are written out, so that nothing is compared with the encoder itself.

mod common;

use front::encode;

fn bytes(script: &str) -> Vec<u8> {
    encode(script).unwrap().bytes
}

fn message(script: &str) -> String {
    encode(script).unwrap_err().to_string()
}

/// The worked example of document 01, byte by byte.
const WORKED: [u8; 124] = [
    4, 0, 4, 0, 1, 0, 1, 0, // V 4, F 4, n 1, e 1
    1, 0, 2, 0, // page 1, frame 2
    0, 0, 0, 0, 0, 0, 0, 0, 0x03, 0x20, 0, 0, 0, 0, 0, 0, // edit 0 to 0x2003
    1, 0, 0, 0, 0, 0, 0, 0, 0, 0, 0, 0, 0, 0, 0, 0, // synchronise 0
    4, 0, 0, 0, 1, 0, 0, 0, 0, 0, 0, 0, 0, 0, 0, 0, // write 1 byte at 0
    0, 0, 3, 0, 0, 0, 0, 0, 0x07, 0x30, 0, 0, 0, 0, 0, 0, // edit 3 to 0x3007
    1, 0, 3, 0, 0, 0, 0, 0, 0, 0, 0, 0, 0, 0, 0, 0, // synchronise 3
    6, 0, 3, 0, 0, 0, 0, 0, 0, 0, 0, 0, 0, 0, 0, 0, // leave to 3
    7, 0, 0, 0, 1, 0, 0, 0, 0x00, 0x20, 0, 0, 0, 0, 0, 0, // device write 1 byte at 8192
];

#[test]
fn worked_example() {
    assert_eq!(bytes(&common::read("examples/worked.script")), WORKED);
    let vector = std::fs::read(common::vector("worked-example.in")).unwrap();
    assert_eq!(vector, WORKED);
}

/// The bytes of one item after a policy without approvals.
fn item(line: &str) -> Vec<u8> {
    let bytes = bytes(&format!("policy pages 0x102 frames 772\n{line}\n"));
    assert_eq!(bytes[..8], [2, 1, 4, 3, 0, 0, 0, 0]);
    bytes[8..].to_vec()
}

#[test]
fn every_item() {
    let call = |kind, index: u16, length: u32, value: u64| {
        let [low, high] = index.to_le_bytes();
        let start = [kind, 0, low, high];
        [&start[..], &length.to_le_bytes(), &value.to_le_bytes()].concat()
    };
    let items = [
        ("edit page 258 entry 0x8877665544332211", call(0, 258, 0, 0x8877_6655_4433_2211)),
        ("synchronise page 65535", call(1, 65535, 0, 0)),
        ("synchronise all", call(2, 0, 0, 0)),
        ("fetch page 0x0102", call(3, 258, 0, 0)),
        ("write address 18446744073709551615 length 4294967295", call(4, 0, u32::MAX, u64::MAX)),
        ("enter index 15", call(5, 15, 0, 0)),
        ("leave page 3", call(6, 3, 0, 0)),
        ("device-write address 0x2000 length 0x100000", call(7, 0, 1 << 20, 8192)),
        ("device-write device 0 address 0x2000 length 1", call(7, 0, 1, 8192)),
        ("device-write device 0x102 address 7 length 2", call(7, 258, 2, 7)),
        ("device-write device 65535 address 0 length 0", call(7, 65535, 0, 0)),
        ("call kind 255 index 1 length 2 value 3", call(255, 1, 2, 3)),
        ("bytes 1 0xff 0", vec![1, 255, 0]),
    ];
    for (line, bytes) in items {
        assert_eq!(item(line), bytes, "{line}");
    }
}

#[test]
fn entry_pages_come_first_in_listed_order() {
    let script = "policy pages 9 frames 9\n\
                  approve page 1 frame 5\n\
                  approve page 2 frame 6 entry\n\
                  approve page 3 frame 7\n\
                  approve page 0 frame 8 entry\n";
    let numbers = [9, 9, 4, 2, 2, 0, 1, 3, 6, 8, 5, 7];
    assert_eq!(bytes(script), numbers.map(u16::to_le_bytes).concat());
}

#[test]
fn comments_blanks_and_line_ends() {
    let plain = "policy pages 4 frames 4\napprove page 1 frame 2 entry\nsynchronise all\n";
    let spread = "# a comment\r\n\r\n  policy\tpages 4   frames 0x4 # sizes\r\n#\r\n\
                  approve page 1 frame 2 entry#no blank\r\n   \r\nsynchronise all";
    assert_eq!(bytes(spread), bytes(plain));
}

/// The number in the drill's first line.
fn start_number(script: &str) -> String {
    let printed = common::reference_drill(&bytes(script));
    printed.split(' ').nth(1).unwrap().to_string()
}

#[test]
fn policies_that_the_guard_refuses_can_be_written() {
    let scripts = [
        ("1", "bytes"),
        ("1", "bytes 4 0 4 0 1 0 1"),
        ("2", "policy pages 0 frames 4"),
        ("2", "policy pages 65535 frames 65535\napprove page 1 frame 2 entry"),
        ("3", "policy pages 4 frames 4"),
        ("3", "policy pages 4 frames 4\napprove page 1 frame 2"),
        ("3", "policy pages 4 frames 4 entries 17\napprove page 1 frame 2 entry"),
        ("4", "policy pages 4 frames 4 listed 2\napprove page 1 frame 2 entry"),
        ("5", "policy pages 4 frames 4\napprove page 4 frame 2 entry"),
        ("5", "policy pages 4 frames 4\napprove page 1 frame 2\napprove page 2 frame 2 entry"),
        ("6", "policy pages 4 frames 4\napprove page 1 frame 4 entry"),
        ("0", "policy pages 4 frames 4 listed 1 entries 1\napprove page 1 frame 2"),
    ];
    for (number, script) in scripts {
        assert_eq!(start_number(script), number, "{script}");
    }
}

#[test]
fn calls_that_end_the_drill_can_be_written() {
    let started = "policy pages 1 frames 1\napprove page 0 frame 0 entry\n";
    for (rest, line) in
        [("bytes 1 0 0", "X 14 0 0 K 0"), ("call kind 8 index 0 length 0 value 0", "X 15 0 0 K 0")]
    {
        let printed = common::reference_drill(&bytes(&format!("{started}{rest}")));
        assert_eq!(printed.lines().nth(1), Some(line));
    }
}

#[test]
fn bad_scripts() {
    let scripts = [
        ("", "line 1: the script has no policy"),
        ("# nothing\n\n# here\n", "line 3: the script has no policy"),
        ("fetch page 1", "line 1: a script begins with its policy"),
        (
            "\napprove page 1 frame 2",
            "line 2: 'approve' comes after the policy and before the calls",
        ),
        ("policy pages 4", "line 1: 'frames' is missing"),
        ("policy frames 4 pages 4", "line 1: 'pages' is expected, not 'frames'"),
        ("policy pages 4 frames", "line 1: the number of frames is missing"),
        (
            "policy pages 65536 frames 4",
            "line 1: the number of pages 65536 does not fit its field, at most 65535",
        ),
        ("policy pages 4 frames 4 listed", "line 1: the number of listed pages is missing"),
        (
            "policy pages 4 frames 4 entries 0x10000",
            "line 1: the number of entry pages 0x10000 does not fit its field, at most 65535",
        ),
        ("policy pages 4 frames 4 5", "line 1: '5' is too much on this line"),
        (
            "policy pages 4 frames 4\npolicy pages 4 frames 4",
            "line 2: a script has one policy, at its beginning",
        ),
        ("bytes 1\npolicy pages 4 frames 4", "line 2: a script has one policy, at its beginning"),
        (
            "bytes 1\napprove page 1 frame 1",
            "line 2: 'approve' comes after the policy and before the calls",
        ),
    ];
    for (script, message) in scripts {
        assert_eq!(self::message(script), message);
    }
}

#[test]
fn bad_items() {
    let items = [
        ("synchronize all", "'synchronize' is no item; an item is policy, approve, edit, synchronise, fetch, write, enter, leave, device-write, call or bytes"),
        ("synchronise", "'page' is missing"),
        ("synchronise 3", "'page' is expected, not '3'"),
        ("synchronise all 3", "'3' is too much on this line"),
        ("approve page 1 frame 65536", "the frame 65536 does not fit its field, at most 65535"),
        ("approve page 1 frame 2 entries", "'entries' is too much on this line"),
        ("edit page 0 entry 0x10000000000000000", "the entry 0x10000000000000000 does not fit its field, at most 18446744073709551615"),
        ("edit page 0 entry 18446744073709551616", "the entry 18446744073709551616 does not fit its field, at most 18446744073709551615"),
        ("fetch page -1", "the page is a number, decimal or hexadecimal with 0x, not '-1'"),
        ("fetch page +1", "the page is a number, decimal or hexadecimal with 0x, not '+1'"),
        ("fetch page 0x", "the page is a number, decimal or hexadecimal with 0x, not '0x'"),
        ("fetch page 1f", "the page is a number, decimal or hexadecimal with 0x, not '1f'"),
        ("write address 0", "'length' is missing"),
        ("write address 0 length 4294967296", "the length 4294967296 does not fit its field, at most 4294967295"),
        ("device-write length 1 address 0", "'address' is expected, not 'length'"),
        ("device-write address 0 device 1 length 1", "'length' is expected, not 'device'"),
        ("device-write address 0 length 1 device 1", "'device' is too much on this line"),
        ("device-write device address 0 length 1", "the device is a number, decimal or hexadecimal with 0x, not 'address'"),
        ("device-write device 65536 address 0 length 1", "the device 65536 does not fit its field, at most 65535"),
        ("write device 1 address 0 length 1", "'address' is expected, not 'device'"),
        ("enter index", "the index is missing"),
        ("leave index 0", "'page' is expected, not 'index'"),
        ("call kind 256 index 0 length 0 value 0", "the kind 256 does not fit its field, at most 255"),
        ("bytes 1 256", "the byte 256 does not fit its field, at most 255"),
        ("ask page 3 frame 7", "'ask' is no call of the drill; guard-script runs a script with it through the library"),
        ("ask", "'ask' is no call of the drill; guard-script runs a script with it through the library"),
        ("commit", "'commit' is no call of the drill; guard-script runs a script with it through the library"),
        ("drop", "'drop' is no call of the drill; guard-script runs a script with it through the library"),
    ];
    for (item, message) in items {
        let script = format!("# first\npolicy pages 4 frames 4\n\n{item}\nfetch page nowhere\n");
        assert_eq!(self::message(&script), format!("line 4: {message}"));
    }
}

#[test]
fn an_approval_after_a_call_comes_too_late() {
    let script = "policy pages 4 frames 4\nsynchronise all\napprove page 1 frame 2";
    assert_eq!(message(script), "line 3: 'approve' comes after the policy and before the calls");
}

#[test]
fn no_more_approvals_than_the_count_holds() {
    let script = format!("policy pages 4 frames 4{}", "\napprove page 1 frame 2".repeat(65536));
    assert_eq!(message(&script), "line 65537: a policy lists at most 65535 pages");
}

#[test]
fn no_more_calls_than_the_drill_takes() {
    let started = "policy pages 1 frames 1\napprove page 0 frame 0 entry\n";
    let last = format!("{started}{}", "synchronise all\n\n".repeat(1024));
    assert_eq!(bytes(&last).len(), 12 + 16 * 1024);
    let too_many = "this is call 1025, and the drill takes 1024 at most";
    // The call's own line, a cut call, and the last of three calls that are given as bytes on one line.
    for next in ["# the end\nfetch page 0\nleave page 0", "# the end\nbytes 3"] {
        assert_eq!(message(&format!("{last}{next}")), format!("line 2052: {too_many}"));
    }
    let in_one_line = format!("bytes{}", " 2".repeat(48));
    let before = "synchronise all\n".repeat(1022);
    let script = format!("{started}{before}{in_one_line}\n");
    assert_eq!(message(&script), format!("line 1025: {too_many}"));
}

/// A list that is too long for the drill is the policy's fault, which the start tells; no call is made.
#[test]
fn a_long_list_is_not_taken_for_calls() {
    let list: String =
        (0..5000).map(|page| format!("approve page {page} frame 0 entry\n")).collect();
    let bytes = bytes(&format!("policy pages 2048 frames 1\n{list}"));
    assert_eq!(bytes.len(), 8 + 4 * 5000);
    assert_eq!(common::reference_drill(&bytes), "S 3 0 0 U 0\n");
}
