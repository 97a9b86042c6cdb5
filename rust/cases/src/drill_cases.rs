//! The drill: numbers 14 and 15, edit, what it takes of its input, the limit of 1,024 calls, its devices, and the share.
//! Every byte that it writes is compared, and it has to end with exit status 0.

use crate::tally::Tally;
use std::io::Write;
use std::path::Path;
use std::process::{Command, Output, Stdio};
use std::thread::sleep;
use std::time::Duration;

/// "Policy V 4, F 4, n 1, e 1, page 1, frame 2."
const POLICY: [u8; 12] = [4, 0, 4, 0, 1, 0, 1, 0, 1, 0, 2, 0];
const START: &str = "S 0 1 1 K 1\n";
const CLOSING: &str =
    "0000000000000000\n0000000000002401\n0000000000000000\n0000000000000000\nshare 25\n";

/// "A call: byte 0 kind, byte 1 ignored, 2 to 3 index, 4 to 7 length, 8 to 15 value."
fn call(kind: u8, index: u16, value: u64) -> Vec<u8> {
    let mut bytes = vec![kind, 0];
    bytes.extend(index.to_le_bytes());
    bytes.extend([0; 4]);
    bytes.extend(value.to_le_bytes());
    bytes
}

/// A device write: its device stands in the index field.
fn device_write(device: u16, length: u32, address: u64) -> Vec<u8> {
    let mut bytes = call(7, device, address);
    bytes[4..8].copy_from_slice(&length.to_le_bytes());
    bytes
}

/// What the built drill writes for an input that comes in pieces of this size, and how it ends. It may stop reading before the input ends.
fn ran(input: &[u8], piece: usize) -> Output {
    let drill = Path::new(env!("CARGO_MANIFEST_DIR")).join("../../target/bin/drill");
    let mut child = Command::new(drill)
        .stdin(Stdio::piped())
        .stdout(Stdio::piped())
        .spawn()
        .expect("the drill is built: make drill");
    let mut pipe = child.stdin.take().expect("a pipe");
    for bytes in input.chunks(piece) {
        if pipe.write_all(bytes).is_err() {
            break;
        }
        if bytes.len() < input.len() {
            // The drill is to find the pipe empty between two pieces.
            sleep(Duration::from_millis(1));
        }
    }
    drop(pipe);
    child.wait_with_output().expect("the drill ends")
}

fn drill(t: Tally, name: &str, input: &[u8], wanted: &str) -> Tally {
    in_pieces(t, name, input, input.len().max(1), wanted)
}

fn in_pieces(t: Tally, name: &str, input: &[u8], piece: usize, wanted: &str) -> Tally {
    let Output { status, stdout, .. } = ran(input, piece);
    if !status.success() {
        println!("the drill ended with {status}");
    }
    t.case("drill", name, status.success() && stdout == wanted.as_bytes())
}

/// The policy, then these bytes; the start's line, these lines and the closing lines of an untouched guard.
fn after_start(t: Tally, name: &str, calls: &[u8], lines: &str) -> Tally {
    let input: Vec<u8> = POLICY.iter().chain(calls).copied().collect();
    drill(t, name, &input, &format!("{START}{lines}{CLOSING}"))
}

/// "A refused start prints its line alone."
fn starts(t: Tally) -> Tally {
    let t = drill(t, "no input", &[], "S 1 0 0 U 0\n");
    let t = drill(t, "7 bytes", &POLICY[..7], "S 1 0 0 U 0\n");
    let t = drill(t, "V 0", &[0, 0, 4, 0, 1, 0, 1, 0, 1, 0, 2, 0], "S 2 0 0 U 0\n");
    let t = drill(
        t,
        "V 2,049 and F 65,535",
        &[1, 8, 255, 255, 1, 0, 1, 0, 1, 0, 2, 0],
        "S 2 0 0 U 0\n",
    );
    // n is not 1 to 2,048, so 8 bytes are taken and question 3 refuses.
    let t = drill(t, "n 0", &[4, 0, 4, 0, 0, 0, 1, 0], "S 3 0 0 U 0\n");
    let t = drill(t, "a record cut short", &POLICY[..11], "S 4 0 0 U 0\n");
    let t = drill(t, "page V listed", &[4, 0, 4, 0, 1, 0, 1, 0, 4, 0, 2, 0], "S 5 0 0 U 0\n");
    drill(t, "frame F listed", &[4, 0, 4, 0, 1, 0, 1, 0, 1, 0, 4, 0], "S 6 0 0 U 0\n")
}

/// "14. Drill only: does a whole call of 16 bytes remain, where anything remains? 15. Drill only: is the kind 0 to 7?"
fn ends(t: Tally) -> Tally {
    let t = after_start(t, "no call", &[], "");
    let input = [POLICY.to_vec(), call(3, 1, 0).repeat(2), vec![2; 5]].concat();
    let wanted = format!("{START}3 0 2 2 K 1\n3 0 2 2 K 1\nX 14 0 0 K 1\n{CLOSING}");
    let t = in_pieces(t, "an input that comes byte by byte", &input, 1, &wanted);
    let t = in_pieces(t, "an input in pieces of 7 bytes", &input, 7, &wanted);
    let t = after_start(t, "15 bytes of a call give 14", &call(2, 0, 0)[..15], "X 14 0 0 K 1\n");
    let t = after_start(t, "1 byte of a kind above 7 gives 14", &[9], "X 14 0 0 K 1\n");
    let t = after_start(t, "kind 8 gives 15", &call(8, 0, 0), "X 15 0 0 K 1\n");
    let more: Vec<u8> = [call(255, 0, 0), call(3, 1, 0)].concat();
    let t = after_start(t, "15 ends the calls", &more, "X 15 0 0 K 1\n");
    let fetches = call(3, 1, 0).repeat(1025);
    let t = after_start(t, "1,024 calls and no more", &fetches, &"3 0 2 2 K 1\n".repeat(1024));
    let cut = [call(3, 1, 0).repeat(1024), vec![9]].concat();
    after_start(t, "nothing is read after the 1,024th call", &cut, &"3 0 2 2 K 1\n".repeat(1024))
}

/// "0 edit the kernel table (index, value; question 9)". "An accepted edit gives 0 and 0."
fn edits(t: Tally) -> Tally {
    let t = after_start(
        t,
        "an edit gives 0 and 0 and leaves the shadow",
        &call(0, 3, 0x3007),
        "0 0 0 0 K 1\n",
    );
    let t = after_start(t, "an edit of page V gives 9", &call(0, 4, 0x3007), "0 9 0 0 K 1\n");
    let mut ignored = call(0, 0, 0);
    ignored[1] = 255;
    let t = after_start(t, "byte 1 is ignored", &ignored, "0 0 0 0 K 1\n");
    // The kernel table begins as zeros: every page is absent, and page 1 loses its entry.
    let input = [POLICY.to_vec(), call(2, 0, 0)].concat();
    let wanted = "S 0 1 1 K 1\n2 0 1 0 K 1\n0000000000000000\n0000000000000000\n0000000000000000\n0000000000000000\nshare 25\n";
    drill(t, "the kernel table begins as zeros", &input, wanted)
}

/// "The drill has 64 devices with all frames as window and puts the device in the index field." Frame 2 is excluded.
fn devices(t: Tally) -> Tally {
    let mut t = t;
    for device in [0, 1, 62, 63] {
        let calls = [
            device_write(device, 1, 0),
            device_write(device, 4096, 12288),
            device_write(device, 8192, 0),
            device_write(device, 1, 8192),
            device_write(device, 1, 16384),
            device_write(device, 0, 16384),
        ];
        let lines =
            "7 0 0 0 K 1\n7 0 3 3 K 1\n7 0 0 1 K 1\n7 13 0 0 K 1\n7 9 0 0 K 1\n7 8 0 0 K 1\n";
        t = after_start(t, &format!("device {device}"), &calls.concat(), lines);
    }
    for device in [64, 65, 256, 65535] {
        let calls = [
            device_write(device, 1, 0),
            device_write(device, 1, 8192),
            device_write(device, 1, 16384),
            device_write(device, 0, 16384),
            device_write(device, 1048577, 0),
        ];
        let lines = "7 18 0 0 K 1\n7 18 0 0 K 1\n7 18 0 0 K 1\n7 8 0 0 K 1\n7 8 0 0 K 1\n";
        t = after_start(t, &format!("no device {device}"), &calls.concat(), lines);
    }
    t
}

/// A policy of F frames that lists each of its pages, page 0 as its entry page, with these frames, and no call: the line of the start, an
/// approved entry for each page, and this share.
fn listed(
    t: Tally,
    name: &str,
    f: u16,
    frames: impl IntoIterator<Item = u16>,
    share: &str,
) -> Tally {
    let frames: Vec<u16> = frames.into_iter().collect();
    let n = frames.len() as u16;
    let numbers = [n, f, n, 1].into_iter().chain(0..n).chain(frames.iter().copied());
    let input: Vec<u8> = numbers.flat_map(u16::to_le_bytes).collect();
    let entries: String = frames.iter().map(|frame| format!("{frame:013x}401\n")).collect();
    drill(t, name, &input, &format!("S 0 {n} 1 K 0\n{entries}share {share}\n"))
}

/// K7: "Campus reports round to the nearest, an exact half to the even number, and ours shall too."
fn shares(t: Tally) -> Tally {
    let mut t = t;
    let rows = [
        // Exact halves.
        (1, 8, "12"),
        (3, 8, "38"),
        (5, 8, "62"),
        (7, 8, "88"),
        (1, 40, "2"),
        (3, 40, "8"),
        (39, 40, "98"),
        (1, 200, "0"),
        (3, 200, "2"),
        (5, 200, "2"),
        (197, 200, "98"),
        (199, 200, "100"),
        (2, 400, "0"),
        (6, 400, "2"),
        (512, 4096, "12"),
        (1536, 4096, "38"),
        // The nearest below and above, and none to round.
        (1, 3, "33"),
        (2, 3, "67"),
        (1, 7, "14"),
        (3, 7, "43"),
        (2, 8, "25"),
        (1, 16, "6"),
        (3, 16, "19"),
        (2, 200, "1"),
        (1, 400, "0"),
        (3, 400, "1"),
        (399, 400, "100"),
        (20, 4096, "0"),
        (21, 4096, "1"),
        (2048, 4096, "50"),
        // All of F.
        (1, 1, "100"),
        (3, 3, "100"),
        (8, 8, "100"),
        (200, 200, "100"),
        (2048, 2048, "100"),
    ];
    for (excluded, f, share) in rows {
        // The last frames of memory.
        t = listed(t, &format!("the share of {excluded} of {f}"), f, f - excluded..f, share);
    }
    let t = listed(t, "a frame of two pages counts once", 8, [5, 5], "12");
    let t = listed(t, "a frame of all pages counts once", 8, [7; 8], "12");
    listed(t, "three frames of five pages", 8, [6, 0, 6, 3, 0], "38")
}

pub fn all(t: Tally) -> Tally {
    shares(devices(edits(ends(starts(t)))))
}
