//! The program `guard-record` as a person runs it: records, refusals with their lines, messages and exit status.
//! Expected bytes are written out; beside them, the front's own encoder makes the same of each policy.

mod common;

use common::{assert_closed_pipes, assert_usage, example, finished, started};
use front::encode;

const PROGRAM: &str = env!("CARGO_BIN_EXE_guard-record");
const POLICY: &str = "policy pages 4 frames 4\napprove page 1 frame 2 entry\n";

/// The record of a policy, where nothing is told.
fn record(policy: impl AsRef<[u8]>) -> Vec<u8> {
    let output = finished(started(PROGRAM, &[]), policy.as_ref());
    assert_eq!((output.status.code(), &*output.stderr), (Some(0), &b""[..]));
    output.stdout
}

fn message(policy: impl AsRef<[u8]>) -> String {
    common::message(PROGRAM, policy.as_ref())
}

/// A policy line of these sizes after a comment, and an approval for each part of a list: lines 2, 3 and so on.
fn policy(sizes: &str, list: &str) -> String {
    let approvals = list.split('|').map(|item| format!("approve {item}\n"));
    format!("# a policy\npolicy {sizes}\n{}", approvals.collect::<String>())
}

fn assert_written(policy: &str, numbers: &[u16]) {
    let bytes: Vec<_> = numbers.iter().flat_map(|number| number.to_le_bytes()).collect();
    assert_eq!(record(policy), bytes, "{policy}");
    assert_eq!(encode(policy).unwrap().bytes, bytes, "{policy}");
}

#[test]
fn accepted_policies() {
    assert_eq!(record(POLICY), [4, 0, 4, 0, 1, 0, 1, 0, 1, 0, 2, 0]);
    assert_eq!(record(format!("\u{feff}{POLICY}")), record(POLICY), "with a byte order mark");
    assert_written(POLICY, &[4, 4, 1, 1, 1, 2]);
    assert_written(&example("hotel.policy"), &[12, 16, 3, 2, 0, 1, 4, 1, 2, 3]);
    // Entry pages come first; both bytes of a number are in use.
    let list =
        "page 0x201 frame 9|page 0 frame 0x403 entry|page 0x202 frame 9|page 7 frame 8 entry";
    let numbers = [0x302, 0x504, 4, 2, 0, 7, 0x201, 0x202, 0x403, 8, 9, 9];
    assert_written(&policy("pages 0x302 frames 0x504", list), &numbers);
    // Counts that are given, and fit.
    let one = policy("pages 4 frames 4 listed 1 entries 1", "page 1 frame 2 entry");
    assert_written(&one, &[4, 4, 1, 1, 1, 2]);
    let two = policy("pages 4 frames 4 entries 2", "page 1 frame 2 entry|page 3 frame 2 entry");
    assert_written(&two, &[4, 4, 2, 2, 1, 3, 2, 2]);
}

#[test]
fn the_largest_policy() {
    let approval = |page| {
        let mark = if page < 16 { " entry" } else { "" };
        format!("approve page {page} frame {}{mark}\n", 4095 - page)
    };
    let approvals: String = (0..2048).map(approval).collect();
    let policy = format!("policy pages 2048 frames 4096 entries 16\n{approvals}");
    let record = record(&policy);
    assert_eq!(record.len(), 8200);
    assert_eq!(record, encode(&policy).unwrap().bytes);
}

/// A refused policy: line, number and cause, without the words of the number.
fn assert_refused(policy: &str, expected: &str) {
    let told = message(policy);
    let (line, refused) = told.split_once(": record refused: ").expect("a line is named");
    let (number, refused) = refused.split_once(", ").unwrap();
    let cause = refused.split_once(" (").expect("a cause is given").1;
    let cause = cause.strip_suffix(")\n").unwrap();
    assert_eq!(format!("{line}: {number}, {cause}"), expected, "{policy}");
}

#[test]
fn sizes_and_counts_that_are_refused() {
    let policies = [
        ("pages 0 frames 4", "line 2: 2, the number of pages is 0, not 1 to 2048"),
        ("pages 4 frames 4097", "line 2: 2, the number of frames is 4097, not 1 to 4096"),
        ("pages 4 frames 4 listed 0", "line 2: 3, n is given as 0, and 1 page is approved"),
        ("pages 4 frames 4 listed 0x5", "line 2: 3, n is given as 5, and the policy has 4 pages"),
        ("pages 1 frames 4 listed 2", "line 2: 3, n is given as 2, and the policy has 1 page"),
    ];
    for (sizes, expected) in policies {
        assert_refused(&policy(sizes, "page 1 frame 2 entry"), expected);
    }
    let no_entry = "line 3: 3, there is no entry page: mark the lowest listed pages 'entry'";
    assert_refused(&policy("pages 4 frames 4", "page 1 frame 2"), no_entry);
    let no_entry = "line 2: 3, there is no entry page: mark the lowest listed pages 'entry'";
    for sizes in ["pages 4 frames 4 entries 0", "pages 4 frames 4 listed 2 entries 0"] {
        assert_refused(&policy(sizes, "page 1 frame 2"), no_entry);
    }
    let entries = |count| vec!["page 1 frame 2 entry"; count].join("|");
    let seventeen = policy("pages 17 frames 4", &entries(17));
    assert_refused(&seventeen, "line 19: 3, there are 17 entry pages, more than 16");
    let below_e = policy("pages 4 frames 4 listed 1", &entries(2));
    assert_refused(&below_e, "line 2: 3, n is given as 1, and 2 pages are approved");
    assert_refused("policy pages 4 frames 4 listed 0", "line 1: 3, no page is listed");
    let three = "page 0 frame 2 entry|page 1 frame 2|page 2 frame 2";
    let counted = "line 5: 3, 3 pages are listed, and the policy has 2";
    assert_refused(&policy("pages 2 frames 4", three), counted);
    let given = "line 2: 3, 3 pages are listed, and the policy has 2";
    assert_refused(&policy("pages 2 frames 4 listed 3", three), given);
}

/// A given e makes no entry page of a page that is not marked, and drops none that is.
#[test]
fn given_entries_that_are_not_those_marked() {
    let list = "page 1 frame 2 entry|page 3 frame 2";
    for e in [0, 2] {
        let told = message(policy(&format!("pages 4 frames 4 entries {e}"), list));
        assert_eq!(told, format!("line 2: e is given as {e}, and 1 page is marked 'entry'\n"));
    }
    let told = message(policy("pages 4 frames 4 entries 1", "page 1 frame 2"));
    assert_eq!(told, "line 2: e is given as 1, and 0 pages are marked 'entry'\n");
}

/// An array may be shorter or longer than n; 4 comes before 5 and 6.
#[test]
fn arrays_that_are_refused() {
    let shorter = policy("pages 4 frames 4 listed 2", "page 9 frame 9 entry");
    assert_refused(&shorter, "line 2: 4, n is given as 2, and 1 page is approved");
    let longer = policy("pages 4 frames 4 listed 1", "page 1 frame 2 entry|page 9 frame 9");
    assert_refused(&longer, "line 2: 4, n is given as 1, and 2 pages are approved");
}

#[test]
fn pages_and_frames_that_are_refused() {
    let lists = [
        ("page 4 frame 9 entry", "line 3: 5, page 4 is not below 4, the number of pages"),
        ("page 1 frame 2|page 1 frame 2 entry", "line 4: 5, page 1 is listed on line 3 too"),
        (
            "page 2 frame 2|page 3 frame 2 entry",
            "line 4: 5, entry page 3 is not among the lowest: page 2 on line 3 is no entry page",
        ),
        (
            "page 1 frame 2 entry|page 3 frame 2|page 2 frame 2",
            "line 5: 5, page 2 comes after page 3 on line 4",
        ),
        (
            "page 1 frame 2 entry|page 2 frame 4",
            "line 4: 6, frame 4 is not below 4, the number of frames",
        ),
    ];
    for (list, expected) in lists {
        assert_refused(&policy("pages 4 frames 4", list), expected);
    }
}

#[test]
fn the_whole_message() {
    let page = message("policy pages 4 frames 4\n\napprove page 4 frame 2 entry");
    let expected = "line 3: record refused: 5, a listed page is out of range or out of order \
                    (page 4 is not below 4, the number of pages)\n";
    assert_eq!(page, expected);
    let array = message("policy pages 4 frames 4 listed 2\napprove page 1 frame 2 entry");
    let expected =
        "line 1: record refused: 4, the length of the policy record or of an array does not fit n \
                    (n is given as 2, and 1 page is approved)\n";
    assert_eq!(array, expected);
}

/// The longest list that can be written does not fit a pipe; the library refuses it, and nothing is cut.
#[test]
fn the_longest_list() {
    let list = "approve page 0 frame 0 entry\n".repeat(65535);
    let expected = "line 3: record refused: 3, n, e or the number of devices is out of range \
                    (65535 pages are listed, and the policy has 1)\n";
    assert_eq!(message(format!("policy pages 1 frames 1\n{list}")), expected);
    let one_more = format!("policy pages 1 frames 1\n{list}approve page 0 frame 0 entry\n");
    assert_eq!(message(one_more), "line 65537: a policy lists at most 65535 pages\n");
}

#[test]
fn bad_input_gives_a_line_and_nothing_else() {
    let none = "is no item of a policy; an item is policy or approve";
    assert_eq!(message(example("hotel.script")), format!("line 10: 'edit' {none}\n"));
    assert_eq!(message(""), "line 1: there is no 'policy' line\n");
    assert_eq!(message(b"\xff\xfep\0"), "line 1: the text is UTF-16: save it as UTF-8\n");
    assert_eq!(message(b"# 1\n# \xff\n"), "line 2: the text is not UTF-8\n");
}

#[test]
fn wrong_use_gives_the_usage() {
    assert_usage(PROGRAM, "usage: guard-record < ", POLICY.as_bytes());
}

#[test]
fn closed_pipes() {
    assert_closed_pipes(PROGRAM, POLICY.as_bytes());
}
