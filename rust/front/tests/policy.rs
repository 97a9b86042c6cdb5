//! A readable policy becomes sizes and arrays, each number with its line; texts that are none name theirs.
//! What the library refuses is tried in rust/linked, where the library is at hand.

mod common;

use front::{encode, Number, Policy};

fn message(text: &str) -> String {
    Policy::read(text).unwrap_err().to_string()
}

/// Numbers, each as its value and its line.
fn numbers<const N: usize>(pairs: [(u16, usize); N]) -> [Number; N] {
    pairs.map(|(value, line)| Number { value, line })
}

#[test]
fn numbers_with_their_lines() {
    let text =
        "# V 9, F 10\r\n\r\n policy pages 9\tframes 0xa # sizes\r\napprove page 5 frame 6\r\n\
                approve page 2 frame 7 entry#no blank\r\n\r\napprove page 3 frame 8 entry";
    let [pages, frames, listed, entries] = numbers([(9, 3), (10, 3), (3, 3), (2, 3)]);
    let expected = Policy {
        pages,
        frames,
        listed,
        entries,
        listed_pages: numbers([(2, 5), (3, 7), (5, 4)]).into(),
        listed_frames: numbers([(7, 5), (8, 7), (6, 4)]).into(),
    };
    assert_eq!(Policy::read(text).unwrap(), expected);
}

#[test]
fn given_counts_are_kept_beside_the_arrays() {
    let text = "policy pages 4 frames 4 listed 7 entries 1\napprove page 1 frame 2 entry\n";
    let policy = Policy::read(text).unwrap();
    assert_eq!([policy.listed, policy.entries], numbers([(7, 1), (1, 1)]));
    assert_eq!(policy.listed_pages, numbers([(1, 2)]));
    assert_eq!(policy.listed_frames, numbers([(2, 2)]));
}

/// In a policy a given e is the number of marks; in a script it wins, so that refused records can be written.
#[test]
fn given_entries_that_are_not_those_marked() {
    let pages = "\napprove page 1 frame 2 entry\napprove page 3 frame 2\n";
    let given = [
        ("0", 0, "e is given as 0, and 1 page is marked 'entry'"),
        ("2", 2, "e is given as 2, and 1 page is marked 'entry'"),
        ("0xffff", 65535, "e is given as 65535, and 1 page is marked 'entry'"),
    ];
    for (e, value, expected) in given {
        let text = format!("# e\npolicy pages 4 frames 4 entries {e}{pages}");
        assert_eq!(message(&text), format!("line 2: {expected}"));
        let bytes = [4, 4, 2, value, 1, 3, 2, 2].map(u16::to_le_bytes).concat();
        assert_eq!(encode(&text).unwrap().bytes, bytes, "{e}");
    }
    let none = "policy pages 4 frames 4 listed 1 entries 1\napprove page 1 frame 2";
    assert_eq!(message(none), "line 1: e is given as 1, and 0 pages are marked 'entry'");
    let fits = Policy::read(&format!("policy pages 4 frames 4 entries 0x1{pages}")).unwrap();
    assert_eq!([fits.entries], numbers([(1, 1)]));
    let fits = Policy::read("policy pages 4 frames 4 entries 0\napprove page 1 frame 2").unwrap();
    assert_eq!([fits.entries], numbers([(0, 1)]));
}

/// The hotel's policy is that of its script: the script's bytes begin with its numbers.
#[test]
fn the_hotel_has_one_policy() {
    let policy = Policy::read(&common::read("examples/hotel.policy")).unwrap();
    let [pages, frames, listed, entries] = numbers([(12, 4), (16, 4), (3, 4), (2, 4)]);
    let expected = Policy {
        pages,
        frames,
        listed,
        entries,
        listed_pages: numbers([(0, 5), (1, 6), (4, 7)]).into(),
        listed_frames: numbers([(1, 5), (2, 6), (3, 7)]).into(),
    };
    assert_eq!(policy, expected);
    let script = encode(&common::read("examples/hotel.script")).unwrap();
    let record = [12, 16, 3, 2, 0, 1, 4, 1, 2, 3].map(u16::to_le_bytes).concat();
    assert_eq!(script.bytes[..20], record);
}

#[test]
fn texts_that_are_no_policy() {
    let texts = [
        ("", "line 1: there is no 'policy' line"),
        ("# nothing\n\n# here\n", "line 3: there is no 'policy' line"),
        ("\napprove page 1 frame 2", "line 2: 'approve' comes after the 'policy' line"),
        (
            "policy pages 4 frames 4\n\npolicy pages 4 frames 4",
            "line 3: there is one 'policy' line, at the beginning",
        ),
        ("policy pages 4", "line 1: 'frames' is missing"),
        ("policy frames 4 pages 4", "line 1: 'pages' is expected, not 'frames'"),
        ("policy pages 4 frames 4 5", "line 1: '5' is too much on this line"),
        (
            "policy pages 65536 frames 4",
            "line 1: the number of pages 65536 does not fit its field, at most 65535",
        ),
    ];
    for (text, message) in texts {
        assert_eq!(self::message(text), message);
    }
}

#[test]
fn items_that_are_no_policy_items() {
    let none =
        |name: &str| format!("'{name}' is no item of a policy; an item is policy or approve");
    let items = [
        ("edit page 0 entry 0", none("edit")),
        ("synchronise all", none("synchronise")),
        ("fetch page 1", none("fetch")),
        ("write address 0 length 1", none("write")),
        ("enter index 0", none("enter")),
        ("leave page 1", none("leave")),
        ("device-write address 0 length 1", none("device-write")),
        ("call kind 0 index 0 length 0 value 0", none("call")),
        ("bytes 4 0 4 0 1 0 1 0 1 0 2 0", none("bytes")),
        ("Approve page 1 frame 2", none("Approve")),
        ("a\u{1b}[2J", none("a\\u{1b}[2J")),
        (
            "approve page x frame 2",
            "the page is a number, decimal or hexadecimal with 0x, not 'x'".into(),
        ),
        ("approve page 1", "'frame' is missing".into()),
        (
            "approve page 1 frame 65536",
            "the frame 65536 does not fit its field, at most 65535".into(),
        ),
        ("approve page 1 frame 2 entry 3", "'3' is too much on this line".into()),
    ];
    for (item, message) in items {
        for text in [
            format!("policy pages 4 frames 4\n# next\n{item}\napprove page 1 frame 2 entry\n"),
            format!("policy pages 4 frames 4\napprove page 1 frame 2 entry\n{item}\nbytes 0"),
        ] {
            assert_eq!(self::message(&text), format!("line 3: {message}"));
        }
    }
}

/// The library may refuse what the front finds no fault with.
#[test]
fn a_policy_in_order_has_no_cause() {
    let policy = Policy::read(&common::read("examples/hotel.policy")).unwrap();
    for number in (0..23).chain([65536 + 5, u64::MAX]) {
        assert_eq!(policy.cause(number), None, "{number}");
    }
}

/// A record that is read has 4 only where it is cut short; one that is written has it where an array is longer too.
#[test]
fn arrays_that_do_not_fit_a_given_count() {
    let approvals = "approve page 0 frame 1 entry\napprove page 1 frame 1\n";
    let cause = |listed| {
        let text = format!("# first\npolicy pages 4 frames 4 listed {listed}\n{approvals}");
        Policy::read(&text).unwrap().cause(4).map(|cause| cause.to_string())
    };
    assert_eq!(cause(1).unwrap(), "line 2: n is given as 1, and 2 pages are approved");
    assert_eq!(cause(2), None);
    assert_eq!(cause(3).unwrap(), "line 2: n is given as 3, and 2 pages are approved");
    let one =
        Policy::read("policy pages 4 frames 4 listed 0x2\napprove page 0 frame 1 entry").unwrap();
    let expected = "line 1: n is given as 2, and 1 page is approved";
    assert_eq!(one.cause(4).unwrap().to_string(), expected);
}
