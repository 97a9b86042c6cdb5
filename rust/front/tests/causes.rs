//! A refused start names the line of the script that caused it, and says why.
//! The number is the reference drill's; only the line and the words are the front's.

mod common;

use front::{encode, explain};

/// Number and words of the refused start, without the words of the number, which tests/refusals.rs reads.
fn refused(script: &str) -> String {
    let input = encode(script).unwrap();
    let explained = explain(&common::reference_drill(&input.bytes), Some(&input)).unwrap();
    let (line, words) = explained.split_once(": start refused: ").expect("the start is refused");
    let (number, words) = words.split_once(", ").unwrap();
    let cause = words.split_once(" (").expect("a cause is given").1;
    let cause = cause.strip_suffix("); user mode, page 0; no guard was started\n").unwrap();
    format!("{line}: {number}, {cause}")
}

#[test]
fn the_whole_line() {
    let input =
        encode("policy pages 4 frames 4\n\napprove page 4 frame 2 entry\nfetch page 1").unwrap();
    let expected = "line 3: start refused: 5, a listed page is out of range or out of order \
                    (page 4 is not below 4, the number of pages); user mode, page 0; no guard was started\n";
    assert_eq!(explain("S 5 0 0 U 0\n", Some(&input)).unwrap(), expected);
}

#[test]
fn sizes() {
    let scripts = [
        ("policy pages 0 frames 4", "line 1: 2, the number of pages is 0, not 1 to 2048"),
        (
            "# V\npolicy pages 2049 frames 0",
            "line 2: 2, the number of pages is 2049, not 1 to 2048",
        ),
        ("policy pages 2048 frames 0", "line 1: 2, the number of frames is 0, not 1 to 4096"),
        ("policy pages 1 frames 4097", "line 1: 2, the number of frames is 4097, not 1 to 4096"),
        ("\npolicy pages 1 frames 4096", "line 2: 3, no page is listed"),
    ];
    for (script, expected) in scripts {
        assert_eq!(refused(script), expected, "{script}");
    }
}

#[test]
fn too_many_pages() {
    let script =
        "policy pages 2 frames 4\napprove page 1 frame 1\napprove page 0 frame 1 entry\n\n\
                  approve page 1 frame 1\napprove page 0 frame 1 entry\n";
    assert_eq!(refused(script), "line 5: 3, 4 pages are listed, and the policy has 2");
    let script =
        "policy pages 2 frames 4 listed 3\napprove page 0 frame 0 entry\nbytes 0 0 0 0 0 0 0 0";
    assert_eq!(refused(script), "line 1: 3, 3 pages are listed, and the policy has 2");
}

#[test]
fn too_few_or_too_many_entry_pages() {
    let forgotten =
        "policy pages 9 frames 4\napprove page 2 frame 1\napprove page 1 frame 1\nfetch page 1";
    let no_entry = "there is no entry page: mark the lowest listed pages 'entry'";
    assert_eq!(refused(forgotten), format!("line 3: 3, {no_entry}"));
    let given = "policy pages 9 frames 4 entries 0\napprove page 2 frame 1 entry";
    assert_eq!(refused(given), format!("line 1: 3, {no_entry}"));
    let mut seventeen = "policy pages 30 frames 4\napprove page 20 frame 0\n".to_string();
    for page in 0..17 {
        seventeen += &format!("approve page {page} frame 0 entry\n");
    }
    seventeen += "approve page 21 frame 0\n";
    assert_eq!(refused(&seventeen), "line 19: 3, there are 17 entry pages, more than 16");
    let given = "policy pages 9 frames 4 entries 2\napprove page 2 frame 1 entry";
    assert_eq!(refused(given), "line 1: 3, there are 2 entry pages, and 1 listed in all");
}

#[test]
fn listed_pages() {
    let lists = [
        // Not below V; the entry pages come first in the record.
        (
            "page 9 frame 1|page 12 frame 0 entry",
            "line 3: 5, page 12 is not below 9, the number of pages",
        ),
        (
            "page 1 frame 1 entry|page 9 frame 0|page 1 frame 1",
            "line 3: 5, page 9 is not below 9, the number of pages",
        ),
        // Listed twice: the second line of the script, whichever comes first in the record.
        ("page 3 frame 1 entry|page 3 frame 2 entry", "line 3: 5, page 3 is listed on line 2 too"),
        ("page 3 frame 1|page 3 frame 2 entry", "line 3: 5, page 3 is listed on line 2 too"),
        (
            "page 3 frame 1 entry|page 7 frame 1|page 3 frame 1",
            "line 4: 5, page 3 is listed on line 2 too",
        ),
        // An entry page above another page.
        (
            "page 1 frame 1|page 2 frame 1 entry",
            "line 3: 5, entry page 2 is not among the lowest: page 1 on line 2 is no entry page",
        ),
        (
            "page 0 frame 1 entry|page 1 frame 1|page 2 frame 1|page 5 frame 1 entry",
            "line 5: 5, entry page 5 is not among the lowest: page 1 on line 3 is no entry page",
        ),
        // Out of order.
        (
            "page 5 frame 1 entry|page 3 frame 1 entry",
            "line 3: 5, page 3 comes after page 5 on line 2",
        ),
        (
            "page 1 frame 1 entry|page 5 frame 1|page 3 frame 1|page 6 frame 1",
            "line 4: 5, page 3 comes after page 5 on line 3",
        ),
    ];
    for (list, expected) in lists {
        let approvals: String = list.split('|').map(|item| format!("approve {item}\n")).collect();
        assert_eq!(refused(&format!("policy pages 9 frames 4\n{approvals}")), expected, "{list}");
    }
}

#[test]
fn listed_frames() {
    let script = "policy pages 9 frames 4\napprove page 5 frame 9\napprove page 6 frame 3\n\
                  approve page 1 frame 3 entry\n# all of them\napprove page 2 frame 4 entry\n";
    assert_eq!(refused(script), "line 6: 6, frame 4 is not below 4, the number of frames");
}

#[test]
fn records_as_bytes() {
    let records = [
        ("\nbytes", "line 2: 1, 0 of the first 8 bytes are there"),
        ("bytes 4 0 4 0 1 0 1", "line 1: 1, 7 of the first 8 bytes are there"),
        ("bytes 4 0 4 0\nbytes 5 0 1 0", "line 2: 3, 5 pages are listed, and the policy has 4"),
        (
            "bytes 4 0 4 0\nbytes 2 0 1 0\nbytes 0 0 1 0",
            "line 2: 4, the list of 2 needs 16 bytes, and 12 are there",
        ),
        (
            "bytes 4 0 4 0 2 0 1 0\nbytes 0 0\nbytes 4 0\nbytes 0 0 0 0",
            "line 3: 5, page 4 is not below 4, the number of pages",
        ),
        (
            "bytes 4 0 4 0 2 0 1 0\nbytes 0 0 1 0 0 0\nbytes 4 0",
            "line 3: 6, frame 4 is not below 4, the number of frames",
        ),
    ];
    for (script, expected) in records {
        assert_eq!(refused(script), expected, "{script}");
    }
}
