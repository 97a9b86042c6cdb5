//! A million calls agree, every cell that can be reached is reached, and a planted mistake is found.
//! Both sides have the same refusals; rust/guard compares its own with docs/refusals.txt.
//! The counts go to standard output, past the test program's own capture.

use std::io::{self, Write};

use differential::{run, run_claim, run_from_ask_on, run_windows, Damage, Plan, Tally};
use reference::Mistake;

const SEED: u64 = 1;

#[test]
fn a_million_calls_agree() {
    let plan = Plan { seed: SEED, lists: Plan::LISTS, calls: Plan::CALLS, mistake: Mistake::None };
    let tally = run(&plan).unwrap_or_else(|difference| panic!("seed {SEED}, {difference}"));
    let mut out = io::stdout().lock();
    writeln!(out, "seed {SEED}, {} calls", tally.calls()).unwrap();
    tally.print(&mut out).unwrap();
    assert!(tally.calls() >= 1_000_000, "{} calls", tally.calls());
    let complaints = tally.complaints();
    assert!(complaints.is_empty(), "{}", complaints.join("\n"));
}

/// The mistakes that a list of demand 3 shows.
fn of_lists() -> impl Iterator<Item = Mistake> {
    let of_calls = Mistake::PLANTED.into_iter().chain(Mistake::OF_TREES).chain(Mistake::OF_DEVICES);
    of_calls.chain(Mistake::OF_PENDING)
}

#[test]
fn every_planted_mistake_is_found() {
    let of_others = Mistake::OF_WRITING_RECORDS.into_iter().chain(Mistake::OF_WALKS);
    let of_states = Mistake::OF_DEVICE_COUNTS.into_iter().chain(Mistake::OF_PENDING_STATES);
    for mistake in of_lists().chain(of_others).chain(of_states) {
        let plan = Plan { seed: SEED, lists: 200, calls: Plan::CALLS, mistake };
        let difference = run(&plan).expect_err(&format!("{mistake:?} is not found"));
        println!("{mistake:?}: {difference}");
    }
}

/// The first of some lists that breaks by this check, with a mistake.
fn first_broken(
    mistake: Mistake,
    lists: u64,
    check: impl Fn(&Plan, u64) -> Result<(), String>,
) -> Option<(u64, String)> {
    let plan = Plan { seed: SEED, lists: 0, calls: Plan::CALLS, mistake };
    (0..lists).find_map(|seed| check(&plan, seed).err().map(|what| (seed, what)))
}

/// The one-page guards alone find every mistake, and none where there is none.
#[test]
fn demand_3_sees_every_planted_mistake() {
    for mistake in std::iter::once(Mistake::None).chain(of_lists()) {
        let broken = first_broken(mistake, 1000, run_claim);
        assert_eq!(broken.is_some(), mistake != Mistake::None, "{mistake:?}: {broken:?}");
    }
}

/// K5's own sentence alone finds a window that is another device's, and no other mistake of device writes.
#[test]
fn the_window_of_another_device_is_seen() {
    for mistake in std::iter::once(Mistake::None).chain(Mistake::OF_DEVICES) {
        let broken = first_broken(mistake, 200, run_windows);
        let is_of_another =
            matches!(mistake, Mistake::CutDevice | Mistake::NeighbourWindow | Mistake::AnyWindow);
        assert_eq!(broken.is_some(), is_of_another, "{mistake:?}: {broken:?}");
    }
}

/// K6's own sentence alone finds a frame that is not excluded from its ask to its commit and after it, and finds nothing where there is no
/// mistake.
#[test]
fn a_committed_frame_that_was_covered_is_seen() {
    let opened = [Mistake::AskDoesNotExclude, Mistake::AskExcludedFrame, Mistake::DropClearsByte];
    for mistake in std::iter::once(Mistake::None).chain(opened) {
        let broken = first_broken(mistake, 1000, run_from_ask_on);
        assert_eq!(broken.is_some(), mistake != Mistake::None, "{mistake:?}: {broken:?}");
    }
}

#[test]
fn too_few_calls_are_noticed() {
    let plan = Plan { seed: SEED, lists: 20, calls: Plan::CALLS, mistake: Mistake::None };
    let tally = run(&plan).unwrap_or_else(|difference| panic!("seed {SEED}, {difference}"));
    assert!(!tally.complaints().is_empty());
}

/// Absent entries and each combination of the cache bits that come too seldom are named, on each kind of page and at each switch.
#[test]
fn too_few_entries_of_a_kind_are_noticed() {
    let complaints = Tally::default().complaints();
    let rows =
        ["approved page", "alias", "ordinary page", "ordinary at enter", "ordinary at leave"];
    for row in rows {
        for column in ["absent", "no cache bit", "write-through", "cache disable", "both"] {
            let complaint = format!("{row}, {column}: 0 entries, at least 1000 are asked for");
            assert!(complaints.contains(&complaint), "{complaint}");
        }
    }
}

/// A number that both sides agree on and that is no refusal is named, and not passed over.
#[test]
fn a_number_that_is_no_refusal_is_an_error() {
    let last = guard::Refusal::ALL.map(|refusal| u64::from(refusal.number())).into_iter().max();
    let mut tally = Tally::default();
    for number in 0..=last.unwrap() {
        assert_eq!(tally.count_started(1, number), Ok(()));
    }
    for number in [last.unwrap() + 1, 256, 1 << 32, u64::MAX] {
        let error = tally.count_started(1, number).unwrap_err();
        assert!(error.contains(&number.to_string()), "{error}");
    }
}

/// A refusal that a call cannot give is counted, and complained of.
#[test]
fn a_number_that_cannot_be_is_a_complaint() {
    let mut tally = Tally::default();
    tally.count_started(1, 14).unwrap();
    let complaint = "from a start, synchronise one, 14: 1 calls, which cannot be".to_string();
    assert!(tally.complaints().contains(&complaint));
}

/// Each number of a written record that comes too seldom is named, and each kind of damage that it may find.
#[test]
fn too_few_written_records_are_noticed() {
    let complaints = Tally::default().complaints();
    let wrong = "0 calls, at least 1000 are asked for";
    for number in [0, 2, 3, 4, 5, 6, 7, 16] {
        let complaint = format!("damaged, write record, {number}: {wrong}");
        assert!(complaints.contains(&complaint), "{complaint}");
    }
    for damage in ["contents alone", "length of the numbers run", "length of the buffer"] {
        let complaint = format!("{damage}, write record: {wrong}");
        assert!(complaints.contains(&complaint), "{complaint}");
    }
}

/// Each number of a call with a tree that comes too seldom is named, in both halves, and each reason of 17.
#[test]
fn too_few_calls_with_a_tree_are_noticed() {
    let complaints = Tally::default().complaints();
    let wrong = "at least 1000 are asked for";
    let halves = [
        ("from a start, one from a tree", &[0, 9, 17][..]),
        ("from a start, all from a tree", &[0, 17]),
        ("damaged, one from a tree", &[0, 7, 9, 17]),
        ("damaged, all from a tree", &[0, 7, 17]),
        ("damaged, walk", &[0, 7, 17]),
    ];
    for (call, numbers) in halves {
        for number in numbers {
            let complaint = format!("{call}, {number}: 0 calls, {wrong}");
            assert!(complaints.contains(&complaint), "{complaint}");
        }
    }
    let reasons =
        ["empty run", "words left over", "depth 0", "depth above 3", "root outside", "several"];
    for call in ["one from a tree", "all from a tree", "walk"] {
        for reason in reasons {
            let complaint = format!("17, {call}, {reason}: 0 of them, {wrong}");
            assert!(complaints.contains(&complaint), "{complaint}");
        }
    }
    let damage = format!("length of the numbers run, walk: 0 calls, {wrong}");
    assert!(complaints.contains(&damage));
}

/// Each way in which a walk can end is asked for, at each depth and with as many entries read as it can have, and no other.
#[test]
fn too_few_walks_of_a_kind_are_noticed() {
    let complaints = Tally::default().complaints();
    let ends = [
        ("page", &["1 of 1", "2 of 2", "3 of 3"][..]),
        ("large page", &["1 of 2", "2 of 3"]),
        ("too many bits", &["0 of 1", "0 of 2", "0 of 3"]),
        ("not present", &["1 of 1", "1 of 2", "2 of 2", "1 of 3", "2 of 3", "3 of 3"]),
        ("reserved bit", &["1 of 1", "1 of 2", "2 of 2", "1 of 3", "2 of 3", "3 of 3"]),
        ("no such table", &["1 of 2", "1 of 3", "2 of 3"]),
        ("misaligned", &["1 of 2", "2 of 3"]),
    ];
    let mut asked = 0;
    for (end, reads) in ends {
        for read in reads {
            for walks in ["walks", "synchronised"] {
                let complaint =
                    format!("{walks}, {end}, {read}: 0 of them, at least 1000 are asked for");
                // No page of a guard has too many bits for a depth above 1.
                let can_be = walks == "walks" || end != "too many bits" || *read == "0 of 1";
                assert_eq!(complaints.contains(&complaint), can_be, "{complaint}");
                asked += usize::from(can_be);
            }
        }
    }
    let of_walks = |text: &&String| text.starts_with("walks,") || text.starts_with("synchronised,");
    assert_eq!(complaints.iter().filter(of_walks).count(), asked);
}

/// Each bit that counts at some levels and not at others is asked for at each of them.
#[test]
fn too_few_bits_at_a_level_are_noticed() {
    let complaints = Tally::default().complaints();
    let bits = [
        "writable clear",
        "user clear",
        "write-through set",
        "cache disable set",
        "bit 7 set",
        "no-execute set",
    ];
    for bit in bits {
        for levels in ["no level", "1 alone", "2 alone", "1 and 2", "3 alone"] {
            let complaint =
                format!("levels, {bit}, {levels}: 0 of them, at least 1000 are asked for");
            // With bit 7 at level 2 no walk comes to level 1.
            let can_be = bit != "bit 7 set" || !levels.contains('2');
            assert_eq!(complaints.contains(&complaint), can_be, "{complaint}");
        }
    }
}

/// Each place of an accepted transfer in its window, each reason of 18, 19 and of 7 for a list, and each number of devices at a start.
#[test]
fn too_few_transfers_of_a_kind_are_noticed() {
    let complaints = Tally::default().complaints();
    let rows = [
        ("accepted, window of one frame", &["at both"][..]),
        ("accepted, window of more", &["at neither end", "at its first", "at its last", "at both"]),
        (
            "19, device writes",
            &[
                "empty window",
                "one frame below",
                "further below",
                "one frame above",
                "further above",
                "on both sides",
                "wholly below",
                "wholly above",
            ],
        ),
        ("18, device writes", &["next to the last", "by lower bits", "any other"]),
        ("7, device writes", &["empty list", "one too few", "one too many", "any other"]),
        ("3, devices at the start", &["0", "65", "by lower bits", "any other"]),
        ("accepted, devices at the start", &["1", "2 to 63", "64"]),
        ("with one device, devices at the start", &["accepted", "1", "2", "3", "4", "5", "6", "7"]),
    ];
    for (row, columns) in rows {
        for column in columns {
            let complaint = format!("{row}, {column}: 0 of them, at least 1000 are asked for");
            assert!(complaints.contains(&complaint), "{complaint}");
        }
        let of_row = complaints.iter().filter(|text| text.starts_with(&format!("{row}, ")));
        assert_eq!(of_row.count(), columns.len(), "{row}");
    }
    for half in ["from a start", "damaged"] {
        for number in [0, 7, 8, 9, 13, 18, 19] {
            let complaint =
                format!("{half}, device write, {number}: 0 calls, at least 1000 are asked for");
            assert!(complaints.contains(&complaint), "{complaint}");
        }
    }
}

/// Each way into 9, 20, 21 and 22, each frame that an ask is accepted for, each kind of commit, and each entry that is synchronised while a
/// pair is pending, in both modes and from flat tables and trees.
#[test]
fn too_few_approvals_of_a_kind_are_noticed() {
    let complaints = Tally::default().complaints();
    let modes = ["kernel mode", "user mode"];
    let mut rows = vec![
        ("9, asks".to_string(), &["page", "wide page", "frame", "wide frame", "both"][..]),
        ("20, ask".to_string(), &["one pending", "page approved", "frame excluded", "several"]),
        ("20, commit".to_string(), &["page approved"]),
        ("21, asks".to_string(), &["asked page alone", "another alone", "several"]),
        ("accepted, asks".to_string(), &["not mapped", "read-only", "not present"]),
        ("22, commit".to_string(), &["words 0", "other words"]),
        ("22, drop".to_string(), &["words 0", "other words"]),
    ];
    for mode in modes {
        let aliases = &["no alias", "one alias", "several"];
        rows.push((format!("commits, {mode}"), aliases));
        rows.push((format!("commits, {mode}, started"), aliases));
        let found = &["absent", "with the frame", "with another", "approved entry"];
        rows.push((format!("asked page, {mode}"), found));
    }
    let synchronised = ["one, kernel mode", "one, user mode", "all, kernel mode", "all, user mode"];
    let from_trees = [
        "one from a tree, kernel",
        "one from a tree, user",
        "all from a tree, kernel",
        "all from a tree, user",
    ];
    for call in synchronised.into_iter().chain(from_trees) {
        let entries = &["asked page", "other page", "approved page", "alias", "ordinary"];
        rows.push((format!("while pending, {call}"), entries));
    }
    for (row, columns) in rows {
        for column in columns {
            let complaint = format!("{row}, {column}: 0 of them, at least 1000 are asked for");
            assert!(complaints.contains(&complaint), "{complaint}");
        }
    }
    let calls = [("ask", &[0, 9, 20, 21][..]), ("commit", &[0, 20, 22]), ("drop", &[0, 22])];
    for (call, numbers) in calls {
        for (half, numbers) in [("from a start", numbers), ("damaged", &[numbers, &[7]].concat())] {
            for number in numbers {
                let complaint =
                    format!("{half}, {call}, {number}: 0 calls, at least 1000 are asked for");
                assert!(complaints.contains(&complaint), "{complaint}");
            }
        }
    }
    for damage in ["pending word", "pending page", "pending frame"] {
        let of_damage = complaints.iter().filter(|text| text.starts_with(&format!("{damage}, ")));
        assert_eq!(of_damage.count(), 13, "every call but the record's and the walk, {damage}");
    }
}

/// Damage to what a call is not lent is counted, printed in place of its dash, and complained of.
#[test]
fn damage_that_cannot_be_is_a_complaint() {
    let of_damage = |tally: &Tally| {
        let mut printed = Vec::new();
        tally.print(&mut printed).unwrap();
        let printed = String::from_utf8(printed).unwrap();
        let row = |name| printed.lines().find(|line| line.starts_with(name)).unwrap().to_string();
        [row("length of a table"), row("length of the buffer")]
    };
    let mut tally = Tally::default();
    let [table, buffer] = of_damage(&tally);
    assert_eq!((table.matches('-').count(), buffer.matches('-').count()), (2, 14));
    tally.count_damaged(8, 0, Damage::Table).unwrap();
    tally.count_damaged(0, 0, Damage::Buffer).unwrap();
    let [table, buffer] = of_damage(&tally);
    assert_eq!((table.matches('-').count(), buffer.matches('-').count()), (1, 13));
    assert!(table.contains(" 1 "), "{table}");
    let complaints = tally.complaints();
    for cell in ["length of a table, write record", "length of the buffer, start"] {
        let complaint = format!("{cell}: 1 calls, which cannot be");
        assert!(complaints.contains(&complaint), "{complaint}");
    }
}

/// 16 is a number of writing a record alone, and no list has that call.
#[test]
fn a_list_that_writes_a_record_is_a_complaint() {
    let mut tally = Tally::default();
    for kind in 0..15 {
        tally.count_started(kind, 16).unwrap();
    }
    tally.count_started(8, 0).unwrap();
    let complaints = tally.complaints();
    let of_16 = complaints.iter().filter(|text| text.ends_with(", 16: 1 calls, which cannot be"));
    assert_eq!(of_16.count(), 15);
    let complaint = "from a start, write record, 0: 1 calls, which cannot be".to_string();
    assert!(complaints.contains(&complaint));
}

#[test]
fn both_sides_have_the_same_refusals() {
    let of_guard = guard::Refusal::ALL.map(|refusal| (refusal.number(), format!("{refusal:?}")));
    let of_reference =
        reference::Refusal::ALL.map(|refusal| (refusal.number(), format!("{refusal:?}")));
    assert_eq!(of_reference, of_guard);
}
