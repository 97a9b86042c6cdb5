// Commit (K6): "approves the asked page with its frame, in map and shadow, and so every unapproved page whose present shadow entry has that
// frame"; it gives "the changed shadow entries and the joined pages, the asked one included", and clears the pair. Questions 7, 20 and
// 22; 7 is in question_7_cases and state_run_cases. Page 2 is pending with frame 5, where nothing else is said.
use crate::calls::Answer::Done;
use crate::drivers::case;
use crate::drivers::commit;
use crate::drivers::in_user_mode;
use crate::drivers::started;
use crate::drivers::Guard;
use crate::drivers::NO_EXECUTE;
use crate::guard;
use crate::tally::Tally;

// Both modes, with the approved entry of frame 5 in each.
fn modes() -> [(&'static str, Guard, u64); 2] {
    let pending = |guard: Guard| guard.pair([1, 2, 5]).excluding([0x24, 0x01]);
    [
        ("kernel mode", pending(started()), 0x5401),
        ("user mode", pending(in_user_mode()), 0x8000000000005401),
    ]
}

fn accepted(t: Tally, name: &str, given: Guard, counts: [u64; 2], left: Guard) -> Tally {
    let [changed, joined] = counts;
    case(t, "commit", name, given, commit, Done(changed, joined), left)
}

fn refused(t: Tally, name: &str, given: Guard, number: u64) -> Tally {
    crate::drivers::refused(t, "commit", name, given, commit, number)
}

// The asked page alone, by its entry before; it is approved "even where its shadow entry was 0".
fn asked_page(t: Tally) -> Tally {
    let mut t = t;
    for (mode, guard, approved) in modes() {
        let left = guard.pair([0, 0, 0]).entry(2, approved).number(2, 5);
        for (name, entry) in [
            ("absent", 0),
            ("with the frame", NO_EXECUTE | 0x5205),
            ("with the frame, as before the ask", 0x5005),
            ("with another frame", NO_EXECUTE | 0x4007),
            ("with a frame of the policy", 0x2001),
            ("with all bits but bit 0", 0xfffffffffffffffe),
            ("with all bits", 0xffffffffffffffff),
            ("approved as in the other mode", approved ^ NO_EXECUTE),
        ] {
            let name = format!("the asked page {name}, {mode}");
            t = accepted(t, &name, guard.entry(2, entry), [1, 1], left);
        }
        // The entry is what it gets: no change, and it joins.
        let name = format!("the asked page with its approved entry, {mode}");
        t = accepted(t, &name, guard.entry(2, approved), [0, 1], left);
    }
    t
}

fn aliases(t: Tally) -> Tally {
    let mut t = t;
    for (mode, guard, approved) in modes() {
        let left = guard.pair([0, 0, 0]).entry(2, approved).number(2, 5);
        for (name, entry) in [
            ("as synchronised while pending", NO_EXECUTE | 0x5205),
            ("as before the ask", 0x5001),
            ("with all other bits", 0xfff0000000005fff),
        ] {
            let given = guard.entry(4, entry);
            let left = left.entry(4, approved).number(4, 5);
            t = accepted(t, &format!("an alias {name}, {mode}"), given, [2, 2], left);
        }
        let several = guard.entry(0, 0x5005).entry(2, 0x5001).entry(4, NO_EXECUTE | 0x5201);
        let several = several.entry(7, NO_EXECUTE | 0x521d);
        let approved_all = [0, 4, 7]
            .into_iter()
            .fold(left, |left, page| left.entry(page, approved).number(page, 5));
        t = accepted(t, &format!("three aliases, {mode}"), several, [4, 4], approved_all);
        // An alias whose entry is what it gets joins and is no change.
        let name = format!("an alias with its approved entry, {mode}");
        let given = several.entry(4, approved);
        t = accepted(t, &name, given, [3, 4], approved_all);
        let absent = several.entry(2, 0);
        let name = format!("three aliases and the asked page absent, {mode}");
        t = accepted(t, &name, absent, [4, 4], approved_all);
    }
    t
}

// The pages that are no aliases: entries that are not present, other frames, and pages with a number in the map.
fn others(t: Tally) -> Tally {
    let mut t = t;
    for (mode, guard, approved) in modes() {
        let left = guard.pair([0, 0, 0]).entry(2, approved).number(2, 5);
        for (name, entry) in [
            ("an entry that is not present", 0x5004),
            ("an entry with all bits but bit 0", 0xfff0000000005ffe),
            ("the frame below", 0x4005),
            ("the frame above", 0x6005),
            ("a frame with the same lower bits", 0x0000000010005001),
            ("a frame with the same lower 39 bits", 0x0008000000005001),
        ] {
            let name = format!("{name} stays, {mode}");
            t = accepted(t, &name, guard.entry(4, entry), [1, 1], left.entry(4, entry));
        }
        for number in [0, 2, 5, 8, 65534] {
            let name = format!("a page with number {number} in the map stays, {mode}");
            let has = |guard: Guard| guard.entry(4, 0x5001).number(4, number);
            t = accepted(t, &name, has(guard), [1, 1], has(left));
        }
        let name = format!("an approved page of the policy with the frame stays, {mode}");
        t = accepted(t, &name, guard.entry(1, 0x5001), [1, 1], left.entry(1, 0x5001));
    }
    t
}

// Frame 0: absent pages have entry 0, and no frame.
fn frame_0(t: Tally) -> Tally {
    let given = started().pair([1, 6, 0]).excluding([0x05, 0x01]);
    let left = given.pair([0, 0, 0]).entry(6, 0x401).number(6, 0);
    let t = accepted(t, "frame 0, every other page absent", given, [1, 1], left);
    let t = accepted(
        t,
        "frame 0 and an alias",
        given.entry(7, 0x205),
        [2, 2],
        left.entry(7, 0x401).number(7, 0),
    );
    // The last frame, page 0: a made-up pair, since the policy excludes it.
    let given = started().pair([1, 0, 8]);
    let left = given.pair([0, 0, 0]).entry(0, 0x8401).number(0, 8);
    accepted(t, "page 0 and the last frame", given, [1, 1], left)
}

// "with 20 [..] a commit whose page has an approval". The number may be any but 65535, the pending one included.
fn question_20(t: Tally) -> Tally {
    let mut t = t;
    for (mode, guard, _) in modes() {
        for number in [0, 2, 5, 8, 60000, 65534] {
            let name = format!("the asked page has number {number}, {mode}");
            t = refused(t, &name, guard.number(2, number), 20);
        }
        let given = guard.number(2, 2).entry(2, guard.approved(2)).entry(4, 0x5001);
        t = refused(t, &format!("the asked page has joined, {mode}"), given, 20);
    }
    t
}

// "with 22 a commit or drop with nothing pending": the words of a pair are not read then, and stay.
fn question_22(t: Tally) -> Tally {
    let mut t = t;
    for guard in [started(), in_user_mode()] {
        for (name, pair) in [
            ("nothing pending", [0, 0, 0]),
            ("a pair that is not pending", [0, 2, 5]),
            ("a pair of an approved page that is not pending", [0, 1, 5]),
            ("words out of range that are not read", [0, 8, 9]),
            ("wide words that are not read", [0, 18446744073709551615, 65536]),
        ] {
            let mode = if guard.run[19] == 0 { "kernel mode" } else { "user mode" };
            t = refused(t, &format!("{name}, {mode}"), guard.pair(pair).entry(4, 0x5001), 22);
        }
    }
    t
}

// The smallest and the largest tables.
fn sizes(t: Tally) -> Tally {
    let s = guard::state(1, 1, 1, [0, 0, 0, 0], crate::calls::Mode::Kernel(0));
    let (mut shadow, mut map) = ([0], [65535]);
    let pending = crate::calls::State { pending: [1, 0, 0], ..s };
    let called = crate::calls::commit(pending, &mut shadow, &mut map);
    let tables = shadow == [0x401] && map == [0];
    let right = called.answer == Done(1, 1) && called.state == s && tables;
    let t = t.case("commit", "the only page and the only frame", right);
    let s = guard::state(2048, 4096, 1, [0, 0, 0, 0], crate::calls::Mode::User(2047));
    let (mut shadow, mut map) = ([0xfff005; 2048], [65535; 2048]);
    shadow[2047] = 0;
    let pending = crate::calls::State { pending: [1, 2047, 4095], ..s };
    let called = crate::calls::commit(pending, &mut shadow, &mut map);
    let tables = shadow == [0x8000000000fff401; 2048] && map == [4095; 2048];
    let right = called.answer == Done(2048, 2048) && called.state == s && tables;
    t.case("commit", "2048 pages join", right)
}

pub fn all(t: Tally) -> Tally {
    let t = asked_page(t);
    let t = aliases(t);
    let t = others(t);
    let t = frame_0(t);
    let t = question_20(t);
    let t = question_22(t);
    sizes(t)
}
