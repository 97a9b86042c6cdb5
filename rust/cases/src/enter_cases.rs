// Enter by entry index: "the page needs bit 10"; it switches to kernel mode, runs that page, and gives "the count of changed shadow
// entries and 0". Questions 9 to 12, and what the switch makes of each shadow entry.
use crate::calls::Answer;
use crate::calls::Answer::Done;
use crate::calls::Answer::Refused;
use crate::calls::Mode;
use crate::calls::Mode::Kernel;
use crate::calls::Mode::User;
use crate::calls::State;
use crate::guard;
use crate::tally::Tally;

// A state and its shadow table.
type Held = (State, [u64; 4]);

// Enters by an index on a guard with these states and shadow tables, given and wanted.
fn enter_on(
    t: Tally,
    name: &str,
    (given, mut table): Held,
    index: u64,
    wanted: Answer,
    left: Held,
) -> Tally {
    let called = crate::calls::enter(given, &mut table, index);
    t.case("enter", name, called.answer == wanted && (called.state, table) == left)
}

// An accepted enter of entry page 1 from user mode on page 0: the count of changed entries and the table that is left.
fn entered(t: Tally, name: &str, shadow: [u64; 4], changed: u64, shadow_left: [u64; 4]) -> Tally {
    let given = (guard::state_in(User(0)), shadow);
    let left = (guard::state_in(Kernel(1)), shadow_left);
    enter_on(t, name, given, 0, Done(changed, 0), left)
}

// A refused one: state and table stay.
fn refused(t: Tally, name: &str, mode: Mode, index: u64, shadow: [u64; 4], number: u64) -> Tally {
    let stays = (guard::state_in(mode), shadow);
    enter_on(t, name, stays, index, Refused(number), stays)
}

// "it sets bit 63 of each present shadow entry by these rules, approved mark and bits 2 and 9 as found, other bits kept"
fn switches(t: Tally) -> Tally {
    let t = entered(
        t,
        "from a user page",
        [0x3007, 0x8000000000002401, 0, 0x8000000000008401],
        3,
        [0x8000000000003007, 0x2401, 0, 0x8401],
    );
    let t = entered(
        t,
        "entries that stay are not counted",
        [0x8000000000003003, 0x8000000000002401, 0x8000000000005207, 0x8401],
        1,
        [0x8000000000003003, 0x2401, 0x8000000000005207, 0x8401],
    );
    let t = entered(
        t,
        "nothing changes",
        [0, 0x2401, 0x8000000000003001, 0],
        0,
        [0, 0x2401, 0x8000000000003001, 0],
    );
    // "each present shadow entry": damaged ones with bit 0 clear stay as they are.
    let t = entered(
        t,
        "damaged entries with bit 0 clear stay",
        [0x3006, 0x8000000000002401, 0x8000000000005406, 0xfffffffffffffffe],
        1,
        [0x3006, 0x2401, 0x8000000000005406, 0xfffffffffffffffe],
    );
    // "Approved entry: [..] bit 63 set in user mode only", whatever bits 2 and 9 are.
    let t = entered(
        t,
        "damaged approved entries with bits 2 and 9",
        [0x8000000000003605, 0x8000000000002605, 0x3601, 0x8000000000003407],
        3,
        [0x3605, 0x2605, 0x3601, 0x3407],
    );
    // "other bits kept": bits 3 to 8, 11 and 52 to 62 are set too.
    entered(
        t,
        "other bits are kept",
        [0x7ffffffffffff9ff, 0xffffffffffffffff, 0x7ffffffffffffbfb, 0xfffffffffffff9f9],
        3,
        [0xfffffffffffff9ff, 0x7fffffffffffffff, 0xfffffffffffffbfb, 0xfffffffffffff9f9],
    )
}

// K3: "other bits kept" holds of write-through and cache disable, bits 3 and 4, too.
fn cache_bits(t: Tally) -> Tally {
    let t = entered(
        t,
        "bits 3 and 4 of ordinary entries are kept",
        [0x301f, 0x8000000000002401, 0x500d, 0x6017],
        4,
        [0x800000000000301f, 0x2401, 0x800000000000500d, 0x8000000000006017],
    );
    let t = entered(
        t,
        "bits 3 and 4 of ordinary entries that stay are kept",
        [0x800000000000301b, 0x8000000000002401, 0x8000000000005209, 0x8000000000006213],
        1,
        [0x800000000000301b, 0x2401, 0x8000000000005209, 0x8000000000006213],
    );
    let t = entered(
        t,
        "bits 3 and 4 of damaged approved entries are kept",
        [0x8000000000003409, 0x8000000000002419, 0x8000000000005411, 0x8419],
        3,
        [0x3409, 0x2419, 0x5411, 0x8419],
    );
    entered(
        t,
        "damaged entries with bits 3 and 4 and bit 0 clear stay",
        [0x301e, 0x8000000000002401, 0x800000000000541a, 0x18],
        1,
        [0x301e, 0x2401, 0x800000000000541a, 0x18],
    )
}

// "9. [..] entry index below e with its page below V", before 10.
fn question_9(t: Tally) -> Tally {
    let user = [0x3007, 0x8000000000002401, 0, 0x8000000000008401];
    let t = enter_on(
        t,
        "the last entry index",
        (guard::state_in(User(0)), user),
        1,
        Done(3, 0),
        (guard::state_in(Kernel(3)), [0x8000000000003007, 0x2401, 0, 0x8401]),
    );
    let t = refused(t, "index 2 of 2", User(0), 2, user, 9);
    let t = refused(t, "index 16", User(0), 16, user, 9);
    // No number is narrowed: 65536 is not index 0.
    let t = refused(t, "index 65536", User(0), 65536, user, 9);
    let t = refused(t, "the highest index", User(0), 18446744073709551615, user, 9);
    let t = refused(t, "index 2 of 2 in kernel mode", Kernel(1), 2, user, 9);
    let damaged = (guard::state(4, 9, 2, [4, 65535, 0, 0], User(0)), user);
    let t = enter_on(t, "an entry page at V", damaged, 0, Refused(9), damaged);
    enter_on(t, "an entry page far above V", damaged, 1, Refused(9), damaged)
}

// The last of sixteen entry pages; an index from e on is refused though its page is approved.
fn sixteen(t: Tally) -> Tally {
    let user = [0, 0, 0, 0x8000000000008401];
    let entry_pages = [0, 0, 0, 0, 0, 0, 0, 0, 0, 0, 0, 0, 0, 0, 0, 3];
    let given = State { entry_count: 16, entry_pages, ..guard::state_in(User(0)) };
    let left = State { entry_count: 16, entry_pages, ..guard::state_in(Kernel(3)) };
    let fewer = State { entry_count: 15, entry_pages, ..guard::state_in(User(0)) };
    let t = enter_on(
        t,
        "the last of sixteen indices",
        (given, user),
        15,
        Done(1, 0),
        (left, [0, 0, 0, 0x8401]),
    );
    enter_on(t, "index 15 of 15", (fewer, user), 15, Refused(9), (fewer, user))
}

// "10. Does the mode suit: user to enter", before 11. "11. [..] enter and leave touch the page they go to", before 12.
fn questions_10_to_12(t: Tally) -> Tally {
    let t =
        refused(t, "from kernel mode", Kernel(1), 0, [0x8000000000003007, 0x2401, 0, 0x8401], 10);
    let t = refused(t, "from kernel mode to an absent page", Kernel(1), 0, [0, 0, 0, 0], 10);
    let t = refused(t, "an absent page", User(0), 0, [0x3007, 0, 0, 0x8000000000008401], 11);
    let t = refused(
        t,
        "a damaged approved entry with bit 0 clear",
        User(0),
        0,
        [0x3007, 0x2400, 0, 0x8000000000008401],
        11,
    );
    // Only a damaged table has a listed page without the mark.
    let t = refused(
        t,
        "a page without the approved mark",
        User(0),
        0,
        [0x3007, 0x2001, 0, 0x8000000000008401],
        12,
    );
    refused(
        t,
        "a page with every bit but the approved mark",
        User(0),
        1,
        [0x3007, 0x2401, 0, 0xfffffffffffffbff],
        12,
    )
}

// All of 2,048 shadow entries change.
fn largest(t: Tally) -> Tally {
    let mut shadow = [0x8000000000fff401; 2048];
    let given = guard::state(2048, 4096, 1, [2047, 0, 0, 0], User(0));
    let called = crate::calls::enter(given, &mut shadow, 0);
    let answer = called.answer;
    let state = called.state;
    let entries = shadow == [0xfff401; 2048];
    let left = guard::state(2048, 4096, 1, [2047, 0, 0, 0], Kernel(2047));
    let moved = state == left;
    t.case("enter", "2048 entries change", answer == Done(2048, 0) && moved && entries)
}

pub fn all(t: Tally) -> Tally {
    let t = switches(t);
    let t = cache_bits(t);
    let t = question_9(t);
    let t = sixteen(t);
    let t = questions_10_to_12(t);
    largest(t)
}
