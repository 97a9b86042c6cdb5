// Leave to a page: "it needs bit 2 set and bit 9 clear"; it switches to user mode, runs that page, and gives "the count of changed
// shadow entries and 0". Questions 9 to 12, and what the switch makes of each shadow entry.
use crate::calls::Answer;
use crate::calls::Answer::Done;
use crate::calls::Answer::Refused;
use crate::calls::Mode;
use crate::calls::Mode::Kernel;
use crate::calls::Mode::User;
use crate::guard;
use crate::tally::Tally;

// A mode and the shadow table that stands with it.
type Held = (Mode, [u64; 4]);

// Leaves to a page on a guard with these modes and shadow tables, given and wanted.
fn leave(
    t: Tally,
    name: &str,
    (given, mut table): Held,
    page: u64,
    wanted: Answer,
    (left, table_left): Held,
) -> Tally {
    let called = crate::calls::leave(guard::state_in(given), &mut table, page);
    let moved = called.state == guard::state_in(left);
    t.case("leave", name, called.answer == wanted && moved && table == table_left)
}

// An accepted leave to page 0: the count of changed entries and the table that is left.
fn left(t: Tally, name: &str, shadow: [u64; 4], changed: u64, shadow_left: [u64; 4]) -> Tally {
    leave(t, name, (Kernel(1), shadow), 0, Done(changed, 0), (User(0), shadow_left))
}

// A refused one: state and table stay.
fn refused(t: Tally, name: &str, mode: Mode, page: u64, shadow: [u64; 4], number: u64) -> Tally {
    leave(t, name, (mode, shadow), page, Refused(number), (mode, shadow))
}

// "it sets bit 63 of each present shadow entry by these rules, approved mark and bits 2 and 9 as found, other bits kept"
fn switches(t: Tally) -> Tally {
    let t = left(
        t,
        "to a user page",
        [0x8000000000003007, 0x2401, 0, 0x8401],
        3,
        [0x3007, 0x8000000000002401, 0, 0x8000000000008401],
    );
    let t = left(
        t,
        "pages of the kernel's and no-execute pages do not run",
        [0x8000000000003005, 0x2401, 0x8000000000005207, 0x8000000000006003],
        2,
        [0x3005, 0x8000000000002401, 0x8000000000005207, 0x8000000000006003],
    );
    // Bit 63 is set where it was clear against the rules.
    let t = left(
        t,
        "bit 63 that was clear is set",
        [0x3007, 0x8000000000002401, 0x5207, 0x6003],
        2,
        [0x3007, 0x8000000000002401, 0x8000000000005207, 0x8000000000006003],
    );
    let t = left(
        t,
        "damaged entries with bit 0 clear stay",
        [0x8000000000003007, 0x2400, 0x8000000000005006, 0xfffffffffffffffe],
        1,
        [0x3007, 0x2400, 0x8000000000005006, 0xfffffffffffffffe],
    );
    // "Approved entry: [..] bit 63 set in user mode only", whatever bits 2 and 9 are; page 0 too.
    let t = left(
        t,
        "damaged approved entries with bits 2 and 9",
        [0x3407, 0x2605, 0x3601, 0x8000000000003405],
        3,
        [0x8000000000003407, 0x8000000000002605, 0x8000000000003601, 0x8000000000003405],
    );
    // "other bits kept": bits 3 to 8, 11 and 52 to 62 are set too.
    left(
        t,
        "other bits are kept",
        [0xfffffffffffff9ff, 0x7fffffffffffffff, 0x7ffffffffffffbff, 0x7ffffffffffff9fb],
        4,
        [0x7ffffffffffff9ff, 0xffffffffffffffff, 0xfffffffffffffbff, 0xfffffffffffff9fb],
    )
}

// K3: "other bits kept" holds of write-through and cache disable, bits 3 and 4, too. Page 0 has them, and may be left to.
fn cache_bits(t: Tally) -> Tally {
    let t = left(
        t,
        "bits 3 and 4 of user pages are kept",
        [0x800000000000301f, 0x2401, 0x800000000000500d, 0x8000000000006017],
        4,
        [0x301f, 0x8000000000002401, 0x500d, 0x6017],
    );
    let t = left(
        t,
        "bits 3 and 4 of pages that do not run are kept",
        [0x800000000000300d, 0x2401, 0x800000000000501b, 0x8000000000006217],
        2,
        [0x300d, 0x8000000000002401, 0x800000000000501b, 0x8000000000006217],
    );
    let t = left(
        t,
        "bits 3 and 4 of damaged approved entries are kept",
        [0x8000000000003015, 0x2419, 0x5409, 0x8000000000008411],
        3,
        [0x3015, 0x8000000000002419, 0x8000000000005409, 0x8000000000008411],
    );
    left(
        t,
        "damaged entries with bits 3 and 4 and bit 0 clear stay",
        [0x800000000000301f, 0x2418, 0x800000000000501e, 0x18],
        1,
        [0x301f, 0x2418, 0x800000000000501e, 0x18],
    )
}

// "9. [..] page below V", before 10.
fn question_9(t: Tally) -> Tally {
    let kernel = [0x8000000000003007, 0x2401, 0, 0x8000000000005007];
    let t = leave(
        t,
        "to the last page",
        (Kernel(1), kernel),
        3,
        Done(3, 0),
        (User(3), [0x3007, 0x8000000000002401, 0, 0x5007]),
    );
    let t = refused(t, "page 4 of 4", Kernel(1), 4, kernel, 9);
    // No number is narrowed: 65536 is not page 0.
    let t = refused(t, "page 65536 of 4", Kernel(1), 65536, kernel, 9);
    let t = refused(t, "the highest page number", Kernel(1), 18446744073709551615, kernel, 9);
    refused(t, "page 4 of 4 in user mode", User(0), 4, kernel, 9)
}

// "10. Does the mode suit: [..] kernel to leave", before 11; 11 before 12.
fn questions_10_to_12(t: Tally) -> Tally {
    let t = refused(t, "from user mode", User(3), 0, [0x3007, 0x8000000000002401, 0, 0x5007], 10);
    let t = refused(
        t,
        "from user mode to an absent page",
        User(0),
        2,
        [0x3007, 0x8000000000002401, 0, 0],
        10,
    );
    let t = refused(t, "an absent page", Kernel(1), 2, [0x8000000000003007, 0x2401, 0, 0x8401], 11);
    let t = refused(
        t,
        "a damaged entry with bit 0 clear",
        Kernel(1),
        0,
        [0x8000000000003006, 0x2401, 0, 0x8401],
        11,
    );
    let t = refused(
        t,
        "a page of the kernel's",
        Kernel(1),
        0,
        [0x8000000000003003, 0x2401, 0, 0x8401],
        12,
    );
    let t = refused(
        t,
        "a no-execute user page",
        Kernel(1),
        0,
        [0x8000000000003207, 0x2401, 0, 0x8401],
        12,
    );
    refused(t, "an approved page", Kernel(1), 3, [0x8000000000003007, 0x2401, 0, 0x8401], 12)
}

// All of 2,048 shadow entries change.
fn largest(t: Tally) -> Tally {
    let mut shadow = [0x8000000000fff007; 2048];
    let given = guard::state(2048, 4096, 1, [0, 0, 0, 0], Kernel(0));
    let called = crate::calls::leave(given, &mut shadow, 2047);
    let answer = called.answer;
    let state = called.state;
    let entries = shadow == [0xfff007; 2048];
    let moved = state == guard::state(2048, 4096, 1, [0, 0, 0, 0], User(2047));
    t.case("leave", "2048 entries change", answer == Done(2048, 0) && moved && entries)
}

pub fn all(t: Tally) -> Tally {
    let t = switches(t);
    let t = cache_bits(t);
    let t = question_9(t);
    let t = questions_10_to_12(t);
    largest(t)
}
