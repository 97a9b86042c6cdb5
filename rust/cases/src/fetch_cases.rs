// Fetch: "its frame, twice; that page is now running. Needs bit 63 clear and, in user mode, bit 2." Questions 9, 11 and 12.
use crate::calls::Answer;
use crate::calls::Answer::Done;
use crate::calls::Answer::Refused;
use crate::calls::Mode;
use crate::calls::Mode::Kernel;
use crate::calls::Mode::User;
use crate::guard;
use crate::tally::Tally;

// Fetches a page of four. Given: the mode, and the shadow entry of page 0. Wanted: the answer and the mode after it.
fn fetch(
    t: Tally,
    name: &str,
    given: Mode,
    entry: u64,
    page: u64,
    wanted: Answer,
    left: Mode,
) -> Tally {
    let shadow = [entry, 0x2401, 0, 0x8401];
    let called = crate::calls::fetch(guard::state_in(given), &shadow, page);
    let answer = called.answer;
    let state = called.state;
    let moved = state == guard::state_in(left);
    t.case("fetch", name, answer == wanted && moved)
}

fn in_kernel_mode(t: Tally) -> Tally {
    let t =
        fetch(t, "an approved page in kernel mode", Kernel(1), 0x5401, 0, Done(5, 5), Kernel(0));
    // Bit 2 is asked in user mode only, and nothing but bit 63 in kernel mode.
    let t = fetch(
        t,
        "bit 63 clear is enough in kernel mode",
        Kernel(1),
        0x3001,
        0,
        Done(3, 3),
        Kernel(0),
    );
    let t = fetch(
        t,
        "an ordinary page in kernel mode",
        Kernel(1),
        0x8000000000003007,
        0,
        Refused(12),
        Kernel(1),
    );
    let t = fetch(t, "an absent page", Kernel(1), 0, 0, Refused(11), Kernel(1));
    // Question 11 before 12.
    let t = fetch(
        t,
        "a damaged entry with bit 0 clear",
        Kernel(1),
        0x8000000000003406,
        0,
        Refused(11),
        Kernel(1),
    );
    // Question 13 is for "Write and device write only".
    let t = fetch(t, "a frame at F", Kernel(1), 0x9401, 0, Done(9, 9), Kernel(0));
    // "12 to 51 the frame"
    fetch(
        t,
        "the highest frame, with bits 52 to 62 set",
        Kernel(1),
        0x7ffffffffffff401,
        0,
        Done(1099511627775, 1099511627775),
        Kernel(0),
    )
}

fn in_user_mode(t: Tally) -> Tally {
    let t = fetch(t, "a user page in user mode", User(1), 0x3005, 0, Done(3, 3), User(0));
    // Bits 3 and 4 are not asked.
    let t = fetch(t, "a user page with bits 3 and 4", User(1), 0x301d, 0, Done(3, 3), User(0));
    let t =
        fetch(t, "a page of the kernel's in user mode", User(1), 0x3003, 0, Refused(12), User(1));
    let t = fetch(
        t,
        "a no-execute user page in user mode",
        User(1),
        0x8000000000003205,
        0,
        Refused(12),
        User(1),
    );
    let t = fetch(t, "an approved page in user mode", User(0), 0x3005, 1, Refused(12), User(0));
    let t = fetch(
        t,
        "a damaged approved entry with bit 2 in user mode",
        User(1),
        0x3405,
        0,
        Done(3, 3),
        User(0),
    );
    fetch(t, "an absent page in user mode", User(1), 0x3004, 0, Refused(11), User(1))
}

// Question 9: "page below V".
fn pages(t: Tally) -> Tally {
    let t = fetch(t, "the last page", Kernel(1), 0, 3, Done(8, 8), Kernel(3));
    let t = fetch(t, "the running page", Kernel(1), 0, 1, Done(2, 2), Kernel(1));
    let t = fetch(t, "page 4 of 4", Kernel(1), 0x2401, 4, Refused(9), Kernel(1));
    // No number is narrowed: 65537 is not page 1.
    let t = fetch(t, "page 65537 of 4", Kernel(1), 0x2401, 65537, Refused(9), Kernel(1));
    fetch(t, "the highest page number", User(1), 0x2401, 18446744073709551615, Refused(9), User(1))
}

// The last page of the largest table.
fn largest(t: Tally) -> Tally {
    let mut shadow = [0u64; 2048];
    shadow[2047] = 0xfff005;
    let s = guard::state(2048, 4096, 1, [0, 0, 0, 0], User(0));
    let called = crate::calls::fetch(s, &shadow, 2047);
    let answer = called.answer;
    let state = called.state;
    let left = guard::state(2048, 4096, 1, [0, 0, 0, 0], User(2047));
    let moved = state == left;
    t.case("fetch", "page 2047 of 2048", answer == Done(4095, 4095) && moved)
}

pub fn all(t: Tally) -> Tally {
    let t = in_kernel_mode(t);
    let t = in_user_mode(t);
    let t = pages(t);
    largest(t)
}
