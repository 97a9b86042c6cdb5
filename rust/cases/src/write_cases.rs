// Write: "first and last frame. Every touched page needs bit 1 and, in user mode, bit 2." Questions 8, 9, 11, 12 and 13.
// A write changes nothing: it is lent its tables to read, and gives no state.
use crate::calls::Answer;
use crate::calls::Answer::Done;
use crate::calls::Answer::Refused;
use crate::calls::Mode;
use crate::calls::Mode::Kernel;
use crate::calls::Mode::User;
use crate::guard;
use crate::tally::Tally;

// Given: the mode, and the shadow entries of pages 0 and 1. Frames 2 and 8 of nine are excluded.
fn write(
    t: Tally,
    name: &str,
    mode: Mode,
    first: [u64; 2],
    address: u64,
    length: u64,
    wanted: Answer,
) -> Tally {
    let shadow = [first[0], first[1], 0x8000000000006003, 0x8401];
    let answer =
        crate::calls::write(guard::state_in(mode), &shadow, &[0x04, 0x01], address, length);
    t.case("write", name, answer == wanted)
}

fn allowed(t: Tally) -> Tally {
    let t = write(
        t,
        "16 bytes up to the end of a page",
        Kernel(1),
        [0x8000000000003003, 0],
        4080,
        16,
        Done(3, 3),
    );
    let t = write(
        t,
        "2 bytes across two pages",
        Kernel(1),
        [0x8000000000003003, 0x8000000000005003],
        4095,
        2,
        Done(3, 5),
    );
    let t = write(
        t,
        "16 bytes across two pages",
        Kernel(1),
        [0x8000000000003003, 0x8000000000005003],
        4081,
        16,
        Done(3, 5),
    );
    let t = write(
        t,
        "two pages with one frame",
        Kernel(1),
        [0x8000000000003003, 0x8000000000003003],
        4090,
        16,
        Done(3, 3),
    );
    let t = write(
        t,
        "the first byte of the second page",
        Kernel(1),
        [0, 0x8000000000005003],
        4096,
        1,
        Done(5, 5),
    );
    // Bit 63 is not asked.
    let t = write(
        t,
        "two user pages in user mode",
        User(1),
        [0x3007, 0x8000000000007207],
        4088,
        16,
        Done(3, 7),
    );
    // Nor are bits 3 and 4.
    let t = write(
        t,
        "two pages with bits 3 and 4",
        Kernel(1),
        [0x800000000000300b, 0x8000000000005013],
        4088,
        16,
        Done(3, 5),
    );
    write(t, "the last byte of page 2", Kernel(1), [0, 0], 12287, 1, Done(6, 6))
}

// "8. Is the length within its range?" before 9.
fn question_8(t: Tally) -> Tally {
    let t = write(t, "no bytes beyond the last page", Kernel(1), [0, 0], 16384, 0, Refused(8));
    let t = write(t, "17 bytes beyond the last page", Kernel(1), [0, 0], 16384, 17, Refused(8));
    let t = write(
        t,
        "17 bytes at the highest address",
        Kernel(1),
        [0, 0],
        18446744073709551615,
        17,
        Refused(8),
    );
    write(
        t,
        "the highest length",
        Kernel(1),
        [0x8000000000003003, 0x8000000000005003],
        0,
        18446744073709551615,
        Refused(8),
    )
}

// "9. [..] last byte's page below V", before 11. "Sums of address and length are exact; nothing wraps."
fn question_9(t: Tally) -> Tally {
    let t = write(
        t,
        "1 byte beyond the last page",
        Kernel(1),
        [0x8000000000003003, 0],
        16384,
        1,
        Refused(9),
    );
    let t = write(
        t,
        "2 bytes from the last byte on",
        Kernel(1),
        [0x8000000000003003, 0],
        16383,
        2,
        Refused(9),
    );
    let t = write(
        t,
        "1 byte at the highest address",
        Kernel(1),
        [0x8000000000003003, 0],
        18446744073709551615,
        1,
        Refused(9),
    );
    let t = write(
        t,
        "2 bytes at the highest address do not wrap to page 0",
        Kernel(1),
        [0x8000000000003003, 0],
        18446744073709551615,
        2,
        Refused(9),
    );
    let t = write(
        t,
        "16 bytes up to the highest address",
        Kernel(1),
        [0x8000000000003003, 0],
        18446744073709551600,
        16,
        Refused(9),
    );
    // Page 65536 is not page 0.
    write(t, "1 byte in page 65536", Kernel(1), [0x8000000000003003, 0], 268435456, 1, Refused(9))
}

// "11. Is every touched shadow entry present", before 12 of any page.
fn question_11(t: Tally) -> Tally {
    let t = write(t, "an absent page", Kernel(1), [0, 0x8000000000005003], 4095, 1, Refused(11));
    let t =
        write(t, "an absent first page", Kernel(1), [0, 0x8000000000005003], 4095, 2, Refused(11));
    let t =
        write(t, "an absent second page", Kernel(1), [0x8000000000003003, 0], 4095, 2, Refused(11));
    let t = write(
        t,
        "a read-only first page and an absent second",
        Kernel(1),
        [0x8000000000003001, 0],
        4095,
        2,
        Refused(11),
    );
    let t = write(
        t,
        "an excluded first page and an absent second",
        Kernel(1),
        [0x2003, 0],
        4095,
        2,
        Refused(11),
    );
    write(t, "a damaged entry with bit 0 clear", User(1), [0x3006, 0], 0, 1, Refused(11))
}

// "12. Does each permit it?", before 13 of any page.
fn question_12(t: Tally) -> Tally {
    let t = write(t, "a read-only page", Kernel(1), [0x8000000000003001, 0], 0, 1, Refused(12));
    let t = write(
        t,
        "a read-only first page",
        Kernel(1),
        [0x8000000000003005, 0x8000000000005003],
        4095,
        2,
        Refused(12),
    );
    let t = write(
        t,
        "a read-only second page",
        Kernel(1),
        [0x8000000000003003, 0x8000000000005005],
        4095,
        2,
        Refused(12),
    );
    let t = write(
        t,
        "an approved second page",
        Kernel(1),
        [0x8000000000003003, 0x2401],
        4095,
        2,
        Refused(12),
    );
    let t = write(
        t,
        "a page of the kernel's in user mode",
        User(1),
        [0x8000000000003003, 0],
        0,
        16,
        Refused(12),
    );
    let t = write(
        t,
        "a second page of the kernel's in user mode",
        User(1),
        [0x3007, 0x8000000000005003],
        4081,
        16,
        Refused(12),
    );
    let t = write(
        t,
        "an excluded first page and a read-only second",
        Kernel(1),
        [0x2003, 0x5001],
        4095,
        2,
        Refused(12),
    );
    write(t, "the last byte of the last page", Kernel(1), [0, 0], 16383, 1, Refused(12))
}

// "13. [..] are all touched frames free of exclusion, one at or above F counting as excluded?" Only damaged tables have such entries.
fn question_13(t: Tally) -> Tally {
    let t = write(
        t,
        "a writable page with an excluded frame",
        Kernel(1),
        [0x2003, 0],
        0,
        1,
        Refused(13),
    );
    let t = write(
        t,
        "a writable second page with an excluded frame",
        Kernel(1),
        [0x8000000000003003, 0x8003],
        4095,
        2,
        Refused(13),
    );
    let t = write(
        t,
        "a writable first page with an excluded frame",
        User(1),
        [0x8007, 0x5007],
        4095,
        2,
        Refused(13),
    );
    let t = write(t, "a writable page with frame F", Kernel(1), [0x9003, 0], 0, 1, Refused(13));
    let t = write(
        t,
        "a writable second page with frame F",
        User(1),
        [0x3007, 0x9007],
        4095,
        2,
        Refused(13),
    );
    // Frame 16 is past the vector's end, and frame 65536 is not frame 0.
    let t = write(
        t,
        "a writable page with a frame past the vector",
        Kernel(1),
        [0x10003, 0],
        0,
        1,
        Refused(13),
    );
    let t =
        write(t, "a writable page with frame 65536", Kernel(1), [0x10000003, 0], 0, 1, Refused(13));
    write(
        t,
        "a writable page with the highest frame",
        Kernel(1),
        [0xffffffffff003, 0],
        0,
        1,
        Refused(13),
    )
}

// The last page of the largest table, with all other frames excluded.
fn largest(t: Tally) -> Tally {
    let mut shadow = [0u64; 2048];
    shadow[2047] = 0x8000000000fff003;
    let mut exclusion = [0xffu8; 512];
    exclusion[511] = 0x7f;
    let s = guard::state(2048, 4096, 1, [0, 0, 0, 0], Kernel(0));
    let answer = crate::calls::write(s, &shadow, &exclusion, 8388592, 16);
    t.case("write", "the last 16 bytes of 2048 pages", answer == Done(4095, 4095))
}

pub fn all(t: Tally) -> Tally {
    let t = allowed(t);
    let t = question_8(t);
    let t = question_9(t);
    let t = question_11(t);
    let t = question_12(t);
    let t = question_13(t);
    largest(t)
}
