// Synchronise one page: steps 1 to 5 of "Synchronising one page" in both modes, its counts, and questions 7 and 9.
use crate::calls::Answer;
use crate::calls::Answer::Done;
use crate::calls::Answer::Refused;
use crate::calls::Mode;
use crate::calls::Mode::Kernel;
use crate::calls::Mode::User;
use crate::guard;
use crate::tally::Tally;

fn number(x: u64) -> u16 {
    (x % 65536) as u16
}

// Synchronises page 0. Given: its kernel entry, its shadow entry and its number in the map. Wanted: the changed and
// joined counts, the shadow entry and the number in the map. Every other place has to stay as it is, though its kernel
// entry would change it.
fn page_0(t: Tally, name: &str, mode: Mode, given: [u64; 3], wanted: [u64; 4]) -> Tally {
    let kernel = [given[0], 0, 0x5007, 0x6007];
    let mut shadow = [given[1], 0x2401, 0x7001, 0];
    let mut map = [number(given[2]), 2, 65535, 8];
    let answer = crate::calls::sync_page(
        guard::state_in(mode),
        &kernel,
        &mut shadow,
        &mut map,
        &[0x04, 0x01],
        0,
    );
    let entries = shadow == [wanted[2], 0x2401, 0x7001, 0];
    let numbers = map == [number(wanted[3]), 2, 65535, 8];
    let counts = answer == Done(wanted[0], wanted[1]);
    t.case("sync_page", name, counts && entries && numbers)
}

// "1. Kernel entry absent: shadow 0; map unchanged."
fn step_1(t: Tally) -> Tally {
    let t = page_0(
        t,
        "an absent entry clears the shadow",
        Kernel(1),
        [0x3006, 0x8000000000003003, 65535],
        [1, 0, 0, 65535],
    );
    let t = page_0(
        t,
        "an absent entry over 0 changes nothing",
        Kernel(1),
        [0, 0, 65535],
        [0, 0, 0, 65535],
    );
    let t = page_0(
        t,
        "an absent entry keeps the approval",
        Kernel(1),
        [0x2002, 0x2401, 2],
        [1, 0, 0, 2],
    );
    let t = page_0(
        t,
        "an absent entry with an excluded frame does not join",
        Kernel(1),
        [0x2002, 0, 65535],
        [0, 0, 0, 65535],
    );
    // "Kernel entry: bit 0 present": every other bit is set.
    let t = page_0(
        t,
        "an entry with all bits but bit 0 is absent",
        Kernel(1),
        [0xfffffffffffffffe, 0x2401, 2],
        [1, 0, 0, 2],
    );
    page_0(
        t,
        "an absent entry clears the shadow in user mode",
        User(1),
        [0x3006, 0x3007, 65535],
        [1, 0, 0, 65535],
    )
}

// K1: "A kernel entry with any of those bits set is now absent, on approved pages too." Those are bits 52 to 62, each alone and all.
// An ordinary page, an alias of frame 2, a page approved for frame 2: each has entry 0 then, and its number in the map.
fn reserved(t: Tally) -> Tally {
    let mut t = t;
    let each = (52..=62).map(|bit| (format!("bit {bit}"), 1 << bit));
    let all = ("bits 52 to 62".to_string(), 0x7ff0000000000000);
    for (bits, set) in each.chain([all]) {
        for (words, mode) in [("kernel", Kernel(1)), ("user", User(1))] {
            t = page_0(
                t,
                &format!("an ordinary page with {bits} is absent in {words} mode"),
                mode,
                [set | 0x3007, 0x8000000000003007, 65535],
                [1, 0, 0, 65535],
            );
            t = page_0(
                t,
                &format!("an alias with {bits} does not join in {words} mode"),
                mode,
                [set | 0x2007, 0, 65535],
                [0, 0, 0, 65535],
            );
            t = page_0(
                t,
                &format!(
                    "an approved page with {bits} is absent in {words} mode and stays approved"
                ),
                mode,
                [set | 0x2003, 0x2401, 2],
                [1, 0, 0, 2],
            );
        }
    }
    t
}

// K1: bits 51 and 63, on either side of 52 to 62, make no entry absent.
fn not_reserved(t: Tally) -> Tally {
    let t = page_0(
        t,
        "an approved page with bit 51 is mapped",
        Kernel(1),
        [0x0008000000002003, 0, 2],
        [1, 0, 0x2401, 2],
    );
    let t = page_0(
        t,
        "an approved page with bit 63 is mapped",
        User(1),
        [0x8000000000002003, 0, 2],
        [1, 0, 0x8000000000002401, 2],
    );
    let t = page_0(
        t,
        "an alias with bit 63 joins",
        Kernel(1),
        [0x8000000000002003, 0, 65535],
        [1, 1, 0x2401, 2],
    );
    page_0(
        t,
        "bit 63 with bit 62 is absent",
        User(1),
        [0xc000000000003007, 0x3007, 65535],
        [1, 0, 0, 65535],
    )
}

// "2. Else the map has a frame for this page: an approved entry with the map's frame, not the kernel's."
// "Approved entry: bits 0 and 10, the frame; bit 63 set in user mode only."
fn step_2(t: Tally) -> Tally {
    let t =
        page_0(t, "an approved page keeps its frame", Kernel(1), [0x3003, 0, 2], [1, 0, 0x2401, 2]);
    let t = page_0(
        t,
        "an approved entry as before is no change",
        Kernel(1),
        [0x2001, 0x2401, 2],
        [0, 0, 0x2401, 2],
    );
    let t = page_0(
        t,
        "an approved entry copies no user or no-execute bit",
        Kernel(1),
        [0x8000000000003007, 0x8000000000003207, 2],
        [1, 0, 0x2401, 2],
    );
    let t = page_0(
        t,
        "an approved page keeps its frame where the kernel's is F",
        Kernel(1),
        [0x9003, 0, 2],
        [1, 0, 0x2401, 2],
    );
    let t = page_0(
        t,
        "an approved page keeps its frame where the kernel's is excluded",
        Kernel(1),
        [0x8003, 0, 2],
        [1, 0, 0x2401, 2],
    );
    let t = page_0(
        t,
        "an approval for frame 0 is an approval",
        Kernel(1),
        [0x3003, 0, 0],
        [1, 0, 0x401, 0],
    );
    let t = page_0(
        t,
        "an approved entry in user mode has bit 63",
        User(1),
        [0x3003, 0x2401, 2],
        [1, 0, 0x8000000000002401, 2],
    );
    page_0(
        t,
        "an approved entry in user mode copies no user bit",
        User(1),
        [0x2007, 0, 2],
        [1, 0, 0x8000000000002401, 2],
    )
}

// The same step on a damaged map: a number other than 65535 is a frame, at or above F too.
fn step_2_damaged(t: Tally) -> Tally {
    let t = page_0(
        t,
        "a number at F in the map is a frame",
        Kernel(1),
        [0x3003, 0, 9],
        [1, 0, 0x9401, 9],
    );
    let t = page_0(
        t,
        "65534 in the map is a frame",
        Kernel(1),
        [0x3003, 0, 65534],
        [1, 0, 0xfffe401, 65534],
    );
    let t = page_0(
        t,
        "65534 in the map is a frame in user mode",
        User(1),
        [0x3007, 0, 65534],
        [1, 0, 0x800000000fffe401, 65534],
    );
    page_0(
        t,
        "a number at F in the map stays where the entry is absent",
        Kernel(1),
        [0x3002, 0x9401, 9],
        [1, 0, 0, 9],
    )
}

// "3. Else frame at or above F: shadow 0."
fn step_3(t: Tally) -> Tally {
    let t = page_0(
        t,
        "frame F is not mapped",
        Kernel(1),
        [0x9003, 0x8000000000003003, 65535],
        [1, 0, 0, 65535],
    );
    let t = page_0(
        t,
        "the highest frame is not mapped",
        Kernel(1),
        [0xffffffffff003, 0, 65535],
        [0, 0, 0, 65535],
    );
    // The frame has 40 bits: none is dropped before the comparison with F.
    let t = page_0(
        t,
        "frame 65538 is not taken for frame 2",
        Kernel(1),
        [0x10002003, 0, 65535],
        [0, 0, 0, 65535],
    );
    let t = page_0(
        t,
        "frame 65539 is not taken for frame 3",
        Kernel(1),
        [0x10003003, 0, 65535],
        [0, 0, 0, 65535],
    );
    let t = page_0(
        t,
        "frame 65535 is not mapped and does not join",
        Kernel(1),
        [0xffff003, 0, 65535],
        [0, 0, 0, 65535],
    );
    page_0(
        t,
        "frame F is not mapped in user mode",
        User(1),
        [0x9007, 0x3007, 65535],
        [1, 0, 0, 65535],
    )
}

// "4. Else the frame is excluded: the page joins the map with it; approved entry."
fn step_4(t: Tally) -> Tally {
    let t = page_0(
        t,
        "an alias of an excluded frame joins",
        Kernel(1),
        [0x2003, 0, 65535],
        [1, 1, 0x2401, 2],
    );
    let t = page_0(
        t,
        "an alias of the last frame joins",
        Kernel(1),
        [0x8001, 0, 65535],
        [1, 1, 0x8401, 8],
    );
    let t = page_0(
        t,
        "an alias that joins copies no user or no-execute bit",
        Kernel(1),
        [0x8000000000002007, 0x8000000000003003, 65535],
        [1, 1, 0x2401, 2],
    );
    let t = page_0(
        t,
        "a page may join with its shadow entry unchanged",
        Kernel(1),
        [0x2003, 0x2401, 65535],
        [0, 1, 0x2401, 2],
    );
    page_0(
        t,
        "an alias that joins in user mode has bit 63",
        User(1),
        [0x8007, 0, 65535],
        [1, 1, 0x8000000000008401, 8],
    )
}

// "5. Else ordinary: present, writable, user, frame and bit 9 from the kernel entry." "Ordinary: bit 63 set in kernel mode"
fn step_5_kernel(t: Tally) -> Tally {
    let t = page_0(
        t,
        "a read-only page stays read-only",
        Kernel(1),
        [0x3001, 0, 65535],
        [1, 0, 0x8000000000003001, 65535],
    );
    let t = page_0(
        t,
        "a user page has bits 2 and 63 in kernel mode",
        Kernel(1),
        [0x3007, 0, 65535],
        [1, 0, 0x8000000000003007, 65535],
    );
    let t = page_0(
        t,
        "no-execute goes to bit 9",
        Kernel(1),
        [0x8000000000003005, 0, 65535],
        [1, 0, 0x8000000000003205, 65535],
    );
    let t = page_0(
        t,
        "frame 0 is ordinary",
        Kernel(1),
        [0x3, 0x2401, 65535],
        [1, 0, 0x8000000000000003, 65535],
    );
    let t = page_0(
        t,
        "an ordinary entry as before is no change",
        Kernel(1),
        [0x7003, 0x8000000000007003, 65535],
        [0, 0, 0x8000000000007003, 65535],
    );
    // "Other bits are ignored": bits 5 to 11 are set, then bits 3 to 11, of which K3 has 3 and 4 carried.
    let t = page_0(
        t,
        "other bits of a kernel entry are ignored",
        Kernel(1),
        [0x3fe3, 0, 65535],
        [1, 0, 0x8000000000003003, 65535],
    );
    page_0(
        t,
        "other bits of a kernel entry are ignored beside bits 3 and 4",
        Kernel(1),
        [0x3ffb, 0, 65535],
        [1, 0, 0x800000000000301b, 65535],
    )
}

// "in user mode set if bit 9 is set or bit 2 clear"
fn step_5_user(t: Tally) -> Tally {
    let t = page_0(
        t,
        "a read-only user page runs in user mode",
        User(1),
        [0x3005, 0x8000000000003005, 65535],
        [1, 0, 0x3005, 65535],
    );
    let t = page_0(
        t,
        "a page of the kernel's does not run in user mode",
        User(1),
        [0x3001, 0x3001, 65535],
        [1, 0, 0x8000000000003001, 65535],
    );
    let t = page_0(
        t,
        "a no-execute page of the kernel's does not run in user mode",
        User(1),
        [0x8000000000003003, 0, 65535],
        [1, 0, 0x8000000000003203, 65535],
    );
    let t = page_0(
        t,
        "a no-execute user page does not run in user mode",
        User(1),
        [0x8000000000003005, 0, 65535],
        [1, 0, 0x8000000000003205, 65535],
    );
    let t = page_0(
        t,
        "other bits of a kernel entry are ignored in user mode",
        User(1),
        [0x3fe7, 0, 65535],
        [1, 0, 0x3007, 65535],
    );
    page_0(
        t,
        "other bits of a kernel entry are ignored beside bits 3 and 4 in user mode",
        User(1),
        [0x3fff, 0, 65535],
        [1, 0, 0x301f, 65535],
    )
}

// K3: "Taking a kernel entry apart now yields both bits, and an ordinary shadow entry carries them." Bit 3 is write-through, bit 4 cache
// disable. Given: the mode, the kernel entry and, over an entry of 0, the shadow entry that is left.
fn carried(t: Tally, name: &str, mode: Mode, kernel: u64, shadow: u64) -> Tally {
    page_0(t, name, mode, [kernel, 0, 65535], [1, 0, shadow, 65535])
}

// C5 to C8 of document 01 with bit 3, with bit 4 and with both.
fn cache_bits_of_c5_to_c8(t: Tally) -> Tally {
    let t = carried(t, "C5 with bit 3", Kernel(1), 0x300b, 0x800000000000300b);
    let t = carried(t, "C5 with bit 4", Kernel(1), 0x3013, 0x8000000000003013);
    let t = carried(t, "C5 with bits 3 and 4", Kernel(1), 0x301b, 0x800000000000301b);
    let t = carried(t, "C6 with bit 3", User(1), 0x300f, 0x300f);
    let t = carried(t, "C6 with bit 4", User(1), 0x3017, 0x3017);
    let t = carried(t, "C6 with bits 3 and 4", User(1), 0x301f, 0x301f);
    let t = carried(t, "C7 with bit 3", User(1), 0x800000000000300f, 0x800000000000320f);
    let t = carried(t, "C7 with bit 4", User(1), 0x8000000000003017, 0x8000000000003217);
    let t = carried(t, "C7 with bits 3 and 4", User(1), 0x800000000000301f, 0x800000000000321f);
    let t = carried(t, "C8 with bit 3", User(1), 0x300b, 0x800000000000300b);
    let t = carried(t, "C8 with bit 4", User(1), 0x3013, 0x8000000000003013);
    carried(t, "C8 with bits 3 and 4", User(1), 0x301b, 0x800000000000301b)
}

// The other fields beside them.
fn cache_bits_beside_others(t: Tally) -> Tally {
    let t = carried(t, "bits 3 and 4 of a read-only page", Kernel(1), 0x3019, 0x8000000000003019);
    let t = carried(
        t,
        "bits 3 and 4 of a read-only page in user mode",
        User(1),
        0x3019,
        0x8000000000003019,
    );
    let t =
        carried(t, "bit 3 of a user page in kernel mode", Kernel(1), 0x300f, 0x800000000000300f);
    let t =
        carried(t, "bit 4 of a user page in kernel mode", Kernel(1), 0x3017, 0x8000000000003017);
    let t = carried(
        t,
        "bit 3 of a read-only no-execute page",
        Kernel(1),
        0x8000000000003009,
        0x8000000000003209,
    );
    let t = carried(
        t,
        "bit 4 of a no-execute page of the kernel's in user mode",
        User(1),
        0x8000000000003013,
        0x8000000000003213,
    );
    let t = carried(t, "bit 4 of a read-only user page in user mode", User(1), 0x3015, 0x3015);
    let t = carried(t, "bits 3 and 4 with frame 0", Kernel(1), 0x1b, 0x800000000000001b);
    let t = carried(t, "bits 3 and 4 with frame 1", User(1), 0x101f, 0x101f);
    carried(t, "bits 3 and 4 with frame 7", Kernel(1), 0x701b, 0x800000000000701b)
}

// They go as they come: "shadow entries whose value changed".
fn cache_bits_changed(t: Tally) -> Tally {
    let t = page_0(
        t,
        "a page synchronised again with bits 3 and 4 cleared is a change",
        Kernel(1),
        [0x3003, 0x800000000000301b, 65535],
        [1, 0, 0x8000000000003003, 65535],
    );
    let t = page_0(
        t,
        "a page synchronised again with bits 3 and 4 set is a change",
        User(1),
        [0x301f, 0x3007, 65535],
        [1, 0, 0x301f, 65535],
    );
    let t = page_0(
        t,
        "bit 4 in place of bit 3 is a change",
        Kernel(1),
        [0x3013, 0x800000000000300b, 65535],
        [1, 0, 0x8000000000003013, 65535],
    );
    page_0(
        t,
        "bits 3 and 4 as before are no change",
        Kernel(1),
        [0x301b, 0x800000000000301b, 65535],
        [0, 0, 0x800000000000301b, 65535],
    )
}

// "Approved entry: bits 0 and 10, the frame; bit 63 set in user mode only": neither bit, of an approved page or of an alias.
fn cache_bits_lost(t: Tally) -> Tally {
    let mut t = t;
    for (bits, approved, alias) in
        [("bit 3", 0x300b, 0x200b), ("bit 4", 0x3013, 0x2013), ("bits 3 and 4", 0x301b, 0x201b)]
    {
        for (words, mode, entry) in
            [("kernel", Kernel(1), 0x2401), ("user", User(1), 0x8000000000002401)]
        {
            t = page_0(
                t,
                &format!("an approved page loses {bits} in {words} mode"),
                mode,
                [approved, 0, 2],
                [1, 0, entry, 2],
            );
            t = page_0(
                t,
                &format!("an alias loses {bits} in {words} mode"),
                mode,
                [alias, 0, 65535],
                [1, 1, entry, 2],
            );
        }
    }
    let t = page_0(
        t,
        "an approved entry as before is no change where the kernel's has bits 3 and 4",
        Kernel(1),
        [0x201b, 0x2401, 2],
        [0, 0, 0x2401, 2],
    );
    let t = page_0(
        t,
        "a damaged approved entry loses bits 3 and 4",
        Kernel(1),
        [0x201b, 0x2419, 2],
        [1, 0, 0x2401, 2],
    );
    page_0(
        t,
        "a page with bits 3 and 4 that turns into an alias loses them",
        User(1),
        [0x801f, 0x301f, 65535],
        [1, 1, 0x8000000000008401, 8],
    )
}

// They make no entry present: steps 1 and 3, and K1's reserved bits.
fn cache_bits_absent(t: Tally) -> Tally {
    let t = page_0(
        t,
        "an absent entry with bits 3 and 4 clears the shadow",
        Kernel(1),
        [0x301a, 0x800000000000301b, 65535],
        [1, 0, 0, 65535],
    );
    let t = page_0(
        t,
        "frame F with bits 3 and 4 is not mapped",
        Kernel(1),
        [0x901b, 0x800000000000301b, 65535],
        [1, 0, 0, 65535],
    );
    let t = page_0(
        t,
        "frame F with bits 3 and 4 is not mapped in user mode",
        User(1),
        [0x901f, 0x301f, 65535],
        [1, 0, 0, 65535],
    );
    let t = page_0(
        t,
        "the highest frame with bits 3 and 4 is not mapped",
        Kernel(1),
        [0xffffffffff01b, 0, 65535],
        [0, 0, 0, 65535],
    );
    let t = page_0(
        t,
        "bit 52 with bits 3 and 4 is absent",
        Kernel(1),
        [0x001000000000301b, 0x800000000000301b, 65535],
        [1, 0, 0, 65535],
    );
    let t = page_0(
        t,
        "bit 62 with bits 3 and 4 is absent in user mode",
        User(1),
        [0x400000000000301f, 0x301f, 65535],
        [1, 0, 0, 65535],
    );
    page_0(
        t,
        "an approved page with bits 3, 4 and 52 is absent and stays approved",
        Kernel(1),
        [0x001000000000201b, 0x2401, 2],
        [1, 0, 0, 2],
    )
}

// Synchronises a page of a guard whose every kernel entry is 0x5003.
fn page_of(
    t: Tally,
    name: &str,
    page: u64,
    wanted: Answer,
    shadow: [u64; 4],
    map: [u16; 4],
) -> Tally {
    let mut shadow_now = [0, 0x2401, 0, 0x8401];
    let mut map_now = [65535, 2, 65535, 8];
    let answer = crate::calls::sync_page(
        guard::state_in(Kernel(1)),
        &[0x5003, 0x5003, 0x5003, 0x5003],
        &mut shadow_now,
        &mut map_now,
        &[0x04, 0x01],
        page,
    );
    let entries = shadow_now == shadow;
    let numbers = map_now == map;
    t.case("sync_page", name, answer == wanted && entries && numbers)
}

// The page named is the one synchronised; question 9: "page below V".
fn pages(t: Tally) -> Tally {
    let t = page_of(
        t,
        "page 0 of 4",
        0,
        Done(1, 0),
        [0x8000000000005003, 0x2401, 0, 0x8401],
        [65535, 2, 65535, 8],
    );
    let t = page_of(t, "page 1 of 4", 1, Done(0, 0), [0, 0x2401, 0, 0x8401], [65535, 2, 65535, 8]);
    let t = page_of(
        t,
        "page 2 of 4",
        2,
        Done(1, 0),
        [0, 0x2401, 0x8000000000005003, 0x8401],
        [65535, 2, 65535, 8],
    );
    let t = page_of(t, "page 3 of 4", 3, Done(0, 0), [0, 0x2401, 0, 0x8401], [65535, 2, 65535, 8]);
    let t = page_of(t, "page 4 of 4", 4, Refused(9), [0, 0x2401, 0, 0x8401], [65535, 2, 65535, 8]);
    // No number is narrowed: 65536 is not page 0.
    let t = page_of(
        t,
        "page 65536 of 4",
        65536,
        Refused(9),
        [0, 0x2401, 0, 0x8401],
        [65535, 2, 65535, 8],
    );
    page_of(
        t,
        "the highest page number",
        18446744073709551615,
        Refused(9),
        [0, 0x2401, 0, 0x8401],
        [65535, 2, 65535, 8],
    )
}

pub fn all(t: Tally) -> Tally {
    let t = step_1(t);
    let t = reserved(t);
    let t = not_reserved(t);
    let t = step_2(t);
    let t = step_2_damaged(t);
    let t = step_3(t);
    let t = step_4(t);
    let t = step_5_kernel(t);
    let t = step_5_user(t);
    let t = cache_bits_of_c5_to_c8(t);
    let t = cache_bits_beside_others(t);
    let t = cache_bits_changed(t);
    let t = cache_bits_lost(t);
    let t = cache_bits_absent(t);
    pages(t)
}
