// Synchronise all pages: tables with every kind of page in both modes, and its two counts.
use crate::calls::Answer;
use crate::calls::Answer::Done;
use crate::calls::Mode;
use crate::calls::Mode::Kernel;
use crate::calls::Mode::User;
use crate::guard;
use crate::tally::Tally;

// Eight pages, nine frames, 2 and 8 of them excluded.
#[derive(Clone, Copy)]
struct Tables {
    shadow: [u64; 8],
    map: [u16; 8],
}

fn eight(
    t: Tally,
    name: &str,
    mode: Mode,
    kernel: [u64; 8],
    given: Tables,
    wanted: Answer,
    left: Tables,
) -> Tally {
    let mut shadow = given.shadow;
    let mut map = given.map;
    let shadow_left = left.shadow;
    let map_left = left.map;
    let answer = crate::calls::sync_all(
        guard::state(8, 9, 1, [1, 0, 0, 0], mode),
        &kernel,
        &mut shadow,
        &mut map,
        &[0x04, 0x01],
    );
    let entries = shadow == shadow_left;
    let numbers = map == map_left;
    t.case("sync_all", name, answer == wanted && entries && numbers)
}

// Pages 0 to 7: absent, approved for 2, at F, an alias of 8, ordinary, ordinary as before, approved for 8 and absent, ordinary no-execute.
fn every_kind() -> [u64; 8] {
    [0x3002, 0x3003, 0x9003, 0x8003, 0x4003, 0x5005, 0x8002, 0x8000000000006007]
}

fn before() -> Tables {
    Tables {
        shadow: [
            0x8000000000003003,
            0x2401,
            0x8000000000001001,
            0,
            0,
            0x8000000000005005,
            0x8401,
            0,
        ],
        map: [65535, 2, 65535, 65535, 65535, 65535, 8, 65535],
    }
}

fn after_in_kernel_mode() -> Tables {
    Tables {
        shadow: [
            0,
            0x2401,
            0,
            0x8401,
            0x8000000000004003,
            0x8000000000005005,
            0,
            0x8000000000006207,
        ],
        map: [65535, 2, 65535, 8, 65535, 65535, 8, 65535],
    }
}

fn after_in_user_mode() -> Tables {
    Tables {
        shadow: [
            0,
            0x8000000000002401,
            0,
            0x8000000000008401,
            0x8000000000004003,
            0x5005,
            0,
            0x8000000000006207,
        ],
        map: [65535, 2, 65535, 8, 65535, 65535, 8, 65535],
    }
}

// "All pages: the same for each, in rising order." "Synchronise: shadow entries whose value changed; pages that joined the map."
fn kinds(t: Tally) -> Tally {
    let t = eight(
        t,
        "every kind of page in kernel mode",
        Kernel(1),
        every_kind(),
        before(),
        Done(6, 1),
        after_in_kernel_mode(),
    );
    let t = eight(
        t,
        "every kind of page in user mode",
        User(1),
        every_kind(),
        before(),
        Done(8, 1),
        after_in_user_mode(),
    );
    let t = eight(
        t,
        "a second time changes nothing",
        Kernel(1),
        every_kind(),
        after_in_kernel_mode(),
        Done(0, 0),
        after_in_kernel_mode(),
    );
    // Pages 1, 3, 4 and 5 are approved or ordinary and present, and bit 63 of 1, 3 and 5 goes by the mode.
    eight(
        t,
        "after the mode changed",
        User(1),
        every_kind(),
        after_in_kernel_mode(),
        Done(3, 0),
        after_in_user_mode(),
    )
}

fn extremes(t: Tally) -> Tally {
    // Step 4 for each page, several to one frame.
    let t = eight(
        t,
        "every page joins",
        Kernel(1),
        [0x2003, 0x8003, 0x2001, 0x8001, 0x2007, 0x8007, 0x2005, 0x8005],
        Tables {
            shadow: [0, 0x8401, 0, 0, 0, 0, 0, 0x8000000000008005],
            map: [65535, 65535, 65535, 65535, 65535, 65535, 65535, 65535],
        },
        Done(7, 8),
        Tables {
            shadow: [0x2401, 0x8401, 0x2401, 0x8401, 0x2401, 0x8401, 0x2401, 0x8401],
            map: [2, 8, 2, 8, 2, 8, 2, 8],
        },
    );
    // Step 1 for each page: "map unchanged".
    let t = eight(
        t,
        "no page is present",
        User(1),
        [0, 0, 0, 0, 0, 0, 0, 0],
        before(),
        Done(5, 0),
        Tables {
            shadow: [0, 0, 0, 0, 0, 0, 0, 0],
            map: [65535, 2, 65535, 65535, 65535, 65535, 8, 65535],
        },
    );
    // K1: bit 52 or bit 62 on every page, and every bit but the present one on the last.
    let t = eight(
        t,
        "every page has a reserved bit",
        Kernel(1),
        [
            0x0010000000003003,
            0x4000000000003003,
            0x0010000000009003,
            0x4000000000008003,
            0x0010000000004003,
            0x4000000000005005,
            0x8010000000008003,
            0xfffffffffffffffe,
        ],
        before(),
        Done(5, 0),
        Tables {
            shadow: [0, 0, 0, 0, 0, 0, 0, 0],
            map: [65535, 2, 65535, 65535, 65535, 65535, 8, 65535],
        },
    );
    // Step 2 on a damaged map: 9 and 65534 are frames, 65535 is none.
    eight(
        t,
        "a damaged map",
        Kernel(1),
        [0x3003, 0x3003, 0x3003, 0, 0x9003, 0x8003, 0x2003, 0x3003],
        Tables {
            shadow: [0, 0, 0, 0x9401, 0, 0, 0, 0],
            map: [9, 65534, 65535, 9, 65534, 15, 65535, 4096],
        },
        Done(8, 1),
        Tables {
            shadow: [
                0x9401,
                0xfffe401,
                0x8000000000003003,
                0,
                0xfffe401,
                0xf401,
                0x2401,
                0x1000401,
            ],
            map: [9, 65534, 65535, 9, 65534, 15, 2, 4096],
        },
    )
}

// K3: "an ordinary shadow entry carries them". Pages 0 to 7: bit 3, approved for 2 with both bits, at F with both, an alias of 8 with
// bit 4, bit 4, read-only user with both, approved for 8 with both and bit 52, no-execute user with bit 4.
fn every_kind_of_device_page() -> [u64; 8] {
    [0x300b, 0x301b, 0x901b, 0x8013, 0x4013, 0x501d, 0x001000000000801b, 0x8000000000006017]
}

fn device_pages_in_kernel_mode() -> Tables {
    Tables {
        shadow: [
            0x800000000000300b,
            0x2401,
            0,
            0x8401,
            0x8000000000004013,
            0x800000000000501d,
            0,
            0x8000000000006217,
        ],
        map: [65535, 2, 65535, 8, 65535, 65535, 8, 65535],
    }
}

fn device_pages_in_user_mode() -> Tables {
    Tables {
        shadow: [
            0x800000000000300b,
            0x8000000000002401,
            0,
            0x8000000000008401,
            0x8000000000004013,
            0x501d,
            0,
            0x8000000000006217,
        ],
        map: [65535, 2, 65535, 8, 65535, 65535, 8, 65535],
    }
}

fn device_pages(t: Tally) -> Tally {
    let t = eight(
        t,
        "every kind of device page in kernel mode",
        Kernel(1),
        every_kind_of_device_page(),
        before(),
        Done(7, 1),
        device_pages_in_kernel_mode(),
    );
    let t = eight(
        t,
        "every kind of device page in user mode",
        User(1),
        every_kind_of_device_page(),
        before(),
        Done(8, 1),
        device_pages_in_user_mode(),
    );
    let t = eight(
        t,
        "device pages a second time change nothing",
        Kernel(1),
        every_kind_of_device_page(),
        device_pages_in_kernel_mode(),
        Done(0, 0),
        device_pages_in_kernel_mode(),
    );
    // Pages 0, 4, 5 and 7 are ordinary.
    eight(
        t,
        "bits 3 and 4 cleared on every page",
        Kernel(1),
        [0x3003, 0x3003, 0x9003, 0x8003, 0x4003, 0x5005, 0x8002, 0x8000000000006007],
        device_pages_in_kernel_mode(),
        Done(4, 0),
        Tables {
            shadow: [
                0x8000000000003003,
                0x2401,
                0,
                0x8401,
                0x8000000000004003,
                0x8000000000005005,
                0,
                0x8000000000006207,
            ],
            map: [65535, 2, 65535, 8, 65535, 65535, 8, 65535],
        },
    )
}

// Neither bit, bit 3, bit 4 and both, over an empty shadow table: of user pages and no-execute user pages, of pages of the kernel's and
// read-only ones, of aliases of 2 and pages approved for 8.
fn every_combination(t: Tally) -> Tally {
    let user_pages = [
        0x3007,
        0x300f,
        0x3017,
        0x301f,
        0x8000000000003007,
        0x800000000000300f,
        0x8000000000003017,
        0x800000000000301f,
    ];
    let kernel_pages = [0x3003, 0x300b, 0x3013, 0x301b, 0x3001, 0x3009, 0x3011, 0x3019];
    let approved_pages = [0x2003, 0x200b, 0x2013, 0x201b, 0x3003, 0x300b, 0x3013, 0x301b];
    let kernel_pages_left = [
        0x8000000000003003,
        0x800000000000300b,
        0x8000000000003013,
        0x800000000000301b,
        0x8000000000003001,
        0x8000000000003009,
        0x8000000000003011,
        0x8000000000003019,
    ];
    let empty = Tables { shadow: [0; 8], map: [65535; 8] };
    let t = eight(
        t,
        "user pages with every combination of bits 3 and 4 in kernel mode",
        Kernel(1),
        user_pages,
        empty,
        Done(8, 0),
        Tables {
            shadow: [
                0x8000000000003007,
                0x800000000000300f,
                0x8000000000003017,
                0x800000000000301f,
                0x8000000000003207,
                0x800000000000320f,
                0x8000000000003217,
                0x800000000000321f,
            ],
            map: [65535; 8],
        },
    );
    let t = eight(
        t,
        "user pages with every combination of bits 3 and 4 in user mode",
        User(1),
        user_pages,
        empty,
        Done(8, 0),
        Tables {
            shadow: [
                0x3007,
                0x300f,
                0x3017,
                0x301f,
                0x8000000000003207,
                0x800000000000320f,
                0x8000000000003217,
                0x800000000000321f,
            ],
            map: [65535; 8],
        },
    );
    let t = eight(
        t,
        "pages of the kernel's with every combination of bits 3 and 4 in kernel mode",
        Kernel(1),
        kernel_pages,
        empty,
        Done(8, 0),
        Tables { shadow: kernel_pages_left, map: [65535; 8] },
    );
    let t = eight(
        t,
        "pages of the kernel's with every combination of bits 3 and 4 in user mode",
        User(1),
        kernel_pages,
        empty,
        Done(8, 0),
        Tables { shadow: kernel_pages_left, map: [65535; 8] },
    );
    let half_approved = Tables { shadow: [0; 8], map: [65535, 65535, 65535, 65535, 8, 8, 8, 8] };
    let t = eight(
        t,
        "approved pages and aliases with every combination of bits 3 and 4 in kernel mode",
        Kernel(1),
        approved_pages,
        half_approved,
        Done(8, 4),
        Tables {
            shadow: [0x2401, 0x2401, 0x2401, 0x2401, 0x8401, 0x8401, 0x8401, 0x8401],
            map: [2, 2, 2, 2, 8, 8, 8, 8],
        },
    );
    eight(
        t,
        "approved pages and aliases with every combination of bits 3 and 4 in user mode",
        User(1),
        approved_pages,
        half_approved,
        Done(8, 4),
        Tables {
            shadow: [
                0x8000000000002401,
                0x8000000000002401,
                0x8000000000002401,
                0x8000000000002401,
                0x8000000000008401,
                0x8000000000008401,
                0x8000000000008401,
                0x8000000000008401,
            ],
            map: [2, 2, 2, 2, 8, 8, 8, 8],
        },
    )
}

// The largest tables: V 2,048, F 4,096, frame 4095 excluded.
fn largest(t: Tally) -> Tally {
    let mut shadow = [0u64; 2048];
    let mut map = [65535u16; 2048];
    let mut exclusion = [0u8; 512];
    exclusion[511] = 0x80;
    let s = guard::state(2048, 4096, 1, [0, 0, 0, 0], Kernel(2047));
    let answer = crate::calls::sync_all(s, &[0xfff003; 2048], &mut shadow, &mut map, &exclusion);
    let entries = shadow == [0xfff401; 2048];
    let numbers = map == [4095; 2048];
    let counts = answer == Done(2048, 2048);
    t.case("sync_all", "2048 pages join", counts && entries && numbers)
}

// The smallest: V 1, F 1, no frame excluded.
fn smallest(t: Tally) -> Tally {
    let mut shadow = [0u64; 1];
    let mut map = [65535u16; 1];
    let s = guard::state(1, 1, 1, [0, 0, 0, 0], User(0));
    let answer = crate::calls::sync_all(s, &[0x7], &mut shadow, &mut map, &[0]);
    let entries = shadow == [0x7];
    let numbers = map == [65535];
    let counts = answer == Done(1, 0);
    t.case("sync_all", "one page and one frame", counts && entries && numbers)
}

pub fn all(t: Tally) -> Tally {
    let t = kinds(t);
    let t = extremes(t);
    let t = device_pages(t);
    let t = every_combination(t);
    let t = largest(t);
    smallest(t)
}
