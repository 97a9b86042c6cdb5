// The start: what an accepted record sets, and questions 1 to 7 with their order. A refused start leaves the state run and the lent
// tables as they were. "A refused start, which has no state to keep, answers a state of zeros in user mode on page 0": that is the
// answer of the library's start::start, which is proved; the call for C, tested here, does not write it to the run.
// K5: the start is given the number of devices, 1 to 64, and "a number outside that gives 3 at the start". K6: a start writes 0 in the
// three words of a pending pair.
use crate::calls::words;
use crate::calls::Answer;
use crate::calls::Answer::Done;
use crate::calls::Answer::Refused;
use crate::calls::Mode::Kernel;
use crate::calls::Mode::User;
use crate::calls::State;
use crate::guard;
use crate::tally::Tally;
use ::guard::archive::STATE_WORDS;

#[derive(Clone, Copy)]
struct Tables {
    shadow: [u64; 4],
    map: [u16; 4],
    exclusion: [u8; 2],
}

// What the tables hold before: nothing that a start writes.
fn before() -> Tables {
    Tables { shadow: [5, 6, 7, 8], map: [1, 2, 3, 4], exclusion: [0xa5, 0x5a] }
}

// What the state run holds before: no field is that of the state of zeros, or of a state that a case here wants.
const STATE_BEFORE: State = State {
    pages: 1000,
    frames: 3000,
    entry_count: 7,
    entry_pages: [100, 101, 102, 103, 104, 105, 106, 107, 108, 109, 110, 111, 112, 113, 114, 115],
    mode: User(999),
    devices: 40,
    pending: [1, 998, 2999],
};

// The same, with each word one bit wider than its field: a start does not read the run.
fn wide_run() -> [u64; STATE_WORDS] {
    words(STATE_BEFORE).map(|word| word | 1 << 16)
}

// Starts with three devices.
fn start_on(
    t: Tally,
    name: &str,
    record: &[u8],
    lent: [usize; 3],
    wanted: Answer,
    state_left: Option<State>,
    left: Tables,
) -> Tally {
    t.case("start", name, is_right((record, 3), lent, wanted, state_left, left))
}

// Starts on both runs, with a record and a number of devices and with the first places of the tables lent: of shadow, map and exclusion
// vector. Where no state is wanted, the run is to stay as it was.
fn is_right(
    (record, devices): (&[u8], u64),
    lent: [usize; 3],
    wanted: Answer,
    state_left: Option<State>,
    left: Tables,
) -> bool {
    [words(STATE_BEFORE), wide_run()].into_iter().all(|run_before| {
        let mut run = run_before;
        let Tables { mut shadow, mut map, mut exclusion } = before();
        let answer = crate::calls::start(
            record,
            devices,
            &mut run,
            &mut shadow[..lent[0]],
            &mut map[..lent[1]],
            &mut exclusion[..lent[2]],
        );
        let entries = shadow == left.shadow;
        let numbers = map == left.map;
        let bytes = exclusion == left.exclusion;
        let tables = entries && numbers && bytes;
        answer == wanted && run == state_left.map_or(run_before, words) && tables
    })
}

// "An accepted start sets the map and exclusion bits from the arrays, every other map place to 65535 and every other exclusion bit to
// 0, makes the shadow entry of each listed page an approved one, zeroes the others, and stands in kernel mode on the first entry page."
fn accepted(t: Tally) -> Tally {
    let t = start_on(
        t,
        "two pages, both entry pages",
        &[4, 0, 9, 0, 2, 0, 2, 0, 1, 0, 3, 0, 2, 0, 8, 0],
        [4, 4, 2],
        Done(2, 2),
        Some(guard::state(4, 9, 2, [1, 3, 0, 0], Kernel(1))),
        Tables {
            shadow: [0, 0x2401, 0, 0x8401],
            map: [65535, 2, 65535, 8],
            exclusion: [0x04, 0x01],
        },
    );
    // "frames, which may repeat"; page 0 has none before it.
    let t = start_on(
        t,
        "one frame for two pages, page 0 first",
        &[2, 0, 8, 0, 2, 0, 1, 0, 0, 0, 1, 0, 7, 0, 7, 0],
        [2, 2, 1],
        Done(2, 1),
        Some(guard::state(2, 8, 1, [0, 0, 0, 0], Kernel(0))),
        Tables { shadow: [0x7401, 0x7401, 7, 8], map: [7, 7, 3, 4], exclusion: [0x80, 0x5a] },
    );
    // "The first e pages are the entry pages": the third is none, and the first is not page 0.
    let t = start_on(
        t,
        "fewer entry pages than pages",
        &[4, 0, 16, 0, 3, 0, 2, 0, 1, 0, 2, 0, 3, 0, 15, 0, 0, 0, 1, 0],
        [4, 4, 2],
        Done(3, 2),
        Some(guard::state(4, 16, 2, [1, 2, 0, 0], Kernel(1))),
        Tables {
            shadow: [0, 0xf401, 0x401, 0x1401],
            map: [65535, 15, 0, 1],
            exclusion: [0x03, 0x80],
        },
    );
    let t = start_on(
        t,
        "every page",
        &[4, 0, 12, 0, 4, 0, 4, 0, 0, 0, 1, 0, 2, 0, 3, 0, 11, 0, 10, 0, 9, 0, 8, 0],
        [4, 4, 2],
        Done(4, 4),
        Some(guard::state(4, 12, 4, [0, 1, 2, 3], Kernel(0))),
        Tables {
            shadow: [0xb401, 0xa401, 0x9401, 0x8401],
            map: [11, 10, 9, 8],
            exclusion: [0x00, 0x0f],
        },
    );
    start_on(
        t,
        "one page and one frame",
        &[1, 0, 1, 0, 1, 0, 1, 0, 0, 0, 0, 0],
        [1, 1, 1],
        Done(1, 1),
        Some(guard::state(1, 1, 1, [0, 0, 0, 0], Kernel(0))),
        Tables { shadow: [0x401, 6, 7, 8], map: [0, 2, 3, 4], exclusion: [0x01, 0x5a] },
    )
}

// V 2,048, F 4,096, page 2047 with frame 4095.
fn largest(t: Tally) -> Tally {
    let mut shadow = [0xffffffffffffffffu64; 2048];
    let mut map = [0u16; 2048];
    let mut exclusion = [0xffu8; 512];
    let mut run = words(STATE_BEFORE);
    let answer = crate::calls::start(
        &[0x00, 0x08, 0x00, 0x10, 1, 0, 1, 0, 0xff, 0x07, 0xff, 0x0f],
        3,
        &mut run,
        &mut shadow,
        &mut map,
        &mut exclusion,
    );
    let mut shadow_left = [0u64; 2048];
    shadow_left[2047] = 0xfff401;
    let mut map_left = [65535u16; 2048];
    map_left[2047] = 4095;
    let mut exclusion_left = [0u8; 512];
    exclusion_left[511] = 0x80;
    let entries = shadow == shadow_left;
    let numbers = map == map_left;
    let bytes = exclusion == exclusion_left;
    let left = guard::state(2048, 4096, 1, [2047, 0, 0, 0], Kernel(2047));
    let tables = entries && numbers && bytes;
    t.case("start", "the largest sizes", answer == Done(1, 1) && run == words(left) && tables)
}

// Sixteen entry pages of seventeen.
fn sixteen(t: Tally) -> Tally {
    let mut shadow = [5u64; 17];
    let mut map = [6u16; 17];
    let mut exclusion = [7u8; 1];
    let mut run = wide_run();
    let answer = crate::calls::start(
        &[
            17, 0, 1, 0, 17, 0, 16, 0, 0, 0, 1, 0, 2, 0, 3, 0, 4, 0, 5, 0, 6, 0, 7, 0, 8, 0, 9, 0,
            10, 0, 11, 0, 12, 0, 13, 0, 14, 0, 15, 0, 16, 0, 0, 0, 0, 0, 0, 0, 0, 0, 0, 0, 0, 0, 0,
            0, 0, 0, 0, 0, 0, 0, 0, 0, 0, 0, 0, 0, 0, 0, 0, 0, 0, 0, 0, 0,
        ],
        3,
        &mut run,
        &mut shadow,
        &mut map,
        &mut exclusion,
    );
    let entries = shadow == [0x401; 17];
    let numbers = map == [0; 17];
    let bytes = exclusion == [1];
    let left = State {
        pages: 17,
        frames: 1,
        entry_count: 16,
        entry_pages: [0, 1, 2, 3, 4, 5, 6, 7, 8, 9, 10, 11, 12, 13, 14, 15],
        mode: Kernel(0),
        devices: 3,
        pending: [0, 0, 0],
    };
    let tables = entries && numbers && bytes;
    t.case("start", "sixteen entry pages", answer == Done(17, 16) && run == words(left) && tables)
}

// A record refused with a number, where the tables are lent as V 4 and F 9 ask.
fn refused(t: Tally, name: &str, record: &[u8], number: u64) -> Tally {
    start_on(t, name, record, [4, 4, 2], Refused(number), None, before())
}

// "1. Has the policy record at least 8 bytes?" "2. Are V and F within their ranges?"
fn questions_1_and_2(t: Tally) -> Tally {
    let t = refused(t, "an empty record", &[], 1);
    let t = refused(t, "7 bytes", &[4, 0, 9, 0, 2, 0, 2], 1);
    let t = refused(t, "7 bytes with V 0", &[0, 0, 0, 0, 0, 0, 0], 1);
    let t = refused(t, "V 0", &[0, 0, 9, 0, 1, 0, 1, 0, 1, 0, 2, 0], 2);
    let t = refused(t, "V 2049", &[0x01, 0x08, 9, 0, 1, 0, 1, 0, 1, 0, 2, 0], 2);
    let t = refused(t, "F 0", &[4, 0, 0, 0, 1, 0, 1, 0, 1, 0, 2, 0], 2);
    let t = refused(t, "F 4097", &[4, 0, 0x01, 0x10, 1, 0, 1, 0, 1, 0, 2, 0], 2);
    refused(t, "F 65535 with n 0 and e 0", &[4, 0, 255, 255, 0, 0, 0, 0], 2)
}

// "3. Is n from 1 to V, and e from 1 to the smaller of n and 16?", before 4. "4. Is the record exactly 8 + 4 × n bytes long?", before 5.
fn questions_3_and_4(t: Tally) -> Tally {
    let t = refused(t, "n 0", &[4, 0, 9, 0, 0, 0, 1, 0], 3);
    let t = refused(t, "n above V, the record cut short", &[4, 0, 9, 0, 5, 0, 1, 0], 3);
    let t = refused(t, "e 0", &[4, 0, 9, 0, 1, 0, 0, 0, 1, 0, 2, 0], 3);
    let t = refused(t, "e above n", &[4, 0, 9, 0, 1, 0, 2, 0, 1, 0, 2, 0], 3);
    let t = refused(t, "e 17 of 17", &[17, 0, 9, 0, 17, 0, 17, 0], 3);
    let t = refused(t, "sizes alone", &[4, 0, 9, 0, 1, 0, 1, 0], 4);
    let t = refused(t, "a byte too few", &[4, 0, 9, 0, 1, 0, 1, 0, 1, 0, 2], 4);
    let t = refused(t, "a byte too many", &[4, 0, 9, 0, 1, 0, 1, 0, 1, 0, 2, 0, 0], 4);
    refused(t, "a byte too few with a page at V", &[4, 0, 9, 0, 1, 0, 1, 0, 4, 0, 2], 4)
}

// "5. Is every listed page below V and above the one before?", before 6. "6. Is every listed frame below F?", before 7.
fn questions_5_and_6(t: Tally) -> Tally {
    let t = refused(t, "a page at V", &[4, 0, 9, 0, 1, 0, 1, 0, 4, 0, 2, 0], 5);
    let t = refused(t, "page 65535", &[4, 0, 9, 0, 1, 0, 1, 0, 255, 255, 2, 0], 5);
    let t = refused(t, "a page twice", &[4, 0, 9, 0, 2, 0, 1, 0, 1, 0, 1, 0, 2, 0, 8, 0], 5);
    let t = refused(t, "falling pages", &[4, 0, 9, 0, 2, 0, 1, 0, 2, 0, 1, 0, 2, 0, 8, 0], 5);
    let t = refused(
        t,
        "a frame at F and then a page at V",
        &[4, 0, 9, 0, 2, 0, 1, 0, 1, 0, 4, 0, 9, 0, 8, 0],
        5,
    );
    let t = refused(t, "a frame at F", &[4, 0, 9, 0, 1, 0, 1, 0, 1, 0, 9, 0], 6);
    let t = refused(
        t,
        "a second frame of 65535",
        &[4, 0, 9, 0, 2, 0, 1, 0, 1, 0, 3, 0, 2, 0, 255, 255],
        6,
    );
    refused(t, "a frame at F and a table too long", &[3, 0, 9, 0, 1, 0, 1, 0, 1, 0, 9, 0], 6)
}

// V 3 and F 8 ask for tables of 3, 3 and 1 places.
fn lent(t: Tally, name: &str, lent: [usize; 3]) -> Tally {
    start_on(t, name, &[3, 0, 8, 0, 1, 0, 1, 0, 1, 0, 2, 0], lent, Refused(7), None, before())
}

// "7. [..] does every lent table have its exact length (for the start, by the record's V and F)?"
fn question_7(t: Tally) -> Tally {
    let t = lent(t, "a shadow table too short", [2, 3, 1]);
    let t = lent(t, "a shadow table too long", [4, 3, 1]);
    let t = lent(t, "a map too short", [3, 2, 1]);
    let t = lent(t, "a map too long", [3, 4, 1]);
    let t = lent(t, "an exclusion vector too short", [3, 3, 0]);
    let t = lent(t, "an exclusion vector too long", [3, 3, 2]);
    // Nine frames ask for two bytes: "F/8 bytes rounded up".
    start_on(
        t,
        "an exclusion vector rounded down",
        &[4, 0, 9, 0, 1, 0, 1, 0, 1, 0, 2, 0],
        [4, 4, 1],
        Refused(7),
        None,
        before(),
    )
}

// V 4, F 9, page 1 with frame 2 and page 3 with frame 8, both of them entry pages.
const TWO_PAGES: [u8; 16] = [4, 0, 9, 0, 2, 0, 2, 0, 1, 0, 3, 0, 2, 0, 8, 0];

// "the state gains the number of devices, 1 to 64, which the start is given"
fn devices_kept(t: Tally, name: &str, devices: u16) -> Tally {
    let state_left = State { devices, ..guard::state(4, 9, 2, [1, 3, 0, 0], Kernel(1)) };
    let left = Tables {
        shadow: [0, 0x2401, 0, 0x8401],
        map: [65535, 2, 65535, 8],
        exclusion: [0x04, 0x01],
    };
    let given = (&TWO_PAGES[..], devices.into());
    t.case("start", name, is_right(given, [4, 4, 2], Done(2, 2), Some(state_left), left))
}

fn devices_refused(t: Tally, name: &str, record: &[u8], devices: u64, number: u64) -> Tally {
    let wanted = Refused(number);
    t.case("start", name, is_right((record, devices), [4, 4, 2], wanted, None, before()))
}

fn devices(t: Tally) -> Tally {
    let t = devices_kept(t, "1 device", 1);
    let t = devices_kept(t, "2 devices", 2);
    let t = devices_kept(t, "63 devices", 63);
    let t = devices_kept(t, "64 devices", 64);
    let t = devices_refused(t, "0 devices", &TWO_PAGES, 0, 3);
    let t = devices_refused(t, "65 devices", &TWO_PAGES, 65, 3);
    let t = devices_refused(t, "65535 devices", &TWO_PAGES, 65535, 3);
    let t = devices_refused(t, "65536 devices", &TWO_PAGES, 65536, 3);
    let t = devices_refused(t, "65537 devices", &TWO_PAGES, 65537, 3);
    let t = devices_refused(t, "65600 devices", &TWO_PAGES, 65600, 3);
    let t = devices_refused(t, "2^32 + 1 devices", &TWO_PAGES, 4294967297, 3);
    let t = devices_refused(t, "2^63 + 64 devices", &TWO_PAGES, 9223372036854775872, 3);
    devices_refused(t, "the highest number of devices", &TWO_PAGES, 18446744073709551615, 3)
}

// 3 for the number of devices comes after 2 and before 4.
fn devices_in_order(t: Tally) -> Tally {
    let mut t = t;
    for (of_devices, devices) in [("0", 0), ("65", 65), ("65537", 65537)] {
        for (name, record, number) in [
            ("7 bytes", &[4, 0, 9, 0, 2, 0, 2][..], 1),
            ("V 0", &[0, 0, 9, 0, 1, 0, 1, 0, 1, 0, 2, 0], 2),
            ("V 2049", &[0x01, 0x08, 9, 0, 1, 0, 1, 0, 1, 0, 2, 0], 2),
            ("F 0", &[4, 0, 0, 0, 1, 0, 1, 0, 1, 0, 2, 0], 2),
            ("F 4097 and n 0", &[4, 0, 0x01, 0x10, 0, 0, 1, 0], 2),
            ("e 0", &[4, 0, 9, 0, 1, 0, 0, 0, 1, 0, 2, 0], 3),
            ("sizes alone", &[4, 0, 9, 0, 1, 0, 1, 0], 3),
            ("a record cut short", &[4, 0, 9, 0, 1, 0, 1, 0, 1, 0, 2], 3),
            ("a byte too many", &[4, 0, 9, 0, 1, 0, 1, 0, 1, 0, 2, 0, 0], 3),
            ("falling pages", &[4, 0, 9, 0, 2, 0, 1, 0, 2, 0, 1, 0, 2, 0, 8, 0], 3),
            ("a frame at F", &[4, 0, 9, 0, 1, 0, 1, 0, 1, 0, 9, 0], 3),
            ("tables too long", &[3, 0, 8, 0, 1, 0, 1, 0, 1, 0, 2, 0], 3),
        ] {
            t = devices_refused(
                t,
                &format!("{of_devices} devices and {name}"),
                record,
                devices,
                number,
            );
        }
    }
    t
}

pub fn all(t: Tally) -> Tally {
    let t = accepted(t);
    let t = largest(t);
    let t = sixteen(t);
    let t = questions_1_and_2(t);
    let t = questions_3_and_4(t);
    let t = questions_5_and_6(t);
    let t = question_7(t);
    let t = devices(t);
    devices_in_order(t)
}
