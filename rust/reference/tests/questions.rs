//! The questions one by one, their order, and that a refused call changes nothing.
//! Numbers that no drill reaches (7, 13 of a write, 12 of an enter) are asked of tables made up for them.

mod common;

use common::{cases_record, record, refused, Guard};
use reference::{Answer, Device, Mode, Pair, State, NO_FRAME};

const NO_EXECUTE: u64 = 1 << 63;

/// A refused start answers the state of zeros and leaves the tables as they were.
fn assert_start_refused(record: &[u8], number: u8) {
    let (mut shadow, mut map, mut exclusion) = ([5u64; 4], [6u16; 4], [7u8; 1]);
    let (state, answer) = reference::start(record, 1, &mut shadow, &mut map, &mut exclusion);
    assert_eq!(answer, refused(number), "{record:?}");
    assert_eq!(state, State::REFUSED);
    assert_eq!((shadow, map, exclusion), ([5; 4], [6; 4], [7]));
}

#[test]
fn questions_of_the_start() {
    let whole = cases_record();
    assert_start_refused(&[], 1);
    assert_start_refused(&whole[..7], 1);
    for (v, f) in [(0, 4), (2049, 4), (4, 0), (4, 4097), (65535, 65535)] {
        assert_start_refused(&record(v, f, 1, &[(1, 2)]), 2);
    }
    assert_start_refused(&record(4, 4, 0, &[]), 3);
    assert_start_refused(&record(4, 4, 0, &[(1, 2)]), 3);
    assert_start_refused(&record(4, 4, 2, &[(1, 2)]), 3);
    assert_start_refused(&record(1, 4, 1, &[(0, 0), (1, 1)]), 3);
    let many: Vec<_> = (0..20).map(|page| (page, 0)).collect();
    assert_start_refused(&record(20, 4, 17, &many), 3);
    assert_start_refused(&whole[..8], 4);
    assert_start_refused(&whole[..11], 4);
    assert_start_refused(&[&whole[..], &[0]].concat(), 4);
    assert_start_refused(&record(4, 4, 1, &[(4, 2)]), 5);
    assert_start_refused(&record(4, 4, 1, &[(65535, 2)]), 5);
    assert_start_refused(&record(4, 4, 1, &[(1, 2), (1, 2)]), 5);
    assert_start_refused(&record(4, 4, 1, &[(2, 2), (1, 2)]), 5);
    assert_start_refused(&record(4, 4, 1, &[(1, 4)]), 6);
    assert_start_refused(&record(5, 4, 1, &[(1, 2)]), 7);
    assert_start_refused(&record(4, 9, 1, &[(1, 2)]), 7);
}

#[test]
fn questions_of_the_start_come_in_order() {
    assert_start_refused(&record(0, 4, 0, &[(9, 9)]), 2);
    assert_start_refused(&record(4, 4, 0, &[(9, 9)])[..9], 3);
    assert_start_refused(&record(4, 4, 1, &[(9, 9)])[..9], 4);
    assert_start_refused(&record(4, 4, 1, &[(1, 9), (1, 9)]), 5);
    assert_start_refused(&record(9, 9, 1, &[(1, 9)]), 6);
}

#[test]
fn the_largest_policy_starts() {
    let listed: Vec<_> = (0..2048).map(|page| (page, 4095 - page)).collect();
    let guard = Guard::started(&record(2048, 4096, 16, &listed));
    assert_eq!(guard.state.entry_pages, std::array::from_fn(|page| page as u16));
    assert_eq!(guard.state.mode, Mode::Kernel(0));
    assert!(guard.exclusion[..256].iter().all(|&byte| byte == 0));
    assert!(guard.exclusion[256..].iter().all(|&byte| byte == 0xff));
    assert_eq!((guard.shadow[2047], guard.map[2047]), (0x80_0401, 2048));
}

#[test]
fn frames_may_repeat_and_page_0_may_come_first() {
    let guard = Guard::started(&record(2, 9, 2, &[(0, 8), (1, 8)]));
    assert_eq!((guard.shadow, guard.map), (vec![0x8401, 0x8401], vec![8, 8]));
    assert_eq!(guard.exclusion, [0, 1]);
}

/// Every call in turn, with arguments that are accepted on [`ready`]'s guard.
type Call = fn(&mut Guard) -> Answer;
const CALLS: [(&str, Call); 10] = [
    ("synchronise one", |guard| guard.synchronise_one(0)),
    ("synchronise all", |guard| guard.synchronise_all()),
    ("fetch", |guard| guard.fetch(1)),
    ("write", |guard| guard.write(0, 1)),
    ("enter", |guard| guard.enter(0)),
    ("leave", |guard| guard.leave(3)),
    ("device write", |guard| guard.device_write(0, 1)),
    ("ask", |guard| guard.ask(2, 1)),
    ("commit", |guard| guard.commit()),
    ("drop", |guard| guard.drop_pending()),
];

/// A guard with an approved page, a kernel page and a user page.
fn busy_guard() -> Guard {
    let mut guard = Guard::cases();
    guard.kernel = vec![0x3003, 0x2003, 0, 0x3007];
    guard.synchronise_all().unwrap();
    guard
}

/// The same guard where the call suits: in user mode to enter, with a pair that is pending to commit and to drop.
fn ready(name: &str) -> Guard {
    let mut guard = busy_guard();
    match name {
        "enter" => assert_eq!(guard.leave(3), Ok((2, 0))),
        "commit" | "drop" => assert_eq!(guard.ask(2, 1), Ok((0, 0))),
        _ => {}
    }
    guard
}

/// The call answers the number and leaves state and tables alone.
fn assert_refused(guard: &Guard, name: &str, call: Call, number: u8) {
    let mut after = guard.clone();
    assert_eq!(call(&mut after), refused(number), "{name}");
    assert_eq!(&after, guard, "{name} changed something");
}

#[test]
fn question_7_of_the_state_concerns_every_call() {
    let broken: [fn(&mut State); 15] = [
        |state| state.v = 0,
        |state| state.v = 2049,
        |state| state.f = 0,
        |state| state.f = 4097,
        |state| state.e = 0,
        |state| state.e = 17,
        |state| state.mode = Mode::Kernel(4),
        |state| state.mode = Mode::User(65535),
        |state| state.devices = 0,
        |state| state.devices = 65,
        |state| state.devices = 65535,
        |state| state.pending = Some(Pair { page: 4, frame: 0 }),
        |state| state.pending = Some(Pair { page: 65535, frame: 3 }),
        |state| state.pending = Some(Pair { page: 0, frame: 4 }),
        |state| state.pending = Some(Pair { page: 3, frame: 65535 }),
    ];
    for (name, call) in CALLS {
        assert!(call(&mut ready(name)).is_ok(), "{name} is accepted");
        for break_state in broken {
            let mut guard = ready(name);
            break_state(&mut guard.state);
            // Tables and a list of the broken sizes, so that only the state is at fault.
            guard.devices = vec![guard.devices[0]; guard.state.devices.into()];
            guard.kernel.resize(guard.state.v.into(), 0);
            guard.shadow.resize(guard.state.v.into(), 0);
            guard.map.resize(guard.state.v.into(), NO_FRAME);
            guard.exclusion.resize(reference::vector_len(guard.state.f), 0);
            assert_refused(&guard, name, call, 7);
        }
    }
}

#[test]
fn question_7_concerns_the_tables_that_a_call_is_lent() {
    type Resize = fn(&mut Guard, i32);
    let tables: [(&str, Resize, &[&str]); 5] = [
        ("kernel", |g, by| g.kernel.resize(4_usize.wrapping_add_signed(by as isize), 1), &["sync"]),
        (
            "shadow",
            |g, by| g.shadow.resize(4_usize.wrapping_add_signed(by as isize), 1),
            &["sync", "fetch", "write", "enter", "leave", "ask", "commit"],
        ),
        (
            "map",
            |g, by| g.map.resize(4_usize.wrapping_add_signed(by as isize), 1),
            &["sync", "ask", "commit"],
        ),
        (
            "exclusion",
            |g, by| g.exclusion.resize(1_usize.wrapping_add_signed(by as isize), 0),
            &["sync", "write", "device write", "ask", "drop"],
        ),
        (
            "list of devices",
            |g, by| {
                let length = 2_usize.wrapping_add_signed(by as isize);
                g.devices.resize(length, Device { first: 0, last: 3 });
            },
            &["device write"],
        ),
    ];
    for (table, resize, lent_to) in tables {
        for by in [-1, 1] {
            for (name, call) in CALLS {
                let mut guard = ready(name);
                resize(&mut guard, by);
                if lent_to.iter().any(|prefix| name.starts_with(prefix)) {
                    assert_refused(&guard, name, call, 7);
                } else {
                    assert!(call(&mut guard).is_ok(), "{name} is not lent the {table}");
                }
            }
        }
    }
}

#[test]
fn question_7_comes_before_8_and_9() {
    let mut guard = busy_guard();
    guard.shadow.pop();
    guard.exclusion.pop();
    assert_refused(&guard, "write", |guard| guard.write(u64::MAX, 0), 7);
    assert_refused(&guard, "device write", |guard| guard.device_write(u64::MAX, 0), 7);
    assert_refused(&guard, "fetch", |guard| guard.fetch(4), 7);
    assert_refused(&guard, "synchronise one", |guard| guard.synchronise_one(4), 7);
    assert_refused(&guard, "enter", |guard| guard.enter(1), 7);
    assert_refused(&guard, "leave", |guard| guard.leave(4), 7);
    assert_refused(&guard, "ask", |guard| guard.ask(4, 4), 7);
}

#[test]
fn question_7_does_not_look_further() {
    let mut guard = busy_guard();
    guard.state.e = 16;
    guard.state.entry_pages = [65535; 16];
    guard.exclusion[0] |= 0xf0;
    guard.map[0] = 60000;
    guard.shadow[2] = u64::MAX;
    assert_eq!(guard.fetch(1), Ok((2, 2)));
}

#[test]
fn question_8_comes_before_9() {
    let guard = busy_guard();
    for length in [0, 17, u64::MAX] {
        assert_eq!(guard.write(u64::MAX, length), refused(8));
    }
    for length in [0, 1_048_577, u64::MAX] {
        assert_eq!(guard.device_write(u64::MAX, length), refused(8));
    }
}

#[test]
fn question_9_with_exact_sums() {
    let mut guard = busy_guard();
    for page in [4, 65536, u64::MAX] {
        assert_eq!(guard.synchronise_one(page), refused(9));
        assert_eq!(guard.fetch(page), refused(9));
        assert_eq!(guard.leave(page), refused(9));
        assert_eq!(guard.enter(page), refused(9));
    }
    assert_eq!(guard.write(16383, 2), refused(9));
    assert_eq!(guard.write(u64::MAX, 1), refused(9));
    assert_eq!(guard.write(u64::MAX, 16), refused(9));
    assert_eq!(guard.device_write(u64::MAX, 1), refused(9));
    assert_eq!(guard.device_write(u64::MAX - 4095, 4097), refused(9));
    assert_eq!(guard.write(16383, 1), Ok((3, 3)));
}

#[test]
fn question_9_of_an_entry_page_beyond_v() {
    let mut guard = busy_guard();
    guard.leave(3).unwrap();
    guard.state.entry_pages[0] = 4;
    assert_refused(&guard, "enter", |guard| guard.enter(0), 9);
}

#[test]
fn question_9_comes_before_10_and_10_before_11() {
    let mut guard = busy_guard();
    assert_eq!(guard.enter(1), refused(9));
    assert_eq!(guard.enter(0), refused(10));
    guard.shadow[1] = 0;
    assert_eq!(guard.enter(0), refused(10));
    guard.leave(3).unwrap();
    assert_eq!(guard.enter(0), refused(11));
    assert_eq!(guard.leave(4), refused(9));
    assert_eq!(guard.leave(2), refused(10));
}

#[test]
fn enter_asks_for_the_approved_mark() {
    let mut guard = busy_guard();
    guard.leave(3).unwrap();
    guard.shadow[1] &= !0x400;
    assert_refused(&guard, "enter", |guard| guard.enter(0), 12);
}

#[test]
fn leave_asks_for_user_without_kernel_no_execute() {
    let mut guard = busy_guard();
    assert_eq!(guard.leave(2), refused(11));
    assert_eq!(guard.leave(0), refused(12));
    assert_eq!(guard.leave(1), refused(12));
    guard.synchronise(3, 0x3007 | NO_EXECUTE).unwrap();
    assert_refused(&guard, "leave", |guard| guard.leave(3), 12);
}

#[test]
fn fetch_by_mode() {
    let mut guard = busy_guard();
    assert_eq!(guard.fetch(2), refused(11));
    assert_eq!(guard.fetch(0), refused(12));
    assert_eq!(guard.fetch(3), refused(12));
    assert_eq!(guard.fetch(1), Ok((2, 2)));
    assert_eq!(guard.leave(3), Ok((2, 0)));
    assert_eq!(guard.fetch(1), refused(12));
    assert_eq!(guard.fetch(3), Ok((3, 3)));
    assert_eq!(guard.state.mode, Mode::User(3));
    // Made up: executable but not user, and a frame beyond F, about which a fetch does not ask.
    guard.shadow[0] = 0x3001;
    assert_eq!(guard.fetch(0), refused(12));
    guard.shadow[0] = 0x000f_ffff_ffff_f005;
    assert_eq!(guard.fetch(0), Ok(((1 << 40) - 1, (1 << 40) - 1)));
    assert_eq!(guard.state.mode, Mode::User(0));
}

#[test]
fn write_across_two_pages() {
    let mut guard = Guard::started(&record(5, 8, 1, &[(4, 2)]));
    guard.kernel = vec![0x3003, 0x5003, 0x6001, 0, 0x2003];
    guard.synchronise_all().unwrap();
    assert_eq!(guard.write(4095, 1), Ok((3, 3)));
    assert_eq!(guard.write(4095, 2), Ok((3, 5)));
    assert_eq!(guard.write(4081, 16), Ok((3, 5)));
    assert_eq!(guard.write(8191, 2), refused(12));
    assert_eq!(
        guard.write(12287, 2),
        refused(11),
        "11 of the second page comes before 12 of the first"
    );
    assert_eq!(guard.write(16384, 1), refused(12));
}

#[test]
fn write_in_user_mode_needs_user_pages() {
    let mut guard = Guard::started(&record(4, 8, 1, &[(3, 2)]));
    guard.kernel = vec![0x3007, 0x5003, 0x5007, 0x2003];
    guard.synchronise_all().unwrap();
    guard.leave(0).unwrap();
    assert_eq!(guard.write(0, 1), Ok((3, 3)));
    assert_eq!(guard.write(4095, 2), refused(12));
    assert_eq!(guard.write(4096, 1), refused(12));
    assert_eq!(guard.write(8192, 16), Ok((5, 5)));
}

#[test]
fn write_asks_13_of_both_frames() {
    let mut guard = Guard::started(&record(4, 9, 1, &[(3, 8)]));
    guard.shadow[0] = 0x3003;
    for (second, number) in [(0x8003, 13), (0x9003, 13), (0xf_f003, 13), (0xf_ffff_ffff_f003, 13)] {
        guard.shadow[1] = second;
        assert_eq!(guard.write(4096, 1), refused(number));
        assert_eq!(guard.write(4095, 2), refused(number));
        assert_eq!(guard.write(4095, 1), Ok((3, 3)));
    }
    // 12 of the second page comes before 13 of the first.
    guard.shadow[2] = 0x3001;
    assert_eq!(guard.write(8191, 2), refused(12));
}

#[test]
fn device_write_over_every_run_of_frames() {
    let listed: Vec<_> = [3, 17, 40, 41, 255, 300].into_iter().enumerate().collect();
    let listed: Vec<_> = listed.into_iter().map(|(page, frame)| (page as u16, frame)).collect();
    let guard = Guard::started(&record(8, 310, 1, &listed));
    for first in 0..310u64 {
        for last in first..310.min(first + 256) {
            let free = !listed.iter().any(|&(_, f)| (first..=last).contains(&f.into()));
            let expected = if free { Ok((first, last)) } else { refused(13) };
            let length = (last - first) * 4096 + 1;
            assert_eq!(guard.device_write(first * 4096, length), expected);
            if last > first {
                assert_eq!(guard.device_write(first * 4096 + 4095, length - 4095), expected);
            }
        }
    }
    assert_eq!(guard.device_write(310 * 4096, 1), refused(9));
    assert_eq!(guard.device_write(42 * 4096, 1_048_576), refused(13));
    assert_eq!(guard.device_write(42 * 4096, 213 * 4096), Ok((42, 254)));
}

#[test]
fn a_damaged_map_number_counts_as_a_frame() {
    let mut guard = busy_guard();
    guard.map[0] = 60000;
    assert_eq!(guard.synchronise_one(0), Ok((1, 0)));
    assert_eq!(guard.shadow[0], 60000 << 12 | 0x401);
}

#[test]
fn a_kernel_frame_has_forty_bits() {
    let mut guard = Guard::cases();
    for frame in [4, 5, 4096, 65538, 1 << 20, (1 << 40) - 1] {
        assert_eq!(guard.synchronise(0, frame << 12 | 3), Ok((0, 0)), "frame {frame}");
        assert_eq!(guard.map[0], NO_FRAME);
    }
    // Bits 5 to 11 are ignored.
    assert_eq!(guard.synchronise(0, 0x3fe3), Ok((1, 0)));
    assert_eq!(guard.shadow[0], NO_EXECUTE | 0x3003);
}

/// K1: each of bits 52 to 62 makes an entry absent: an ordinary page, an alias of the approved frame 2, and the approved page 1.
#[test]
fn a_reserved_bit_makes_an_entry_absent() {
    for bit in 52..=62 {
        let mut guard = Guard::cases();
        assert_eq!(guard.synchronise(0, 0x3003), Ok((1, 0)));
        for (page, entry, changed) in [(0, 0x3003, 1), (2, 0x2003, 0), (1, 0x2003, 1)] {
            assert_eq!(guard.synchronise(page, 1 << bit | entry), Ok((changed, 0)), "bit {bit}");
            assert_eq!(guard.shadow[page], 0, "bit {bit}");
        }
        assert_eq!(guard.map, [NO_FRAME, 2, NO_FRAME, NO_FRAME]);
        assert_eq!(guard.synchronise(1, 0x3003), Ok((1, 0)));
        assert_eq!(guard.shadow[1], 0x2401, "the page is approved again");
    }
}

/// The bits on either side are no reserved ones: bit 51 belongs to the frame, bit 63 is no-execute.
#[test]
fn bits_51_and_63_are_not_reserved() {
    let mut guard = Guard::cases();
    assert_eq!(guard.synchronise(1, 1 << 51 | NO_EXECUTE | 0x2003), Ok((0, 0)));
    assert_eq!(guard.shadow[1], 0x2401);
    assert_eq!(guard.synchronise(0, NO_EXECUTE | 0x3003), Ok((1, 0)));
    assert_eq!(guard.shadow[0], NO_EXECUTE | 0x3203);
}

/// K3: an ordinary entry carries write-through (bit 3) and cache disable (bit 4), each for itself: C5 to C8 with these bits.
#[test]
fn an_ordinary_entry_carries_the_cache_bits() {
    let kernel_mode = [
        (0x300b, 0x8000_0000_0000_300b),
        (0x3013, 0x8000_0000_0000_3013),
        (0x301b, 0x8000_0000_0000_301b),
    ];
    let user_mode = [
        (0x300f, 0x300f),
        (0x3017, 0x3017),
        (0x301f, 0x301f),
        (0x8000_0000_0000_300f, 0x8000_0000_0000_320f),
        (0x8000_0000_0000_3017, 0x8000_0000_0000_3217),
        (0x8000_0000_0000_301f, 0x8000_0000_0000_321f),
        (0x300b, 0x8000_0000_0000_300b),
        (0x3013, 0x8000_0000_0000_3013),
        (0x301b, 0x8000_0000_0000_301b),
    ];
    for (entry, shadow) in kernel_mode {
        assert_carried(Guard::cases(), entry, shadow);
    }
    for (entry, shadow) in user_mode {
        assert_carried(Guard::cases_in_user_mode(), entry, shadow);
    }
}

/// The entry is carried, by a call for one page and by one for all, and is no change the second time.
fn assert_carried(mut guard: Guard, entry: u64, shadow: u64) {
    assert_eq!(guard.synchronise(0, entry), Ok((1, 0)), "{entry:x}");
    assert_eq!(guard.shadow[0], shadow, "{entry:x}");
    guard.shadow = vec![0; 4];
    assert_eq!(guard.synchronise_all(), Ok((1, 0)), "{entry:x}");
    assert_eq!(guard.shadow, [shadow, 0, 0, 0], "{entry:x}");
    assert_eq!(guard.synchronise_one(0), Ok((0, 0)), "{entry:x}");
}

/// K3: bits 3 and 4 are carried whatever bits 5 to 11 are, and go with the kernel's.
#[test]
fn the_cache_bits_come_and_go() {
    let mut guard = Guard::cases();
    for (entry, changed, shadow) in [
        (0x3003, 1, 0x3003),
        (0x301b, 1, 0x301b),
        (0x3ffb, 0, 0x301b),
        (0x3feb, 1, 0x300b),
        (0x3ff3, 1, 0x3013),
        (0x3003, 1, 0x3003),
    ] {
        assert_eq!(guard.synchronise(0, entry), Ok((changed, 0)), "{entry:x}");
        assert_eq!(guard.shadow[0], NO_EXECUTE | shadow, "{entry:x}");
    }
    // Absent: bit 0 clear, frame F, a reserved bit.
    for entry in [0x301a, 0x401b, 1 << 52 | 0x301b, 1 << 62 | 0x301b] {
        guard.shadow[0] = NO_EXECUTE | 0x301b;
        assert_eq!(guard.synchronise(0, entry), Ok((1, 0)), "{entry:x}");
        assert_eq!(guard.shadow[0], 0, "{entry:x}");
    }
}

/// K3: an approved entry has neither, be the page approved before or an alias that joins.
#[test]
fn an_approved_entry_carries_no_cache_bit() {
    for bits in [0x08, 0x10, 0x18] {
        let mut guard = Guard::cases();
        assert_eq!(guard.synchronise(1, 0x2003 | bits), Ok((0, 0)), "{bits:x}");
        assert_eq!(guard.synchronise(1, 0x3003 | bits), Ok((0, 0)), "{bits:x}");
        assert_eq!(guard.synchronise(0, 0x2003 | bits), Ok((1, 1)), "{bits:x}");
        assert_eq!(guard.shadow, [0x2401, 0x2401, 0, 0], "{bits:x}");
        guard.state.mode = Mode::User(1);
        assert_eq!(guard.synchronise_all(), Ok((2, 0)), "{bits:x}");
        assert_eq!(guard.shadow, [NO_EXECUTE | 0x2401, NO_EXECUTE | 0x2401, 0, 0], "{bits:x}");
    }
}

/// K3: a switch keeps both bits, on a made-up approved entry too.
#[test]
fn a_switch_keeps_the_cache_bits() {
    let mut guard = Guard::cases();
    guard.kernel = vec![0x3013, 0x2003, 0x100b, 0x301f];
    assert_eq!(guard.synchronise_all(), Ok((3, 0)));
    guard.shadow[1] = 0x2419;
    let in_kernel_mode =
        [0x8000_0000_0000_3013, 0x2419, 0x8000_0000_0000_100b, 0x8000_0000_0000_301f];
    let in_user_mode =
        [0x8000_0000_0000_3013, 0x8000_0000_0000_2419, 0x8000_0000_0000_100b, 0x301f];
    assert_eq!(guard.shadow, in_kernel_mode);
    assert_eq!(guard.leave(3), Ok((2, 0)));
    assert_eq!(guard.shadow, in_user_mode);
    assert_eq!(guard.enter(0), Ok((2, 0)));
    assert_eq!(guard.shadow, in_kernel_mode);
}

#[test]
fn an_approved_entry_copies_nothing_else() {
    let mut guard = Guard::cases();
    assert_eq!(guard.synchronise(0, NO_EXECUTE | 0x2007), Ok((1, 1)));
    assert_eq!(guard.shadow[0], 0x2401);
}

#[test]
fn a_switch_leaves_absent_entries_and_other_bits_alone() {
    let mut guard = busy_guard();
    guard.shadow[2] = 0xffff_ffff_ffff_fffe;
    guard.shadow[0] = 0x7ff0_0000_0000_3ff9;
    assert_eq!(guard.leave(3), Ok((3, 0)));
    assert_eq!(guard.shadow[2], 0xffff_ffff_ffff_fffe);
    assert_eq!(guard.shadow[0], 0xfff0_0000_0000_3ff9);
    assert_eq!(guard.enter(0), Ok((3, 0)));
    assert_eq!(guard.shadow[0], 0x7ff0_0000_0000_3ff9, "bit 10 decides, whatever bits 2 and 9 say");
    assert_eq!(guard.state.mode, Mode::Kernel(1));
}

#[test]
fn synchronising_without_approval_takes_the_kernel_frame() {
    let mut guard = Guard::cases();
    guard.kernel = vec![0x2003, 0x3007, 0, 0x4003];
    let Guard { state, kernel, shadow, map, exclusion, .. } = &mut guard;
    let answer =
        reference::without_approval::synchronise_all(state, kernel, shadow, map, exclusion);
    assert_eq!(answer, Ok((2, 0)));
    assert_eq!(shadow, &[NO_EXECUTE | 0x2003, NO_EXECUTE | 0x3007, 0, 0]);
    assert_eq!(map, &[NO_FRAME, 2, NO_FRAME, NO_FRAME]);
    kernel[0] = 0x1001;
    let answer =
        reference::without_approval::synchronise_one(state, kernel, shadow, map, exclusion, 0);
    assert_eq!((answer, shadow[0]), (Ok((1, 0)), NO_EXECUTE | 0x1001));
}
