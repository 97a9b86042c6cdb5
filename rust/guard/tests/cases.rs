//! The cases and the worked example of document 01, K3's bits, and calls at the edges of their arguments through the safe guard.
//! C6 to C8 stand on the started guard with the mode replaced by user, so they call the archive's functions.

mod common;
mod contents;

use common::one_device;
use contents::contents;
use guard::archive::{self, MODE_USER, NUMBERS, STATE_MODE};
use guard::{Frames, Guard, Mode, Refusal, Synchronised, NO_FRAME};
use inputs::{record, KernelEntry, Random};

const NONE_CHANGED: Synchronised = Synchronised { changed: 0, joined: 0 };
const ONE_CHANGED: Synchronised = Synchronised { changed: 1, joined: 0 };

/// The policy of the cases: V 4, F 4, page 1 with frame 2.
fn started() -> Guard {
    Guard::start(&record(4, 4, 1, &[(1, 2)]), one_device()).expect("the start is accepted")
}

/// A kernel table with one entry.
fn kernel(page: usize, entry: u64) -> [u64; 4] {
    let mut kernel = [0; 4];
    kernel[page] = entry;
    kernel
}

#[test]
fn c1_start() {
    let guard = started();
    assert_eq!((guard.pages(), guard.frames(), guard.entry_pages()), (4, 4, &[1][..]));
    assert_eq!(guard.mode(), Mode::Kernel(1));
    assert_eq!(guard.shadow(), [0, 0x2401, 0, 0]);
    assert_eq!(guard.map(), [NO_FRAME, 2, NO_FRAME, NO_FRAME]);
    assert_eq!(guard.exclusion(), [0x04]);
}

#[test]
fn c2_to_c5_and_c12_in_kernel_mode() {
    let cases = [
        (0, 0x2003, Synchronised { changed: 1, joined: 1 }, 0x2401, 2),
        (1, 0x3003, NONE_CHANGED, 0x2401, 2),
        (0, 0x4003, NONE_CHANGED, 0, NO_FRAME),
        (0, 0x3003, ONE_CHANGED, 0x8000_0000_0000_3003, NO_FRAME),
        (1, 0x2000, ONE_CHANGED, 0, 2),
    ];
    for (page, entry, counts, shadow, approval) in cases {
        let mut guard = started();
        assert_eq!(guard.synchronise_page(&kernel(page, entry), page as u64), Ok(counts));
        assert_eq!((guard.shadow()[page], guard.map()[page]), (shadow, approval), "{entry:#x}");
    }
}

#[test]
fn c6_to_c8_in_user_mode() {
    let cases = [
        (3, 0x3007, 0x3007),
        (3, 0x8000_0000_0000_3007, 0x8000_0000_0000_3207),
        (0, 0x3003, 0x8000_0000_0000_3003),
    ];
    for (page, entry, expected) in cases {
        let guard = started();
        let mut state = *guard.state();
        state[STATE_MODE] = MODE_USER;
        let (mut shadow, mut map) = (guard.shadow().to_vec(), guard.map().to_vec());
        let mut numbers = [7; NUMBERS];
        let number = archive::sync_page(
            &state,
            &kernel(page, entry),
            &mut shadow,
            &mut map,
            guard.exclusion(),
            page as u64,
            &mut numbers,
        );
        assert_eq!((number, numbers, shadow[page]), (0, [1, 0], expected));
    }
}

#[test]
fn c9_to_c11_lengths_and_ends() {
    let mut guard = started();
    assert_eq!(guard.device_write(0, 16383, 1), Ok(Frames { first: 3, last: 3 }));
    assert_eq!(guard.device_write(0, 16383, 2), Err(Refusal::DoesNotExist));
    assert_eq!(guard.device_write(0, 4096, 4096), Ok(Frames { first: 1, last: 1 }));
    assert_eq!(guard.device_write(0, 4096, 4097), Err(Refusal::Excluded));
    guard.synchronise_page(&kernel(0, 0x3003), 0).unwrap();
    assert_eq!(guard.write(0, 0), Err(Refusal::LengthOutOfRange));
    assert_eq!(guard.write(0, 16), Ok(Frames { first: 3, last: 3 }));
    assert_eq!(guard.write(0, 17), Err(Refusal::LengthOutOfRange));
}

#[test]
fn worked_example() {
    let mut guard = started();
    let mut kernel = kernel(0, 0x2003);
    assert_eq!(guard.synchronise_page(&kernel, 0), Ok(Synchronised { changed: 1, joined: 1 }));
    assert_eq!(guard.write(0, 1), Err(Refusal::NotPermitted));
    kernel[3] = 0x3007;
    assert_eq!(guard.synchronise_page(&kernel, 3), Ok(ONE_CHANGED));
    assert_eq!(guard.leave(3), Ok(3));
    assert_eq!(guard.mode(), Mode::User(3));
    assert_eq!(guard.device_write(0, 8192, 1), Err(Refusal::Excluded));
    assert_eq!(guard.shadow(), [0x8000_0000_0000_2401, 0x8000_0000_0000_2401, 0, 0x3007]);
    assert_eq!(guard.fetch(3), Ok(3));
    assert_eq!(guard.enter(0), Ok(3));
    assert_eq!(guard.mode(), Mode::Kernel(1));
    assert_eq!(guard.fetch(0), Ok(2));
    assert_eq!(guard.mode(), Mode::Kernel(0));
}

/// K3: an ordinary entry carries bits 3 and 4; an approved page and an alias have neither. Switches keep them.
#[test]
fn device_registers_stay_uncached() {
    const NO_EXECUTE: u64 = 1 << 63;
    for bits in [0, 0x08, 0x10, 0x18] {
        let mut guard = started();
        let kernel = [0x2003 | bits, 0x2001 | bits, 0x3006 | bits, 0x3007 | bits];
        let in_kernel_mode = [0x2401, 0x2401, 0, NO_EXECUTE | 0x3007 | bits];
        let in_user_mode = [NO_EXECUTE | 0x2401, NO_EXECUTE | 0x2401, 0, 0x3007 | bits];
        assert_eq!(guard.synchronise_all(&kernel), Ok(Synchronised { changed: 2, joined: 1 }));
        assert_eq!(guard.shadow(), in_kernel_mode);
        assert_eq!((guard.leave(3), guard.shadow()), (Ok(3), &in_user_mode[..]));
        assert_eq!(guard.write(3 * 4096, 4), Ok(Frames { first: 3, last: 3 }));
        assert_eq!(guard.synchronise_all(&kernel), Ok(NONE_CHANGED));
        assert_eq!((guard.enter(0), guard.shadow()), (Ok(3), &in_kernel_mode[..]));
        let counts = Synchronised { changed: (bits != 0).into(), joined: 0 };
        assert_eq!(guard.synchronise_page(&[0, 0, 0, 0x3007], 3), Ok(counts));
        assert_eq!(guard.shadow()[3], NO_EXECUTE | 0x3007);
        assert_eq!(guard.synchronise_page(&kernel, 3), Ok(counts));
        assert_eq!(guard.shadow(), in_kernel_mode);
    }
}

#[test]
fn refused_starts() {
    let starts: [(&[u8], Refusal); 7] = [
        (&[], Refusal::RecordTooShort),
        (&[4, 0, 4], Refusal::RecordTooShort),
        (&record(65535, 65535, 1, &[(1, 2)]), Refusal::SizeOutOfRange),
        (&record(4, 4, 0, &[(1, 2)]), Refusal::CountOutOfRange),
        (&record(4, 4, 1, &[(1, 2)])[..11], Refusal::RecordLength),
        (&record(4, 4, 1, &[(4, 2)]), Refusal::ListedPage),
        (&record(4, 4, 1, &[(1, 4)]), Refusal::ListedFrame),
    ];
    for (policy, refusal) in starts {
        assert_eq!(Guard::start(policy, one_device()), Err(refusal));
    }
}

/// Nothing is cut to a narrower width: a number that is 1 in its lower bits is not taken for 1.
#[test]
fn wide_numbers_are_refused() {
    let mut guard = started();
    let kernel = [0x3007; 4];
    guard.synchronise_all(&kernel).unwrap();
    for wide in [4, 65536, 65537, 1 << 32 | 1, 1 << 63 | 1, u64::MAX] {
        assert_eq!(guard.synchronise_page(&kernel, wide), Err(Refusal::DoesNotExist));
        assert_eq!(guard.fetch(wide), Err(Refusal::DoesNotExist));
        assert_eq!(guard.leave(wide), Err(Refusal::DoesNotExist));
        assert_eq!(guard.enter(wide), Err(Refusal::DoesNotExist));
        assert_eq!(guard.write(1, wide << 5 | 1), Err(Refusal::LengthOutOfRange));
        assert_eq!(guard.device_write(0, 1, wide << 21 | 1), Err(Refusal::LengthOutOfRange));
    }
    for address in [16384, 1 << 32, 1 << 63, u64::MAX - 15, u64::MAX] {
        assert_eq!(guard.write(address, 16), Err(Refusal::DoesNotExist));
        assert_eq!(guard.device_write(0, address, 16), Err(Refusal::DoesNotExist));
    }
}

/// The largest policy, and a kernel table of every other length.
#[test]
fn largest_policy_and_other_kernel_tables() {
    let listed: Vec<_> = (0..2048).map(|page| (page, 4095 - page)).collect();
    let mut guard = Guard::start(&record(2048, 4096, 16, &listed), one_device()).unwrap();
    assert_eq!(guard.entry_pages(), (0..16).collect::<Vec<_>>());
    let before = contents(&guard);
    for length in [0, 1, 2047, 2049, 4096] {
        let kernel = vec![1; length];
        assert_eq!(guard.synchronise_page(&kernel, 0), Err(Refusal::StateOrTable));
        assert_eq!(guard.synchronise_all(&kernel), Err(Refusal::StateOrTable));
    }
    assert_eq!(contents(&guard), before);
    assert_eq!(
        guard.synchronise_all(&vec![0; 2048]),
        Ok(Synchronised { changed: 2048, joined: 0 })
    );
    assert_eq!(guard.map(), before.map);
}

/// Random arguments at full width: every call returns, and a refused one changes nothing.
#[test]
fn every_call_is_safe_on_every_input() {
    let mut random = Random::new(1);
    let mut guard = started();
    let mut accepted_calls = 0;
    for _ in 0..20_000 {
        let length = if random.one_in(4) { random.below(9) } else { 4 };
        let kernel: Vec<_> =
            (0..length).map(|_| KernelEntry::random(&mut random, 4).bits()).collect();
        let (wide, near) = (random.word(), random.below(6));
        let number = if random.one_in(2) { wide } else { near };
        let device = if random.one_in(4) { random.word() } else { 0 };
        let before = contents(&guard);
        let accepted = match random.below(10) {
            0 => guard.synchronise_page(&kernel, number).is_ok(),
            1 => guard.synchronise_all(&kernel).is_ok(),
            2 => guard.fetch(number).is_ok(),
            3 => guard.write(number.wrapping_mul(4090), near).is_ok(),
            4 => guard.enter(number).is_ok(),
            5 => guard.leave(number).is_ok(),
            6 => guard.ask(number, if random.one_in(4) { random.word() } else { near }).is_ok(),
            7 => guard.commit().is_ok(),
            8 => guard.drop_pending().is_ok(),
            _ => guard.device_write(device, number.wrapping_mul(4090), near).is_ok(),
        };
        assert!(accepted || contents(&guard) == before);
        accepted_calls += u64::from(accepted);
    }
    assert!(accepted_calls > 1000, "{accepted_calls}");
}
