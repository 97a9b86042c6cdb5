//! The twelve cases of document 01 and its worked example, called through the library.
//! C6 to C8 stand on the started guard with the mode replaced by user.

mod common;

use common::{refused, Guard};
use reference::{Mode, NO_FRAME};

#[test]
fn c1_start() {
    let guard = Guard::cases();
    assert_eq!(guard.shadow, [0, 0x2401, 0, 0]);
    assert_eq!(guard.exclusion, [0x04]);
    assert_eq!(guard.map, [NO_FRAME, 2, NO_FRAME, NO_FRAME]);
    assert_eq!((guard.state.v, guard.state.f, guard.state.e), (4, 4, 1));
    assert_eq!(guard.state.entry_pages, [1, 0, 0, 0, 0, 0, 0, 0, 0, 0, 0, 0, 0, 0, 0, 0]);
    assert_eq!(guard.state.mode, Mode::Kernel(1));
}

/// Synchronises one page from a kernel entry and gives the shadow entry.
fn shadow_from(mut guard: Guard, page: usize, entry: u64, joined: u64) -> u64 {
    let before = guard.shadow[page];
    let answer = guard.synchronise(page, entry);
    let changed = u64::from(guard.shadow[page] != before);
    assert_eq!(answer, Ok((changed, joined)));
    guard.shadow[page]
}

#[test]
fn c2_an_alias_joins() {
    let mut guard = Guard::cases();
    assert_eq!(guard.synchronise(0, 0x2003), Ok((1, 1)));
    assert_eq!((guard.shadow[0], guard.map[0]), (0x2401, 2));
}

#[test]
fn c3_an_approved_page_keeps_its_frame() {
    assert_eq!(shadow_from(Guard::cases(), 1, 0x3003, 0), 0x2401);
}

#[test]
fn c4_a_frame_beyond_the_last() {
    assert_eq!(shadow_from(Guard::cases(), 0, 0x4003, 0), 0);
}

#[test]
fn c5_an_ordinary_page_in_kernel_mode() {
    assert_eq!(shadow_from(Guard::cases(), 0, 0x3003, 0), 0x8000_0000_0000_3003);
}

#[test]
fn c6_a_user_page_in_user_mode() {
    assert_eq!(shadow_from(Guard::cases_in_user_mode(), 3, 0x3007, 0), 0x3007);
}

#[test]
fn c7_a_no_execute_user_page_in_user_mode() {
    let entry = shadow_from(Guard::cases_in_user_mode(), 3, 0x8000_0000_0000_3007, 0);
    assert_eq!(entry, 0x8000_0000_0000_3207);
}

#[test]
fn c8_a_kernel_page_in_user_mode() {
    assert_eq!(shadow_from(Guard::cases_in_user_mode(), 0, 0x3003, 0), 0x8000_0000_0000_3003);
}

#[test]
fn c9_a_device_write_at_the_end_of_memory() {
    let guard = Guard::cases();
    assert_eq!(guard.device_write(16383, 1), Ok((3, 3)));
    assert_eq!(guard.device_write(16383, 2), refused(9));
}

#[test]
fn c10_a_device_write_up_to_an_excluded_frame() {
    let guard = Guard::cases();
    assert_eq!(guard.device_write(4096, 4096), Ok((1, 1)));
    assert_eq!(guard.device_write(4096, 4097), refused(13));
}

#[test]
fn c11_lengths_of_a_write() {
    let mut guard = Guard::cases();
    guard.synchronise(0, 0x3003).unwrap();
    assert_eq!(guard.write(0, 0), refused(8));
    assert_eq!(guard.write(0, 1), Ok((3, 3)));
    assert_eq!(guard.write(0, 16), Ok((3, 3)));
    assert_eq!(guard.write(0, 17), refused(8));
}

#[test]
fn c12_an_absent_page_keeps_its_approval() {
    let mut guard = Guard::cases();
    assert_eq!(guard.synchronise(1, 0x2000), Ok((1, 0)));
    assert_eq!((guard.shadow[1], guard.map[1]), (0, 2));
}

#[test]
fn worked_example() {
    let mut guard = Guard::cases();
    assert_eq!(guard.synchronise(0, 0x2003), Ok((1, 1)));
    assert_eq!(guard.write(0, 1), refused(12));
    assert_eq!(guard.synchronise(3, 0x3007), Ok((1, 0)));
    assert_eq!(guard.leave(3), Ok((3, 0)));
    assert_eq!(guard.state.mode, Mode::User(3));
    assert_eq!(guard.device_write(8192, 1), refused(13));
    assert_eq!(guard.shadow, [0x8000_0000_0000_2401, 0x8000_0000_0000_2401, 0, 0x3007]);
}
