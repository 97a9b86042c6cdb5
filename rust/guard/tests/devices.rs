//! Devices and their windows through the safe guard: request K5 sentence by sentence.
//! What the safe guard cannot pass, other counts, lists and state runs, goes through the archive's functions.

mod contents;

use std::mem::{align_of, offset_of, size_of};

use contents::contents;
use guard::archive::{self, NUMBERS, STATE_DEVICES, STATE_WORDS};
use guard::{Device, Frames, Guard, Options, Refusal, MAX_DEVICES};
use inputs::record;

const MUSIC: u64 = 0;
const BILLING: u64 = 1;
const CLOSED: u64 = 2;
const OPEN: u64 = 3;

/// V 4, F 16, page 1 with frame 2 and page 2 with frame 8.
fn policy() -> Vec<u8> {
    record(4, 16, 1, &[(1, 2), (2, 8)])
}

/// A music card and a billing card, one with an empty window, and one whose window has more frames than there are.
fn cards() -> Options {
    let windows = [(4, 7), (9, 9), (8, 7), (0, u16::MAX)];
    windows
        .into_iter()
        .fold(Options::new(), |options, (first, last)| options.device(Device::new(first, last)))
}

fn started() -> Guard {
    Guard::start(&policy(), cards()).expect("the start is accepted")
}

/// As many devices, all open.
fn open(count: usize) -> Options {
    (0..count).fold(Options::new(), |options, _| options.device(Device::new(0, 15)))
}

/// Frames as an address, or as a length.
fn frames(count: u64) -> u64 {
    4096 * count
}

fn accepted(first: u64, last: u64) -> Result<Frames, Refusal> {
    Ok(Frames { first, last })
}

/// The list crosses as the header's struct.
#[test]
fn a_device_is_laid_out_as_in_c() {
    assert_eq!((size_of::<Device>(), align_of::<Device>()), (4, 2));
    assert_eq!((offset_of!(Device, first), offset_of!(Device, last)), (0, 2));
}

/// "the state gains the number of devices, 1 to 64, which the start is given"
#[test]
fn a_started_guard_has_its_devices() {
    let guard = started();
    assert_eq!(guard.state()[STATE_DEVICES], 4);
    assert_eq!(guard.devices()[..2], [Device::new(4, 7), Device::new(9, 9)]);
    for count in [1, 2, MAX_DEVICES] {
        let guard = Guard::start(&policy(), open(count)).unwrap();
        assert_eq!((guard.state()[STATE_DEVICES], guard.devices().len()), (count as u64, count));
    }
}

/// "a number outside that gives 3 at the start", after 2 and before 4.
#[test]
fn a_number_of_devices_out_of_range_gives_3() {
    for count in [0, MAX_DEVICES + 1, 65536, 65537] {
        let start = |policy: &[u8]| Guard::start(policy, open(count)).unwrap_err();
        assert_eq!(start(&policy()), Refusal::CountOutOfRange, "{count}");
        assert_eq!(start(&policy()[..15]), Refusal::CountOutOfRange, "{count}");
        assert_eq!(start(&record(4, 0, 1, &[(1, 2)])), Refusal::SizeOutOfRange, "{count}");
        assert_eq!(start(&policy()[..7]), Refusal::RecordTooShort, "{count}");
    }
}

/// A count is not cut: 65,537 is not taken for 1.
#[test]
fn a_wide_number_of_devices_gives_3() {
    for count in [0, 65, 65536, 65537, 1 << 32 | 1, 1 << 63 | 1, u64::MAX] {
        let (mut state, mut shadow, mut map) = ([9; STATE_WORDS], [9; 4], [9; 4]);
        let (mut exclusion, mut numbers) = ([9; 2], [9; NUMBERS]);
        let number = archive::start(
            &policy(),
            count,
            &mut state,
            &mut shadow,
            &mut map,
            &mut exclusion,
            &mut numbers,
        );
        assert_eq!((number, numbers), (3, [0, 0]), "{count}");
        assert_eq!((state, shadow, map, exclusion), ([9; STATE_WORDS], [9; 4], [9; 4], [9; 2]));
    }
}

#[test]
fn a_window_includes_both_ends() {
    let mut guard = started();
    assert_eq!(guard.device_write(MUSIC, frames(4), frames(4)), accepted(4, 7));
    assert_eq!(guard.device_write(MUSIC, frames(4), 1), accepted(4, 4));
    assert_eq!(guard.device_write(MUSIC, frames(8) - 1, 1), accepted(7, 7));
    assert_eq!(guard.device_write(BILLING, frames(9), frames(1)), accepted(9, 9));
    for (device, address, length) in [
        (MUSIC, frames(4) - 1, 1),
        (MUSIC, frames(4) - 1, 2),
        (MUSIC, frames(8) - 1, 2),
        (MUSIC, frames(9), 1),
        (MUSIC, frames(3), frames(7)),
        (BILLING, frames(9), frames(1) + 1),
        (BILLING, frames(9) - 1, frames(1)),
    ] {
        let answer = guard.device_write(device, address, length);
        assert_eq!(answer, Err(Refusal::OutsideWindow), "{device} {address} {length}");
    }
}

#[test]
fn a_window_with_first_above_last_has_no_frame() {
    let mut guard = started();
    for frame in 0..16 {
        let answer = guard.device_write(CLOSED, frames(frame), 1);
        assert_eq!(answer, Err(Refusal::OutsideWindow), "{frame}");
    }
    assert_eq!(guard.device_write(CLOSED, frames(7), frames(2)), Err(Refusal::OutsideWindow));
}

/// The order is 8, 18, 9, 19, 13; each write fails the questions after its own too.
#[test]
fn questions_of_a_device_write_in_order() {
    let mut guard = started();
    let writes = [
        (4, u64::MAX, 0, Refusal::LengthOutOfRange),
        (4, frames(2), (1 << 20) + 1, Refusal::LengthOutOfRange),
        (4, frames(16), 1, Refusal::NoDevice),
        (4, frames(2), 1, Refusal::NoDevice),
        (CLOSED, frames(16), 1, Refusal::DoesNotExist),
        (MUSIC, frames(2), frames(15), Refusal::DoesNotExist),
        (MUSIC, frames(2), 1, Refusal::OutsideWindow),
        (MUSIC, frames(8) - 1, 2, Refusal::OutsideWindow),
        (OPEN, frames(2), 1, Refusal::Excluded),
        (OPEN, frames(7), frames(2), Refusal::Excluded),
    ];
    for (device, address, length, refusal) in writes {
        let answer = guard.device_write(device, address, length);
        assert_eq!(answer, Err(refusal), "{device} {address} {length}");
    }
    assert_eq!(guard.device_write(OPEN, 0, frames(2)), accepted(0, 1));
    assert_eq!(guard.device_write(OPEN, frames(16) - 1, 1), accepted(15, 15));
}

/// A device is named by its place, from 0, and its number is not cut.
#[test]
fn a_device_that_is_not_in_the_list_gives_18() {
    let mut guard = started();
    let before = contents(&guard);
    for device in [4, 64, 65536, 65537, 1 << 32, 1 << 63 | 1, u64::MAX] {
        assert_eq!(guard.device_write(device, frames(4), 1), Err(Refusal::NoDevice), "{device}");
        assert_eq!(guard.set_window(device, 0, 15), Err(Refusal::NoDevice), "{device}");
    }
    assert_eq!(contents(&guard), before);
}

/// Device i of 64 may write to frame i mod 16 alone.
#[test]
fn each_device_has_its_own_window() {
    let windows = (0..64).map(|i| Device::new(i % 16, i % 16));
    let options = windows.fold(Options::new(), Options::device);
    let mut guard = Guard::start(&record(4, 16, 1, &[(1, 15)]), options).unwrap();
    for device in 0..64 {
        for frame in 0..16 {
            let expected = match frame {
                _ if frame != device % 16 => Err(Refusal::OutsideWindow),
                15 => Err(Refusal::Excluded),
                _ => accepted(frame, frame),
            };
            assert_eq!(guard.device_write(device, frames(frame), frames(1)), expected);
        }
    }
}

/// The answers to a device, for transfers from every frame on of one to three frames, and of one byte more.
fn answers(guard: &mut Guard, device: u64) -> Vec<Result<Frames, Refusal>> {
    let transfers = (0..18).flat_map(|first| (1..4).map(move |count| (first, count)));
    let answer = |(first, count)| {
        [0, 1].map(|more| guard.device_write(device, frames(first), frames(count) + more))
    };
    transfers.flat_map(answer).collect()
}

/// "Changing one device's window changes no answer given to another."
#[test]
fn another_window_changes_no_answer_to_another_device() {
    let mut guard = started();
    let others = [BILLING, CLOSED, OPEN];
    let before = others.map(|device| answers(&mut guard, device));
    let mut of_music = vec![];
    for first in (0..18).chain([u16::MAX]) {
        for last in (0..18).chain([u16::MAX]) {
            guard.set_window(MUSIC, first, last).unwrap();
            assert_eq!(guard.devices()[0], Device::new(first, last));
            assert_eq!(others.map(|device| answers(&mut guard, device)), before, "{first} {last}");
            of_music.push(answers(&mut guard, MUSIC));
        }
    }
    of_music.dedup();
    assert!(of_music.len() > 100, "the music card's own answers change");
}

/// A window changes between calls: the guard goes by the one that stands.
#[test]
fn a_window_that_moves() {
    let mut guard = started();
    assert_eq!(guard.device_write(MUSIC, frames(10), 1), Err(Refusal::OutsideWindow));
    guard.set_window(MUSIC, 10, 13).unwrap();
    assert_eq!(guard.device_write(MUSIC, frames(10), frames(4)), accepted(10, 13));
    assert_eq!(guard.device_write(MUSIC, frames(7), 1), Err(Refusal::OutsideWindow));
    guard.set_window(MUSIC, 1, 0).unwrap();
    assert_eq!(guard.device_write(MUSIC, 0, 1), Err(Refusal::OutsideWindow));
    guard.set_window(MUSIC, 0, 15).unwrap();
    assert_eq!(guard.device_write(MUSIC, frames(2), 1), Err(Refusal::Excluded));
}

/// What the archive answers a device write on a state run and a list of this length.
fn on_runs(state: &[u64], devices: &[Device], length: u64) -> (u64, [u64; NUMBERS]) {
    let guard = started();
    let mut numbers = [7; NUMBERS];
    let exclusion = guard.exclusion();
    let number =
        archive::device_write(state, exclusion, devices, BILLING, 0x9000, length, &mut numbers);
    (number, numbers)
}

/// "a list of another length gives 7", before 8.
#[test]
fn lists_of_another_length_give_7() {
    let state = *started().state();
    let list = [Device::new(9, 9); 65];
    assert_eq!(on_runs(&state, &list[..4], 1), (0, [9, 9]));
    for length in [0, 1, 3, 5, 64, 65] {
        assert_eq!(on_runs(&state, &list[..length], 1), (7, [0, 0]), "{length}");
        assert_eq!(on_runs(&state, &list[..length], 0), (7, [0, 0]), "{length}");
    }
}

/// "a number outside that gives [..] 7 later", with any list.
#[test]
fn states_with_another_number_of_devices_give_7() {
    let list = [Device::new(9, 9); 65];
    for number in [0, 65, 65536, 65540, 1 << 32 | 4, u64::MAX] {
        let mut state = *started().state();
        state[STATE_DEVICES] = number;
        for length in [0, 4, 64, 65] {
            assert_eq!(on_runs(&state, &list[..length], 1), (7, [0, 0]), "{number} {length}");
        }
    }
}

/// A state run of the version before this request has 21 words.
#[test]
fn a_state_run_without_devices_gives_7() {
    let guard = started();
    let state = &guard.state()[..STATE_DEVICES];
    assert_eq!(on_runs(state, guard.devices(), 1), (7, [0, 0]));
    let mut numbers = [7; NUMBERS];
    let number = archive::write(state, guard.shadow(), guard.exclusion(), 0, 1, &mut numbers);
    assert_eq!((number, numbers), (7, [0, 0]));
}
