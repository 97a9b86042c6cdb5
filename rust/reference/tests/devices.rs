//! Devices (K5): how many a start is given, the list that a device write brings, the windows, and questions 18 and 19 among the others.
//! Most tests stand on nine frames, of which 2 and 8 are excluded.

mod common;

use common::{record, refused, Guard};
use inputs::Random;
use reference::{boundary, mistaken, Answer, Device, Mistake, State};

/// V 4, F 9, page 1 with frame 2 and page 3 with frame 8.
fn nine_frames() -> Guard {
    Guard::started(&record(4, 9, 1, &[(1, 2), (3, 8)]))
}

/// The same with no frame excluded, and with these devices.
fn with_devices(devices: &[Device]) -> Guard {
    let mut guard = nine_frames();
    guard.exclusion = vec![0, 0];
    guard.state.devices = devices.len() as u16;
    guard.devices = devices.to_vec();
    guard
}

const fn window(first: u16, last: u16) -> Device {
    Device { first, last }
}

/// A start with this many devices, on tables of V 4 and F 9.
fn start(record: &[u8], devices: u64) -> (State, Answer) {
    let (mut shadow, mut map, mut exclusion) = ([5u64; 4], [6u16; 4], [7u8; 2]);
    let (state, answer) = reference::start(record, devices, &mut shadow, &mut map, &mut exclusion);
    if answer.is_err() {
        assert_eq!((shadow, map, exclusion), ([5; 4], [6; 4], [7; 2]));
        assert_eq!(state, State::REFUSED);
    }
    (state, answer)
}

/// Numbers of devices that no start accepts; a cut to 16 or 32 bits would bring some of them into the range.
const WRONG_COUNTS: [u64; 10] =
    [0, 65, 66, 65535, 65536, 65537, 65536 + 64, (1 << 32) + 1, (1 << 63) + 64, u64::MAX];

#[test]
fn a_start_keeps_the_number_of_devices() {
    let record = record(4, 9, 1, &[(1, 2), (3, 8)]);
    for devices in 1..=64 {
        let (state, answer) = start(&record, devices);
        assert_eq!(answer, Ok((2, 1)));
        assert_eq!(u64::from(state.devices), devices);
    }
    for devices in WRONG_COUNTS {
        assert_eq!(start(&record, devices).1, refused(3), "{devices}");
    }
}

/// 3 for the number of devices comes after 2 and before 4.
#[test]
fn the_number_of_devices_is_asked_in_the_place_of_3() {
    let whole = record(4, 9, 1, &[(1, 2), (3, 8)]);
    for devices in WRONG_COUNTS {
        let number = |record: &[u8]| start(record, devices).1;
        assert_eq!(number(&whole[..7]), refused(1));
        assert_eq!(number(&record(0, 9, 1, &[(1, 2)])), refused(2));
        assert_eq!(number(&record(4, 4097, 1, &[(1, 2)])), refused(2));
        assert_eq!(number(&record(4, 9, 0, &[(1, 2)])), refused(3));
        assert_eq!(number(&whole[..15]), refused(3));
        assert_eq!(number(&whole[..8]), refused(3));
        assert_eq!(number(&record(4, 9, 1, &[(2, 2), (1, 8)])), refused(3));
        assert_eq!(number(&record(4, 9, 1, &[(1, 9)])), refused(3));
        assert_eq!(number(&record(3, 9, 1, &[(1, 2)])), refused(3), "before the tables");
    }
}

/// Every window of eleven frames, every transfer of whole frames: the window includes both of its ends.
#[test]
fn every_window_and_every_transfer() {
    for from in 0..11 {
        for to in 0..11 {
            let guard = with_devices(&[window(9, 0), window(from, to), window(0, 8)]);
            let permitted = u64::from(from)..=u64::from(to);
            for first in 0..9 {
                for last in first..9 {
                    let is_within = (first..=last).all(|frame| permitted.contains(&frame));
                    let wanted = if is_within { Ok((first, last)) } else { refused(19) };
                    let length = 4096 * (last - first + 1);
                    assert_eq!(guard.write_of(1, 4096 * first, length), wanted);
                    assert_eq!(guard.write_of(2, 4096 * first, length), Ok((first, last)));
                    assert_eq!(guard.write_of(0, 4096 * first, length), refused(19));
                }
            }
        }
    }
}

/// The bytes next to the ends of a window from frame 3 to frame 5.
#[test]
fn the_bytes_at_the_ends_of_a_window() {
    let guard = with_devices(&[window(3, 5)]);
    assert_eq!(guard.device_write(12288, 12288), Ok((3, 5)));
    assert_eq!(guard.device_write(12288, 1), Ok((3, 3)));
    assert_eq!(guard.device_write(24575, 1), Ok((5, 5)));
    assert_eq!(guard.device_write(12287, 1), refused(19));
    assert_eq!(guard.device_write(12287, 2), refused(19));
    assert_eq!(guard.device_write(24575, 2), refused(19));
    assert_eq!(guard.device_write(24576, 1), refused(19));
    assert_eq!(guard.device_write(12287, 12290), refused(19));
}

/// A window may name frames that do not exist: F decides first.
#[test]
fn a_window_beyond_the_last_frame() {
    let guard = with_devices(&[window(0, 65535), window(9, 65535), window(65535, 65535)]);
    assert_eq!(guard.write_of(0, 0, 36864), Ok((0, 8)));
    assert_eq!(guard.write_of(0, 36864, 1), refused(9));
    assert_eq!(guard.write_of(1, 36863, 1), refused(19));
    assert_eq!(guard.write_of(1, 36864, 1), refused(9));
    assert_eq!(guard.write_of(2, 65535 * 4096, 1), refused(9));
}

#[test]
fn one_device_and_64_devices() {
    let one = with_devices(&[window(0, 8)]);
    assert_eq!(one.write_of(0, 0, 1), Ok((0, 0)));
    for device in [1, 63, 64, 65536, 1 << 32, 1 << 63, u64::MAX] {
        assert_eq!(one.write_of(device, 0, 1), refused(18), "{device}");
    }
    let mut devices = [window(9, 0); 64];
    devices[63] = window(4, 4);
    let most = with_devices(&devices);
    assert_eq!(most.write_of(63, 16384, 4096), Ok((4, 4)));
    assert_eq!(most.write_of(62, 16384, 4096), refused(19));
    for device in [64, 65, 127, 65536 + 63, (1 << 32) + 63, u64::MAX] {
        assert_eq!(most.write_of(device, 16384, 1), refused(18), "{device}");
    }
}

#[test]
fn a_list_of_another_length() {
    let devices = [window(0, 8); 66];
    for count in [1, 2, 63, 64] {
        let mut guard = with_devices(&devices[..count]);
        assert_eq!(guard.device_write(0, 1), Ok((0, 0)));
        for length in [0, count - 1, count + 1, 66] {
            guard.devices = devices[..length].to_vec();
            assert_eq!(guard.device_write(0, 1), refused(7), "{length} of {count}");
        }
    }
}

/// 7, 8, 18, 9, 19, 13: an input for each that fails it with all that come after.
#[test]
fn the_order_of_the_questions() {
    let mut guard = nine_frames();
    guard.devices = vec![window(3, 4), window(5, 5)];
    let list = guard.devices.clone();
    let beyond = 36864;
    guard.devices.push(window(0, 8));
    assert_eq!(guard.write_of(9, beyond, 0), refused(7));
    guard.devices = list;
    assert_eq!(guard.write_of(9, beyond, 0), refused(8));
    assert_eq!(guard.write_of(9, beyond, 1_048_577), refused(8));
    assert_eq!(guard.write_of(9, beyond, 1), refused(18));
    assert_eq!(guard.write_of(2, u64::MAX, 1_048_576), refused(18));
    assert_eq!(guard.write_of(1, beyond, 1), refused(9));
    assert_eq!(guard.write_of(1, u64::MAX, 1_048_576), refused(9));
    assert_eq!(guard.write_of(0, 8192, 1), refused(19), "frame 2 is excluded");
    assert_eq!(guard.write_of(0, 8192, 8192), refused(19));
    guard.devices[0] = window(2, 4);
    assert_eq!(guard.write_of(0, 8192, 8192), refused(13));
    assert_eq!(guard.write_of(0, 12288, 8192), Ok((3, 4)));
}

/// A device write on a state run with so many words, this number of devices and a list of so many: its number, and the two numbers.
fn on_run(words: usize, devices: u64, list: usize) -> (u64, [u64; 2]) {
    let mut run = vec![0; words];
    for (word, value) in run.iter_mut().zip([4, 9, 1, 1]) {
        *word = value;
    }
    if let Some(word) = run.get_mut(21) {
        *word = devices;
    }
    let mut numbers = [77; 2];
    let list = vec![window(0, 8); list];
    let number = boundary::with_state(&run, &mut numbers, |state| {
        reference::device_write(state, &[0, 0], &list, 0, 4095, 2)
    });
    (number, numbers)
}

#[test]
fn word_21_of_the_state_run() {
    for count in [1, 2, 63, 64] {
        assert_eq!(on_run(25, count as u64, count), (0, [0, 1]));
        assert_eq!(on_run(25, count as u64, count + 1), (7, [0, 0]));
        for wide in [1 << 16, 1 << 32, 1 << 63] {
            assert_eq!(on_run(25, count as u64 + wide, count), (7, [0, 0]));
        }
    }
    assert_eq!(on_run(25, 0, 0), (7, [0, 0]));
    assert_eq!(on_run(25, 65, 65), (7, [0, 0]));
    for words in [0, 20, 21, 22, 24, 26] {
        for list in [0, 1, 64] {
            assert_eq!(on_run(words, 1, list), (7, [0, 0]), "a run of {words} words");
        }
    }
}

/// A start writes all words of the run and asks for 25.
#[test]
fn a_start_writes_word_21() {
    let record = record(4, 9, 1, &[(1, 2), (3, 8)]);
    let start = |words: usize, devices: u64| {
        let (mut run, mut numbers) = (vec![99; words], [77; 2]);
        let (mut shadow, mut map, mut exclusion) = ([5; 4], [6; 4], [7; 2]);
        let number = boundary::start(
            &record,
            devices,
            &mut run,
            &mut shadow,
            &mut map,
            &mut exclusion,
            &mut numbers,
        );
        (number, run)
    };
    let mut left = vec![0; 25];
    left[..4].copy_from_slice(&[4, 9, 1, 1]);
    left[20] = 1;
    for devices in [1, 2, 64] {
        left[21] = devices;
        assert_eq!(start(25, devices), (0, left.clone()));
    }
    for words in [22, 24, 26] {
        assert_eq!(start(words, 1), (7, vec![99; words]));
        assert_eq!(start(words, 0), (3, vec![99; words]), "3 comes before 7");
    }
}

/// A drawn transfer of any device on drawn windows, mostly near the nine frames.
fn drawn(random: &mut Random) -> (Guard, u64, u64, u64) {
    let frame = |random: &mut Random| {
        if random.one_in(8) {
            random.word() as u16
        } else {
            random.below(10) as u16
        }
    };
    let count = random.pick(&[1, 2, 5, 64]);
    let devices: Vec<_> = (0..count).map(|_| window(frame(random), frame(random))).collect();
    let mut guard = nine_frames();
    guard.state.devices = if random.one_in(8) { random.below(70) as u16 } else { count as u16 };
    guard.devices = devices;
    let device = if random.one_in(8) { random.word() } else { random.below(count + 1) };
    let address = if random.one_in(8) { random.word() } else { random.below(40_000) };
    let most = random.pick(&[20, 5000, 40_000, 1_048_600]);
    (guard, device, address, random.below(most))
}

/// "Changing one device's window changes no answer given to another."
#[test]
fn the_window_of_another_device() {
    let mut random = Random::new(5);
    let mut accepted = 0;
    for _ in 0..20_000 {
        let (mut guard, device, address, length) = drawn(&mut random);
        let answer = guard.write_of(device, address, length);
        let other = random.below(guard.devices.len() as u64);
        if other != device {
            guard.devices[other as usize] = window(random.below(10) as u16, random.word() as u16);
        }
        assert_eq!(guard.write_of(device, address, length), answer);
        accepted += u64::from(answer.is_ok());
    }
    assert!(accepted > 100, "{accepted} accepted");
}

/// The list of questions in which mistakes are planted answers as the plain call where it has none of them.
#[test]
fn the_list_of_questions_without_a_mistake() {
    let mut random = Random::new(6);
    for _ in 0..20_000 {
        let (guard, device, address, length) = drawn(&mut random);
        let Guard { state, exclusion, devices, .. } = &guard;
        let of_no_device_write = Mistake::ForgetApproval;
        assert_eq!(
            mistaken::device_write(
                of_no_device_write,
                state,
                exclusion,
                devices,
                device,
                address,
                length
            ),
            guard.write_of(device, address, length),
        );
    }
}
