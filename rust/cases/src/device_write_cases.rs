// Device write: "1 to 1,048,576 bytes: first and last frame". Questions 8, 9 and 13, and those of K5: 7 of the list, 18 after 8, 19 after
// 9. It looks at no page and changes nothing: it is lent the exclusion vector and the list of devices to read, and gives no state.
use crate::calls::Answer;
use crate::calls::Answer::Done;
use crate::calls::Answer::Refused;
use crate::calls::Mode::Kernel;
use crate::calls::Mode::User;
use crate::calls::State;
use crate::guard;
use crate::tally::Tally;
use ::guard::Device;

// Windows by their first and last frame.
fn list(windows: &[(u16, u16)]) -> Vec<Device> {
    windows.iter().map(|&(first, last)| Device::new(first, last)).collect()
}

// Nine frames, 2 and 8 of them excluded. Device 1 of three has all frames as window, the others have none.
fn nine(t: Tally, name: &str, address: u64, length: u64, wanted: Answer) -> Tally {
    let s = guard::state_in(Kernel(1));
    let devices = list(&[(1, 0), (0, 8), (1, 0)]);
    let answer = crate::calls::device_write(s, &[0x04, 0x01], &devices, 1, address, length);
    t.case("device_write", name, answer == wanted)
}

fn allowed(t: Tally) -> Tally {
    let t = nine(t, "the first byte", 0, 1, Done(0, 0));
    let t = nine(t, "frames 0 and 1", 0, 8192, Done(0, 1));
    let t = nine(t, "across frames 0 and 1", 4095, 2, Done(0, 1));
    let t = nine(t, "frames 3 to 7", 12288, 20480, Done(3, 7));
    let t = nine(t, "frames 3 to 7 but a byte at each end", 12289, 20478, Done(3, 7));
    nine(t, "the last byte of frame 7", 32767, 1, Done(7, 7))
}

// "8. Is the length within its range?", before 9.
fn question_8(t: Tally) -> Tally {
    let t = nine(t, "no bytes", 0, 0, Refused(8));
    let t = nine(t, "1048577 bytes", 0, 1048577, Refused(8));
    let t = nine(t, "no bytes at the highest address", 18446744073709551615, 0, Refused(8));
    nine(t, "the highest length", 1, 18446744073709551615, Refused(8))
}

// "9. [..] last transfer byte below F × 4,096", before 13. "Sums of address and length are exact; nothing wraps."
fn question_9(t: Tally) -> Tally {
    let t = nine(t, "the first byte beyond", 36864, 1, Refused(9));
    let t = nine(t, "2 bytes from the last byte on", 36863, 2, Refused(9));
    let t = nine(t, "all frames and a byte more", 0, 36865, Refused(9));
    let t = nine(t, "1048576 bytes", 0, 1048576, Refused(9));
    let t = nine(t, "1 byte at the highest address", 18446744073709551615, 1, Refused(9));
    let t = nine(
        t,
        "2 bytes at the highest address do not wrap to frame 0",
        18446744073709551615,
        2,
        Refused(9),
    );
    let t =
        nine(t, "1048576 bytes at the highest address", 18446744073709551615, 1048576, Refused(9));
    nine(t, "1048576 bytes up to the highest address", 18446744073708503040, 1048576, Refused(9))
}

// "13. [..] are all touched frames free of exclusion"
fn question_13(t: Tally) -> Tally {
    let t = nine(t, "the first byte of an excluded frame", 8192, 1, Refused(13));
    let t = nine(t, "the last byte of an excluded frame", 12287, 1, Refused(13));
    let t = nine(t, "up to the first byte of an excluded frame", 0, 8193, Refused(13));
    let t = nine(t, "from the last byte of an excluded frame on", 12287, 4097, Refused(13));
    let t = nine(t, "an excluded frame in the middle", 4096, 12288, Refused(13));
    let t = nine(t, "an excluded frame in the second byte of the vector", 28672, 4097, Refused(13));
    let t = nine(t, "the last byte of all frames", 36863, 1, Refused(13));
    nine(t, "all frames", 0, 36864, Refused(13))
}

// 4,096 frames, frame 300 alone excluded: bit 4 of byte 37. Device 2 has all frames as window.
fn many(t: Tally, name: &str, address: u64, length: u64, wanted: Answer) -> Tally {
    let mut exclusion = [0u8; 512];
    exclusion[37] = 0x10;
    let s = guard::state(2048, 4096, 16, [0, 1, 2, 3], User(2047));
    let devices = list(&[(0, 0), (1, 0), (0, 4095)]);
    let answer = crate::calls::device_write(s, &exclusion, &devices, 2, address, length);
    t.case("device_write", name, answer == wanted)
}

fn long_transfers(t: Tally) -> Tally {
    let t = many(t, "256 frames", 0, 1048576, Done(0, 255));
    let t = many(t, "257 frames in part", 5, 1048576, Done(0, 256));
    let t = many(t, "256 frames before an excluded one", 180224, 1048576, Done(44, 299));
    let t = many(t, "256 frames and a byte of an excluded one", 180225, 1048576, Refused(13));
    let t = many(t, "an excluded frame among 256", 614400, 1048576, Refused(13));
    let t = many(
        t,
        "the last byte of an excluded frame and 256 frames in part",
        1232895,
        1048576,
        Refused(13),
    );
    let t = many(t, "256 frames after an excluded one", 1232896, 1048576, Done(301, 556));
    let t = many(t, "the last 256 frames", 15728640, 1048576, Done(3840, 4095));
    let t = many(t, "the last 256 frames and a byte beyond", 15728641, 1048576, Refused(9));
    many(t, "the last byte of 4096 frames", 16777215, 1, Done(4095, 4095))
}

// "spare bits zero": nothing looks at a damaged vector's. Frames 9 to 15 do not exist.
fn spare_bits(t: Tally) -> Tally {
    let s = guard::state_in(User(0));
    let devices = list(&[(0, 8), (0, 0), (0, 0)]);
    let answer = crate::calls::device_write(s, &[0, 0xfe], &devices, 0, 0, 36864);
    t.case("device_write", "spare bits exclude nothing", answer == Done(0, 8))
}

// A device of a list of windows, on nine frames of which 2 and 8 are excluded and on a state with this number of devices.
fn of_state(
    t: Tally,
    name: &str,
    devices: u16,
    windows: &[(u16, u16)],
    [device, address, length]: [u64; 3],
    wanted: Answer,
) -> Tally {
    let s = State { devices, ..guard::state_in(User(1)) };
    let devices = list(windows);
    let answer = crate::calls::device_write(s, &[0x04, 0x01], &devices, device, address, length);
    t.case("device_write", name, answer == wanted)
}

// The state has as many devices as the list.
fn of(t: Tally, name: &str, windows: &[(u16, u16)], transfer: [u64; 3], wanted: Answer) -> Tally {
    of_state(t, name, windows.len() as u16, windows, transfer, wanted)
}

// "a list of another length gives 7", before 8, 18, 9, 19 and 13.
fn question_7(t: Tally) -> Tally {
    let all = [(0, 8); 65];
    let first_byte = [0, 0, 1];
    let t = of_state(t, "no device for 1", 1, &[], first_byte, Refused(7));
    let t = of_state(t, "2 devices for 1", 1, &all[..2], first_byte, Refused(7));
    let t = of_state(t, "1 device for 2", 2, &all[..1], first_byte, Refused(7));
    let t = of_state(t, "3 devices for 2", 2, &all[..3], first_byte, Refused(7));
    let t = of_state(t, "63 devices for 64", 64, &all[..63], first_byte, Refused(7));
    let t = of_state(t, "65 devices for 64", 64, &all[..65], first_byte, Refused(7));
    let t = of_state(t, "64 devices for 63", 63, &all[..64], first_byte, Refused(7));
    let t = of_state(t, "no device for 64", 64, &[], first_byte, Refused(7));
    let t = of_state(t, "no device for 0", 0, &[], first_byte, Refused(7));
    let t = of_state(t, "65 devices for 65", 65, &all[..65], first_byte, Refused(7));
    let t = of_state(t, "7 before 8", 1, &all[..2], [0, 0, 0], Refused(7));
    let t = of_state(t, "7 before 18", 2, &all[..1], [1, 0, 1], Refused(7));
    let t = of_state(t, "7 before 9", 1, &all[..2], [0, 36864, 1], Refused(7));
    let t = of_state(t, "7 before 19", 1, &[(3, 5), (3, 5)], first_byte, Refused(7));
    let t = of_state(t, "7 before 13", 1, &all[..2], [0, 8192, 1], Refused(7));
    of_state(t, "7 before all others", 3, &[(5, 3); 2], [3, 36864, 0], Refused(7))
}

// "A device write names its device by its place, from 0." "It refuses with 18, after 8, a device not in the list".
fn question_18(t: Tally) -> Tally {
    let t = of(t, "device 0 of 1", &[(0, 8)], [0, 0, 1], Done(0, 0));
    let t = of(t, "device 1 of 1", &[(0, 8)], [1, 0, 1], Refused(18));
    let t = of(t, "device 1 of 2", &[(1, 0), (0, 8)], [1, 0, 1], Done(0, 0));
    let t = of(t, "device 2 of 2", &[(0, 8), (0, 8)], [2, 0, 1], Refused(18));
    let mut windows = [(1, 0); 64];
    windows[63] = (4, 4);
    let t = of(t, "device 63 of 64", &windows, [63, 16384, 4096], Done(4, 4));
    let t = of(t, "device 62 of 64 has another window", &windows, [62, 16384, 4096], Refused(19));
    let t = of(t, "device 0 of 64 has another window", &windows, [0, 16384, 4096], Refused(19));
    let t = of(t, "device 64 of 64", &windows, [64, 16384, 4096], Refused(18));
    let t = of(t, "device 65 of 64", &windows, [65, 16384, 4096], Refused(18));
    let t = of(t, "device 127 of 64", &windows, [127, 16384, 4096], Refused(18));
    let t = of(t, "device 63 of 63", &windows[1..], [63, 16384, 4096], Refused(18));
    let t = of(t, "device 65536", &[(0, 8)], [65536, 0, 1], Refused(18));
    let t = of(t, "device 65599 of 64", &windows, [65599, 16384, 1], Refused(18));
    let t = of(t, "device 2^32", &[(0, 8)], [4294967296, 0, 1], Refused(18));
    let t = of(t, "device 2^63", &[(0, 8)], [9223372036854775808, 0, 1], Refused(18));
    let t = of(t, "the highest device", &[(0, 8)], [18446744073709551615, 0, 1], Refused(18));
    let t = of(t, "8 before 18", &[(0, 8)], [1, 0, 0], Refused(8));
    let t = of(t, "8 before 18, 1048577 bytes", &[(0, 8)], [1, 0, 1048577], Refused(8));
    let t = of(t, "18 before 9", &[(0, 8)], [1, 36864, 1], Refused(18));
    let address = 18446744073709551615;
    let t = of(t, "18 before 9 at the highest address", &[(0, 8)], [1, address, 2], Refused(18));
    of(t, "18 before 13", &[(0, 8)], [1, 8192, 1], Refused(18))
}

// "with 19, after 9, a transfer outside its window": both ends belong to the window.
fn question_19(t: Tally) -> Tally {
    let three = [(1, 0), (3, 5), (0, 8)];
    let t = of(t, "all frames of a window", &three, [1, 12288, 12288], Done(3, 5));
    let t = of(t, "the first byte of a window", &three, [1, 12288, 1], Done(3, 3));
    let t = of(t, "the last byte of a window", &three, [1, 24575, 1], Done(5, 5));
    let t = of(t, "the frame in the middle", &three, [1, 16384, 4096], Done(4, 4));
    let t = of(t, "from a byte before a window on", &three, [1, 12287, 2], Refused(19));
    let t = of(t, "a frame before a window and its first", &three, [1, 8192, 8192], Refused(19));
    let t = of(t, "the byte before a window", &three, [1, 12287, 1], Refused(19));
    let t = of(t, "to a byte after a window", &three, [1, 24575, 2], Refused(19));
    let t = of(t, "the last frame of a window and one more", &three, [1, 20480, 8192], Refused(19));
    let t = of(t, "the byte after a window", &three, [1, 24576, 1], Refused(19));
    let t = of(t, "a byte at each side of a window", &three, [1, 12287, 12290], Refused(19));
    let t = of(t, "frames 0 to 7", &three, [1, 0, 32768], Refused(19));
    let one = [(4, 4)];
    let t = of(t, "the first byte of a window of one frame", &one, [0, 16384, 1], Done(4, 4));
    let t = of(t, "the last byte of a window of one frame", &one, [0, 20479, 1], Done(4, 4));
    let t = of(t, "all bytes of a window of one frame", &one, [0, 16384, 4096], Done(4, 4));
    let t = of(t, "a byte before a window of one frame", &one, [0, 16383, 1], Refused(19));
    let t = of(t, "into a window of one frame", &one, [0, 16383, 2], Refused(19));
    let t = of(t, "out of a window of one frame", &one, [0, 20479, 2], Refused(19));
    let t = of(t, "a byte after a window of one frame", &one, [0, 20480, 1], Refused(19));
    let t = of(t, "the window of frame 0", &[(0, 0)], [0, 0, 4096], Done(0, 0));
    let t = of(t, "after the window of frame 0", &[(0, 0)], [0, 4096, 1], Refused(19));
    let t = of(t, "a window to frame 65535", &[(3, 65535)], [0, 12288, 20480], Done(3, 7));
    let t = of(t, "a window from frame 9 on", &[(9, 65535)], [0, 28672, 4096], Refused(19));
    of(t, "a window of frame 65535", &[(65535, 65535)], [0, 0, 1], Refused(19))
}

// Where the first frame is above the last, a window has no frame.
fn empty_windows(t: Tally) -> Tally {
    let t = of(t, "the first frame of 5 to 4", &[(5, 4)], [0, 20480, 1], Refused(19));
    let t = of(t, "the last frame of 5 to 4", &[(5, 4)], [0, 16384, 1], Refused(19));
    let t = of(t, "both frames of 5 to 4", &[(5, 4)], [0, 16384, 8192], Refused(19));
    let t = of(t, "a frame between 7 and 3", &[(7, 3)], [0, 20480, 1], Refused(19));
    let t = of(t, "all frames of 7 to 3", &[(7, 3)], [0, 12288, 20480], Refused(19));
    let t = of(t, "the first frame of 1 to 0", &[(1, 0)], [0, 4096, 1], Refused(19));
    let t = of(t, "the last frame of 1 to 0", &[(1, 0)], [0, 0, 1], Refused(19));
    of(t, "frame 0 of 65535 to 0", &[(65535, 0)], [0, 0, 1], Refused(19))
}

// 9 before 19 before 13.
fn order_of_19(t: Tally) -> Tally {
    let t = of(t, "9 before 19", &[(3, 5)], [0, 36864, 1], Refused(9));
    let t = of(t, "9 before 19, across the end", &[(3, 5)], [0, 36863, 2], Refused(9));
    let t = of(t, "9 before 19, a window of no frame", &[(5, 3)], [0, 36864, 1], Refused(9));
    let t = of(t, "9 in a window beyond F", &[(0, 65535)], [0, 36864, 1], Refused(9));
    let address = 18446744073709551615;
    let t = of(t, "9 before 19 at the highest address", &[(3, 5)], [0, address, 1], Refused(9));
    let t = of(t, "19 before 13", &[(3, 5)], [0, 8192, 1], Refused(19));
    let t = of(t, "19 before 13, into a window", &[(3, 5)], [0, 8192, 8192], Refused(19));
    let t = of(t, "19 before 13, a window of no frame", &[(5, 3)], [0, 8192, 1], Refused(19));
    let t = of(t, "13 in a window", &[(2, 5)], [0, 8192, 1], Refused(13));
    of(t, "13 in the last frame of a window", &[(3, 8)], [0, 32768, 1], Refused(13))
}

// "Changing one device's window changes no answer given to another." Device 1 has frames 3 to 5; the others have these windows.
fn other_windows(t: Tally) -> Tally {
    let mut t = t;
    for other in [(0, 8), (3, 5), (4, 4), (6, 7), (1, 0), (0, 65535), (65535, 0)] {
        let windows = [other, (3, 5), other];
        let case = |t, name: &str, transfer, wanted| {
            let (first, last) = other;
            of(t, &format!("{name} beside {first} to {last}"), &windows, transfer, wanted)
        };
        t = case(t, "all frames of its own", [1, 12288, 12288], Done(3, 5));
        t = case(t, "a frame below", [1, 8192, 8192], Refused(19));
        t = case(t, "a frame above", [1, 20480, 8192], Refused(19));
        t = case(t, "the next device", [3, 12288, 1], Refused(18));
    }
    t
}

// 4,096 frames: the last window there is, and a window in the middle of a transfer of 1,048,576 bytes.
fn wide_windows(t: Tally) -> Tally {
    let s = guard::state(2048, 4096, 16, [0, 1, 2, 3], Kernel(0));
    let s = State { devices: 2, ..s };
    let case = |t: Tally, name, windows: [(u16, u16); 2], address, length, wanted| {
        let answer = crate::calls::device_write(s, &[0; 512], &list(&windows), 1, address, length);
        t.case("device_write", name, answer == wanted)
    };
    let last = [(0, 0), (4095, 4095)];
    let t = case(t, "a window of frame 4095", last, 16773120, 4096, Done(4095, 4095));
    let t = case(t, "before a window of frame 4095", last, 16773119, 2, Refused(19));
    let wide = [(0, 0), (256, 511)];
    let t = case(t, "256 frames as window", wide, 1048576, 1048576, Done(256, 511));
    let t = case(t, "a byte before 256 frames", wide, 1048575, 1048576, Refused(19));
    let t = case(t, "a byte after 256 frames", wide, 1048577, 1048576, Refused(19));
    let t = case(t, "a window of 257 frames", [(0, 0), (0, 256)], 5, 1048576, Done(0, 256));
    case(t, "a window of 256 of 257 frames", [(0, 0), (0, 255)], 5, 1048576, Refused(19))
}

pub fn all(t: Tally) -> Tally {
    let t = allowed(t);
    let t = question_8(t);
    let t = question_9(t);
    let t = question_13(t);
    let t = long_transfers(t);
    let t = spare_bits(t);
    let t = question_7(t);
    let t = question_18(t);
    let t = question_19(t);
    let t = empty_windows(t);
    let t = order_of_19(t);
    let t = other_windows(t);
    wide_windows(t)
}
