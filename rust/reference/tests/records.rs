//! Writing a record: the questions one by one and in order, every byte of the buffer, and what the record then does.
//! A refused call leaves the buffer as it was.

mod common;

use common::{record, refused, Guard};
use inputs::{random_record, Parts, Random};
use reference::{boundary, write_record, Answer, Mode, NO_FRAME};

/// V 4, F 9, page 1 with frame 2 and page 3 with frame 8; page 1 is the entry page.
const SIZES: [u64; 4] = [4, 9, 2, 1];
const PAGES: [u16; 2] = [1, 3];
const FRAMES: [u16; 2] = [2, 8];
const RECORD: [u8; 16] = [4, 0, 9, 0, 2, 0, 1, 0, 1, 0, 3, 0, 2, 0, 8, 0];

fn write([v, f, n, e]: [u64; 4], pages: &[u16], frames: &[u16], buffer: &mut [u8]) -> Answer {
    write_record(v, f, n, e, pages, frames, buffer)
}

/// The buffer holds the record, and past it what it held before, for two contents that have no byte in common.
fn assert_written(sizes: [u64; 4], pages: &[u16], frames: &[u16], room: usize, record: &[u8]) {
    for before in [0x00, 0xff] {
        let mut buffer = vec![before; room];
        let answer = write(sizes, pages, frames, &mut buffer);
        assert_eq!(answer, Ok((record.len() as u64, 0)), "{sizes:?}");
        assert_eq!(&buffer[..record.len()], record, "{sizes:?}");
        assert!(buffer[record.len()..].iter().all(|&byte| byte == before), "{sizes:?}");
    }
}

fn assert_refused(sizes: [u64; 4], pages: &[u16], frames: &[u16], room: usize, number: u8) {
    let mut buffer = vec![0xa5; room];
    let answer = write(sizes, pages, frames, &mut buffer);
    assert_eq!(answer, refused(number), "{sizes:?} {pages:?} {frames:?} into {room} bytes");
    assert!(buffer.iter().all(|&byte| byte == 0xa5), "{number} changed the buffer");
}

#[test]
fn the_record_of_the_cases() {
    assert_written([4, 4, 1, 1], &[1], &[2], 12, &[4, 0, 4, 0, 1, 0, 1, 0, 1, 0, 2, 0]);
}

#[test]
fn bytes_past_the_record_stay() {
    for room in [16, 17, 18, 24, 8200] {
        assert_written(SIZES, &PAGES, &FRAMES, room, &RECORD);
    }
}

#[test]
fn both_bytes_of_every_number() {
    let (pages, frames): (Vec<_>, Vec<_>) = (0..258).map(|i| (769 + i, 3588 - i)).unzip();
    let mut buffer = vec![0; 1040];
    let answer = write([1027, 3589, 258, 16], &pages, &frames, &mut buffer);
    assert_eq!(answer, Ok((1040, 0)));
    assert_eq!(buffer[..8], [0x03, 0x04, 0x05, 0x0e, 0x02, 0x01, 0x10, 0x00]);
    assert_eq!(buffer[8..12], [0x01, 0x03, 0x02, 0x03], "pages 769 and 770");
    assert_eq!(buffer[520..524], [0x01, 0x04, 0x02, 0x04], "pages 1025 and 1026");
    assert_eq!(buffer[524..528], [0x04, 0x0e, 0x03, 0x0e], "frames 3588 and 3587");
    assert_eq!(buffer[1036..], [0x04, 0x0d, 0x03, 0x0d], "frames 3332 and 3331");
}

#[test]
fn the_ends_of_the_ranges() {
    assert_written([1, 1, 1, 1], &[0], &[0], 12, &[1, 0, 1, 0, 1, 0, 1, 0, 0, 0, 0, 0]);
    let largest = [0x00, 0x08, 0x00, 0x10, 1, 0, 1, 0, 0xff, 0x07, 0xff, 0x0f];
    assert_written([2048, 4096, 1, 1], &[2047], &[4095], 12, &largest);
    for n in [16, 17, 2048] {
        let pages: Vec<_> = (0..n).collect();
        let listed: Vec<_> = pages.iter().map(|&page| (page, 0)).collect();
        let room = 8 + 4 * usize::from(n);
        let written = record(n, 1, 16, &listed);
        let sizes = [n.into(), 1, n.into(), 16];
        assert_written(sizes, &pages, &vec![0; n.into()], room, &written);
    }
}

#[test]
fn questions_of_writing() {
    for (v, f) in [(0, 9), (2049, 9), (4, 0), (4, 4097)] {
        assert_refused([v, f, 2, 1], &PAGES, &FRAMES, 16, 2);
    }
    for (n, e) in [(0, 1), (5, 1), (2, 0), (2, 3)] {
        assert_refused([4, 9, n, e], &PAGES, &FRAMES, 16, 3);
    }
    let many: Vec<_> = (0..20).collect();
    assert_refused([20, 20, 20, 17], &many, &many, 88, 3);
    for (pages, frames) in [(1, 2), (2, 1), (3, 2), (2, 3), (1, 1), (3, 3), (0, 2), (2, 0), (0, 0)]
    {
        assert_refused(SIZES, &[0, 1, 2][..pages], &[2, 8, 7][..frames], 16, 4);
    }
    for pages in [[1, 4], [4, 5], [1, 65535], [65535, 1], [1, 1], [3, 1], [0, 0]] {
        assert_refused(SIZES, &pages, &FRAMES, 16, 5);
    }
    for frames in [[9, 2], [2, 9], [65535, 8], [8, 65535]] {
        assert_refused(SIZES, &PAGES, &frames, 16, 6);
    }
    for room in [0, 1, 7, 8, 12, 15] {
        assert_refused(SIZES, &PAGES, &FRAMES, room, 16);
    }
}

#[test]
fn questions_of_writing_come_in_order() {
    let (wrong_pages, wrong_frames) = ([1, 4], [2, 9]);
    assert_refused([0, 9, 0, 0], &[], &wrong_frames, 0, 2);
    assert_refused([4, 9, 5, 1], &wrong_pages, &[], 0, 3);
    assert_refused([4, 9, 1, 1], &wrong_pages, &wrong_frames, 0, 4);
    assert_refused(SIZES, &wrong_pages, &wrong_frames, 0, 5);
    assert_refused(SIZES, &PAGES, &wrong_frames, 0, 6);
    // The first frame is wrong, the second page is: all pages are asked before any frame.
    assert_refused(SIZES, &wrong_pages, &[9, 2], 16, 5);
}

/// A size that a cut to 16, 32 or 63 bits would bring into its range.
#[test]
fn wide_sizes_are_not_cut() {
    for (place, number) in [(0, 2), (1, 2), (2, 3), (3, 3)] {
        for wide in [1 << 16, 1 << 32, 1 << 63, u64::MAX - SIZES[place]] {
            let mut sizes = SIZES;
            sizes[place] += wide;
            assert_refused(sizes, &PAGES, &FRAMES, 16, number);
        }
    }
}

/// The call behind the boundary, on a numbers run of `words` words that hold no answer.
fn on_run(frames: [u16; 2], room: usize, words: usize) -> (u64, Vec<u64>, Vec<u8>) {
    let ([v, f, n, e], mut buffer, mut numbers) = (SIZES, vec![0xa5; room], vec![77; words]);
    let number = boundary::write_record(v, f, n, e, &PAGES, &frames, &mut buffer, &mut numbers);
    (number, numbers, buffer)
}

#[test]
fn a_numbers_run_of_two_words_gets_the_numbers() {
    assert_eq!(on_run(FRAMES, 16, 2), (0, vec![16, 0], RECORD.to_vec()));
    assert_eq!(on_run([2, 9], 16, 2), (6, vec![0, 0], vec![0xa5; 16]));
    assert_eq!(on_run(FRAMES, 15, 2), (16, vec![0, 0], vec![0xa5; 15]));
}

/// 7 comes after 6 and before 16, and such a run is not written.
#[test]
fn a_numbers_run_of_another_length_is_refused() {
    for words in [0, 1, 3] {
        let unwritten = vec![77; words];
        assert_eq!(on_run([2, 9], 15, words), (6, unwritten.clone(), vec![0xa5; 15]));
        assert_eq!(on_run(FRAMES, 15, words), (7, unwritten.clone(), vec![0xa5; 15]));
        assert_eq!(on_run(FRAMES, 16, words), (7, unwritten, vec![0xa5; 16]));
    }
}

#[test]
fn a_written_record_starts_a_guard() {
    let mut buffer = [0xa5; 20];
    let (length, _) = write(SIZES, &PAGES, &FRAMES, &mut buffer).unwrap();
    let guard = Guard::started(&buffer[..length as usize]);
    assert_eq!((guard.state.v, guard.state.f, guard.state.e), (4, 9, 1));
    assert_eq!(guard.state.entry_pages, [1, 0, 0, 0, 0, 0, 0, 0, 0, 0, 0, 0, 0, 0, 0, 0]);
    assert_eq!(guard.state.mode, Mode::Kernel(1));
    assert_eq!(guard.shadow, [0, 0x2401, 0, 0x8401]);
    assert_eq!(guard.map, [NO_FRAME, 2, NO_FRAME, 8]);
    assert_eq!(guard.exclusion, [0x04, 0x01]);
}

#[test]
fn an_accepted_record_read_and_written_again_is_the_same_bytes() {
    let mut random = Random::new(2);
    for (v, f) in [(1, 1), (4, 9), (16, 20), (300, 600), (2048, 4096)].repeat(20) {
        let record = random_record(&mut random, v, f);
        Guard::started(&record);
        let Parts { sizes, pages, frames } = Parts::of(&record);
        assert_written(sizes, &pages, &frames, record.len(), &record);
    }
}
