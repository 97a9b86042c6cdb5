//! Policy records written by the library, from a policy that is built page by page and from sizes and arrays.
//! Expected bytes are written out, and every refusal that a Rust program can meet comes once at least.

mod common;

use common::one_device;
use guard::{write_record, Guard, Mode, Policy, Refusal, NO_FRAME};
use inputs::{random_record, Parts, Random};

/// The policy of the worked example: V 4, F 4, entry page 1 with frame 2.
fn worked() -> Policy {
    Policy::new(4, 4).entry_page(1, 2)
}

const WORKED: [u8; 12] = [4, 0, 4, 0, 1, 0, 1, 0, 1, 0, 2, 0];

#[test]
fn the_record_of_the_worked_example() {
    assert_eq!(worked().record(), Ok(WORKED.to_vec()));
}

/// Pages and frames of both groups are added in turn; numbers above 255 show which byte comes first.
#[test]
fn entry_pages_stand_first_in_the_order_in_which_they_were_added() {
    let policy = Policy::new(0x302, 0x504)
        .page(0x201, 9)
        .entry_page(0, 0x403)
        .page(0x202, 9)
        .entry_page(7, 8);
    #[rustfmt::skip]
    let record = [
        0x02, 3, 0x04, 5, 4, 0, 2, 0, // V, F, n, e
        0, 0, 7, 0, 0x01, 2, 0x02, 2, // pages
        0x03, 4, 8, 0, 9, 0, 9, 0, // frames
    ];
    assert_eq!(policy.record(), Ok(record.to_vec()));
}

/// V, F and n at their largest, e 16.
#[test]
fn the_largest_policy() {
    let entries =
        (0..16).fold(Policy::new(2048, 4096), |policy, page| policy.entry_page(page, 4095));
    let policy = (16..2048).fold(entries, |policy, page| policy.page(page, page + 2048));
    let record = policy.record().unwrap();
    assert_eq!(record.len(), 8200);
    assert_eq!(record[..8], [0, 8, 0, 16, 0, 8, 16, 0]);
    assert_eq!(record[4102..4106], [0xff, 7, 0xff, 15], "the last page, the first frame");
    let guard = Guard::start(&record, one_device()).unwrap();
    assert_eq!(guard.entry_pages(), (0..16).collect::<Vec<_>>());
    assert_eq!((guard.map()[15], guard.map()[16], guard.map()[2047]), (4095, 2064, 4095));
}

#[test]
fn a_started_guard_has_those_pages_and_frames() {
    let policy = Policy::new(6, 9).page(4, 3).entry_page(1, 8).entry_page(2, 3);
    let guard = Guard::start(&policy.record().unwrap(), one_device()).unwrap();
    assert_eq!((guard.pages(), guard.frames(), guard.entry_pages()), (6, 9, &[1, 2][..]));
    assert_eq!(guard.mode(), Mode::Kernel(1));
    assert_eq!(guard.map(), [NO_FRAME, 8, 3, NO_FRAME, 3, NO_FRAME]);
    assert_eq!(guard.shadow(), [0, 0x8401, 0x3401, 0, 0x3401, 0]);
    assert_eq!(guard.exclusion(), [0x08, 0x01]);
}

/// "an accepted record read and written again is the same bytes"
#[test]
fn a_record_read_and_written_again() {
    let mut random = Random::new(2);
    for _ in 0..300 {
        let (v, f) = (1 + random.below(2048), 1 + random.below(4096));
        let record = random_record(&mut random, v as u16, f as u16);
        Guard::start(&record, one_device()).unwrap();
        let Parts { sizes: [v, f, n, e], pages, frames } = Parts::of(&record);
        let mut again = vec![9; record.len()];
        assert_eq!(write_record(v, f, n, e, &pages, &frames, &mut again), Ok(record.len()));
        assert_eq!(again, record);
    }
}

/// V and F are not cut: 65,540 is not taken for 4.
#[test]
fn sizes_out_of_range_give_2() {
    let worked = |pages, frames| Policy::new(pages, frames).entry_page(1, 2).record();
    for pages in [0, 2049, 65536 + 4, 1 << 32 | 4, u64::MAX] {
        assert_eq!(worked(pages, 4), Err(Refusal::SizeOutOfRange), "V {pages}");
    }
    for frames in [0, 4097, 65536 + 4, 1 << 32 | 4, u64::MAX] {
        assert_eq!(worked(4, frames), Err(Refusal::SizeOutOfRange), "F {frames}");
    }
    assert!(worked(2048, 4096).is_ok());
}

#[test]
fn counts_out_of_range_give_3() {
    let refused = Err(Refusal::CountOutOfRange);
    assert_eq!(Policy::new(4, 4).record(), refused, "no page");
    assert_eq!(Policy::new(4, 4).page(1, 2).record(), refused, "no entry page");
    let entries =
        |count| (0..count).fold(Policy::new(99, 4), |policy, page| policy.entry_page(page, 0));
    assert!(entries(16).record().is_ok());
    assert_eq!(entries(17).record(), refused, "17 entry pages");
    let pages = |count| {
        (1..count).fold(Policy::new(5, 4).entry_page(0, 2), |policy, page| policy.page(page, 0))
    };
    assert!(pages(5).record().is_ok());
    assert_eq!(pages(6).record(), refused, "6 pages of 5");
}

/// 65,537 pages: a count that is cut to 16 bits would be 1.
#[test]
fn a_count_of_more_than_16_bits_gives_3() {
    let entries = (0..=65536).fold(Policy::new(4, 4), |policy, _| policy.entry_page(1, 2));
    assert_eq!(entries.record(), Err(Refusal::CountOutOfRange));
    let pages = (0..65536).fold(worked(), |policy, _| policy.page(1, 2));
    assert_eq!(pages.record(), Err(Refusal::CountOutOfRange));
    for wide in [65536 + 1, 1 << 32 | 1, u64::MAX] {
        let mut buffer = [9; 12];
        let written = write_record(4, 4, wide, 1, &[1], &[2], &mut buffer);
        assert_eq!((written, buffer), (Err(Refusal::CountOutOfRange), [9; 12]), "n {wide}");
        let written = write_record(4, 4, 1, wide, &[1], &[2], &mut buffer);
        assert_eq!((written, buffer), (Err(Refusal::CountOutOfRange), [9; 12]), "e {wide}");
    }
}

/// A policy that is built has as many pages as frames: only arrays that are at hand can differ from n.
#[test]
fn arrays_of_another_length_give_4() {
    let arrays: [(&[u16], &[u16]); 6] = [
        (&[], &[]),
        (&[1], &[2]),
        (&[1], &[2, 2]),
        (&[1, 2], &[2]),
        (&[1, 2], &[2, 2, 2]),
        (&[1, 2, 3], &[2, 2]),
    ];
    for (pages, frames) in arrays {
        let mut buffer = [9; 20];
        let written = write_record(4, 4, 2, 1, pages, frames, &mut buffer);
        assert_eq!(
            (written, buffer),
            (Err(Refusal::RecordLength), [9; 20]),
            "{pages:?} {frames:?}"
        );
    }
    let mut buffer = [9; 17];
    assert_eq!(write_record(4, 4, 2, 1, &[1, 2], &[2, 3], &mut buffer), Ok(16));
    assert_eq!(buffer, [4, 0, 4, 0, 2, 0, 1, 0, 1, 0, 2, 0, 2, 0, 3, 0, 9]);
}

#[test]
fn listed_pages_give_5() {
    let policies = [
        Policy::new(4, 4).entry_page(4, 2),
        Policy::new(4, 4).entry_page(65535, 2),
        worked().page(1, 3),
        worked().page(3, 3).page(2, 3),
        // An entry page above another page, and a frame that is wrong too: 5 comes first.
        worked().page(2, 2).entry_page(3, 4),
    ];
    for policy in policies {
        assert_eq!(policy.record(), Err(Refusal::ListedPage), "{policy:?}");
    }
    assert!(Policy::new(4, 4).entry_page(0, 2).page(3, 2).record().is_ok());
}

#[test]
fn listed_frames_give_6() {
    for policy in [Policy::new(4, 4).entry_page(1, 4), worked().page(2, 3).page(3, 65535)] {
        assert_eq!(policy.record(), Err(Refusal::ListedFrame), "{policy:?}");
    }
}

#[test]
fn a_lent_buffer() {
    let mut buffer = [9; 15];
    assert_eq!(worked().write_record(&mut buffer), Ok(12));
    assert_eq!(buffer[..12], WORKED);
    assert_eq!(buffer[12..], [9; 3], "bytes past the record");
    let mut buffer = [9; 12];
    assert_eq!(worked().write_record(&mut buffer), Ok(12));
    assert_eq!(buffer, WORKED);
}

#[test]
fn a_buffer_that_is_too_short_gives_16() {
    for length in [0, 8, 11] {
        let mut buffer = vec![9; length];
        assert_eq!(worked().write_record(&mut buffer), Err(Refusal::BufferTooShort), "{length}");
        assert_eq!(buffer, vec![9; length], "{length}");
    }
    // The last question: a frame that is wrong too gives 6.
    let mut buffer = [9; 11];
    let written = Policy::new(4, 4).entry_page(1, 4).write_record(&mut buffer);
    assert_eq!((written, buffer), (Err(Refusal::ListedFrame), [9; 11]));
}
