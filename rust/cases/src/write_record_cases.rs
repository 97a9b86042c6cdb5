// Writing a policy record (K2): "write the record into a lent buffer and give its length". Questions 2 to 6, then 7 of the numbers run,
// and 16 "as the last question". A refused call leaves the buffer as it was.
use crate::calls::words;
use crate::calls::Answer;
use crate::calls::Answer::Done;
use crate::calls::Answer::Refused;
use crate::calls::Mode::Kernel;
use crate::guard;
use crate::tally::Tally;
use ::guard::archive;
use ::guard::archive::STATE_WORDS;

// What most cases are about: V 4, F 9, page 1 with frame 2 and page 3 with frame 8, both entry pages.
const SIZES: [u64; 4] = [4, 9, 2, 2];
const PAGES: [u16; 2] = [1, 3];
const FRAMES: [u16; 2] = [2, 8];
const RECORD: [u8; 16] = [4, 0, 9, 0, 2, 0, 2, 0, 1, 0, 3, 0, 2, 0, 8, 0];

// Two contents of a buffer that have no byte in common, so that each byte is seen to be written or to stay.
const BEFORE: [u8; 2] = [0x00, 0xff];

// Whether a call with this much room answers so and leaves these bytes, and all others as they were, past the buffer too.
fn leaves(
    sizes: [u64; 4],
    pages: &[u16],
    frames: &[u16],
    room: usize,
    wanted: Answer,
    left: &[u8],
) -> bool {
    BEFORE.into_iter().all(|before| {
        let mut bytes = vec![before; room + 8];
        let answer = crate::calls::write_record(sizes, pages, frames, &mut bytes[..room]);
        let (front, rest) = bytes.split_at(left.len());
        answer == wanted && front == left && rest.iter().all(|&byte| byte == before)
    })
}

fn written(
    t: Tally,
    name: &str,
    sizes: [u64; 4],
    pages: &[u16],
    frames: &[u16],
    room: usize,
    record: &[u8],
) -> Tally {
    let wanted = Done(record.len() as u64, 0);
    t.case("write_record", name, leaves(sizes, pages, frames, room, wanted, record))
}

fn refused(
    t: Tally,
    name: &str,
    sizes: [u64; 4],
    pages: &[u16],
    frames: &[u16],
    room: usize,
    number: u64,
) -> Tally {
    t.case("write_record", name, leaves(sizes, pages, frames, room, Refused(number), &[]))
}

// "Sizes first: V, F, n, e, 16 bits each. Then two parallel arrays of n 16-bit numbers". "Bytes past the record stay untouched."
fn accepted(t: Tally) -> Tally {
    let t = written(t, "a buffer of the record's length", SIZES, &PAGES, &FRAMES, 16, &RECORD);
    let t = written(t, "a byte past the record", SIZES, &PAGES, &FRAMES, 17, &RECORD);
    let t = written(t, "many bytes past the record", SIZES, &PAGES, &FRAMES, 8200, &RECORD);
    let t = written(
        t,
        "one frame for two pages, page 0 first",
        [2, 8, 2, 1],
        &[0, 1],
        &[7, 7],
        16,
        &[2, 0, 8, 0, 2, 0, 1, 0, 0, 0, 1, 0, 7, 0, 7, 0],
    );
    let t = written(
        t,
        "fewer entry pages than pages",
        [4, 16, 3, 2],
        &[1, 2, 3],
        &[15, 0, 1],
        21,
        &[4, 0, 16, 0, 3, 0, 2, 0, 1, 0, 2, 0, 3, 0, 15, 0, 0, 0, 1, 0],
    );
    let t = written(
        t,
        "every page",
        [4, 12, 4, 4],
        &[0, 1, 2, 3],
        &[11, 10, 9, 8],
        24,
        &[4, 0, 12, 0, 4, 0, 4, 0, 0, 0, 1, 0, 2, 0, 3, 0, 11, 0, 10, 0, 9, 0, 8, 0],
    );
    written(
        t,
        "both bytes of V, F, pages and frames",
        [1027, 3589, 2, 1],
        &[258, 772],
        &[1541, 3079],
        16,
        &[0x03, 0x04, 0x05, 0x0e, 2, 0, 1, 0, 0x02, 0x01, 0x04, 0x03, 0x05, 0x06, 0x07, 0x0c],
    )
}

// V from 1 to 2,048, F from 1 to 4,096, e up to 16.
fn ends_of_ranges(t: Tally) -> Tally {
    let t = written(
        t,
        "one page and one frame",
        [1, 1, 1, 1],
        &[0],
        &[0],
        12,
        &[1, 0, 1, 0, 1, 0, 1, 0, 0, 0, 0, 0],
    );
    let t = written(
        t,
        "page 2047 of 2048, frame 4095 of 4096",
        [2048, 4096, 1, 1],
        &[2047],
        &[4095],
        12,
        &[0x00, 0x08, 0x00, 0x10, 1, 0, 1, 0, 0xff, 0x07, 0xff, 0x0f],
    );
    let pages = [0, 1, 2, 3, 4, 5, 6, 7, 8, 9, 10, 11, 12, 13, 14, 15, 16];
    let t = written(
        t,
        "sixteen entry pages of sixteen",
        [16, 1, 16, 16],
        &pages[..16],
        &[0; 16],
        72,
        &[
            16, 0, 1, 0, 16, 0, 16, 0, 0, 0, 1, 0, 2, 0, 3, 0, 4, 0, 5, 0, 6, 0, 7, 0, 8, 0, 9, 0,
            10, 0, 11, 0, 12, 0, 13, 0, 14, 0, 15, 0, 0, 0, 0, 0, 0, 0, 0, 0, 0, 0, 0, 0, 0, 0, 0,
            0, 0, 0, 0, 0, 0, 0, 0, 0, 0, 0, 0, 0, 0, 0, 0, 0,
        ],
    );
    written(
        t,
        "sixteen entry pages of seventeen",
        [17, 1, 17, 16],
        &pages,
        &[0; 17],
        76,
        &[
            17, 0, 1, 0, 17, 0, 16, 0, 0, 0, 1, 0, 2, 0, 3, 0, 4, 0, 5, 0, 6, 0, 7, 0, 8, 0, 9, 0,
            10, 0, 11, 0, 12, 0, 13, 0, 14, 0, 15, 0, 16, 0, 0, 0, 0, 0, 0, 0, 0, 0, 0, 0, 0, 0, 0,
            0, 0, 0, 0, 0, 0, 0, 0, 0, 0, 0, 0, 0, 0, 0, 0, 0, 0, 0, 0, 0,
        ],
    )
}

// n 2,048: page p with frame 4095 - p, in 8,200 bytes.
fn largest(t: Tally) -> Tally {
    let mut pages = [0u16; 2048];
    let mut frames = [0u16; 2048];
    let mut record = [0u8; 8200];
    record[..8].copy_from_slice(&[0x00, 0x08, 0x00, 0x10, 0x00, 0x08, 0x10, 0x00]);
    for page in 0..2048 {
        let frame = 4095 - page;
        pages[page] = page as u16;
        frames[page] = frame as u16;
        record[8 + 2 * page] = (page % 256) as u8;
        record[9 + 2 * page] = (page / 256) as u8;
        record[4104 + 2 * page] = (frame % 256) as u8;
        record[4105 + 2 * page] = (frame / 256) as u8;
    }
    let sizes = [2048, 4096, 2048, 16];
    let t = written(t, "every page of 2048", sizes, &pages, &frames, 8200, &record);
    refused(t, "every page of 2048, a byte too few", sizes, &pages, &frames, 8199, 16)
}

// The arrays and the buffer of V 4, F 9 and n 2.
fn sized(t: Tally, name: &str, sizes: [u64; 4], number: u64) -> Tally {
    refused(t, name, sizes, &PAGES, &FRAMES, 16, number)
}

// "2. Are V and F within their ranges?", before 3. No number is narrowed: 65540 is not 4.
fn question_2(t: Tally) -> Tally {
    let t = sized(t, "V 0", [0, 9, 2, 2], 2);
    let t = sized(t, "V 2049", [2049, 9, 2, 2], 2);
    let t = sized(t, "V 65540", [65540, 9, 2, 2], 2);
    let t = sized(t, "V 2^32 + 4", [4294967300, 9, 2, 2], 2);
    let t = sized(t, "V 2^63", [9223372036854775808, 9, 2, 2], 2);
    let t = sized(t, "V 2^63 + 4", [9223372036854775812, 9, 2, 2], 2);
    let t = sized(t, "the highest V", [18446744073709551615, 9, 2, 2], 2);
    let t = sized(t, "F 0", [4, 0, 2, 2], 2);
    let t = sized(t, "F 4097", [4, 4097, 2, 2], 2);
    let t = sized(t, "F 65545", [4, 65545, 2, 2], 2);
    let t = sized(t, "F 2^32 + 9", [4, 4294967305, 2, 2], 2);
    let t = sized(t, "F 2^63", [4, 9223372036854775808, 2, 2], 2);
    let t = sized(t, "F 2^63 + 9", [4, 9223372036854775817, 2, 2], 2);
    let t = sized(t, "the highest F", [4, 18446744073709551615, 2, 2], 2);
    let t = sized(t, "V 0 with n 0", [0, 9, 0, 2], 2);
    let t = sized(t, "F 0 with e 0", [4, 0, 2, 0], 2);
    let t = refused(t, "V 0 into a short buffer", [0, 9, 2, 2], &PAGES, &FRAMES, 15, 2);
    refused(t, "F 4097 into an empty buffer", [4, 4097, 2, 2], &PAGES, &FRAMES, 0, 2)
}

// "3. Is n from 1 to V, and e from 1 to the smaller of n and 16?", before 4.
fn question_3(t: Tally) -> Tally {
    let t = sized(t, "n 0", [4, 9, 0, 2], 3);
    let t = sized(t, "n above V", [4, 9, 5, 2], 3);
    let t = sized(t, "n 65538", [4, 9, 65538, 2], 3);
    let t = sized(t, "n 2^32 + 2", [4, 9, 4294967298, 2], 3);
    let t = sized(t, "n 2^62 + 2", [4, 9, 4611686018427387906, 2], 3);
    let t = sized(t, "n 2^63", [4, 9, 9223372036854775808, 2], 3);
    let t = sized(t, "n 2^63 + 2", [4, 9, 9223372036854775810, 2], 3);
    let t = sized(t, "the highest n", [4, 9, 18446744073709551615, 2], 3);
    let t = sized(t, "e 0", [4, 9, 2, 0], 3);
    let t = sized(t, "e above n", [4, 9, 2, 3], 3);
    let t = sized(t, "e 65538", [4, 9, 2, 65538], 3);
    let t = sized(t, "e 2^32 + 2", [4, 9, 2, 4294967298], 3);
    let t = sized(t, "e 2^63", [4, 9, 2, 9223372036854775808], 3);
    let t = sized(t, "e 2^63 + 2", [4, 9, 2, 9223372036854775810], 3);
    let t = sized(t, "the highest e", [4, 9, 2, 18446744073709551615], 3);
    let pages = [0, 1, 2, 3, 4, 5, 6, 7, 8, 9, 10, 11, 12, 13, 14, 15, 16];
    let t = refused(t, "e 17 of 17", [17, 1, 17, 17], &pages, &[0; 17], 76, 3);
    let t = refused(t, "n above V, and no array so long", [1, 9, 2, 1], &[0], &[2], 16, 3);
    let t = refused(t, "e 0 with empty arrays", [4, 9, 2, 0], &[], &[], 16, 3);
    let t = refused(t, "n 0 into an empty buffer", [4, 9, 0, 2], &PAGES, &FRAMES, 0, 3);
    let t = refused(t, "n above V into a short buffer", [4, 9, 5, 2], &PAGES, &FRAMES, 15, 3);
    refused(t, "e 0 into a short buffer", [4, 9, 2, 0], &PAGES, &FRAMES, 15, 3)
}

// "each array must also have exactly n numbers, else 4", before 5 and 6.
fn question_4(t: Tally) -> Tally {
    let t = refused(t, "a page too few", SIZES, &[1], &FRAMES, 16, 4);
    let t = refused(t, "a page too many", SIZES, &[1, 2, 3], &FRAMES, 16, 4);
    let t = refused(t, "no pages", SIZES, &[], &FRAMES, 16, 4);
    let t = refused(t, "a frame too few", SIZES, &PAGES, &[2], 16, 4);
    let t = refused(t, "a frame too many", SIZES, &PAGES, &[2, 8, 8], 16, 4);
    let t = refused(t, "no frames", SIZES, &PAGES, &[], 16, 4);
    let t = refused(t, "a page and a frame too few", SIZES, &[1], &[2], 16, 4);
    let t = refused(t, "a page and a frame too many", SIZES, &[0, 1, 2], &[2, 8, 8], 20, 4);
    let t = refused(t, "a page too few and a frame too many", SIZES, &[1], &[2, 8, 8], 16, 4);
    let t = refused(t, "empty arrays", SIZES, &[], &[], 16, 4);
    let t = refused(t, "a page too few, which is at V", SIZES, &[4], &FRAMES, 16, 4);
    let t = refused(t, "a frame too few, with a page at V", SIZES, &[1, 4], &[2], 16, 4);
    let t = refused(t, "a page too few, with a frame at F", SIZES, &[1], &[2, 9], 16, 4);
    let t = refused(t, "a frame too many, which is at F", SIZES, &PAGES, &[2, 8, 9], 16, 4);
    let t = refused(t, "a page too few into a short buffer", SIZES, &[1], &FRAMES, 15, 4);
    refused(t, "a frame too many into an empty buffer", SIZES, &PAGES, &[2, 8, 8], 0, 4)
}

// "5. Is every listed page below V and above the one before?", before 6. "6. Is every listed frame below F?", before 7 and 16.
fn questions_5_and_6(t: Tally) -> Tally {
    let t = refused(t, "a page at V", SIZES, &[1, 4], &FRAMES, 16, 5);
    let t = refused(t, "a first page at V", SIZES, &[4, 5], &FRAMES, 16, 5);
    let t = refused(t, "page 65535", SIZES, &[1, 65535], &FRAMES, 16, 5);
    let t = refused(t, "page 65535 first", SIZES, &[65535, 0], &FRAMES, 16, 5);
    let t = refused(t, "a page twice", SIZES, &[1, 1], &FRAMES, 16, 5);
    let t = refused(t, "page 0 twice", SIZES, &[0, 0], &FRAMES, 16, 5);
    let t = refused(t, "falling pages", SIZES, &[3, 1], &FRAMES, 16, 5);
    let t = refused(t, "a frame at F and then a page at V", SIZES, &[1, 4], &[9, 8], 16, 5);
    let t = refused(t, "a page twice into a short buffer", SIZES, &[1, 1], &FRAMES, 15, 5);
    let t = refused(t, "a frame at F", SIZES, &PAGES, &[9, 8], 16, 6);
    let t = refused(t, "a second frame at F", SIZES, &PAGES, &[2, 9], 16, 6);
    let t = refused(t, "frame 65535", SIZES, &PAGES, &[65535, 8], 16, 6);
    let t = refused(t, "a second frame of 65535", SIZES, &PAGES, &[2, 65535], 16, 6);
    refused(t, "a frame at F into a short buffer", SIZES, &PAGES, &[2, 9], 15, 6)
}

// "an output buffer shorter than the record"
fn question_16(t: Tally) -> Tally {
    let t = refused(t, "a buffer a byte too short", SIZES, &PAGES, &FRAMES, 15, 16);
    let t = refused(t, "room for the sizes and the pages", SIZES, &PAGES, &FRAMES, 12, 16);
    let t = refused(t, "room for the sizes", SIZES, &PAGES, &FRAMES, 8, 16);
    let t = refused(t, "room for a byte", SIZES, &PAGES, &FRAMES, 1, 16);
    refused(t, "an empty buffer", SIZES, &PAGES, &FRAMES, 0, 16)
}

// Calls with a numbers run of this many words, and a buffer of this many bytes.
// A numbers run of another length is not written. Of the run of two, calls.rs asks that a refused call writes zeros.
fn run(
    t: Tally,
    name: &str,
    [words, room]: [usize; 2],
    sizes: [u64; 4],
    pages: &[u16],
    frames: &[u16],
    number: u64,
) -> Tally {
    let [v, f, n, e] = sizes;
    let mut buffer = [0xa5; 16];
    let mut numbers = [77; 3];
    let answered = archive::write_record(
        v,
        f,
        n,
        e,
        pages,
        frames,
        &mut buffer[..room],
        &mut numbers[..words],
    );
    let unwritten = buffer == [0xa5; 16] && numbers == [77; 3];
    t.case("write_record", name, answered == number && unwritten)
}

// 7 comes after 2 to 6 and before 16.
fn question_7(t: Tally) -> Tally {
    let t = run(t, "an empty numbers run", [0, 16], SIZES, &PAGES, &FRAMES, 7);
    let t = run(t, "a numbers run of 1", [1, 16], SIZES, &PAGES, &FRAMES, 7);
    let t = run(t, "a numbers run of 3", [3, 16], SIZES, &PAGES, &FRAMES, 7);
    let name = "an empty numbers run and a short buffer";
    let t = run(t, name, [0, 15], SIZES, &PAGES, &FRAMES, 7);
    let name = "a numbers run of 3 and an empty buffer";
    let t = run(t, name, [3, 0], SIZES, &PAGES, &FRAMES, 7);
    let t = run(t, "an empty numbers run and V 0", [0, 16], [0, 9, 2, 2], &PAGES, &FRAMES, 2);
    let t = run(t, "a numbers run of 3 and F 4097", [3, 15], [4, 4097, 2, 2], &PAGES, &FRAMES, 2);
    let t = run(t, "an empty numbers run and n 0", [0, 16], [4, 9, 0, 2], &PAGES, &FRAMES, 3);
    let t = run(t, "a numbers run of 3 and e 0", [3, 15], [4, 9, 2, 0], &PAGES, &FRAMES, 3);
    let t = run(t, "an empty numbers run and a page too few", [0, 16], SIZES, &[1], &FRAMES, 4);
    let name = "a numbers run of 3 and a frame too many";
    let t = run(t, name, [3, 15], SIZES, &PAGES, &[2, 8, 8], 4);
    let t = run(t, "an empty numbers run and a page at V", [0, 16], SIZES, &[1, 4], &FRAMES, 5);
    let t = run(t, "a numbers run of 3 and a page twice", [3, 15], SIZES, &[1, 1], &FRAMES, 5);
    let t = run(t, "an empty numbers run and a frame at F", [0, 16], SIZES, &PAGES, &[2, 9], 6);
    let t = run(t, "a numbers run of 1 and a frame at F", [1, 16], SIZES, &PAGES, &[2, 9], 6);
    run(t, "a numbers run of 3 and a frame at F", [3, 15], SIZES, &PAGES, &[2, 9], 6)
}

#[derive(PartialEq)]
struct Started {
    answer: Answer,
    run: [u64; STATE_WORDS],
    shadow: Vec<u64>,
    map: Vec<u16>,
    exclusion: Vec<u8>,
}

// Starts on tables of this many pages and bytes of the exclusion vector, which hold nothing that a start writes.
fn start(record: &[u8], pages: usize, bytes: usize) -> Started {
    let mut run = [7; STATE_WORDS];
    let mut shadow = vec![5; pages];
    let mut map = vec![6; pages];
    let mut exclusion = vec![0xa5; bytes];
    let answer = crate::calls::start(record, 3, &mut run, &mut shadow, &mut map, &mut exclusion);
    Started { answer, run, shadow, map, exclusion }
}

// "With tables and the start's other givens in order, a written record starts a guard with those pages and frames".
fn starts(t: Tally) -> Tally {
    let mut buffer = [0xa5; 20];
    let written = crate::calls::write_record(SIZES, &PAGES, &FRAMES, &mut buffer);
    let started = start(&buffer[..16], 4, 2);
    let wanted = Started {
        answer: Done(2, 2),
        run: words(guard::state(4, 9, 2, [1, 3, 0, 0], Kernel(1))),
        shadow: vec![0, 0x2401, 0, 0x8401],
        map: vec![65535, 2, 65535, 8],
        exclusion: vec![0x04, 0x01],
    };
    let right = written == Done(16, 0) && started == wanted && start(&RECORD, 4, 2) == wanted;
    let t = t.case("write_record", "a written record starts a guard", right);
    let mut buffer = [0xa5; 12];
    let written = crate::calls::write_record([2048, 4096, 1, 1], &[2047], &[4095], &mut buffer);
    let started = start(&buffer, 2048, 512);
    let literal = [0x00, 0x08, 0x00, 0x10, 1, 0, 1, 0, 0xff, 0x07, 0xff, 0x0f];
    let places = started.shadow[2047] == 0xfff401 && started.map[2047] == 4095;
    let right = written == Done(12, 0)
        && started.answer == Done(1, 1)
        && started.run == words(guard::state(2048, 4096, 1, [2047, 0, 0, 0], Kernel(2047)))
        && started == start(&literal, 2048, 512);
    t.case("write_record", "a written record of the largest sizes starts a guard", right && places)
}

pub fn all(t: Tally) -> Tally {
    let t = accepted(t);
    let t = ends_of_ranges(t);
    let t = largest(t);
    let t = question_2(t);
    let t = question_3(t);
    let t = question_4(t);
    let t = questions_5_and_6(t);
    let t = question_7(t);
    let t = question_16(t);
    starts(t)
}
