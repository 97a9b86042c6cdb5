// The guard that most cases stand on: V 4, F 9, two entry pages, page 1 approved for frame 2 and page 3 for frame 8, three devices.
// Its exclusion vector is 0x04, 0x01.
use crate::calls::Answer;
use crate::calls::Mode;
use crate::calls::State;
use ::guard::ENTRY_PAGES;

// A state whose first four entry pages are given; the others are 0. It has three devices, and nothing is pending.
pub fn state(pages: u16, frames: u16, entry_count: u16, first: [u16; 4], mode: Mode) -> State {
    let mut entry_pages = [0u16; ENTRY_PAGES];
    entry_pages[..4].copy_from_slice(&first);
    State { pages, frames, entry_count, entry_pages, mode, devices: 3, pending: [0, 0, 0] }
}

pub fn state_in(mode: Mode) -> State {
    state(4, 9, 2, [1, 3, 0, 0], mode)
}

// The number that refused a call, or 0.
pub fn number_of(answer: Answer) -> u64 {
    match answer {
        Answer::Done(_, _) => 0,
        Answer::Refused(number) => number,
    }
}

// A run of whole tables: zeros, but for these entries, each by its table, its index there and its value.
pub fn run_of(tables: usize, entries: &[(usize, usize, u64)]) -> Vec<u64> {
    let mut run = vec![0; 512 * tables];
    for &(table, index, entry) in entries {
        run[512 * table + index] = entry;
    }
    run
}

// What question 17 refuses, of runs of up to three tables: the words of the run, the root and the depth.
pub fn no_trees() -> [(&'static str, usize, u64, u64); 20] {
    [
        ("an empty run", 0, 0, 1),
        ("an empty run of depth 3", 0, 0, 3),
        ("a run of 1 word", 1, 0, 1),
        ("a run of 511 words", 511, 0, 1),
        ("a run of 513 words", 513, 0, 1),
        ("a run of 1023 words", 1023, 0, 2),
        ("a run of 1535 words", 1535, 0, 3),
        ("depth 0", 1536, 0, 0),
        ("depth 4", 1536, 0, 4),
        ("depth 65537", 1536, 0, 65537),
        ("depth 2^32 + 1", 1536, 0, 4294967297),
        ("the highest depth", 1536, 0, 18446744073709551615),
        ("root 1 of 1", 512, 1, 1),
        ("root 3 of 3", 1536, 3, 3),
        ("root 4 of 3", 1536, 4, 1),
        ("root 65536", 1536, 65536, 1),
        ("root 2^32", 1536, 4294967296, 1),
        ("root 2^55", 1536, 36028797018963968, 1),
        ("root 2^63 + 1", 1536, 9223372036854775809, 2),
        ("the highest root", 1536, 18446744073709551615, 3),
    ]
}
