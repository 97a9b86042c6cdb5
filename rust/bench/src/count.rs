//! What callgrind counts: every side of every case, once with no repetition and once with some.
//! rust/bench/instructions has callgrind count inside [`counted`] alone and write down its count at each end of it.

use crate::cases::Case;
use crate::work::{Side, Work};

#[inline(never)]
fn counted(work: &mut dyn Work, side: Side, count: u64) {
    work.repeat(side, count);
}

/// Prints a line for each case and side, in the order of the counts, two for a line.
pub fn count(cases: &[Case], count: u64) {
    for case in cases {
        let mut work = (case.prepare)();
        for side in Side::ALL {
            if work.repeat(side, 0) {
                counted(&mut *work, side, 0);
                counted(&mut *work, side, count);
                println!("{}\t{}\t{count}", case.name, side.name());
            }
        }
        assert!(work.agree() && work.steps_agree(), "{}: sides differ", case.name);
    }
}
