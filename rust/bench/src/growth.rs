//! The calls of the plot, by the number of pages, with a copy of the bytes that the call goes through.

use std::hint::black_box;

use crate::approval::Commit;
use crate::switch::{LeaveAndEnter, Start};
use crate::synchronise::SynchroniseAll;
use crate::tables::{Contents, Tables};
use crate::work::{Side, Work};

/// The sizes of the plot.
pub const SIZES: [u16; 8] = [16, 32, 64, 128, 256, 512, 1024, 2048];

/// A call of the plot.
#[derive(Clone, Copy, Debug, PartialEq, Eq)]
pub enum Growth {
    SynchroniseAbsent,
    SynchroniseOrdinary,
    LeaveAndEnter,
    Start,
    Commit,
}

impl Growth {
    pub const ALL: [Growth; 5] = [
        Growth::SynchroniseAbsent,
        Growth::SynchroniseOrdinary,
        Growth::LeaveAndEnter,
        Growth::Start,
        Growth::Commit,
    ];

    pub fn words(self) -> &'static str {
        match self {
            Growth::SynchroniseAbsent => "synchronise all, mostly absent",
            Growth::SynchroniseOrdinary => "synchronise all, mostly ordinary",
            Growth::LeaveAndEnter => "leave and enter",
            Growth::Start => "start, most pages listed",
            Growth::Commit => "commit, no alias",
        }
    }

    /// The name of the case with so many pages.
    pub fn case(self, v: u16) -> String {
        format!("growth of {}, V {v}", self.words())
    }

    pub fn prepare(self, v: u16) -> Growing {
        let pages = usize::from(v);
        let (shadow, map, exclusion) = (8 * pages, 2 * pages, 2 * pages / 8);
        let synchronise = |contents| -> Box<dyn Work> {
            Box::new(SynchroniseAll::new(Tables::new(contents, v), false))
        };
        let listed = Tables::new(Contents::Approved, v);
        let record = listed.policy.len();
        let kernel = shadow;
        let (work, bytes): (Box<dyn Work>, _) = match self {
            Growth::SynchroniseAbsent => {
                (synchronise(Contents::Absent), kernel + shadow + map + exclusion)
            }
            Growth::SynchroniseOrdinary => {
                (synchronise(Contents::Ordinary), kernel + shadow + map + exclusion)
            }
            Growth::LeaveAndEnter => {
                (Box::new(LeaveAndEnter::new(&Tables::new(Contents::Ordinary, v))), 2 * shadow)
            }
            Growth::Start => (Box::new(Start::new(listed)), record + shadow + map + exclusion),
            Growth::Commit => {
                (Box::new(Commit::new(&Tables::asked(Contents::Absent, v))), shadow + map)
            }
        };
        Growing { work, copied: vec![0xa5; 2 * bytes + GAP], bytes }
    }
}

/// A call with the copy.
pub struct Growing {
    work: Box<dyn Work>,
    /// What is copied, the gap, and where it is copied to.
    copied: Vec<u8>,
    bytes: usize,
}

/// Keeps what is copied and where it goes from lying alike in their pages, which processors take slowly.
const GAP: usize = 2048 + 64;

impl Work for Growing {
    fn repeat(&mut self, side: Side, count: u64) -> bool {
        let Growing { work, copied, bytes } = self;
        match side {
            // The reference is not drawn; it is brought along, so that the sides can be compared.
            Side::Archive | Side::OnRuns | Side::Reference => return work.repeat(side, count),
            Side::Copy => {
                let (from, to) = copied.split_at_mut(*bytes + GAP);
                let from = &from[..*bytes];
                for _ in 0..count {
                    to.copy_from_slice(black_box(from));
                    black_box(&mut *to);
                }
            }
            _ => return false,
        }
        true
    }

    fn agree(&self) -> bool {
        self.work.agree()
    }
}
