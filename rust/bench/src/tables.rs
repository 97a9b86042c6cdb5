//! Policies and kernel tables of the measured cases.
//! A case has two kernel tables that differ in an eighth of their entries and are brought in turn, so that every call has work to do.

use inputs::{record, Random};
use reference::Pair;

const PRESENT: u64 = 1;
const WRITABLE: u64 = 1 << 1;
const USER: u64 = 1 << 2;
const NO_EXECUTE: u64 = 1 << 63;

pub const MOST_DEVICES: u16 = 64;

/// What most of a kernel table's entries are.
#[derive(Clone, Copy, Debug, PartialEq, Eq)]
pub enum Contents {
    Absent,
    Ordinary,
    Approved,
    /// Absent pages, approved pages with frames of their own and of others, aliases of excluded frames, frames at and above F,
    /// ordinary pages, all in no order.
    Mix,
}

impl Contents {
    pub const ALL: [Contents; 4] =
        [Contents::Absent, Contents::Ordinary, Contents::Approved, Contents::Mix];

    pub fn words(self) -> &'static str {
        match self {
            Contents::Absent => "mostly absent",
            Contents::Ordinary => "mostly ordinary",
            Contents::Approved => "mostly approved",
            Contents::Mix => "adversarial mix",
        }
    }
}

#[derive(Clone)]
pub struct Tables {
    pub v: u16,
    pub policy: Vec<u8>,
    /// The number of devices that a start is given.
    pub devices: u16,
    /// What is asked for after the start, if anything is.
    pub asked: Option<Pair>,
    pub kernels: [Vec<u64>; 2],
}

impl Tables {
    /// F is 2 × V. A listed page has the frame of its own number, so that frames from V on are free.
    /// Page 0 is the entry page, and the last page is user code, so that every case can switch the mode.
    pub fn new(contents: Contents, v: u16) -> Tables {
        let mut random = Random::new(v.into());
        let is_listed = |random: &mut Random| match contents {
            Contents::Approved => !random.one_in(16),
            Contents::Mix => random.one_in(4),
            Contents::Absent | Contents::Ordinary => random.one_in(16),
        };
        let pages: Vec<_> =
            (0..v - 1).filter(|&page| page == 0 || is_listed(&mut random)).collect();
        let listed: Vec<_> = pages.iter().map(|&page| (page, page)).collect();
        let draw = |random: &mut Random, page: u16| {
            if page == v - 1 {
                return entry(u64::from(v) + 1, PRESENT | WRITABLE | USER);
            }
            let of_mix = contents == Contents::Mix || random.one_in(16);
            let chosen = if of_mix { random.pick(&Contents::ALL) } else { contents };
            draw_entry(random, chosen, v.into(), page.into())
        };
        let first: Vec<_> = (0..v).map(|page| draw(&mut random, page)).collect();
        let mut second = first.clone();
        for page in 0..v {
            if random.one_in(8) {
                second[usize::from(page)] = draw(&mut random, page);
            }
        }
        let policy = record(v, 2 * v, 1, &listed);
        Tables { v, policy, devices: MOST_DEVICES, asked: None, kernels: [first, second] }
    }

    /// The same kernel table in every turn.
    pub fn unchanged(contents: Contents, v: u16) -> Tables {
        let mut tables = Tables::new(contents, v);
        tables.kernels[1] = tables.kernels[0].clone();
        tables
    }

    /// The last page and a free frame are asked for. Some pages of a large table that is mostly ordinary have that frame.
    pub fn asked(contents: Contents, v: u16) -> Tables {
        Tables { asked: Some(Pair { page: v - 1, frame: v + 2 }), ..Tables::new(contents, v) }
    }

    /// The same, with the frame in one entry of sixteen of each kernel table, the first one and the last aside.
    pub fn pending(contents: Contents, v: u16) -> Tables {
        let mut tables = Tables::asked(contents, v);
        let mut random = Random::new(v.into());
        for page in 1..usize::from(v) - 1 {
            if random.one_in(16) {
                for kernel in &mut tables.kernels {
                    let bits = PRESENT | random.pick(&[WRITABLE, USER, WRITABLE | USER]);
                    kernel[page] = entry(u64::from(v) + 2, bits);
                }
            }
        }
        tables
    }
}

fn entry(frame: u64, bits: u64) -> u64 {
    frame << 12 | bits
}

fn draw_entry(random: &mut Random, contents: Contents, v: u64, page: u64) -> u64 {
    let bits = PRESENT | random.pick(&[WRITABLE, WRITABLE | USER, USER, NO_EXECUTE | WRITABLE]);
    match contents {
        Contents::Absent => entry(v + page, 0),
        Contents::Ordinary => entry(v + random.below(v), bits),
        Contents::Approved => entry(page, bits),
        // Any frame up to a few beyond the last: below V it is another page's, and often excluded.
        Contents::Mix => entry(random.below(2 * v + 4), bits),
    }
}
