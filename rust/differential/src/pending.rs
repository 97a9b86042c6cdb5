//! Calls beside the lists on small tables in which one frame comes often: asks, commits, drops, and synchronisations while it is pending or
//! not. Contents are such as no start leaves, so that each question and each entry that K6 is about comes often.

use guard::archive::{
    MODE_KERNEL, MODE_USER, STATE_DEVICES, STATE_ENTRIES, STATE_FRAMES, STATE_MODE, STATE_PAGES,
    STATE_PENDING, STATE_PENDING_FRAME, STATE_PENDING_PAGE, STATE_RUNNING, STATE_WORDS,
};
use guard::NO_FRAME;
use inputs::{KernelEntry, Random};
use reference::claim::Call as Listed;
use reference::{vector_len, Mistake, Tree};

use crate::call::{Call, Lent};
use crate::compare::compare;
use crate::damage::{shadow_entry, Damage};
use crate::tally::Tally;
use crate::walked::check_flat;

/// The most pages and frames.
const PAGES: u64 = 8;
const FRAMES: u64 = 16;

/// The sizes, and the page and the frame that the tables are about.
struct About {
    v: u64,
    f: u64,
    page: u64,
    frame: u64,
    /// Another frame, which is excluded where there is one.
    other: u64,
}

pub fn pending_call(
    mistake: Mistake,
    random: &mut Random,
    tally: &mut Tally,
) -> Result<(), String> {
    let (v, f) = (1 + random.below(PAGES), 1 + random.below(FRAMES));
    let frame = random.below(f);
    let about = About { v, f, page: random.below(v), frame, other: (frame + 1) % f };
    let before = about.lent(random);
    let (page, frame) = (near(random, about.page, v), near(random, about.frame, f));
    let listed = match random.below(14) {
        0..3 => Listed::Ask { page, frame },
        3..6 => Listed::Commit,
        6 => Listed::Drop,
        _ => return synchronise(mistake, random, &about, &before, tally),
    };
    check(mistake, listed, &before, tally)
}

/// A synchronisation from a flat table, or from a tree of depth 1 with the same entries.
fn synchronise(
    mistake: Mistake,
    random: &mut Random,
    about: &About,
    before: &Lent,
    tally: &mut Tally,
) -> Result<(), String> {
    let page = if random.one_in(4) { about.page } else { random.below(about.v + 1) };
    let mut table = [0; 512];
    let kernel = &mut table[..about.v as usize];
    kernel.iter_mut().for_each(|entry| *entry = about.kernel_entry(random));
    let kernel = &table[..about.v as usize];
    let tree = Tree { tables: &table, root: 0, depth: 1 };
    let listed = match random.below(10) {
        0 => Listed::SynchroniseAll { kernel },
        1 => Listed::SynchroniseAllFromTree { tree },
        2..6 => Listed::SynchroniseOne { kernel, page },
        _ => Listed::SynchroniseOneFromTree { tree, page },
    };
    check(mistake, listed, before, tally)
}

fn check(mistake: Mistake, listed: Listed, before: &Lent, tally: &mut Tally) -> Result<(), String> {
    let mut lent = before.clone();
    let call = Call::Listed(listed);
    let number = compare(mistake, &mut lent, &call)?;
    if number == 0 {
        check_flat(&call, before, &lent)?;
    }
    tally.count_tree(&call, number, &lent);
    tally.count_approval(&listed, number, before);
    tally.count_damaged(call.kind(), number, Damage::Contents)
}

impl About {
    fn lent(&self, random: &mut Random) -> Lent {
        let is_pending = random.one_in(2);
        let mode = random.pick(&[MODE_KERNEL, MODE_USER]);
        let mut exclusion: Vec<_> =
            (0..vector_len(self.f as u16)).map(|_| random.word() as u8).collect();
        exclusion[self.other as usize / 8] |= 1 << (self.other % 8);
        let byte = &mut exclusion[self.frame as usize / 8];
        // In most of them as in a list: the frame is excluded while it is pending.
        match (random.one_in(6), is_pending) {
            (false, true) | (true, false) => *byte |= 1 << (self.frame % 8),
            _ => *byte &= !(1 << (self.frame % 8)),
        }
        let mut map: Vec<_> = (0..self.v).map(|_| self.number(random)).collect();
        if !random.one_in(4) {
            map[self.page as usize] = NO_FRAME;
        }
        let mut shadow: Vec<_> = (0..self.v).map(|_| self.shadow_entry(random, mode)).collect();
        if random.one_in(16) {
            shadow[self.page as usize] = self.approved(mode);
        }
        Lent {
            state: self.state(random, is_pending, mode),
            numbers: vec![random.word(); 2],
            shadow,
            map,
            exclusion,
            buffer: Vec::new(),
        }
    }

    fn state(&self, random: &mut Random, is_pending: bool, mode: u64) -> Vec<u64> {
        let mut state = vec![0; STATE_WORDS];
        state[STATE_PAGES] = self.v;
        state[STATE_FRAMES] = self.f;
        state[STATE_ENTRIES] = 1;
        state[STATE_MODE] = mode;
        state[STATE_RUNNING] = random.below(self.v);
        state[STATE_DEVICES] = 1;
        state[STATE_PENDING] = is_pending.into();
        // Where none is pending these words are not read.
        if is_pending || random.one_in(2) {
            state[STATE_PENDING_PAGE] = self.page;
            state[STATE_PENDING_FRAME] = self.frame;
        }
        state
    }

    /// A number in the map.
    fn number(&self, random: &mut Random) -> u16 {
        match random.below(5) {
            0 => random.below(self.f + 1) as u16,
            1 => self.frame as u16,
            _ => NO_FRAME,
        }
    }

    /// The approved entry that a commit makes in this mode.
    fn approved(&self, mode: u64) -> u64 {
        self.frame << 12 | 0x401 | mode << 63
    }

    /// An entry with the frame, often.
    fn shadow_entry(&self, random: &mut Random, mode: u64) -> u64 {
        match random.below(9) {
            0 => 0,
            1 => self.approved(mode),
            // A frame that has the same lower bits.
            8 => (self.frame + (1 << random.pick(&[16, 32]))) << 12 | random.word() & 0xfff,
            // Mostly not writable, so that an ask is accepted; now and then not present and writable.
            2 | 3 => self.frame << 12 | random.word() & !(0xff_ffff_ffff << 12 | 3) | 1,
            4 if random.one_in(3) => self.frame << 12 | random.word() & 0xfff | 3,
            4 => self.frame << 12 | random.word() & 0xffc | 2,
            _ => shadow_entry(random, self.f),
        }
    }

    /// An entry of the kernel's table, often with the frame.
    fn kernel_entry(&self, random: &mut Random) -> u64 {
        let entry = KernelEntry::random(random, self.f);
        let frame =
            if random.one_in(2) { self.frame } else { random.pick(&[entry.frame, self.other]) };
        KernelEntry { frame, ..entry }.bits()
    }
}

/// Mostly this number, or another below the end or near it.
fn near(random: &mut Random, number: u64, end: u64) -> u64 {
    match random.below(8) {
        0 => random.below(end + 1),
        1 if random.one_in(4) => number + (1 << random.pick(&[16, 32, 63])),
        _ => number,
    }
}
