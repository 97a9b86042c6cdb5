//! Trees of the measured cases (K4): the pages of a flat kernel table in tables of a tree, or in large pages.
//! A case has two runs that are brought in turn, as a flat case has two kernel tables; the flat tables of their walks stand beside them.

use inputs::record;
use reference::Tree;

use crate::tables::{Contents, Tables, MOST_DEVICES};

const ENTRIES: usize = 512;
/// Present, writable, user and accessed: an entry above the last that takes nothing away.
const UPPER: u64 = 0x27;
/// Present, writable, user and large.
const LARGE: u64 = 0x87;
const WRITABLE: u64 = 1 << 1;

pub struct Trees {
    /// The policy, and the flat table of each run.
    pub flat: Tables,
    runs: [Vec<u64>; 2],
    depth: u64,
}

impl Trees {
    /// The entries of flat tables in tables of level 1, with a table of each level above them. V is 512 at most with a depth of 1.
    pub fn of_tables(contents: Contents, v: u16, depth: u64) -> Trees {
        let flat = Tables::new(contents, v);
        let runs = flat.kernels.each_ref().map(|kernel| run_of(kernel, depth));
        Trees { flat, runs, depth }.checked()
    }

    /// Large pages from frame V on, so that all pages but the entry page are ordinary. In the second run the first of them cannot be
    /// written.
    pub fn of_large_pages(v: u16) -> Trees {
        let frames = (u64::from(v)..).step_by(ENTRIES);
        let mut first = vec![0; ENTRIES];
        for (entry, frame) in first[..usize::from(v) / ENTRIES].iter_mut().zip(frames) {
            *entry = frame << 12 | LARGE;
        }
        let mut second = first.clone();
        second[0] &= !WRITABLE;
        let policy = record(v, 2 * v, 1, &[(0, 0)]);
        let devices = MOST_DEVICES;
        let flat = Tables { v, policy, devices, asked: None, kernels: Default::default() };
        let mut trees = Trees { flat, runs: [first, second], depth: 2 };
        trees.flat.kernels = [0, 1].map(|turn| trees.walked(turn));
        trees
    }

    /// The tree of a turn. Its root is the first table.
    pub fn at(&self, turn: usize) -> Tree<'_> {
        Tree { tables: &self.runs[turn % 2], root: 0, depth: self.depth }
    }

    fn walked(&self, turn: usize) -> Vec<u64> {
        let walk = |page| reference::walk(self.at(turn), page).expect("the tree is in order").0;
        (0..self.flat.v.into()).map(walk).collect()
    }

    /// A case is no measurement where its walks do not give the flat tables, but for absent entries, which are 0.
    fn checked(self) -> Trees {
        for (turn, kernel) in self.flat.kernels.iter().enumerate() {
            let expected = kernel.iter().map(|entry| if entry & 1 == 1 { *entry } else { 0 });
            assert!(expected.eq(self.walked(turn)), "the walks give another table");
        }
        self
    }
}

/// A run whose first table is the root, with the tables of level 1 last.
fn run_of(kernel: &[u64], depth: u64) -> Vec<u64> {
    let leaves = kernel.len().div_ceil(ENTRIES);
    let above = depth as usize - 1;
    let mut run = vec![0; ENTRIES * (above + leaves)];
    run[ENTRIES * above..][..kernel.len()].copy_from_slice(kernel);
    for table in 0..above {
        // The next table, or, right above level 1, all tables of it.
        let count = if table + 1 == above { leaves } else { 1 };
        let numbers = table as u64 + 1..;
        for (entry, number) in run[ENTRIES * table..][..count].iter_mut().zip(numbers) {
            *entry = number << 12 | UPPER;
        }
    }
    run
}
