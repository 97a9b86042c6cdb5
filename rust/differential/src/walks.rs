//! The walks that K4 is about: how they ended, by the depth and the entries read, which levels had a bit, and why 17 refused a tree.
//! Each must come often.

use std::io::{self, Write};

use guard::Refusal;
use reference::claim::Call as Listed;
use reference::path::{End, Path};
use reference::Tree;

use crate::call::{Call, ALL_FROM_TREE, KINDS, ONE_FROM_TREE, WALK};
use crate::table::{rows_of, Table};

/// The calls that are lent a tree, by their places in [`KINDS`].
const CALLS: [usize; 3] = [ONE_FROM_TREE, ALL_FROM_TREE, WALK];

/// How a walk ended.
const ENDS: [(&str, End); 7] = [
    ("page", End::Page),
    ("large page", End::LargePage),
    ("too many bits", End::TooManyBits),
    ("not present", End::NotPresent),
    ("reserved bit", End::Reserved),
    ("no such table", End::NoSuchTable),
    ("misaligned", End::Misaligned),
];

/// The depth, and the entries read, which are never more.
const READS: [(u64, u64); 9] =
    [(1, 0), (1, 1), (2, 0), (2, 1), (2, 2), (3, 0), (3, 1), (3, 2), (3, 3)];

/// A bit of an entry and the value of it that is counted.
const BITS: [(&str, u32, u64); 6] = [
    ("writable clear", 1, 0),
    ("user clear", 2, 0),
    ("write-through set", 3, 1),
    ("cache disable set", 4, 1),
    ("bit 7 set", 7, 1),
    ("no-execute set", 63, 1),
];
const LARGE: usize = 4;

/// The levels that have the bit so, of those that a walk met on its way to a page of level 1.
const LEVELS: [&str; 5] = ["no level", "1 alone", "2 alone", "1 and 2", "3 alone"];

/// Why a tree is refused. An empty run has no root either, and counts as the first alone.
const REASONS: [&str; 6] =
    ["empty run", "words left over", "depth 0", "depth above 3", "root outside", "several"];

type Ends = [[u64; READS.len()]; ENDS.len()];

#[derive(Clone, Debug, Default)]
pub struct Walks {
    /// Of bare walks.
    bare: Ends,
    /// Of pages that were synchronised.
    synchronised: Ends,
    /// Of bare walks.
    levels: [[u64; LEVELS.len()]; BITS.len()],
    refused: [[u64; REASONS.len()]; CALLS.len()],
}

impl Walks {
    /// Counts what a call met of its tree: the walks where it was accepted, the reason where 17 refused it.
    pub fn count(&mut self, call: &Call, number: u64, v: u64) {
        let (tree, pages) = match *call {
            Call::Listed(Listed::SynchroniseOneFromTree { tree, page }) => (tree, page..=page),
            Call::Listed(Listed::SynchroniseAllFromTree { tree }) => {
                (tree, 0..=v.saturating_sub(1))
            }
            Call::Walk { tree, page } => (tree, page..=page),
            _ => return,
        };
        if number == u64::from(Refusal::Tree.number()) {
            self.count_refused(call.kind(), &tree);
        }
        if number != 0 {
            return;
        }
        for path in pages.map(|page| Path::to(page, &tree)) {
            if call.kind() == WALK {
                count_end(&mut self.bare, &tree, &path);
                self.count_levels(&path);
            } else {
                count_end(&mut self.synchronised, &tree, &path);
            }
        }
    }

    /// Of a walk that came to level 1 through level 2.
    fn count_levels(&mut self, path: &Path) {
        let (End::Page, Some(first), Some(second)) = (path.end(), path.at(1), path.at(2)) else {
            return;
        };
        for (&(_, bit, value), counts) in BITS.iter().zip(&mut self.levels) {
            let has = |entry: u64| entry >> bit & 1 == value;
            let column = match (has(first), has(second)) {
                (false, false) if path.at(3).is_some_and(has) => 4,
                (first, second) => usize::from(first) + 2 * usize::from(second),
            };
            counts[column] += 1;
        }
    }

    fn count_refused(&mut self, kind: usize, tree: &Tree) {
        let words = tree.tables.len() as u64;
        let reasons = [
            words == 0,
            !words.is_multiple_of(512),
            tree.depth == 0,
            tree.depth > 3,
            words > 0 && tree.root >= words / 512,
        ];
        let mut found = (0..).zip(reasons).filter(|&(_, is_so)| is_so).map(|(column, _)| column);
        let column = match (found.next(), found.next()) {
            (Some(only), None) => only,
            _ => REASONS.len() - 1,
        };
        let row = CALLS.iter().position(|&call| call == kind);
        self.refused[row.expect("a call with a tree")][column] += 1;
    }

    fn tables(&self) -> [Table; 4] {
        let reads = || READS.map(|(depth, read)| format!("{read} of {depth}")).to_vec();
        let ends = |counts: &Ends, can_be: fn(usize, usize) -> bool| {
            let rows = ENDS.iter().map(|(name, _)| *name);
            rows_of(rows, counts, can_be)
        };
        let levels = rows_of(BITS.iter().map(|(name, ..)| *name), &self.levels, |bit, levels| {
            // At level 2 bit 7 ends the walk.
            bit != LARGE || levels != 2 && levels != 3
        });
        [
            Table { name: "walks", columns: reads(), rows: ends(&self.bare, can_end) },
            Table {
                name: "synchronised",
                columns: reads(),
                rows: ends(&self.synchronised, |end, reads| {
                    // V is 2,048 at most, which has too many bits for depth 1 alone.
                    can_end(end, reads) && (ENDS[end].1 != End::TooManyBits || reads == 0)
                }),
            },
            Table { name: "levels", columns: LEVELS.map(String::from).to_vec(), rows: levels },
            Table {
                name: "17",
                columns: REASONS.map(String::from).to_vec(),
                rows: rows_of(CALLS.map(|call| KINDS[call]), &self.refused, |_, _| true),
            },
        ]
    }

    /// What is wrong with the counts, one line each.
    pub fn complaints(&self) -> Vec<String> {
        self.tables().iter().flat_map(Table::complaints).collect()
    }

    pub fn print(&self, out: &mut impl Write) -> io::Result<()> {
        self.tables().iter().try_for_each(|table| table.print(out))
    }
}

fn count_end(counts: &mut Ends, tree: &Tree, path: &Path) {
    let row = ENDS.iter().position(|&(_, end)| end == path.end());
    let column = READS.iter().position(|&reads| reads == (tree.depth, path.read()));
    if let (Some(row), Some(column)) = (row, column) {
        counts[row][column] += 1;
    }
}

/// Whether a walk can end so, by the places in [`ENDS`] and [`READS`].
fn can_end(end: usize, reads: usize) -> bool {
    let (depth, read) = READS[reads];
    match ENDS[end].1 {
        End::Page => read == depth,
        End::LargePage | End::Misaligned => depth > 1 && read + 1 == depth,
        End::TooManyBits => read == 0,
        End::NotPresent | End::Reserved => read > 0,
        // A root outside the run is refused before a walk begins.
        End::NoSuchTable => 0 < read && read < depth,
    }
}
