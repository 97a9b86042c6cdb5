//! The way of a walk (K4) for the one-page guards: the entries met, how it ended, and the flat entry that they make.
//! It is written from document 02 apart from the walk of tree.rs: first all entries are met, then the request's sentences are asked of them.

use crate::page_guard::Entry;
use crate::tree::Tree;

/// How the way ended.
#[derive(Clone, Copy, Debug, PartialEq, Eq)]
pub enum End {
    /// At an entry of level 1 that maps the page.
    Page,
    /// At an entry of level 2 that maps a large page.
    LargePage,
    /// The page number needs more bits than the depth has: nothing was met.
    TooManyBits,
    /// At an entry with bit 0 clear.
    NotPresent,
    /// At an entry with bit 0 set and one of bits 52 to 62.
    Reserved,
    /// At an entry with the number of a table that is not in the run.
    NoSuchTable,
    /// At an entry of a large page whose frame has low bits set.
    Misaligned,
}

/// The way down to a page.
#[derive(Clone, Debug)]
pub struct Path {
    page: u64,
    /// By level, the root's first.
    met: Vec<(u64, Entry)>,
    end: End,
}

impl Path {
    /// The way to a page in a tree that question 17 accepts.
    pub fn to(page: u64, tree: &Tree) -> Path {
        // The page number in digits of base 512, the lowest for level 1.
        let digit = |level: u64| page / 512_u64.pow(level as u32 - 1) % 512;
        let mut path = Path { page, met: Vec::new(), end: End::TooManyBits };
        if page / 512_u64.pow(tree.depth as u32) > 0 {
            return path;
        }
        let mut table = tree.root;
        for level in (1..=tree.depth).rev() {
            path.end = End::NoSuchTable;
            if table >= tree.tables.len() as u64 / 512 {
                break;
            }
            let entry = Entry(tree.tables[(table * 512 + digit(level)) as usize]);
            path.met.push((level, entry));
            path.end = match level {
                // K1 holds at every level.
                _ if !entry.bit(0) => End::NotPresent,
                _ if (52..=62).any(|place| entry.bit(place)) => End::Reserved,
                1 => End::Page,
                2 if entry.bit(7) && entry.frame().is_multiple_of(512) => End::LargePage,
                2 if entry.bit(7) => End::Misaligned,
                _ => {
                    table = entry.frame();
                    continue;
                }
            };
            break;
        }
        path
    }

    pub fn end(&self) -> End {
        self.end
    }

    /// How many entries were read.
    pub fn read(&self) -> u64 {
        self.met.len() as u64
    }

    /// The entry met at a level.
    pub fn at(&self, level: u64) -> Option<u64> {
        self.met.iter().find(|(of, _)| *of == level).map(|(_, entry)| entry.0)
    }

    /// The flat entry of the page: the named bits alone, and 0 where it is absent.
    pub fn flat(&self) -> u64 {
        let Some(&(_, last)) = self.met.last() else { return 0 };
        let frame = match self.end {
            End::Page => last.frame(),
            End::LargePage => last.frame() + self.page % 512,
            _ => return 0,
        };
        // At level 3 the three rights do not count.
        let mut counted = self.met.iter().filter(|(level, _)| *level < 3).map(|(_, entry)| entry);
        let bits = [
            (0, true),
            (1, counted.clone().all(|entry| entry.bit(1))),
            (2, counted.clone().all(|entry| entry.bit(2))),
            (3, last.bit(3)),
            (4, last.bit(4)),
            (63, counted.any(|entry| entry.bit(63))),
        ];
        Entry::of(&bits, frame).0
    }
}
