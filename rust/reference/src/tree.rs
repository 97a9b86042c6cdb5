//! Trees of tables in the processor's own shape (K4): question 17, and the walk from the root table down to a page.
//! One step down serves the exact walk and the planted mistakes; each is compiled apart.

use std::fmt;

use crate::entry::{
    frame_of, CACHE_BITS, FRAME, FRAME_SHIFT, NO_EXECUTE, PRESENT, RESERVED, USER, WRITABLE,
};
use crate::mistake;
use crate::state::{Answer, Refusal};

/// The bits of a page number that choose an entry, and how many entries a table has.
const INDEX_BITS: u32 = 9;
const INDEX: u64 = (1 << INDEX_BITS) - 1;
const ENTRIES: usize = 1 << INDEX_BITS;

const MAX_DEPTH: u64 = 3;

/// In an entry of level 2: a large page.
const LARGE: u64 = 1 << 7;
/// The low nine bits of the frame field, which are 0 in the entry of a large page.
const LOW_FRAME: u64 = INDEX << FRAME_SHIFT;
/// What an entry above the last takes away from the pages below it.
const RIGHTS: u64 = WRITABLE | USER | NO_EXECUTE;

type Table = [u64; ENTRIES];

/// A lent run of tables, the number of its root table and its depth, as a call is given them.
#[derive(Clone, Copy, PartialEq, Eq)]
pub struct Tree<'a> {
    pub tables: &'a [u64],
    pub root: u64,
    pub depth: u64,
}

/// The run is told by its length: it has thousands of words.
impl fmt::Debug for Tree<'_> {
    fn fmt(&self, f: &mut fmt::Formatter) -> fmt::Result {
        let Tree { tables, root, depth } = self;
        write!(f, "tree of {} words, root {root}, depth {depth}", tables.len())
    }
}

/// A tree that question 17 accepts.
#[derive(Clone, Copy)]
pub(crate) struct WholeTree<'a> {
    tables: &'a [Table],
    root: &'a Table,
    depth: u32,
}

/// The flat entry of a page, and how many entries were read for it.
#[derive(Clone, Copy)]
pub(crate) struct Walked {
    pub entry: u64,
    pub read: u32,
}

/// Walks to a page: its flat entry, and how many entries were read.
#[inline(always)]
pub fn walk(tree: Tree, page: u64) -> Answer {
    walk_where::<{ mistake::NONE }>(true, tree, page)
}

/// Walks where what question 7 asks for is in order.
#[inline(always)]
pub(crate) fn walk_where<const VARIANT: u8>(in_order: bool, tree: Tree, page: u64) -> Answer {
    if VARIANT == mistake::TREE_BEFORE_TABLES {
        tree.whole()?;
    }
    if !in_order {
        return Err(Refusal::StateOrTable);
    }
    let Walked { entry, read } = tree.whole()?.walk::<VARIANT>(page);
    Ok((entry, read.into()))
}

impl<'a> Tree<'a> {
    /// Question 17: whole tables, a depth of 1 to 3, a root in the run.
    #[inline(always)]
    pub(crate) fn whole(self) -> Result<WholeTree<'a>, Refusal> {
        let (tables, rest) = self.tables.as_chunks();
        let fits = rest.is_empty() && (1..=MAX_DEPTH).contains(&self.depth);
        match table_at(tables, self.root) {
            Some(root) if fits => Ok(WholeTree { tables, root, depth: self.depth as u32 }),
            _ => Err(Refusal::Tree),
        }
    }
}

/// The table with a number, which is as wide as it comes.
#[inline(always)]
fn table_at(tables: &[Table], number: u64) -> Option<&Table> {
    tables.get(usize::try_from(number).ok()?)
}

impl WholeTree<'_> {
    #[inline(always)]
    pub(crate) fn depth(&self) -> u32 {
        self.depth
    }

    #[inline(always)]
    pub(crate) fn walk<const VARIANT: u8>(&self, page: u64) -> Walked {
        match self.depth {
            1 => self.walk_from::<1, VARIANT>(page),
            2 => self.walk_from::<2, VARIANT>(page),
            _ => self.walk_from::<3, VARIANT>(page),
        }
    }

    /// The walk goes down a level at a time, from the root table on, to the last entry or to one that ends it before.
    /// With the depth known, the compiler makes straight-line code of the loop.
    #[inline(always)]
    pub(crate) fn walk_from<const DEPTH: u32, const VARIANT: u8>(&self, page: u64) -> Walked {
        if page >> (INDEX_BITS * DEPTH) != 0 && VARIANT != mistake::WRAP_PAGES {
            return Walked { entry: 0, read: 0 };
        }
        let (mut table, mut level) = (self.root, DEPTH);
        let mut rights = rights_of_all::<VARIANT>();
        loop {
            let entry = table[(page >> (INDEX_BITS * (level - 1)) & INDEX) as usize];
            let read =
                if VARIANT == mistake::READ_TO_THE_DEPTH { DEPTH } else { DEPTH - level + 1 };
            let is_large = is_large::<VARIANT>(entry, level);
            let is_last = level == 1 || is_large;
            let reserved = match VARIANT {
                mistake::RESERVED_IN_LAST_ENTRY if !is_last => 0,
                _ => RESERVED,
            };
            if entry & (PRESENT | reserved) != PRESENT {
                return Walked { entry: 0, read };
            }
            rights = rights_below::<VARIANT>(rights, entry, level);
            if is_last {
                return Walked { entry: flat::<VARIANT>(entry, rights, is_large, page), read };
            }
            let number = match VARIANT {
                mistake::CUT_TABLE_NUMBER => frame_of(entry) & u64::from(u32::MAX),
                _ => frame_of(entry),
            };
            match table_at(self.tables, number) {
                Some(next) => table = next,
                None => return Walked { entry: 0, read },
            }
            level -= 1;
        }
    }
}

/// Whether an entry of this level is that of a large page.
#[inline(always)]
fn is_large<const VARIANT: u8>(entry: u64, level: u32) -> bool {
    let may_be = match VARIANT {
        mistake::LARGE_AT_LEVEL_1 => level <= 2,
        mistake::LARGE_AT_LEVEL_3 => level >= 2,
        _ => level == 2,
    };
    may_be && entry & LARGE != 0
}

/// The rights before any entry is met. Bit 63 stands inverted, set while the page may be executed, so that an entry takes
/// away all three in one way.
#[inline(always)]
fn rights_of_all<const VARIANT: u8>() -> u64 {
    match VARIANT {
        mistake::NO_EXECUTE_OF_EVERY_LEVEL => WRITABLE | USER,
        _ => RIGHTS,
    }
}

/// What an entry of this level leaves of the rights.
#[inline(always)]
fn rights_below<const VARIANT: u8>(rights: u64, entry: u64, level: u32) -> u64 {
    if level == 3 && VARIANT != mistake::LEVEL_3_RIGHTS {
        return rights;
    }
    let own = entry ^ NO_EXECUTE;
    match VARIANT {
        mistake::LAST_LEVEL_RIGHTS => own,
        mistake::NO_EXECUTE_OF_EVERY_LEVEL => rights & own | (rights | own) & NO_EXECUTE,
        mistake::CACHE_BITS_OF_EVERY_LEVEL => rights & own | (rights | own) & CACHE_BITS,
        _ => rights & own,
    }
}

/// The flat entry of a page by its last entry and what is left of the rights.
#[inline(always)]
fn flat<const VARIANT: u8>(entry: u64, rights: u64, is_large: bool, page: u64) -> u64 {
    if is_large && entry & LOW_FRAME != 0 && VARIANT != mistake::MISALIGNED_LARGE {
        return 0;
    }
    let within = match VARIANT {
        mistake::LARGE_WITHOUT_LOW_NINE => 0,
        _ if is_large => (page & INDEX) << FRAME_SHIFT,
        _ => 0,
    };
    let carried = match VARIANT {
        mistake::CACHE_BITS_OF_EVERY_LEVEL => rights & CACHE_BITS,
        _ => 0,
    };
    let rights = rights & RIGHTS ^ NO_EXECUTE;
    PRESENT | rights | entry & (CACHE_BITS | FRAME) | within | carried
}
