//! A kernel's page tables as the processor keeps them: a tree of tables in one lent run, and the walk of a page in it.
//! Nothing is asked here: what is wrong with a tree, the library tells.

use crate::answer::answer;
use crate::archive;
use crate::Refusal;

/// The entries of a table.
pub const TABLE_ENTRIES: usize = 512;

/// The most levels that a tree can have.
pub const MAX_DEPTH: u64 = 3;

/// A tree of page tables. include/guard.h has every bit of its entries, by the level of their table.
///
/// The frame field of an entry above the last one is the number of the next table: its place in the run, and no physical frame.
///
/// ```
/// use guard::{Device, Guard, Options, Policy, Refusal, Synchronised, Tree, Walk, TABLE_ENTRIES};
///
/// // Table 0, of level 2: pages 0 to 511 are in table 1, and 512 to 1,023 a large page from frame 512 on.
/// let mut words = [0; 2 * TABLE_ENTRIES];
/// words[0] = 0x1007;
/// words[1] = 0x20_0083;
/// // Table 1, of level 1: page 3 has frame 7.
/// words[TABLE_ENTRIES + 3] = 0x7005;
/// let tree = Tree { words: &words, root: 0, depth: 2 };
/// assert_eq!(tree.walk(3)?, Walk { entry: 0x7005, reads: 2 });
/// assert_eq!(tree.walk(4)?, Walk { entry: 0, reads: 2 });
/// assert_eq!(tree.walk(515)?, Walk { entry: 0x20_3003, reads: 1 });
///
/// // V 516 and F 1,024, page 1 with frame 2: it is absent, since the kernel has no entry for it.
/// let policy = Policy::new(516, 1024).entry_page(1, 2).record()?;
/// let mut guard = Guard::start(&policy, Options::new().device(Device::new(8, 1023)))?;
/// assert_eq!(guard.synchronise_all_tree(&tree)?, Synchronised { changed: 6, joined: 0 });
/// assert_eq!(guard.shadow()[515], 1 << 63 | 0x20_3003);
///
/// // There is no table 2.
/// assert_eq!(Tree { root: 2, ..tree }.walk(3), Err(Refusal::Tree));
/// # Ok::<(), Refusal>(())
/// ```
#[derive(Clone, Copy, Debug, PartialEq, Eq)]
pub struct Tree<'a> {
    /// Whole tables of [`TABLE_ENTRIES`] entries, one after the other, numbered from 0.
    pub words: &'a [u64],
    /// The number of the table in which a walk begins.
    pub root: u64,
    /// The level of that table, 1 to [`MAX_DEPTH`].
    pub depth: u64,
}

/// What the walk of a page gives.
#[derive(Clone, Copy, Debug, PartialEq, Eq)]
pub struct Walk {
    /// The flat entry, which a synchronisation takes for the page's kernel entry; 0 where the page is absent.
    pub entry: u64,
    /// How many entries were read, at most the depth.
    pub reads: u64,
}

impl Tree<'_> {
    /// Walks to a page. One whose number needs more bits than the depth has is absent, and no entry is read.
    pub fn walk(&self, page: u64) -> Result<Walk, Refusal> {
        let Tree { words, root, depth } = *self;
        let [entry, reads] = answer(|numbers| archive::walk(words, root, depth, page, numbers))?;
        Ok(Walk { entry, reads })
    }
}
