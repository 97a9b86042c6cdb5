//! Bare walks beside the lists, which have no such call, and K4's own sentences, checked on the archive.
//! Every accepted synchronisation from a tree is made again from the flat table of its walks.

use guard::archive::{self, NUMBERS, STATE_PAGES};
use inputs::Random;
use reference::claim::Call as Listed;
use reference::path::Path;
use reference::{Mistake, Tree};

use crate::call::{Call, Lent};
use crate::compare::compare;
use crate::damage::Damage;
use crate::sides::by_archive;
use crate::tally::Tally;
use crate::trees::Trees;

/// Walks to a page; one in eight has a numbers run of another length.
pub fn walk_call(
    mistake: Mistake,
    random: &mut Random,
    trees: &Trees,
    tally: &mut Tally,
) -> Result<(), String> {
    let tree = trees.lent(random);
    let page = trees.page(random, tree.depth);
    let mut lent = Lent::without_state(random, 0);
    let damage = if random.one_in(8) { Damage::NumbersRun } else { Damage::Contents };
    damage.apply(random, &mut lent);
    let call = Call::Walk { tree, page };
    let number = compare(mistake, &mut lent, &call)?;
    if number == 0 {
        check_path(&tree, page, &lent.numbers)?;
    }
    tally.count_tree(&call, number, &lent);
    tally.count_damaged(call.kind(), number, damage)
}

/// "A page's walk gives its flat entry .. and the count of entries read, never above the depth", by the path of the one-page guards.
fn check_path(tree: &Tree, page: u64, numbers: &[u64]) -> Result<(), String> {
    let path = Path::to(page, tree);
    if numbers == [path.flat(), path.read()] && path.read() <= tree.depth {
        Ok(())
    } else {
        Err(format!("the walk to {page} gives {numbers:x?}, {tree:?}, {path:x?}"))
    }
}

/// "For every depth, synchronising from a tree equals doing so from the flat table of its walks", on the archive alone.
pub fn check_flat(call: &Call, before: &Lent, after: &Lent) -> Result<(), String> {
    let (tree, page) = match *call {
        Call::Listed(Listed::SynchroniseOneFromTree { tree, page }) => (tree, Some(page)),
        Call::Listed(Listed::SynchroniseAllFromTree { tree }) => (tree, None),
        _ => return Ok(()),
    };
    let kernel = flat_table(&tree, before.state[STATE_PAGES])?;
    let flat_call = match page {
        Some(page) => Listed::SynchroniseOne { kernel: &kernel, page },
        None => Listed::SynchroniseAll { kernel: &kernel },
    };
    let mut lent = before.clone();
    let number = by_archive(&mut lent, &Call::Listed(flat_call));
    if number == 0 && lent == *after {
        Ok(())
    } else {
        Err(format!("{call:?} differs from the flat table of its walks, which gives {number}"))
    }
}

/// The flat entries of the archive's walks to all pages.
fn flat_table(tree: &Tree, pages: u64) -> Result<Vec<u64>, String> {
    let Tree { tables, root, depth } = *tree;
    let mut flat = Vec::new();
    for page in 0..pages {
        let mut numbers = [u64::MAX; NUMBERS];
        let number = archive::walk(tables, root, depth, page, &mut numbers);
        let [entry, read] = numbers;
        if number != 0 || read > depth {
            return Err(format!("the walk to {page} of {tree:?} answers {number}, {numbers:x?}"));
        }
        flat.push(entry);
    }
    Ok(flat)
}
