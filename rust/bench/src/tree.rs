//! The calls with a tree (K4): the bare walk, and synchronise one and all beside the archive's flat calls on the same pages.
//! The two runs of a case are brought in turn.

use std::hint::black_box;

use guard::archive::{self, NUMBERS};
use reference::Tree;

use crate::plain::{self, on_runs};
use crate::sides::{PlainSide, RunSide};
use crate::trees::Trees;
use crate::work::{in_turn, Side, Sides, Work, ARGUMENTS};

/// Walk: pages in turn, all of one run.
pub struct Walk {
    trees: Trees,
    pages: Vec<u64>,
    numbers: [u64; NUMBERS],
}

impl Walk {
    pub fn new(trees: Trees) -> Walk {
        Walk { pages: pages_in_turn(trees.flat.v), numbers: [0; NUMBERS], trees }
    }
}

/// Pages from the whole range.
fn pages_in_turn(v: u16) -> Vec<u64> {
    let v = u64::from(v);
    in_turn((0..v).step_by((v as usize / ARGUMENTS).max(1)).collect())
}

#[inline(always)]
fn walk_on_runs<'a>(
    numbers: &mut [u64],
    walks: impl Iterator<Item = (Tree<'a>, u64)>,
    call: impl Fn(&[u64], u64, u64, u64, &mut [u64]) -> u64,
) {
    for walk in walks {
        let (Tree { tables, root, depth }, page) = black_box(walk);
        black_box(call(tables, root, depth, page, numbers));
    }
}

#[inline(always)]
fn walk_alone<'a>(walks: impl Iterator<Item = (Tree<'a>, u64)>) {
    for walk in walks {
        let (tree, page) = black_box(walk);
        black_box(&plain::walk(tree, page));
    }
}

impl Work for Walk {
    fn repeat(&mut self, side: Side, count: u64) -> bool {
        let Walk { trees, pages, numbers } = self;
        let walks = (0..count as usize).map(|i| (trees.at(0), pages[i % ARGUMENTS]));
        match side {
            Side::Archive => walk_on_runs(numbers, walks, archive::walk),
            Side::Reference => walk_alone(walks),
            Side::OnRuns => walk_on_runs(numbers, walks, on_runs::walk),
            _ => return false,
        }
        true
    }

    /// A walk changes nothing, so that every walk is made again.
    fn agree(&self) -> bool {
        let tree = self.trees.at(0);
        let Tree { tables, root, depth } = tree;
        self.pages.iter().all(|&page| {
            let (mut by_archive, mut by_runs) = ([0; NUMBERS], [0; NUMBERS]);
            let numbers = [
                archive::walk(tables, root, depth, page, &mut by_archive),
                on_runs::walk(tables, root, depth, page, &mut by_runs),
            ];
            let alone = plain::walk(tree, page).map(|(entry, read)| [entry, read]);
            numbers == [0, 0] && by_archive == by_runs && alone == Ok(by_archive)
        })
    }
}

/// The sides of a call that synchronises from a tree.
struct Synchronising {
    trees: Trees,
    sides: Sides,
    flat: RunSide,
}

impl Synchronising {
    fn new(trees: Trees, in_user: bool) -> Synchronising {
        Synchronising {
            sides: Sides::new(&trees.flat, in_user),
            flat: RunSide::started(&trees.flat, in_user),
            trees,
        }
    }

    fn agree(&self) -> bool {
        self.sides.agree() && self.sides.plain.agrees(&self.flat)
    }
}

/// Synchronise one page: pages in turn, from one run and then from the other.
pub struct SynchroniseOneFromTree {
    with: Synchronising,
    pages: Vec<u64>,
}

impl SynchroniseOneFromTree {
    pub fn new(trees: Trees) -> SynchroniseOneFromTree {
        let pages = pages_in_turn(trees.flat.v);
        SynchroniseOneFromTree { with: Synchronising::new(trees, false), pages }
    }
}

/// How one page is synchronised from a tree on runs.
type SyncPageTree =
    fn(&[u64], &[u64], u64, u64, &mut [u64], &mut [u16], &[u8], u64, &mut [u64]) -> u64;

#[inline(always)]
fn pages_on_runs<'a>(
    side: &mut RunSide,
    pages: impl Iterator<Item = (Tree<'a>, u64)>,
    call: SyncPageTree,
) {
    let RunSide { state, numbers, shadow, map, exclusion } = side;
    for page in pages {
        let (Tree { tables, root, depth }, page) = black_box(page);
        black_box(call(state, tables, root, depth, shadow, map, exclusion, page, numbers));
    }
}

#[inline(always)]
fn pages_on_state<'a>(side: &mut PlainSide, pages: impl Iterator<Item = (Tree<'a>, u64)>) {
    let PlainSide { state, shadow, map, exclusion } = side;
    for page in pages {
        let (tree, page) = black_box(page);
        black_box(&plain::sync_page_tree(state, tree, shadow, map, exclusion, page));
    }
}

#[inline(always)]
fn pages_flat<'a>(side: &mut RunSide, pages: impl Iterator<Item = (&'a [u64], u64)>) {
    let RunSide { state, numbers, shadow, map, exclusion } = side;
    for page in pages {
        let (kernel, page) = black_box(page);
        black_box(archive::sync_page(state, kernel, shadow, map, exclusion, page, numbers));
    }
}

impl Work for SynchroniseOneFromTree {
    fn repeat(&mut self, side: Side, count: u64) -> bool {
        let Synchronising { trees, sides, flat } = &mut self.with;
        let turns = (0..count as usize).map(|i| (i / ARGUMENTS, self.pages[i % ARGUMENTS]));
        let pages = turns.clone().map(|(turn, page)| (trees.at(turn), page));
        match side {
            Side::Archive => pages_on_runs(&mut sides.archive, pages, archive::sync_page_tree),
            Side::Reference => pages_on_state(&mut sides.plain, pages),
            Side::OnRuns => pages_on_runs(&mut sides.on_runs, pages, on_runs::sync_page_tree),
            Side::Flat => pages_flat(
                flat,
                turns.map(|(turn, page)| (&trees.flat.kernels[turn % 2][..], page)),
            ),
            _ => return false,
        }
        true
    }

    fn agree(&self) -> bool {
        self.with.agree()
    }
}

/// Synchronise all pages, from the two runs in turn.
pub struct SynchroniseAllFromTree(Synchronising);

impl SynchroniseAllFromTree {
    pub fn new(trees: Trees, in_user: bool) -> SynchroniseAllFromTree {
        SynchroniseAllFromTree(Synchronising::new(trees, in_user))
    }
}

/// How all pages are synchronised from a tree on runs.
type SyncAllTree = fn(&[u64], &[u64], u64, u64, &mut [u64], &mut [u16], &[u8], &mut [u64]) -> u64;

#[inline(always)]
fn all_on_runs<'a>(side: &mut RunSide, trees: impl Iterator<Item = Tree<'a>>, call: SyncAllTree) {
    let RunSide { state, numbers, shadow, map, exclusion } = side;
    for tree in trees {
        let Tree { tables, root, depth } = black_box(tree);
        black_box(call(state, tables, root, depth, shadow, map, exclusion, numbers));
    }
}

#[inline(always)]
fn all_on_state<'a>(side: &mut PlainSide, trees: impl Iterator<Item = Tree<'a>>) {
    let PlainSide { state, shadow, map, exclusion } = side;
    for tree in trees {
        black_box(&plain::sync_all_tree(state, black_box(tree), shadow, map, exclusion));
    }
}

#[inline(always)]
fn all_flat<'a>(side: &mut RunSide, kernels: impl Iterator<Item = &'a [u64]>) {
    let RunSide { state, numbers, shadow, map, exclusion } = side;
    for kernel in kernels {
        black_box(archive::sync_all(state, black_box(kernel), shadow, map, exclusion, numbers));
    }
}

impl Work for SynchroniseAllFromTree {
    fn repeat(&mut self, side: Side, count: u64) -> bool {
        let Synchronising { trees, sides, flat } = &mut self.0;
        let turns = 0..count as usize;
        let in_turn = turns.clone().map(|turn| trees.at(turn));
        match side {
            Side::Archive => all_on_runs(&mut sides.archive, in_turn, archive::sync_all_tree),
            Side::Reference => all_on_state(&mut sides.plain, in_turn),
            Side::OnRuns => all_on_runs(&mut sides.on_runs, in_turn, on_runs::sync_all_tree),
            Side::Flat => all_flat(flat, turns.map(|turn| &trees.flat.kernels[turn % 2][..])),
            _ => return false,
        }
        true
    }

    fn agree(&self) -> bool {
        self.0.agree()
    }
}
