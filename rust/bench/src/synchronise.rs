//! Synchronise one and synchronise all.
//! The two kernel tables of a case are brought in turn.

use std::hint::black_box;

use guard::archive;
use reference::{Answer, State};

use crate::plain::{self, on_runs, without_approval};
use crate::sides::{PlainSide, RunSide};
use crate::tables::Tables;
use crate::work::{in_turn, Side, Sides, Work, ARGUMENTS};

/// The sides of a call that synchronises.
#[derive(Clone)]
struct Synchronising {
    tables: Tables,
    sides: Sides,
    without: PlainSide,
}

impl Synchronising {
    fn new(tables: Tables, in_user: bool) -> Synchronising {
        let without = reference::without_approval::synchronise_all;
        Synchronising {
            sides: Sides::new(&tables, in_user),
            without: PlainSide::started(&tables, in_user, without),
            tables,
        }
    }
}

/// Synchronise one page: pages in turn, from one kernel table and then from the other.
pub struct SynchroniseOne {
    with: Synchronising,
    pages: Vec<u64>,
}

impl SynchroniseOne {
    pub fn new(tables: Tables) -> SynchroniseOne {
        let v = u64::from(tables.v);
        let pages = in_turn((0..v).step_by((v as usize / ARGUMENTS).max(1)).collect());
        SynchroniseOne { with: Synchronising::new(tables, false), pages }
    }
}

type Page<'a> = (&'a [u64], u64);

#[inline(always)]
fn pages_on_runs<'a>(
    side: &mut RunSide,
    pages: impl Iterator<Item = Page<'a>>,
    call: impl Fn(&[u64], &[u64], &mut [u64], &mut [u16], &[u8], u64, &mut [u64]) -> u64,
) {
    let RunSide { state, numbers, shadow, map, exclusion } = side;
    for page in pages {
        let (kernel, page) = black_box(page);
        black_box(call(state, kernel, shadow, map, exclusion, page, numbers));
    }
}

#[inline(always)]
fn pages_on_state<'a>(
    side: &mut PlainSide,
    pages: impl Iterator<Item = Page<'a>>,
    call: impl Fn(&State, &[u64], &mut [u64], &mut [u16], &[u8], u64) -> Answer,
) {
    let PlainSide { state, shadow, map, exclusion } = side;
    for page in pages {
        let (kernel, page) = black_box(page);
        black_box(&call(state, kernel, shadow, map, exclusion, page));
    }
}

impl Work for SynchroniseOne {
    fn repeat(&mut self, side: Side, count: u64) -> bool {
        let Synchronising { tables, sides, without } = &mut self.with;
        let pages = (0..count as usize).map(|i| {
            let kernel = &tables.kernels[i / ARGUMENTS % 2][..];
            (kernel, self.pages[i % ARGUMENTS])
        });
        match side {
            Side::Archive => pages_on_runs(&mut sides.archive, pages, archive::sync_page),
            Side::Reference => pages_on_state(&mut sides.plain, pages, plain::sync_page),
            Side::OnRuns => pages_on_runs(&mut sides.on_runs, pages, on_runs::sync_page),
            Side::WithoutApproval => pages_on_state(without, pages, without_approval::sync_page),
            _ => return false,
        }
        true
    }

    fn agree(&self) -> bool {
        self.with.sides.agree()
    }
}

/// Synchronise all pages, from the two kernel tables in turn.
#[derive(Clone)]
pub struct SynchroniseAll {
    with: Synchronising,
    /// The calls of each side so far.
    calls: [u64; Side::ALL.len()],
}

impl SynchroniseAll {
    pub fn new(tables: Tables, in_user: bool) -> SynchroniseAll {
        SynchroniseAll { with: Synchronising::new(tables, in_user), calls: Default::default() }
    }
}

#[inline(always)]
fn all_on_runs<'a>(
    side: &mut RunSide,
    kernels: impl Iterator<Item = &'a [u64]>,
    call: impl Fn(&[u64], &[u64], &mut [u64], &mut [u16], &[u8], &mut [u64]) -> u64,
) {
    let RunSide { state, numbers, shadow, map, exclusion } = side;
    for kernel in kernels {
        black_box(call(state, black_box(kernel), shadow, map, exclusion, numbers));
    }
}

#[inline(always)]
fn all_on_state<'a>(
    side: &mut PlainSide,
    kernels: impl Iterator<Item = &'a [u64]>,
    call: impl Fn(&State, &[u64], &mut [u64], &mut [u16], &[u8]) -> Answer,
) {
    let PlainSide { state, shadow, map, exclusion } = side;
    for kernel in kernels {
        black_box(&call(state, black_box(kernel), shadow, map, exclusion));
    }
}

impl Work for SynchroniseAll {
    fn repeat(&mut self, side: Side, count: u64) -> bool {
        let Synchronising { tables, sides, without } = &mut self.with;
        let first = self.calls[side as usize];
        self.calls[side as usize] += count;
        let kernels = (first..first + count).map(|i| &tables.kernels[(i % 2) as usize][..]);
        match side {
            Side::Archive => all_on_runs(&mut sides.archive, kernels, archive::sync_all),
            Side::Reference => all_on_state(&mut sides.plain, kernels, plain::sync_all),
            Side::OnRuns => all_on_runs(&mut sides.on_runs, kernels, on_runs::sync_all),
            Side::WithoutApproval => all_on_state(without, kernels, without_approval::sync_all),
            _ => return false,
        }
        true
    }

    fn agree(&self) -> bool {
        self.with.sides.agree()
    }
}
