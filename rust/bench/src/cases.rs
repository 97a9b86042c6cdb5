//! The measured cases by name.
//! Preparing a case makes all its sides ready; only the repetitions are measured.

use reference::Device;

use crate::access::{DeviceWrite, Fetch, Write};
use crate::approval::{Ask, Commit, Drop};
use crate::cold::Cold;
use crate::growth::{Growth, SIZES as SIZES_OF_PLOT};
use crate::record::WriteRecord;
use crate::rungs::{Rung, Small, Wrong};
use crate::switch::{LeaveAndEnter, Start};
use crate::synchronise::{SynchroniseAll, SynchroniseOne};
use crate::tables::{Contents, Tables, MOST_DEVICES};
use crate::tree::{SynchroniseAllFromTree, SynchroniseOneFromTree, Walk};
use crate::trees::Trees;
use crate::work::Work;

pub struct Case {
    pub name: String,
    pub prepare: Box<dyn Fn() -> Box<dyn Work>>,
    pub of: Of,
}

/// Which of its rounds a time is of.
#[derive(Clone, Copy, Debug, PartialEq, Eq)]
pub enum Of {
    Least,
    /// For tables that no cache holds: the least round is the one for which a cache held some.
    Median,
}

const SMALLEST: u16 = 16;
const MIDDLE: u16 = 256;
const LARGEST: u16 = 2048;
const SIZES: [u16; 3] = [SMALLEST, MIDDLE, LARGEST];
/// The depths, with the most pages that a guard can have of each.
const DEPTHS: [(u64, u16); 3] = [(1, 512), (2, LARGEST), (3, LARGEST)];
const MEBIBYTE: u64 = 1 << 20;

/// The lines of the tables of instructions and of times.
pub fn cases() -> Vec<Case> {
    let mut cases = synchronisations();
    cases.extend(accesses());
    cases.extend(switches());
    cases.extend(records());
    cases.extend(trees());
    cases.extend(approvals());
    cases
}

fn case<W: Work + 'static>(
    name: impl Into<String>,
    prepare: impl Fn() -> W + Copy + 'static,
) -> Case {
    Case { name: name.into(), prepare: Box::new(move || Box::new(prepare())), of: Of::Least }
}

/// The name of synchronise all in kernel mode at the largest V, by what changes between two calls and whether a cache holds the tables.
pub fn large_name(contents: Contents, changes: bool, is_cold: bool) -> String {
    let change = if changes { "" } else { ", nothing changed" };
    let heat = if is_cold { ", cold" } else { "" };
    format!("synchronise all, V {LARGEST}, {}{change}{heat}", contents.words())
}

/// Synchronise all at the largest V where nothing changes, and on cold tables.
pub fn cold_cases() -> Vec<Case> {
    let mut cases = Vec::new();
    for contents in Contents::ALL {
        for changes in [false, true] {
            let tables = if changes { Tables::new } else { Tables::unchanged };
            let all = move || SynchroniseAll::new(tables(contents, LARGEST), false);
            if !changes {
                cases.push(case(large_name(contents, changes, false), all));
            }
            let cold = case(large_name(contents, changes, true), move || Cold::new(all()));
            cases.push(Case { of: Of::Median, ..cold });
        }
    }
    cases
}

/// Small calls with something wrong, for their instructions.
pub fn small_cases() -> Vec<Case> {
    let calls = Small::ALL.into_iter().flat_map(|call| Rung::ALL.map(|rung| (call, rung)));
    calls.map(|(call, rung)| case(rung.case(call), move || Wrong::new(call, rung))).collect()
}

/// The points of the plot.
pub fn growth_cases() -> Vec<Case> {
    let points = Growth::ALL.into_iter().flat_map(|call| SIZES_OF_PLOT.map(|v| (call, v)));
    points.map(|(call, v)| case(call.case(v), move || call.prepare(v))).collect()
}

fn synchronisations() -> Vec<Case> {
    let mut cases = Vec::new();
    for contents in Contents::ALL {
        let name = format!("synchronise one, {}", contents.words());
        cases.push(case(name, move || SynchroniseOne::new(Tables::new(contents, MIDDLE))));
    }
    for (v, in_user) in SIZES.map(|v| (v, false)).into_iter().chain([(LARGEST, true)]) {
        for contents in Contents::ALL {
            let mode = if in_user { ", user mode" } else { "" };
            let name = format!("synchronise all, V {v}, {}{mode}", contents.words());
            cases.push(case(name, move || SynchroniseAll::new(Tables::new(contents, v), in_user)));
        }
    }
    cases
}

fn accesses() -> Vec<Case> {
    let approved = || Tables::new(Contents::Approved, MIDDLE);
    let ordinary = || Tables::new(Contents::Ordinary, MIDDLE);
    let mut cases = vec![
        case("fetch", move || Fetch::new(&approved(), 0)),
        case("fetch, refused with 12", move || Fetch::new(&ordinary(), 12)),
        case("write in one page", move || Write::new(&ordinary(), 64, 16, 0)),
        case("write across two pages", move || Write::new(&ordinary(), 8, 16, 0)),
        case("write, refused with 12", move || Write::new(&approved(), 64, 16, 12)),
    ];
    let largest = |devices| Tables { devices, ..Tables::new(Contents::Ordinary, LARGEST) };
    let all_frames = Device { first: 0, last: 2 * LARGEST - 1 };
    for (bytes, length) in [("1 byte", 1), ("1 MiB", MEBIBYTE)] {
        for (words, devices) in [("1 device", 1), ("64 devices", MOST_DEVICES)] {
            let name = format!("device write, {bytes}, {words}");
            let write = move || DeviceWrite::new(&largest(devices), all_frames, length, 0);
            cases.push(case(name, write));
        }
    }
    let upper_half = Device { first: LARGEST, last: 2 * LARGEST - 1 };
    let write = move || DeviceWrite::new(&largest(MOST_DEVICES), upper_half, 1, 19);
    cases.push(case("device write, refused with 19", write));
    cases
}

fn switches() -> Vec<Case> {
    let mut cases = Vec::new();
    for v in SIZES {
        let pair = move || LeaveAndEnter::new(&Tables::new(Contents::Ordinary, v));
        cases.push(case(format!("leave and enter, V {v}"), pair));
    }
    for v in SIZES {
        let start = move || Start::new(Tables::new(Contents::Approved, v));
        cases.push(case(format!("start, V {v}, most pages listed"), start));
    }
    cases
}

fn records() -> Vec<Case> {
    let most_listed = |v| move || WriteRecord::new(&Tables::new(Contents::Approved, v));
    SIZES.map(|v| case(format!("write record, V {v}, most pages listed"), most_listed(v))).into()
}

fn trees() -> Vec<Case> {
    let large = || Trees::of_large_pages(LARGEST);
    let ordinary = |v, depth| move || Trees::of_tables(Contents::Ordinary, v, depth);
    let mut cases = Vec::new();
    for (depth, v) in DEPTHS {
        let trees = ordinary(v, depth);
        cases.push(case(format!("walk, depth {depth}"), move || Walk::new(trees())));
    }
    cases.push(case("walk, large page", move || Walk::new(large())));
    for (depth, _) in DEPTHS {
        let name = format!("synchronise one from a tree, depth {depth}, mostly ordinary");
        let trees = ordinary(MIDDLE, depth);
        cases.push(case(name, move || SynchroniseOneFromTree::new(trees())));
    }
    let name = "synchronise one from a tree, large pages";
    cases.push(case(name, move || SynchroniseOneFromTree::new(large())));
    for (mode, in_user) in [("", false), (", user mode", true)] {
        for (depth, v) in DEPTHS {
            for contents in Contents::ALL {
                let words = contents.words();
                let name =
                    format!("synchronise all from a tree, depth {depth}, V {v}, {words}{mode}");
                let trees = move || Trees::of_tables(contents, v, depth);
                cases.push(case(name, move || SynchroniseAllFromTree::new(trees(), in_user)));
            }
        }
        let name = format!("synchronise all from a tree, large pages, V {LARGEST}{mode}");
        cases.push(case(name, move || SynchroniseAllFromTree::new(large(), in_user)));
    }
    cases
}

fn approvals() -> Vec<Case> {
    let mut cases = Vec::new();
    for v in [SMALLEST, LARGEST] {
        let ask = move || Ask::new(&Tables::new(Contents::Ordinary, v), 0);
        cases.push(case(format!("ask, V {v}"), ask));
    }
    for refusal in [20, 21] {
        let ask = move || Ask::new(&Tables::new(Contents::Ordinary, LARGEST), refusal);
        cases.push(case(format!("ask, V {LARGEST}, refused with {refusal}"), ask));
    }
    for v in [SMALLEST, LARGEST] {
        let commit = move || Commit::new(&Tables::asked(Contents::Absent, v));
        cases.push(case(format!("commit, V {v}, no alias"), commit));
    }
    let commit = || Commit::new(&Tables::pending(Contents::Ordinary, LARGEST));
    cases.push(case(format!("commit, V {LARGEST}, one page of sixteen an alias"), commit));
    let commit = || Commit::new(&Tables::new(Contents::Ordinary, LARGEST));
    cases.push(case(format!("commit, V {LARGEST}, refused with 22"), commit));
    for v in [SMALLEST, LARGEST] {
        let drop = move || Drop::new(&Tables::asked(Contents::Ordinary, v));
        cases.push(case(format!("drop, V {v}"), drop));
    }
    let drop = || Drop::new(&Tables::new(Contents::Ordinary, LARGEST));
    cases.push(case(format!("drop, V {LARGEST}, refused with 22"), drop));
    for (v, in_user) in [(SMALLEST, false), (LARGEST, false), (LARGEST, true)] {
        for contents in Contents::ALL {
            let mode = if in_user { ", user mode" } else { "" };
            let name = format!("synchronise all, V {v}, {}, one pending{mode}", contents.words());
            let all = move || SynchroniseAll::new(Tables::pending(contents, v), in_user);
            cases.push(case(name, all));
        }
    }
    cases
}
