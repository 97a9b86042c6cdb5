//! A call with its arguments, and the runs and tables that it is lent.
//! Both sides take the same call on equal copies of what is lent.

use guard::archive::{NUMBERS, STATE_WORDS};
use inputs::{Parts, Random};
use reference::{claim, vector_len, Tree};

/// The calls, in document 01's order, then those of the requests.
pub const KINDS: [&str; 15] = [
    "start",
    "synchronise one",
    "synchronise all",
    "fetch",
    "write",
    "enter",
    "leave",
    "device write",
    "write record",
    "one from a tree",
    "all from a tree",
    "walk",
    "ask",
    "commit",
    "drop",
];

/// The places in [`KINDS`] of the calls that have no state, and of those with a tree.
pub const WRITE_RECORD: usize = 8;
pub const ONE_FROM_TREE: usize = 9;
pub const ALL_FROM_TREE: usize = 10;
pub const WALK: usize = 11;
/// Those of K6.
pub const ASK: usize = 12;
pub const COMMIT: usize = 13;
pub const DROP: usize = 14;

/// A start, a call that a list of demand 3 may have, or one that has no state.
#[derive(Clone, Copy, Debug)]
pub enum Call<'a> {
    Start { policy: &'a [u8], devices: u64 },
    Listed(claim::Call<'a>),
    WriteRecord(&'a Parts),
    Walk { tree: Tree<'a>, page: u64 },
}

impl Call<'_> {
    /// Its place in [`KINDS`].
    pub fn kind(&self) -> usize {
        match self {
            Call::Start { .. } => 0,
            Call::Listed(claim::Call::SynchroniseOne { .. }) => 1,
            Call::Listed(claim::Call::SynchroniseAll { .. }) => 2,
            Call::Listed(claim::Call::Fetch { .. }) => 3,
            Call::Listed(claim::Call::Write { .. }) => 4,
            Call::Listed(claim::Call::Enter { .. }) => 5,
            Call::Listed(claim::Call::Leave { .. }) => 6,
            Call::Listed(claim::Call::DeviceWrite { .. }) => 7,
            Call::WriteRecord(_) => WRITE_RECORD,
            Call::Listed(claim::Call::SynchroniseOneFromTree { .. }) => ONE_FROM_TREE,
            Call::Listed(claim::Call::SynchroniseAllFromTree { .. }) => ALL_FROM_TREE,
            Call::Walk { .. } => WALK,
            Call::Listed(claim::Call::Ask { .. }) => ASK,
            Call::Listed(claim::Call::Commit) => COMMIT,
            Call::Listed(claim::Call::Drop) => DROP,
        }
    }
}

/// The runs, guard tables and buffer that a call is lent; each call uses a part of them.
#[derive(Clone, Debug, PartialEq, Eq)]
pub struct Lent {
    pub state: Vec<u64>,
    pub numbers: Vec<u64>,
    pub shadow: Vec<u64>,
    pub map: Vec<u16>,
    pub exclusion: Vec<u8>,
    /// What a record is written into.
    pub buffer: Vec<u8>,
}

impl Lent {
    /// Runs and tables of the right lengths for V and F, with contents that a start has to overwrite.
    pub fn garbage(random: &mut Random, v: u16, f: u16) -> Lent {
        let v = usize::from(v);
        Lent {
            state: vec![random.word(); STATE_WORDS],
            numbers: vec![random.word(); NUMBERS],
            shadow: vec![random.word(); v],
            map: vec![random.word() as u16; v],
            exclusion: vec![random.word() as u8; vector_len(f)],
            buffer: Vec::new(),
        }
    }

    /// A numbers run, and a buffer of this length with any contents; no state and no table.
    pub fn without_state(random: &mut Random, length: usize) -> Lent {
        Lent {
            state: Vec::new(),
            numbers: vec![random.word(); NUMBERS],
            shadow: Vec::new(),
            map: Vec::new(),
            exclusion: Vec::new(),
            buffer: (0..length).map(|_| random.word() as u8).collect(),
        }
    }
}
