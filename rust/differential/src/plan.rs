//! What a run of the differential test does: how many lists, from which seed, and with which mistake in the reference.

use reference::Mistake;

/// What a run does.
#[derive(Clone, Copy, Debug)]
pub struct Plan {
    pub seed: u64,
    /// The number of lists; every second begins with an accepted start.
    pub lists: u64,
    /// The calls of a list, without the start, the records written after it and the bare walks.
    pub calls: u64,
    /// A mistake that the reference makes.
    pub mistake: Mistake,
}

impl Plan {
    /// The lists of a whole run, which make more than a million calls.
    pub const LISTS: u64 = 20_000;
    pub const CALLS: u64 = 84;
}
