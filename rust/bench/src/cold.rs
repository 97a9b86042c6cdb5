//! Calls on tables that no cache holds any more: many guards, each with tables of its own, are taken in turn.

use crate::work::{Side, Work};

/// So many that what a side goes through is larger than the last cache: 75 MB with V 2,048.
const GUARDS: usize = 2048;

/// A call on one guard after another.
pub struct Cold<W> {
    guards: Vec<W>,
    /// The guard that each side is at. They are apart, so that none finds kernel tables that another has just read.
    next: [usize; Side::ALL.len()],
}

/// The guard that a side begins at: a quarter of them apart, since there are four sides.
fn begin(side: usize) -> usize {
    side % 4 * (GUARDS / 4)
}

impl<W: Work + Clone> Cold<W> {
    pub fn new(guard: W) -> Cold<W> {
        Cold { guards: vec![guard; GUARDS], next: std::array::from_fn(begin) }
    }

    /// How often a side has come to a guard.
    fn visits(&self, side: Side, guard: usize) -> usize {
        let before = |at: usize| (at + GUARDS - 1 - guard) / GUARDS;
        before(self.next[side as usize]) - before(begin(side as usize))
    }
}

impl<W: Work + Clone> Work for Cold<W> {
    fn repeat(&mut self, side: Side, count: u64) -> bool {
        let Cold { guards, next } = self;
        let next = &mut next[side as usize];
        for _ in 0..count {
            if !guards[*next % GUARDS].repeat(side, 1) {
                return false;
            }
            *next += 1;
        }
        true
    }

    /// Some guards, brought to the same number of calls on every side.
    fn agree(&self) -> bool {
        let sides = [Side::Archive, Side::Reference, Side::OnRuns];
        (0..GUARDS).step_by(GUARDS / 8).all(|place| {
            let mut guard = self.guards[place].clone();
            let visits = sides.map(|side| self.visits(side, place));
            let most = visits.into_iter().max().unwrap_or(0);
            for (side, visits) in sides.into_iter().zip(visits) {
                guard.repeat(side, (most - visits) as u64 + 2);
            }
            guard.agree()
        })
    }
}
