//! A run: lists from a seed, each call on both sides, and the first difference.
//! A list has a seed of its own, which the difference names, so that it can be run alone.

use std::fmt;

use crate::plan::Plan;
use crate::tally::Tally;
use crate::{damaged, started};

/// A call on which the archive, the reference or the one-page guards differ.
#[derive(Clone, Debug)]
pub struct Difference {
    pub list: u64,
    pub what: String,
}

impl fmt::Display for Difference {
    fn fmt(&self, f: &mut fmt::Formatter) -> fmt::Result {
        write!(f, "list {}: {}", self.list, self.what)
    }
}

/// Runs the lists up to the first difference.
pub fn run(plan: &Plan) -> Result<Tally, Difference> {
    let mut tally = Tally::default();
    for list in 0..plan.lists {
        let seed = plan.seed.wrapping_mul(1 << 32).wrapping_add(list);
        let done = if list % 2 == 0 {
            started::run_list(plan, seed, &mut tally)
        } else {
            damaged::run_list(plan, seed, &mut tally)
        };
        done.map_err(|what| Difference { list, what })?;
    }
    Ok(tally)
}
