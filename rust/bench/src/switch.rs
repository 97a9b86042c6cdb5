//! Leave and enter as a pair, and the start.
//! Each repetition leaves the sides as it found them.

use std::hint::black_box;

use guard::archive;

use crate::plain::{self, on_runs};
use crate::sides::{PlainSide, RunSide};
use crate::steps::{self, Reply, Stepped, Steps};
use crate::tables::Tables;
use crate::work::{Side, Sides, Work};

/// Leave to the last page and enter by index 0: a repetition is both.
pub struct LeaveAndEnter {
    sides: Sides,
    stepped: Stepped,
    last: u64,
}

impl LeaveAndEnter {
    pub fn new(tables: &Tables) -> LeaveAndEnter {
        let sides = Sides::new(tables, false);
        LeaveAndEnter { stepped: Stepped::new(&sides), sides, last: u64::from(tables.v) - 1 }
    }
}

/// How a switch is called on runs.
type Switch = fn(&mut [u64], &mut [u64], u64, &mut [u64]) -> u64;

#[inline(always)]
fn switch_on_runs(side: &mut RunSide, count: u64, last: u64, leave: Switch, enter: Switch) {
    let RunSide { state, numbers, shadow, .. } = side;
    for _ in 0..count {
        black_box(leave(state, shadow, black_box(last), numbers));
        black_box(enter(state, shadow, black_box(0), numbers));
    }
}

#[inline(always)]
fn switch_on_state(side: &mut PlainSide, count: u64, last: u64) {
    let PlainSide { state, shadow, .. } = side;
    for _ in 0..count {
        black_box(&plain::leave(state, shadow, black_box(last)));
        black_box(&plain::enter(state, shadow, black_box(0)));
    }
}

impl Steps for LeaveAndEnter {
    fn repeat_step<const STEP: u8, R: Reply>(&mut self, count: u64) {
        let Stepped { state, run: RunSide { state: run, numbers, shadow, .. } } = &mut self.stepped;
        for _ in 0..count {
            steps::leave::<STEP, R>(state, run, shadow, black_box(self.last), numbers).keep();
            steps::enter::<STEP, R>(state, run, shadow, black_box(0), numbers).keep();
        }
    }
}

impl Work for LeaveAndEnter {
    fn repeat(&mut self, side: Side, count: u64) -> bool {
        let LeaveAndEnter { sides, last, .. } = self;
        match side {
            Side::Archive => {
                switch_on_runs(&mut sides.archive, count, *last, archive::leave, archive::enter);
            }
            Side::Reference => switch_on_state(&mut sides.plain, count, *last),
            Side::OnRuns => {
                switch_on_runs(&mut sides.on_runs, count, *last, on_runs::leave, on_runs::enter);
            }
            _ => return steps::repeat(self, side, count),
        }
        true
    }

    fn agree(&self) -> bool {
        self.sides.agree()
    }

    fn steps_agree(&self) -> bool {
        self.stepped.agrees(&self.sides.plain)
    }
}

/// Start, on tables that an earlier start has set.
pub struct Start {
    tables: Tables,
    sides: Sides,
}

impl Start {
    pub fn new(tables: Tables) -> Start {
        Start { sides: Sides::new(&tables, false), tables }
    }
}

/// The policy record, and the number of devices.
type Given<'a> = (&'a [u8], u64);

#[inline(always)]
fn start_on_runs(
    side: &mut RunSide,
    count: u64,
    given: Given,
    call: impl Fn(&[u8], u64, &mut [u64], &mut [u64], &mut [u16], &mut [u8], &mut [u64]) -> u64,
) {
    let RunSide { state, numbers, shadow, map, exclusion } = side;
    for _ in 0..count {
        let (policy, devices) = black_box(given);
        black_box(call(policy, devices, state, shadow, map, exclusion, numbers));
    }
}

#[inline(always)]
fn start_on_state(side: &mut PlainSide, count: u64, given: Given) {
    let PlainSide { state, shadow, map, exclusion } = side;
    for _ in 0..count {
        let (policy, devices) = black_box(given);
        let started = plain::start(policy, devices, shadow, map, exclusion);
        *state = black_box(&started).0;
    }
}

impl Work for Start {
    fn repeat(&mut self, side: Side, count: u64) -> bool {
        let Start { tables, sides } = self;
        let given = (&tables.policy[..], tables.devices.into());
        match side {
            Side::Archive => start_on_runs(&mut sides.archive, count, given, archive::start),
            Side::Reference => start_on_state(&mut sides.plain, count, given),
            Side::OnRuns => start_on_runs(&mut sides.on_runs, count, given, on_runs::start),
            _ => return false,
        }
        true
    }

    fn agree(&self) -> bool {
        self.sides.agree()
    }
}
