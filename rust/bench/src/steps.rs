//! The way from the reference to the reference behind the archive's boundary, one part of the boundary at a time.
//! A step is lent a state and both runs. None of its calls is inlined, as those of the other sides are not.

use std::hint::black_box;

use guard::archive::{NUMBERS, STATE_MODE, STATE_PENDING, STATE_WORDS};
use reference::boundary::{put_mode, put_pending, reply, state_in};
use reference::{Answer, Refusal, State};

use crate::sides::{PlainSide, RunSide};
use crate::work::{Side, Sides};

const LENT: u8 = 1;
const LENGTHS: u8 = 2;
const WORDS: u8 = 3;
const NUMBERS_WRITTEN: u8 = 4;
pub const PUT: u8 = 5;
pub const FIELDS: u8 = 6;
const ENTRY_PAGES: u8 = 7;

/// What a step holds: a state beside a run that says the same, and one set of tables.
pub struct Stepped {
    pub state: State,
    pub run: RunSide,
}

impl Stepped {
    pub fn new(sides: &Sides) -> Stepped {
        Stepped { state: sides.plain.state, run: sides.on_runs.clone() }
    }

    /// Whether it stands where the reference does, after the same repetitions of each step.
    pub fn agrees(&self, plain: &PlainSide) -> bool {
        self.state == plain.state && plain.agrees(&self.run)
    }
}

/// How a call answers: by the number and the two numbers at once, or by the number alone, with the two in their run.
pub trait Reply {
    fn of(answer: Answer, numbers: &mut [u64]) -> Self;

    /// Keeps the compiler from leaving the call out.
    fn keep(self);
}

impl Reply for Answer {
    #[inline(always)]
    fn of(answer: Answer, _: &mut [u64]) -> Answer {
        answer
    }

    #[inline(always)]
    fn keep(self) {
        black_box(&self);
    }
}

impl Reply for u64 {
    #[inline(always)]
    fn of(answer: Answer, numbers: &mut [u64]) -> u64 {
        reply(numbers, answer)
    }

    #[inline(always)]
    fn keep(self) {
        black_box(self);
    }
}

/// A call whose steps can be repeated.
pub trait Steps {
    fn repeat_step<const STEP: u8, R: Reply>(&mut self, count: u64);
}

/// Repeats the step that a side is; false where it is none. Not inlined, so that the loops of the other sides stay as they are without it.
#[inline(never)]
pub fn repeat(work: &mut impl Steps, side: Side, count: u64) -> bool {
    match side {
        Side::Lent => work.repeat_step::<LENT, Answer>(count),
        Side::Lengths => work.repeat_step::<LENGTHS, Answer>(count),
        Side::Words => work.repeat_step::<WORDS, Answer>(count),
        Side::Numbers => work.repeat_step::<NUMBERS_WRITTEN, u64>(count),
        Side::Put => work.repeat_step::<PUT, u64>(count),
        Side::Fields => work.repeat_step::<FIELDS, u64>(count),
        Side::EntryPages => work.repeat_step::<ENTRY_PAGES, u64>(count),
        _ => return false,
    }
    true
}

/// Where the calls of all steps begin.
pub fn begins() -> Vec<usize> {
    let mut begins = begins_of::<LENT, Answer>();
    begins.extend(begins_of::<LENGTHS, Answer>());
    begins.extend(begins_of::<WORDS, Answer>());
    begins.extend(begins_of::<NUMBERS_WRITTEN, u64>());
    begins.extend(begins_of::<PUT, u64>());
    begins.extend(begins_of::<FIELDS, u64>());
    begins.extend(begins_of::<ENTRY_PAGES, u64>());
    begins
}

fn begins_of<const STEP: u8, R: Reply>() -> Vec<usize> {
    vec![
        fetch::<STEP, R> as *const () as usize,
        write::<STEP, R> as *const () as usize,
        enter::<STEP, R> as *const () as usize,
        leave::<STEP, R> as *const () as usize,
        drop::<STEP, R> as *const () as usize,
    ]
}

/// What a step asks of the runs.
#[inline(always)]
fn runs_fit<const STEP: u8>(run: &[u64], numbers: &[u64]) -> bool {
    (STEP < LENGTHS || run.len() == STATE_WORDS && numbers.len() == NUMBERS)
        && (STEP < WORDS || run[STATE_MODE] <= 1 && run[STATE_PENDING] <= 1)
}

/// The state of the run, with the lent one's entry pages before the step that decodes them.
#[inline(always)]
fn decoded<const STEP: u8>(state: &State, run: &[u64]) -> Result<State, Refusal> {
    let decoded = state_in(run).ok_or(Refusal::StateOrTable)?;
    let entry_pages = if STEP < ENTRY_PAGES { state.entry_pages } else { decoded.entry_pages };
    Ok(State { entry_pages, ..decoded })
}

/// A call that leaves the state as it is.
#[inline(always)]
fn with_state<const STEP: u8, R: Reply>(
    state: &State,
    run: &[u64],
    numbers: &mut [u64],
    call: impl FnOnce(&State) -> Answer,
) -> R {
    let answer = if !runs_fit::<STEP>(run, numbers) {
        Err(Refusal::StateOrTable)
    } else if STEP < FIELDS {
        call(state)
    } else {
        decoded::<STEP>(state, run).and_then(|state| call(&state))
    };
    R::of(answer, numbers)
}

/// A call that changes the state; what it can change is put where the step keeps it.
#[inline(always)]
fn changing<const STEP: u8, R: Reply>(
    state: &mut State,
    run: &mut [u64],
    numbers: &mut [u64],
    call: impl FnOnce(&mut State) -> Answer,
    put: impl FnOnce(&mut [u64], &State),
) -> R {
    let answer = if !runs_fit::<STEP>(run, numbers) {
        Err(Refusal::StateOrTable)
    } else if STEP < FIELDS {
        let answer = call(state);
        if STEP >= PUT && answer.is_ok() {
            put(run, state);
        }
        answer
    } else {
        decoded::<STEP>(state, run).and_then(|mut state| {
            let numbers = call(&mut state)?;
            put(run, &state);
            Ok(numbers)
        })
    };
    R::of(answer, numbers)
}

#[inline(never)]
pub fn fetch<const STEP: u8, R: Reply>(
    state: &mut State,
    run: &mut [u64],
    shadow: &[u64],
    page: u64,
    numbers: &mut [u64],
) -> R {
    let call = |state: &mut State| reference::fetch(state, shadow, page);
    changing::<STEP, R>(state, run, numbers, call, |run, state| put_mode(run, state.mode))
}

#[inline(never)]
pub fn write<const STEP: u8, R: Reply>(
    state: &State,
    run: &[u64],
    shadow: &[u64],
    exclusion: &[u8],
    address: u64,
    length: u64,
    numbers: &mut [u64],
) -> R {
    with_state::<STEP, R>(state, run, numbers, |state| {
        reference::write(state, shadow, exclusion, address, length)
    })
}

#[inline(never)]
pub fn enter<const STEP: u8, R: Reply>(
    state: &mut State,
    run: &mut [u64],
    shadow: &mut [u64],
    index: u64,
    numbers: &mut [u64],
) -> R {
    let call = |state: &mut State| reference::enter(state, shadow, index);
    changing::<STEP, R>(state, run, numbers, call, |run, state| put_mode(run, state.mode))
}

#[inline(never)]
pub fn leave<const STEP: u8, R: Reply>(
    state: &mut State,
    run: &mut [u64],
    shadow: &mut [u64],
    page: u64,
    numbers: &mut [u64],
) -> R {
    let call = |state: &mut State| reference::leave(state, shadow, page);
    changing::<STEP, R>(state, run, numbers, call, |run, state| put_mode(run, state.mode))
}

#[inline(never)]
pub fn drop<const STEP: u8, R: Reply>(
    state: &mut State,
    run: &mut [u64],
    exclusion: &mut [u8],
    numbers: &mut [u64],
) -> R {
    let call = |state: &mut State| reference::drop(state, exclusion);
    changing::<STEP, R>(state, run, numbers, call, |run, state| put_pending(run, state.pending))
}
