//! The reference behind the boundary of include/guard.h: the state in a run of 25 words, the two numbers in a run of two.
//! Both runs are part of question 7; a refused call changes no state run, table or buffer, and a numbers run of two gets zeros.

use crate::mistake;
use crate::record::write_where;
use crate::start::start_where;
use crate::state::{Answer, Mode, Pair, Refusal, State};
use crate::tree::{walk_where, Tree};

const STATE_WORDS: usize = 25;
const PAGES: usize = 0;
const FRAMES: usize = 1;
const ENTRIES: usize = 2;
const ENTRY: usize = 3;
const MODE: usize = 19;
const RUNNING: usize = 20;
const DEVICES: usize = 21;
const PENDING: usize = 22;
const PENDING_PAGE: usize = 23;
const PENDING_FRAME: usize = 24;

const NUMBERS: usize = 2;

/// A call that leaves the state as it is.
#[inline(always)]
pub fn with_state(run: &[u64], numbers: &mut [u64], call: impl FnOnce(&State) -> Answer) -> u64 {
    let answer = match state_in(run) {
        Some(state) if numbers.len() == NUMBERS => call(&state),
        _ => Err(Refusal::StateOrTable),
    };
    reply(numbers, answer)
}

/// A call that may change the mode and the running page, and nothing else of the state.
#[inline(always)]
pub fn with_mode(
    run: &mut [u64],
    numbers: &mut [u64],
    call: impl FnOnce(&mut State) -> Answer,
) -> u64 {
    changing(run, numbers, call, |run, state| put_mode(run, state.mode))
}

/// A call that may change what is pending, and nothing else of the state.
#[inline(always)]
pub fn with_pending(
    run: &mut [u64],
    numbers: &mut [u64],
    call: impl FnOnce(&mut State) -> Answer,
) -> u64 {
    changing(run, numbers, call, |run, state| put_pending(run, state.pending))
}

/// A call that changes the state; what it can change is put into the run where it is accepted.
#[inline(always)]
fn changing(
    run: &mut [u64],
    numbers: &mut [u64],
    call: impl FnOnce(&mut State) -> Answer,
    put: impl FnOnce(&mut [u64], &State),
) -> u64 {
    let answer = match state_in(run) {
        Some(mut state) if numbers.len() == NUMBERS => {
            let answer = call(&mut state);
            if answer.is_ok() {
                put(run, &state);
            }
            answer
        }
        _ => Err(Refusal::StateOrTable),
    };
    reply(numbers, answer)
}

/// The start, which reads nothing of the state run. The lengths of both runs are the last that it asks for.
pub fn start(
    policy: &[u8],
    devices: u64,
    run: &mut [u64],
    shadow: &mut [u64],
    map: &mut [u16],
    exclusion: &mut [u8],
    numbers: &mut [u64],
) -> u64 {
    start_variant::<{ mistake::NONE }>(policy, devices, run, shadow, map, exclusion, numbers)
}

#[inline(always)]
pub(crate) fn start_variant<const VARIANT: u8>(
    policy: &[u8],
    devices: u64,
    run: &mut [u64],
    shadow: &mut [u64],
    map: &mut [u16],
    exclusion: &mut [u8],
    numbers: &mut [u64],
) -> u64 {
    let runs_fit = run.len() == STATE_WORDS && numbers.len() == NUMBERS;
    let (state, answer) = start_where::<VARIANT>(runs_fit, policy, devices, shadow, map, exclusion);
    if answer.is_ok() {
        put_state(run, &state);
    }
    reply(numbers, answer)
}

/// The writing of a record, which has no state. The numbers run is asked for after question 6 and before 16.
#[inline(always)]
#[allow(clippy::too_many_arguments)]
pub fn write_record(
    v: u64,
    f: u64,
    n: u64,
    e: u64,
    pages: &[u16],
    frames: &[u16],
    buffer: &mut [u8],
    numbers: &mut [u64],
) -> u64 {
    write_variant::<{ mistake::NONE }>([v, f, n, e], pages, frames, buffer, numbers)
}

#[inline(always)]
pub(crate) fn write_variant<const VARIANT: u8>(
    sizes: [u64; 4],
    pages: &[u16],
    frames: &[u16],
    buffer: &mut [u8],
    numbers: &mut [u64],
) -> u64 {
    let run_fits = numbers.len() == NUMBERS;
    let answer = write_where::<VARIANT>(run_fits, sizes, pages, frames, buffer);
    reply(numbers, answer)
}

/// The bare walk, which has no state. The numbers run is asked for before question 17.
#[inline(always)]
pub fn walk(tree: Tree, page: u64, numbers: &mut [u64]) -> u64 {
    walk_variant::<{ mistake::NONE }>(tree, page, numbers)
}

#[inline(always)]
pub(crate) fn walk_variant<const VARIANT: u8>(tree: Tree, page: u64, numbers: &mut [u64]) -> u64 {
    let run_fits = numbers.len() == NUMBERS;
    reply(numbers, walk_where::<VARIANT>(run_fits, tree, page))
}

/// The state of a run with the right length, in which each field has its width. An entry page too wide is above every V. The words of
/// the pair are read where one is pending.
#[inline(always)]
pub fn state_in(run: &[u64]) -> Option<State> {
    let run: &[u64; STATE_WORDS] = run.try_into().ok()?;
    let field = |place: usize| u16::try_from(run[place]).ok();
    let page = field(RUNNING)?;
    let mode = match run[MODE] {
        0 => Mode::Kernel(page),
        1 => Mode::User(page),
        _ => return None,
    };
    let pending = match run[PENDING] {
        0 => None,
        1 => Some(Pair { page: field(PENDING_PAGE)?, frame: field(PENDING_FRAME)? }),
        _ => return None,
    };
    let entry_pages = std::array::from_fn(|place| field(ENTRY + place).unwrap_or(u16::MAX));
    let (v, f, e, devices) = (field(PAGES)?, field(FRAMES)?, field(ENTRIES)?, field(DEVICES)?);
    Some(State { v, f, e, entry_pages, mode, devices, pending })
}

#[inline(always)]
fn put_state(run: &mut [u64], state: &State) {
    run[PAGES] = state.v.into();
    run[FRAMES] = state.f.into();
    run[ENTRIES] = state.e.into();
    for (word, &page) in run[ENTRY..MODE].iter_mut().zip(&state.entry_pages) {
        *word = page.into();
    }
    put_mode(run, state.mode);
    run[DEVICES] = state.devices.into();
    put_pending(run, state.pending);
}

/// The words of a mode.
#[inline(always)]
pub fn put_mode(run: &mut [u64], mode: Mode) {
    run[MODE] = mode.is_user().into();
    run[RUNNING] = mode.page().into();
}

/// The words of what is pending. Where nothing is, all three are 0.
#[inline(always)]
pub fn put_pending(run: &mut [u64], pending: Option<Pair>) {
    let [page, frame] = pending.map_or([0; 2], |pair| [pair.page.into(), pair.frame.into()]);
    run[PENDING] = pending.is_some().into();
    run[PENDING_PAGE] = page;
    run[PENDING_FRAME] = frame;
}

/// The number of an answer, whose two numbers go into their run.
#[inline(always)]
pub fn reply(numbers: &mut [u64], answer: Answer) -> u64 {
    let (number, (first, second)) = match answer {
        Ok(numbers) => (0, numbers),
        Err(refusal) => (refusal.number().into(), (0, 0)),
    };
    if let Ok(numbers) = <&mut [u64; NUMBERS]>::try_from(numbers) {
        *numbers = [first, second];
    }
    number
}
