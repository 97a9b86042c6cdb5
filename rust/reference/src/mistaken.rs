//! The calls with a planted mistake, so that a differential test can show that it sees it.
//! They take the mistake as an argument; the plain calls are compiled apart and do not pay for it.

use crate::access;
use crate::approval;
use crate::boundary;
use crate::claim::Call;
use crate::device::Device;
use crate::device_mistake;
use crate::mistake::{self, Mistake};
use crate::pending_mistake;
use crate::state::{Answer, State};
use crate::switch;
use crate::sync;
use crate::tree::Tree;

/// The variant of a call for a mistake, by the mistakes that have one. For every other the variant does what the plain call does.
/// The mistakes of K5 are in device_mistake.rs, [`start`] and [`seen`], those of K6 in pending_mistake.rs, and those of K7 in [`share`].
macro_rules! variant {
    ($module:ident::$call:ident, $mistake:expr) => {
        variant!(
            $module::$call, $mistake,
            TrustKernelFrame WritableAlias ForgetApproval
            IgnoreReserved ReservedIfNotApproved
            CutSizes BufferBeforeRun BytePastRecord
            ExchangeCacheBits OneCacheBit ApprovedCarriesCacheBits SwitchClearsCacheBits
            LastLevelRights Level3Rights NoExecuteOfEveryLevel CacheBitsOfEveryLevel
            LargeAtLevel1 LargeAtLevel3 LargeWithoutLowNine MisalignedLarge
            ReservedInLastEntry CutTableNumber WrapPages
            PageBeforeTree TreeBeforeTables ReadToTheDepth
        )
    };
    ($module:ident::$call:ident, $mistake:expr, $($name:ident)*) => {
        match $mistake {
            $(Mistake::$name => $module::$call::<{ Mistake::$name as u8 }>,)*
            _ => $module::$call::<{ mistake::NONE }>,
        }
    };
}

/// The state as a call that is no device write sees it, which with [`Mistake::CountOfTransfersAlone`] has its devices in order.
fn seen(mistake: Mistake, state: &State) -> State {
    let devices = if mistake == Mistake::CountOfTransfersAlone { 1 } else { state.devices };
    State { devices, ..*state }
}

/// The same for a call that may change the mode or what is pending.
fn seeing(mistake: Mistake, state: &mut State, call: impl FnOnce(&mut State) -> Answer) -> Answer {
    let mut seen = seen(mistake, state);
    let answer = call(&mut seen);
    (state.mode, state.pending) = (seen.mode, seen.pending);
    answer
}

/// [`boundary::start`] with a mistake.
#[allow(clippy::too_many_arguments)]
pub fn start(
    mistake: Mistake,
    policy: &[u8],
    devices: u64,
    run: &mut [u64],
    shadow: &mut [u64],
    map: &mut [u16],
    exclusion: &mut [u8],
    numbers: &mut [u64],
) -> u64 {
    let start = variant!(
        boundary::start_variant, mistake,
        CutCount CountBeforeSizes CountAfterLength NoDeviceAtAll OneDeviceMore CountNotKept
    );
    pending_mistake::starting(mistake, run, |run| {
        start(policy, devices, run, shadow, map, exclusion, numbers)
    })
}

/// A call on a state run that a mistake may read or write otherwise.
pub fn on_run(
    mistake: Mistake,
    call: &Call,
    run: &mut [u64],
    made: impl FnOnce(&mut [u64]) -> u64,
) -> u64 {
    if mistake.is_of_pending() {
        pending_mistake::on_run(mistake, call, run, made)
    } else {
        made(run)
    }
}

/// [`crate::synchronise_one`] with a mistake.
pub fn synchronise_one(
    mistake: Mistake,
    state: &State,
    kernel: &[u64],
    shadow: &mut [u64],
    map: &mut [u16],
    exclusion: &[u8],
    page: u64,
) -> Answer {
    if mistake.is_of_pending() {
        return pending_mistake::one(mistake, state, kernel, shadow, map, exclusion, page);
    }
    let state = &seen(mistake, state);
    variant!(sync::one, mistake)(state, kernel, shadow, map, exclusion, page)
}

/// [`crate::synchronise_all`] with a mistake.
pub fn synchronise_all(
    mistake: Mistake,
    state: &State,
    kernel: &[u64],
    shadow: &mut [u64],
    map: &mut [u16],
    exclusion: &[u8],
) -> Answer {
    if mistake.is_of_pending() {
        return pending_mistake::all(mistake, state, kernel, shadow, map, exclusion);
    }
    let state = &seen(mistake, state);
    variant!(sync::all, mistake)(state, kernel, shadow, map, exclusion)
}

/// [`crate::synchronise_one_from_tree`] with a mistake.
pub fn synchronise_one_from_tree(
    mistake: Mistake,
    state: &State,
    tree: Tree,
    shadow: &mut [u64],
    map: &mut [u16],
    exclusion: &[u8],
    page: u64,
) -> Answer {
    if mistake.is_of_pending() {
        return pending_mistake::one_from_tree(mistake, state, tree, shadow, map, exclusion, page);
    }
    let state = &seen(mistake, state);
    variant!(sync::one_from_tree, mistake)(state, tree, shadow, map, exclusion, page)
}

/// [`crate::synchronise_all_from_tree`] with a mistake.
pub fn synchronise_all_from_tree(
    mistake: Mistake,
    state: &State,
    tree: Tree,
    shadow: &mut [u64],
    map: &mut [u16],
    exclusion: &[u8],
) -> Answer {
    if mistake.is_of_pending() {
        return pending_mistake::all_from_tree(mistake, state, tree, shadow, map, exclusion);
    }
    let state = &seen(mistake, state);
    variant!(sync::all_from_tree, mistake)(state, tree, shadow, map, exclusion)
}

/// [`crate::fetch`] with a mistake.
pub fn fetch(mistake: Mistake, state: &mut State, shadow: &[u64], page: u64) -> Answer {
    seeing(mistake, state, |state| access::fetch(state, shadow, page))
}

/// [`crate::write`] with a mistake.
pub fn write(
    mistake: Mistake,
    state: &State,
    shadow: &[u64],
    exclusion: &[u8],
    address: u64,
    length: u64,
) -> Answer {
    let state = &seen(mistake, state);
    if mistake == Mistake::FirstPageOnly {
        access::write_checking::<false>(state, shadow, exclusion, address, length)
    } else {
        access::write_checking::<true>(state, shadow, exclusion, address, length)
    }
}

/// [`crate::enter`] with a mistake.
pub fn enter(mistake: Mistake, state: &mut State, shadow: &mut [u64], index: u64) -> Answer {
    let enter = variant!(switch::enter_variant, mistake);
    seeing(mistake, state, |state| enter(state, shadow, index))
}

/// [`crate::leave`] with a mistake.
pub fn leave(mistake: Mistake, state: &mut State, shadow: &mut [u64], page: u64) -> Answer {
    let leave = variant!(switch::leave_variant, mistake);
    seeing(mistake, state, |state| leave(state, shadow, page))
}

/// [`crate::device_write`] with a mistake.
pub fn device_write(
    mistake: Mistake,
    state: &State,
    exclusion: &[u8],
    devices: &[Device],
    device: u64,
    address: u64,
    length: u64,
) -> Answer {
    if mistake == Mistake::None {
        return access::device_write(state, exclusion, devices, device, address, length);
    }
    device_mistake::device_write(mistake, state, exclusion, devices, device, address, length)
}

/// [`crate::ask`] with a mistake.
pub fn ask(
    mistake: Mistake,
    state: &mut State,
    shadow: &mut [u64],
    map: &[u16],
    exclusion: &mut [u8],
    page: u64,
    frame: u64,
) -> Answer {
    if mistake.is_of_pending() {
        return pending_mistake::ask(mistake, state, shadow, map, exclusion, page, frame);
    }
    seeing(mistake, state, |state| approval::ask(state, shadow, map, exclusion, page, frame))
}

/// [`crate::commit`] with a mistake.
pub fn commit(mistake: Mistake, state: &mut State, shadow: &mut [u64], map: &mut [u16]) -> Answer {
    if mistake.is_of_pending() {
        return pending_mistake::commit(mistake, state, shadow, map);
    }
    seeing(mistake, state, |state| approval::commit(state, shadow, map))
}

/// [`crate::drop`] with a mistake.
pub fn drop(mistake: Mistake, state: &mut State, exclusion: &mut [u8]) -> Answer {
    if mistake.is_of_pending() {
        return pending_mistake::drop(mistake, state, exclusion);
    }
    seeing(mistake, state, |state| approval::drop(state, exclusion))
}

/// [`boundary::write_record`] with a mistake; the sizes are V, F, n and e.
pub fn write_record(
    mistake: Mistake,
    sizes: [u64; 4],
    pages: &[u16],
    frames: &[u16],
    buffer: &mut [u8],
    numbers: &mut [u64],
) -> u64 {
    variant!(boundary::write_variant, mistake)(sizes, pages, frames, buffer, numbers)
}

/// [`boundary::walk`] with a mistake.
pub fn walk(mistake: Mistake, tree: Tree, page: u64, numbers: &mut [u64]) -> u64 {
    variant!(boundary::walk_variant, mistake)(tree, page, numbers)
}

/// [`crate::share`] with a mistake.
pub fn share(mistake: Mistake, excluded: u32, f: u32) -> u32 {
    let hundredfold = 100 * excluded;
    match mistake {
        Mistake::ShareRoundedDown => hundredfold / f,
        Mistake::ShareRoundedUp => hundredfold.div_ceil(f),
        Mistake::ShareHalfUp => (2 * hundredfold + f) / (2 * f),
        Mistake::ShareHalfDown => (2 * hundredfold + f - 1) / (2 * f),
        Mistake::ShareHalfToOdd if 2 * (hundredfold % f) == f => (hundredfold / f) | 1,
        _ => crate::share::share(excluded, f),
    }
}
