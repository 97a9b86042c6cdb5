//! Enter and leave: the mode switch over the whole shadow table.
//! A switch reads no kernel table; it assigns bit 63 of each present shadow entry and keeps all other bits.

use crate::entry::{no_execute, APPROVED, CACHE_BITS, KERNEL_NO_EXECUTE, PRESENT, USER};
use crate::mistake;
use crate::state::{Answer, Mode, Refusal, State, ENTRY_PAGES};

/// Enters the kernel by an entry index: how many shadow entries changed, and 0.
#[inline(always)]
pub fn enter(state: &mut State, shadow: &mut [u64], index: u64) -> Answer {
    enter_variant::<{ mistake::NONE }>(state, shadow, index)
}

#[inline(always)]
pub(crate) fn enter_variant<const VARIANT: u8>(
    state: &mut State,
    shadow: &mut [u64],
    index: u64,
) -> Answer {
    if !state.fits_pages(shadow.len()) {
        return Err(Refusal::StateOrTable);
    }
    if index >= u64::from(state.e) {
        return Err(Refusal::DoesNotExist);
    }
    let page = state.entry_pages[index as usize % ENTRY_PAGES];
    if page >= state.v {
        return Err(Refusal::DoesNotExist);
    }
    if !state.mode.is_user() {
        return Err(Refusal::WrongMode);
    }
    let entry = shadow[usize::from(page)];
    if entry & PRESENT == 0 {
        return Err(Refusal::NotPresent);
    }
    if entry & APPROVED == 0 {
        return Err(Refusal::NotPermitted);
    }
    state.mode = Mode::Kernel(page);
    Ok((switch::<false, VARIANT>(shadow), 0))
}

/// Leaves the kernel to a page: how many shadow entries changed, and 0.
#[inline(always)]
pub fn leave(state: &mut State, shadow: &mut [u64], page: u64) -> Answer {
    leave_variant::<{ mistake::NONE }>(state, shadow, page)
}

#[inline(always)]
pub(crate) fn leave_variant<const VARIANT: u8>(
    state: &mut State,
    shadow: &mut [u64],
    page: u64,
) -> Answer {
    if !state.fits_pages(shadow.len()) {
        return Err(Refusal::StateOrTable);
    }
    if page >= u64::from(state.v) {
        return Err(Refusal::DoesNotExist);
    }
    if state.mode.is_user() {
        return Err(Refusal::WrongMode);
    }
    let entry = shadow[page as usize];
    if entry & PRESENT == 0 {
        return Err(Refusal::NotPresent);
    }
    if entry & (USER | KERNEL_NO_EXECUTE) != USER {
        return Err(Refusal::NotPermitted);
    }
    state.mode = Mode::User(page as u16);
    Ok((switch::<true, VARIANT>(shadow), 0))
}

/// Assigns bit 63 of each present entry for the new mode, and counts the entries that change.
#[inline(always)]
fn switch<const IN_USER: bool, const VARIANT: u8>(shadow: &mut [u64]) -> u64 {
    let mut changed = 0;
    for entry in shadow {
        // The present bit, brought to bit 63, lets the difference through.
        let difference = (*entry ^ no_execute::<IN_USER>(*entry)) & (*entry << 63);
        let cleared = match VARIANT {
            mistake::SWITCH_CLEARS_CACHE_BITS if *entry & PRESENT != 0 => *entry & CACHE_BITS,
            _ => 0,
        };
        *entry ^= difference | cleared;
        changed += difference >> 63 | u64::from(cleared != 0);
    }
    changed
}
