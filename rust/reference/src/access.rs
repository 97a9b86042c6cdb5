//! Fetch, write and device write: what a page or a device may reach.
//! Only the running page of a fetch changes; no table does.

use crate::device::Device;
use crate::entry::{frame_of, is_excluded, FRAME_SHIFT, NO_EXECUTE, PRESENT, USER, WRITABLE};
use crate::state::{Answer, Refusal, State, PAGE_BYTES};

/// The longest write, in bytes.
const MAX_WRITE: u64 = 16;
/// The longest device write, in bytes.
const MAX_TRANSFER: u64 = 1 << 20;

/// Fetches from a page, which then runs: its frame, twice.
#[inline(always)]
pub fn fetch(state: &mut State, shadow: &[u64], page: u64) -> Answer {
    if !state.fits_pages(shadow.len()) {
        return Err(Refusal::StateOrTable);
    }
    if page >= u64::from(state.v) {
        return Err(Refusal::DoesNotExist);
    }
    let entry = shadow[page as usize];
    if entry & PRESENT == 0 {
        return Err(Refusal::NotPresent);
    }
    let is_reachable = entry & USER != 0 || !state.mode.is_user();
    if entry & NO_EXECUTE != 0 || !is_reachable {
        return Err(Refusal::NotPermitted);
    }
    state.mode = state.mode.on(page as u16);
    let frame = frame_of(entry);
    Ok((frame, frame))
}

/// Writes 1 to 16 bytes at an address: the frames of the first and of the last byte.
#[inline(always)]
pub fn write(state: &State, shadow: &[u64], exclusion: &[u8], address: u64, length: u64) -> Answer {
    write_checking::<true>(state, shadow, exclusion, address, length)
}

/// A write that checks both pages it touches, or, with the third mistake of document 01, its first page only.
#[inline(always)]
pub(crate) fn write_checking<const BOTH: bool>(
    state: &State,
    shadow: &[u64],
    exclusion: &[u8],
    address: u64,
    length: u64,
) -> Answer {
    if !state.fits_vector(exclusion.len()) || shadow.len() != usize::from(state.v) {
        return Err(Refusal::StateOrTable);
    }
    ask_length(length, MAX_WRITE)?;
    let (first, last) = touched(address, length, u64::from(state.v))?;
    let (first_entry, last_entry) = (shadow[first as usize], shadow[last as usize]);
    // A bit that both pages need is set in what they have in common.
    let common = if BOTH { first_entry & last_entry } else { first_entry };
    if common & PRESENT == 0 {
        return Err(Refusal::NotPresent);
    }
    let needed = if state.mode.is_user() { WRITABLE | USER } else { WRITABLE };
    if common & needed != needed {
        return Err(Refusal::NotPermitted);
    }
    let (first_frame, last_frame) = (frame_of(first_entry), frame_of(last_entry));
    let is_shut = |frame| frame >= u64::from(state.f) || is_excluded(exclusion, frame);
    if is_shut(first_frame) || (BOTH && last != first && is_shut(last_frame)) {
        return Err(Refusal::Excluded);
    }
    Ok((first_frame, last_frame))
}

/// Lets a device, named by its place in the list, write 1 to 1,048,576 bytes at an address: the first and the last frame.
#[inline(always)]
pub fn device_write(
    state: &State,
    exclusion: &[u8],
    devices: &[Device],
    device: u64,
    address: u64,
    length: u64,
) -> Answer {
    if !state.fits_vector(exclusion.len()) || devices.len() != usize::from(state.devices) {
        return Err(Refusal::StateOrTable);
    }
    ask_length(length, MAX_TRANSFER)?;
    let place = usize::try_from(device).ok();
    let window = place.and_then(|place| devices.get(place)).ok_or(Refusal::NoDevice)?;
    let (first, last) = touched(address, length, u64::from(state.f))?;
    // The first is at most the last, so that no transfer is within a window without a frame.
    if first < u64::from(window.first) || u64::from(window.last) < last {
        return Err(Refusal::OutsideWindow);
    }
    if any_excluded(exclusion, first as usize, last as usize) {
        return Err(Refusal::Excluded);
    }
    Ok((first, last))
}

/// Question 8.
#[inline(always)]
fn ask_length(length: u64, longest: u64) -> Result<(), Refusal> {
    if (1..=longest).contains(&length) {
        Ok(())
    } else {
        Err(Refusal::LengthOutOfRange)
    }
}

/// Question 9: the first and last of `count` pages or frames that the bytes touch; there is one at least.
#[inline(always)]
fn touched(address: u64, length: u64, count: u64) -> Result<(u64, u64), Refusal> {
    // A last byte beyond 64 bits is beyond every page.
    let last_byte = address.checked_add(length - 1).ok_or(Refusal::DoesNotExist)?;
    let last = last_byte >> FRAME_SHIFT;
    if last >= count {
        return Err(Refusal::DoesNotExist);
    }
    Ok((address / PAGE_BYTES, last))
}

/// Whether the vector excludes any frame from `first` to `last`.
#[inline(always)]
fn any_excluded(exclusion: &[u8], first: usize, last: usize) -> bool {
    let from_first = 0xff << (first % 8);
    let to_last = 0xff >> (7 - last % 8);
    let bits = match &exclusion[first / 8..last / 8 + 1] {
        [] => 0,
        [only] => only & from_first & to_last,
        [head, middle @ .., tail] => {
            let between = middle.iter().fold(0, |bits, byte| bits | byte);
            head & from_first | between | tail & to_last
        }
    };
    bits != 0
}
