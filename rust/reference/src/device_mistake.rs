//! A device write by its list of questions, with one of the mistakes of K5 in it: an answer, or the place of a question.
//! It is written apart from the plain call, which needs no list; without such a mistake both answer the same.

use crate::device::Device;
use crate::entry::is_excluded;
use crate::mistake::Mistake;
use crate::state::{Answer, Refusal, State, PAGE_BYTES};

/// The places of questions in the list.
const LIST: usize = 1;
const LENGTH: usize = 2;
const DEVICE: usize = 3;
const EXISTS: usize = 4;
const WINDOW: usize = 5;
const EXCLUDED: usize = 6;

/// The frames of the first and of the last byte, by exact sums.
struct Frames {
    first: u128,
    last: u128,
}

pub(crate) fn device_write(
    mistake: Mistake,
    state: &State,
    exclusion: &[u8],
    devices: &[Device],
    device: u64,
    address: u64,
    length: u64,
) -> Answer {
    let last_byte = u128::from(address) + u128::from(length.max(1)) - 1;
    let page = u128::from(PAGE_BYTES);
    let frames = Frames { first: u128::from(address) / page, last: last_byte / page };
    let place = named(mistake, devices.len() as u64, device);
    let is_within = place.is_some_and(|place| within(mistake, devices, place, &frames));
    let mut questions = [
        (Refusal::StateOrTable, fits(mistake, state, exclusion.len())),
        (Refusal::StateOrTable, list_fits(mistake, state, devices.len())),
        (Refusal::LengthOutOfRange, (1..=1 << 20).contains(&length)),
        (Refusal::NoDevice, place.is_some() || mistake == Mistake::NoDeviceAsNoWindow),
        (Refusal::DoesNotExist, frames.last < state.f.into()),
        (Refusal::OutsideWindow, is_within),
        (Refusal::Excluded, !any_excluded(exclusion, &frames)),
    ];
    match mistake {
        Mistake::DeviceBeforeLength => questions.swap(LENGTH, DEVICE),
        Mistake::DeviceAfterExists => questions.swap(DEVICE, EXISTS),
        Mistake::WindowBeforeExists => questions.swap(EXISTS, WINDOW),
        Mistake::ExcludedBeforeWindow => questions.swap(WINDOW, EXCLUDED),
        Mistake::LengthBeforeList => questions.swap(LIST, LENGTH),
        _ => {}
    }
    match questions.iter().find(|(_, is_yes)| !is_yes) {
        Some(&(refusal, _)) => Err(refusal),
        None => Ok((frames.first as u64, frames.last as u64)),
    }
}

/// Question 7 about the state and the vector.
fn fits(mistake: Mistake, state: &State, bytes: usize) -> bool {
    let devices = if mistake == Mistake::CountNotAsked { 1 } else { state.devices };
    State { devices, ..*state }.fits_vector(bytes)
}

/// Question 7 about the list.
fn list_fits(mistake: Mistake, state: &State, length: usize) -> bool {
    let count = usize::from(state.devices);
    match mistake {
        Mistake::ListNotAsked => true,
        Mistake::LongerList => length >= count,
        _ => length == count,
    }
}

/// Question 18: the place of the device in a list of this length.
fn named(mistake: Mistake, length: u64, device: u64) -> Option<usize> {
    let place = match mistake {
        Mistake::DeviceFromOne => device.checked_sub(1)?,
        Mistake::DeviceWraps => device.checked_rem(length)?,
        Mistake::CutDevice => device & 0xffff,
        _ => device,
    };
    (place < length).then_some(place as usize)
}

/// Question 19.
fn within(mistake: Mistake, devices: &[Device], place: usize, frames: &Frames) -> bool {
    let is_within = |device: &Device| within_window(mistake, device, frames);
    match mistake {
        Mistake::NeighbourWindow => is_within(&devices[(place + 1) % devices.len()]),
        Mistake::AnyWindow => devices.iter().any(is_within),
        _ => is_within(&devices[place]),
    }
}

fn within_window(mistake: Mistake, window: &Device, frames: &Frames) -> bool {
    let (from, to) = (u128::from(window.first), u128::from(window.last));
    let Frames { first, last } = *frames;
    match mistake {
        Mistake::WindowWithoutFirst => from < first && last <= to,
        Mistake::WindowWithoutLast => from <= first && last < to,
        Mistake::FirstFrameOnly => from <= first && first <= to,
        Mistake::LastFrameOnly => from <= last && last <= to,
        Mistake::WindowTouched => from <= to && first <= to && from <= last,
        Mistake::WindowTurned => from.min(to) <= first && last <= from.max(to),
        Mistake::EmptyWindowOpen if from > to => true,
        _ => from <= first && last <= to,
    }
}

/// Whether question 13 is answered no. A frame past the vector is asked about by question 9.
fn any_excluded(exclusion: &[u8], frames: &Frames) -> bool {
    let end = 8 * exclusion.len() as u128;
    let mut touched = frames.first..(frames.last + 1).min(end);
    touched.any(|frame| is_excluded(exclusion, frame as u64))
}
