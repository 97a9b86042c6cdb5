//! One call on each side: the archive, the reference behind the same boundary, and the safe guard over the archive.
//! Archive and reference are lent the same runs and tables.

use std::hint::black_box;

use guard::archive::{self, NUMBERS};
use guard::Guard;
use inputs::Parts;
use reference::claim::Call as Listed;
use reference::{boundary, mistaken, Device, Mistake, Tree};

use crate::call::{Call, Lent};

/// The archive's number for a call.
pub fn by_archive(lent: &mut Lent, call: &Call) -> u64 {
    let Lent { state, numbers, shadow, map, exclusion, buffer } = lent;
    let call = match *call {
        Call::Start { policy, devices } => {
            return archive::start(policy, devices, state, shadow, map, exclusion, numbers)
        }
        Call::WriteRecord(Parts { sizes: [v, f, n, e], pages, frames }) => {
            return archive::write_record(*v, *f, *n, *e, pages, frames, buffer, numbers)
        }
        Call::Walk { tree: Tree { tables, root, depth }, page } => {
            return archive::walk(tables, root, depth, page, numbers)
        }
        Call::Listed(call) => call,
    };
    match call {
        Listed::SynchroniseOne { kernel, page } => {
            archive::sync_page(state, kernel, shadow, map, exclusion, page, numbers)
        }
        Listed::SynchroniseAll { kernel } => {
            archive::sync_all(state, kernel, shadow, map, exclusion, numbers)
        }
        Listed::Fetch { page } => archive::fetch(state, shadow, page, numbers),
        Listed::Write { address, length } => {
            archive::write(state, shadow, exclusion, address, length, numbers)
        }
        Listed::Enter { index } => archive::enter(state, shadow, index, numbers),
        Listed::Leave { page } => archive::leave(state, shadow, page, numbers),
        Listed::DeviceWrite { devices, device, address, length } => {
            let list = lent_to_archive(devices);
            let number =
                archive::device_write(state, exclusion, &list, device, address, length, numbers);
            // The list is lent to be read.
            assert_eq!(*black_box(&list), lent_to_archive(devices), "the list is changed");
            number
        }
        Listed::SynchroniseOneFromTree { tree: Tree { tables, root, depth }, page } => {
            archive::sync_page_tree(
                state, tables, root, depth, shadow, map, exclusion, page, numbers,
            )
        }
        Listed::SynchroniseAllFromTree { tree: Tree { tables, root, depth } } => {
            archive::sync_all_tree(state, tables, root, depth, shadow, map, exclusion, numbers)
        }
        Listed::Ask { page, frame } => {
            archive::ask(state, shadow, map, exclusion, page, frame, numbers)
        }
        Listed::Commit => archive::commit(state, shadow, map, numbers),
        Listed::Drop => archive::drop(state, exclusion, numbers),
    }
}

/// The reference's number for a call.
pub fn by_reference(mistake: Mistake, lent: &mut Lent, call: &Call) -> u64 {
    let Lent { state: run, numbers, shadow, map, exclusion, buffer } = lent;
    let call = match *call {
        Call::Start { policy, devices } => {
            return mistaken::start(mistake, policy, devices, run, shadow, map, exclusion, numbers)
        }
        Call::WriteRecord(Parts { sizes, pages, frames }) => {
            return mistaken::write_record(mistake, *sizes, pages, frames, buffer, numbers)
        }
        Call::Walk { tree, page } => return mistaken::walk(mistake, tree, page, numbers),
        Call::Listed(call) => call,
    };
    mistaken::on_run(mistake, &call, run, |run| match call {
        Listed::SynchroniseOne { kernel, page } => boundary::with_state(run, numbers, |state| {
            mistaken::synchronise_one(mistake, state, kernel, shadow, map, exclusion, page)
        }),
        Listed::SynchroniseAll { kernel } => boundary::with_state(run, numbers, |state| {
            mistaken::synchronise_all(mistake, state, kernel, shadow, map, exclusion)
        }),
        Listed::Fetch { page } => {
            boundary::with_mode(run, numbers, |state| mistaken::fetch(mistake, state, shadow, page))
        }
        Listed::Write { address, length } => boundary::with_state(run, numbers, |state| {
            mistaken::write(mistake, state, shadow, exclusion, address, length)
        }),
        Listed::Enter { index } => boundary::with_mode(run, numbers, |state| {
            mistaken::enter(mistake, state, shadow, index)
        }),
        Listed::Leave { page } => {
            boundary::with_mode(run, numbers, |state| mistaken::leave(mistake, state, shadow, page))
        }
        Listed::DeviceWrite { devices, device, address, length } => {
            boundary::with_state(run, numbers, |state| {
                mistaken::device_write(mistake, state, exclusion, devices, device, address, length)
            })
        }
        Listed::SynchroniseOneFromTree { tree, page } => {
            boundary::with_state(run, numbers, |state| {
                mistaken::synchronise_one_from_tree(
                    mistake, state, tree, shadow, map, exclusion, page,
                )
            })
        }
        Listed::SynchroniseAllFromTree { tree } => boundary::with_state(run, numbers, |state| {
            mistaken::synchronise_all_from_tree(mistake, state, tree, shadow, map, exclusion)
        }),
        Listed::Ask { page, frame } => boundary::with_pending(run, numbers, |state| {
            mistaken::ask(mistake, state, shadow, map, exclusion, page, frame)
        }),
        Listed::Commit => boundary::with_pending(run, numbers, |state| {
            mistaken::commit(mistake, state, shadow, map)
        }),
        Listed::Drop => {
            boundary::with_pending(run, numbers, |state| mistaken::drop(mistake, state, exclusion))
        }
    })
}

/// The call on the safe guard: its number, and its two numbers as a run. The guard has a list of its own, so that it takes over the
/// windows that a call brings; a list of another length is none of its calls.
pub fn by_guard(guard: &mut Guard, call: &Listed) -> Option<(u64, [u64; NUMBERS])> {
    let answer = match *call {
        Listed::SynchroniseOne { kernel, page } => {
            guard.synchronise_page(kernel, page).map(|counts| [counts.changed, counts.joined])
        }
        Listed::SynchroniseAll { kernel } => {
            guard.synchronise_all(kernel).map(|counts| [counts.changed, counts.joined])
        }
        Listed::Fetch { page } => guard.fetch(page).map(|frame| [frame, frame]),
        Listed::Write { address, length } => {
            guard.write(address, length).map(|frames| [frames.first, frames.last])
        }
        Listed::Enter { index } => guard.enter(index).map(|changed| [changed, 0]),
        Listed::Leave { page } => guard.leave(page).map(|changed| [changed, 0]),
        Listed::DeviceWrite { devices, device, address, length } => {
            if devices.len() != guard.devices().len() {
                return None;
            }
            for (place, &Device { first, last }) in (0..).zip(devices) {
                guard.set_window(place, first, last).expect("the guard has as many devices");
            }
            guard.device_write(device, address, length).map(|frames| [frames.first, frames.last])
        }
        Listed::SynchroniseOneFromTree { tree, page } => guard
            .synchronise_page_tree(&lent_to_guard(tree), page)
            .map(|counts| [counts.changed, counts.joined]),
        Listed::SynchroniseAllFromTree { tree } => guard
            .synchronise_all_tree(&lent_to_guard(tree))
            .map(|counts| [counts.changed, counts.joined]),
        Listed::Ask { page, frame } => guard.ask(page, frame).map(|()| [0, 0]),
        Listed::Commit => guard.commit().map(|counts| [counts.changed, counts.joined]),
        Listed::Drop => guard.drop_pending().map(|()| [0, 0]),
    };
    Some(match answer {
        Ok(numbers) => (0, numbers),
        Err(refusal) => (refusal.number().into(), [0; NUMBERS]),
    })
}

fn lent_to_archive(devices: &[Device]) -> Vec<archive::Device> {
    devices.iter().map(|device| archive::Device::new(device.first, device.last)).collect()
}

fn lent_to_guard(Tree { tables, root, depth }: Tree<'_>) -> guard::Tree<'_> {
    guard::Tree { words: tables, root, depth }
}
