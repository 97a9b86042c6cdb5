//! The plain calls, none of them inlined: each is one call, as the archive's is.
//! Otherwise the compiler could take parts of the plain sides out of the measured loop.

use reference::{Answer, Device, State, Tree};

/// Where the calls begin. To ask lets their addresses out, so that the compiler fits none of them to the lengths that this program happens
/// to pass: the archive's calls are not fitted either.
pub fn begins() -> Vec<usize> {
    let on_state = [
        start as *const (),
        sync_page as *const (),
        sync_all as *const (),
        fetch as *const (),
        write as *const (),
        device_write as *const (),
        enter as *const (),
        leave as *const (),
        write_record as *const (),
        walk as *const (),
        sync_page_tree as *const (),
        sync_all_tree as *const (),
        ask as *const (),
        commit as *const (),
        drop as *const (),
        without_approval::sync_page as *const (),
        without_approval::sync_all as *const (),
    ];
    let on_runs = [
        on_runs::start as *const (),
        on_runs::sync_page as *const (),
        on_runs::sync_all as *const (),
        on_runs::fetch as *const (),
        on_runs::write as *const (),
        on_runs::device_write as *const (),
        on_runs::enter as *const (),
        on_runs::leave as *const (),
        on_runs::write_record as *const (),
        on_runs::walk as *const (),
        on_runs::sync_page_tree as *const (),
        on_runs::sync_all_tree as *const (),
        on_runs::ask as *const (),
        on_runs::commit as *const (),
        on_runs::drop as *const (),
    ];
    on_state.into_iter().chain(on_runs).map(|call| call as usize).collect()
}

#[inline(never)]
pub fn start(
    policy: &[u8],
    devices: u64,
    shadow: &mut [u64],
    map: &mut [u16],
    exclusion: &mut [u8],
) -> (State, Answer) {
    reference::start(policy, devices, shadow, map, exclusion)
}

#[inline(never)]
pub fn sync_page(
    state: &State,
    kernel: &[u64],
    shadow: &mut [u64],
    map: &mut [u16],
    exclusion: &[u8],
    page: u64,
) -> Answer {
    reference::synchronise_one(state, kernel, shadow, map, exclusion, page)
}

#[inline(never)]
pub fn sync_all(
    state: &State,
    kernel: &[u64],
    shadow: &mut [u64],
    map: &mut [u16],
    exclusion: &[u8],
) -> Answer {
    reference::synchronise_all(state, kernel, shadow, map, exclusion)
}

#[inline(never)]
pub fn fetch(state: &mut State, shadow: &[u64], page: u64) -> Answer {
    reference::fetch(state, shadow, page)
}

#[inline(never)]
pub fn write(state: &State, shadow: &[u64], exclusion: &[u8], address: u64, length: u64) -> Answer {
    reference::write(state, shadow, exclusion, address, length)
}

#[inline(never)]
pub fn enter(state: &mut State, shadow: &mut [u64], index: u64) -> Answer {
    reference::enter(state, shadow, index)
}

#[inline(never)]
pub fn leave(state: &mut State, shadow: &mut [u64], page: u64) -> Answer {
    reference::leave(state, shadow, page)
}

#[inline(never)]
pub fn device_write(
    state: &State,
    exclusion: &[u8],
    devices: &[Device],
    device: u64,
    address: u64,
    length: u64,
) -> Answer {
    reference::device_write(state, exclusion, devices, device, address, length)
}

#[inline(never)]
pub fn write_record(
    v: u64,
    f: u64,
    n: u64,
    e: u64,
    pages: &[u16],
    frames: &[u16],
    buffer: &mut [u8],
) -> Answer {
    reference::write_record(v, f, n, e, pages, frames, buffer)
}

#[inline(never)]
pub fn walk(tree: Tree, page: u64) -> Answer {
    reference::walk(tree, page)
}

#[inline(never)]
pub fn sync_page_tree(
    state: &State,
    tree: Tree,
    shadow: &mut [u64],
    map: &mut [u16],
    exclusion: &[u8],
    page: u64,
) -> Answer {
    reference::synchronise_one_from_tree(state, tree, shadow, map, exclusion, page)
}

#[inline(never)]
pub fn sync_all_tree(
    state: &State,
    tree: Tree,
    shadow: &mut [u64],
    map: &mut [u16],
    exclusion: &[u8],
) -> Answer {
    reference::synchronise_all_from_tree(state, tree, shadow, map, exclusion)
}

#[inline(never)]
pub fn ask(
    state: &mut State,
    shadow: &[u64],
    map: &[u16],
    exclusion: &mut [u8],
    page: u64,
    frame: u64,
) -> Answer {
    reference::ask(state, shadow, map, exclusion, page, frame)
}

#[inline(never)]
pub fn commit(state: &mut State, shadow: &mut [u64], map: &mut [u16]) -> Answer {
    reference::commit(state, shadow, map)
}

#[inline(never)]
pub fn drop(state: &mut State, exclusion: &mut [u8]) -> Answer {
    reference::drop(state, exclusion)
}

/// Synchronising with the kernel's frame always taken, which guards nothing: the price of steps 2 and 4.
pub mod without_approval {
    use reference::{Answer, State};

    #[inline(never)]
    pub fn sync_page(
        state: &State,
        kernel: &[u64],
        shadow: &mut [u64],
        map: &mut [u16],
        exclusion: &[u8],
        page: u64,
    ) -> Answer {
        reference::without_approval::synchronise_one(state, kernel, shadow, map, exclusion, page)
    }

    #[inline(never)]
    pub fn sync_all(
        state: &State,
        kernel: &[u64],
        shadow: &mut [u64],
        map: &mut [u16],
        exclusion: &[u8],
    ) -> Answer {
        reference::without_approval::synchronise_all(state, kernel, shadow, map, exclusion)
    }
}

/// The reference behind the archive's own boundary, with the archive's parameters.
pub mod on_runs {
    use reference::{boundary, Device, Tree};

    #[inline(never)]
    pub fn start(
        policy: &[u8],
        devices: u64,
        run: &mut [u64],
        shadow: &mut [u64],
        map: &mut [u16],
        exclusion: &mut [u8],
        numbers: &mut [u64],
    ) -> u64 {
        boundary::start(policy, devices, run, shadow, map, exclusion, numbers)
    }

    #[inline(never)]
    pub fn sync_page(
        run: &[u64],
        kernel: &[u64],
        shadow: &mut [u64],
        map: &mut [u16],
        exclusion: &[u8],
        page: u64,
        numbers: &mut [u64],
    ) -> u64 {
        boundary::with_state(run, numbers, |state| {
            reference::synchronise_one(state, kernel, shadow, map, exclusion, page)
        })
    }

    #[inline(never)]
    pub fn sync_all(
        run: &[u64],
        kernel: &[u64],
        shadow: &mut [u64],
        map: &mut [u16],
        exclusion: &[u8],
        numbers: &mut [u64],
    ) -> u64 {
        boundary::with_state(run, numbers, |state| {
            reference::synchronise_all(state, kernel, shadow, map, exclusion)
        })
    }

    #[inline(never)]
    pub fn fetch(run: &mut [u64], shadow: &[u64], page: u64, numbers: &mut [u64]) -> u64 {
        boundary::with_mode(run, numbers, |state| reference::fetch(state, shadow, page))
    }

    #[inline(never)]
    pub fn write(
        run: &[u64],
        shadow: &[u64],
        exclusion: &[u8],
        address: u64,
        length: u64,
        numbers: &mut [u64],
    ) -> u64 {
        boundary::with_state(run, numbers, |state| {
            reference::write(state, shadow, exclusion, address, length)
        })
    }

    #[inline(never)]
    pub fn enter(run: &mut [u64], shadow: &mut [u64], index: u64, numbers: &mut [u64]) -> u64 {
        boundary::with_mode(run, numbers, |state| reference::enter(state, shadow, index))
    }

    #[inline(never)]
    pub fn leave(run: &mut [u64], shadow: &mut [u64], page: u64, numbers: &mut [u64]) -> u64 {
        boundary::with_mode(run, numbers, |state| reference::leave(state, shadow, page))
    }

    #[inline(never)]
    pub fn device_write(
        run: &[u64],
        exclusion: &[u8],
        devices: &[Device],
        device: u64,
        address: u64,
        length: u64,
        numbers: &mut [u64],
    ) -> u64 {
        boundary::with_state(run, numbers, |state| {
            reference::device_write(state, exclusion, devices, device, address, length)
        })
    }

    #[inline(never)]
    #[allow(clippy::too_many_arguments)]
    pub fn write_record(
        v: u64,
        f: u64,
        n: u64,
        e: u64,
        pages: &[u16],
        frames: &[u16],
        buffer: &mut [u8],
        numbers: &mut [u64],
    ) -> u64 {
        boundary::write_record(v, f, n, e, pages, frames, buffer, numbers)
    }

    #[inline(never)]
    pub fn walk(tables: &[u64], root: u64, depth: u64, page: u64, numbers: &mut [u64]) -> u64 {
        boundary::walk(Tree { tables, root, depth }, page, numbers)
    }

    #[inline(never)]
    #[allow(clippy::too_many_arguments)]
    pub fn sync_page_tree(
        run: &[u64],
        tables: &[u64],
        root: u64,
        depth: u64,
        shadow: &mut [u64],
        map: &mut [u16],
        exclusion: &[u8],
        page: u64,
        numbers: &mut [u64],
    ) -> u64 {
        let tree = Tree { tables, root, depth };
        boundary::with_state(run, numbers, |state| {
            reference::synchronise_one_from_tree(state, tree, shadow, map, exclusion, page)
        })
    }

    #[inline(never)]
    #[allow(clippy::too_many_arguments)]
    pub fn sync_all_tree(
        run: &[u64],
        tables: &[u64],
        root: u64,
        depth: u64,
        shadow: &mut [u64],
        map: &mut [u16],
        exclusion: &[u8],
        numbers: &mut [u64],
    ) -> u64 {
        let tree = Tree { tables, root, depth };
        boundary::with_state(run, numbers, |state| {
            reference::synchronise_all_from_tree(state, tree, shadow, map, exclusion)
        })
    }

    #[inline(never)]
    pub fn ask(
        run: &mut [u64],
        shadow: &[u64],
        map: &[u16],
        exclusion: &mut [u8],
        page: u64,
        frame: u64,
        numbers: &mut [u64],
    ) -> u64 {
        boundary::with_pending(run, numbers, |state| {
            reference::ask(state, shadow, map, exclusion, page, frame)
        })
    }

    #[inline(never)]
    pub fn commit(
        run: &mut [u64],
        shadow: &mut [u64],
        map: &mut [u16],
        numbers: &mut [u64],
    ) -> u64 {
        boundary::with_pending(run, numbers, |state| reference::commit(state, shadow, map))
    }

    #[inline(never)]
    pub fn drop(run: &mut [u64], exclusion: &mut [u8], numbers: &mut [u64]) -> u64 {
        boundary::with_pending(run, numbers, |state| reference::drop(state, exclusion))
    }
}
