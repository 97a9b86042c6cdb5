//! The functions of the proved archive, as include/guard.h documents them, and a safe function over each.
//! All `unsafe` of the crate is here; tests/declarations.rs compares both halves with the Rattle source.
//!
//! A safe function takes the runs as slices, which settles the three things that the header asks of every run: a pointer is
//! valid for its length, a run lent for writing overlaps no other, and one run is lent to one call at a time. So slices of any
//! length and contents may be passed. What else the header leaves to the caller is the caller's here too.
//!
//! Each returns 0 where the call is accepted, else the number of the question that refused it.

/// The words of a state run; the places of its fields follow.
pub const STATE_WORDS: usize = 25;
/// V, the number of virtual pages.
pub const STATE_PAGES: usize = 0;
/// F, the number of physical frames.
pub const STATE_FRAMES: usize = 1;
/// e, the number of entry pages.
pub const STATE_ENTRIES: usize = 2;
/// The first of the sixteen entry pages.
pub const STATE_ENTRY: usize = 3;
/// [`MODE_KERNEL`] or [`MODE_USER`].
pub const STATE_MODE: usize = 19;
/// The page now running.
pub const STATE_RUNNING: usize = 20;
/// The number of devices.
pub const STATE_DEVICES: usize = 21;
/// 1 while a pair of page and frame is pending, else 0.
pub const STATE_PENDING: usize = 22;
/// The pending page; not read where none is pending.
pub const STATE_PENDING_PAGE: usize = 23;
/// The pending frame; not read where none is pending.
pub const STATE_PENDING_FRAME: usize = 24;

pub const MODE_KERNEL: u64 = 0;
pub const MODE_USER: u64 = 1;

/// The words of a numbers run.
pub const NUMBERS: usize = 2;

/// A device of the list that a device write is lent. A later version has more fields, so that it is built by [`Device::new`].
#[derive(Clone, Copy, Debug, PartialEq, Eq)]
#[non_exhaustive]
#[repr(C)]
pub struct Device {
    /// The first frame of its window.
    pub first: u16,
    /// The last one; the window includes both, and has no frame where the first is above the last.
    pub last: u16,
}

impl Device {
    /// A device with the window from the first frame to the last.
    pub const fn new(first: u16, last: u16) -> Device {
        Device { first, last }
    }
}

extern "C" {
    fn guard_boundary_1() -> u64;
    fn guard_start(
        policy: *const u8,
        policy_length: usize,
        devices: u64,
        state: *mut u64,
        state_length: usize,
        shadow: *mut u64,
        shadow_length: usize,
        map: *mut u16,
        map_length: usize,
        exclusion: *mut u8,
        exclusion_length: usize,
        numbers: *mut u64,
        numbers_length: usize,
    ) -> u64;
    fn guard_write_record(
        pages: u64,
        frames: u64,
        count: u64,
        entry_count: u64,
        listed_pages: *const u16,
        listed_pages_length: usize,
        listed_frames: *const u16,
        listed_frames_length: usize,
        buffer: *mut u8,
        buffer_length: usize,
        numbers: *mut u64,
        numbers_length: usize,
    ) -> u64;
    fn guard_sync_page(
        state: *const u64,
        state_length: usize,
        kernel: *const u64,
        kernel_length: usize,
        shadow: *mut u64,
        shadow_length: usize,
        map: *mut u16,
        map_length: usize,
        exclusion: *const u8,
        exclusion_length: usize,
        page: u64,
        numbers: *mut u64,
        numbers_length: usize,
    ) -> u64;
    fn guard_sync_all(
        state: *const u64,
        state_length: usize,
        kernel: *const u64,
        kernel_length: usize,
        shadow: *mut u64,
        shadow_length: usize,
        map: *mut u16,
        map_length: usize,
        exclusion: *const u8,
        exclusion_length: usize,
        numbers: *mut u64,
        numbers_length: usize,
    ) -> u64;
    fn guard_walk(
        tables: *const u64,
        tables_length: usize,
        root: u64,
        depth: u64,
        page: u64,
        numbers: *mut u64,
        numbers_length: usize,
    ) -> u64;
    fn guard_sync_page_tree(
        state: *const u64,
        state_length: usize,
        tables: *const u64,
        tables_length: usize,
        root: u64,
        depth: u64,
        shadow: *mut u64,
        shadow_length: usize,
        map: *mut u16,
        map_length: usize,
        exclusion: *const u8,
        exclusion_length: usize,
        page: u64,
        numbers: *mut u64,
        numbers_length: usize,
    ) -> u64;
    fn guard_sync_all_tree(
        state: *const u64,
        state_length: usize,
        tables: *const u64,
        tables_length: usize,
        root: u64,
        depth: u64,
        shadow: *mut u64,
        shadow_length: usize,
        map: *mut u16,
        map_length: usize,
        exclusion: *const u8,
        exclusion_length: usize,
        numbers: *mut u64,
        numbers_length: usize,
    ) -> u64;
    fn guard_fetch(
        state: *mut u64,
        state_length: usize,
        shadow: *const u64,
        shadow_length: usize,
        page: u64,
        numbers: *mut u64,
        numbers_length: usize,
    ) -> u64;
    fn guard_write(
        state: *const u64,
        state_length: usize,
        shadow: *const u64,
        shadow_length: usize,
        exclusion: *const u8,
        exclusion_length: usize,
        address: u64,
        length: u64,
        numbers: *mut u64,
        numbers_length: usize,
    ) -> u64;
    fn guard_enter(
        state: *mut u64,
        state_length: usize,
        shadow: *mut u64,
        shadow_length: usize,
        index: u64,
        numbers: *mut u64,
        numbers_length: usize,
    ) -> u64;
    fn guard_leave(
        state: *mut u64,
        state_length: usize,
        shadow: *mut u64,
        shadow_length: usize,
        page: u64,
        numbers: *mut u64,
        numbers_length: usize,
    ) -> u64;
    fn guard_device_write(
        state: *const u64,
        state_length: usize,
        exclusion: *const u8,
        exclusion_length: usize,
        devices: *const Device,
        devices_length: usize,
        device: u64,
        address: u64,
        length: u64,
        numbers: *mut u64,
        numbers_length: usize,
    ) -> u64;
    fn guard_ask(
        state: *mut u64,
        state_length: usize,
        shadow: *const u64,
        shadow_length: usize,
        map: *const u16,
        map_length: usize,
        exclusion: *mut u8,
        exclusion_length: usize,
        page: u64,
        frame: u64,
        numbers: *mut u64,
        numbers_length: usize,
    ) -> u64;
    fn guard_commit(
        state: *mut u64,
        state_length: usize,
        shadow: *mut u64,
        shadow_length: usize,
        map: *mut u16,
        map_length: usize,
        numbers: *mut u64,
        numbers_length: usize,
    ) -> u64;
    fn guard_drop(
        state: *mut u64,
        state_length: usize,
        exclusion: *mut u8,
        exclusion_length: usize,
        numbers: *mut u64,
        numbers_length: usize,
    ) -> u64;
}

/// Points to the function that is named for the boundary of these declarations: an archive of another boundary has none of that
/// name, and does not link. Nothing reads it.
#[used]
static BOUNDARY: unsafe extern "C" fn() -> u64 = guard_boundary_1;

/// Starts the guard by a policy record and the number of its devices: n and e.
#[inline]
pub fn start(
    policy: &[u8],
    devices: u64,
    state: &mut [u64],
    shadow: &mut [u64],
    map: &mut [u16],
    exclusion: &mut [u8],
    numbers: &mut [u64],
) -> u64 {
    // SAFETY: each pair is a slice's own pointer and length; see the module's text.
    unsafe {
        guard_start(
            policy.as_ptr(),
            policy.len(),
            devices,
            state.as_mut_ptr(),
            state.len(),
            shadow.as_mut_ptr(),
            shadow.len(),
            map.as_mut_ptr(),
            map.len(),
            exclusion.as_mut_ptr(),
            exclusion.len(),
            numbers.as_mut_ptr(),
            numbers.len(),
        )
    }
}

/// Writes a policy record into a buffer: its length, and 0.
#[inline]
#[allow(clippy::too_many_arguments)]
pub fn write_record(
    pages: u64,
    frames: u64,
    count: u64,
    entry_count: u64,
    listed_pages: &[u16],
    listed_frames: &[u16],
    buffer: &mut [u8],
    numbers: &mut [u64],
) -> u64 {
    // SAFETY: each pair is a slice's own pointer and length; see the module's text.
    unsafe {
        guard_write_record(
            pages,
            frames,
            count,
            entry_count,
            listed_pages.as_ptr(),
            listed_pages.len(),
            listed_frames.as_ptr(),
            listed_frames.len(),
            buffer.as_mut_ptr(),
            buffer.len(),
            numbers.as_mut_ptr(),
            numbers.len(),
        )
    }
}

/// Synchronises one page: shadow entries changed, pages that joined the map.
#[inline]
pub fn sync_page(
    state: &[u64],
    kernel: &[u64],
    shadow: &mut [u64],
    map: &mut [u16],
    exclusion: &[u8],
    page: u64,
    numbers: &mut [u64],
) -> u64 {
    // SAFETY: each pair is a slice's own pointer and length; see the module's text.
    unsafe {
        guard_sync_page(
            state.as_ptr(),
            state.len(),
            kernel.as_ptr(),
            kernel.len(),
            shadow.as_mut_ptr(),
            shadow.len(),
            map.as_mut_ptr(),
            map.len(),
            exclusion.as_ptr(),
            exclusion.len(),
            page,
            numbers.as_mut_ptr(),
            numbers.len(),
        )
    }
}

/// Synchronises all pages: shadow entries changed, pages that joined the map.
#[inline]
pub fn sync_all(
    state: &[u64],
    kernel: &[u64],
    shadow: &mut [u64],
    map: &mut [u16],
    exclusion: &[u8],
    numbers: &mut [u64],
) -> u64 {
    // SAFETY: each pair is a slice's own pointer and length; see the module's text.
    unsafe {
        guard_sync_all(
            state.as_ptr(),
            state.len(),
            kernel.as_ptr(),
            kernel.len(),
            shadow.as_mut_ptr(),
            shadow.len(),
            map.as_mut_ptr(),
            map.len(),
            exclusion.as_ptr(),
            exclusion.len(),
            numbers.as_mut_ptr(),
            numbers.len(),
        )
    }
}

/// Walks a tree of tables to a page: its flat entry, and the entries read.
#[inline]
pub fn walk(tables: &[u64], root: u64, depth: u64, page: u64, numbers: &mut [u64]) -> u64 {
    // SAFETY: each pair is a slice's own pointer and length; see the module's text.
    unsafe {
        guard_walk(
            tables.as_ptr(),
            tables.len(),
            root,
            depth,
            page,
            numbers.as_mut_ptr(),
            numbers.len(),
        )
    }
}

/// Synchronises one page from a tree of tables: shadow entries changed, pages that joined the map.
#[inline]
#[allow(clippy::too_many_arguments)]
pub fn sync_page_tree(
    state: &[u64],
    tables: &[u64],
    root: u64,
    depth: u64,
    shadow: &mut [u64],
    map: &mut [u16],
    exclusion: &[u8],
    page: u64,
    numbers: &mut [u64],
) -> u64 {
    // SAFETY: each pair is a slice's own pointer and length; see the module's text.
    unsafe {
        guard_sync_page_tree(
            state.as_ptr(),
            state.len(),
            tables.as_ptr(),
            tables.len(),
            root,
            depth,
            shadow.as_mut_ptr(),
            shadow.len(),
            map.as_mut_ptr(),
            map.len(),
            exclusion.as_ptr(),
            exclusion.len(),
            page,
            numbers.as_mut_ptr(),
            numbers.len(),
        )
    }
}

/// Synchronises all pages from a tree of tables: shadow entries changed, pages that joined the map.
#[inline]
#[allow(clippy::too_many_arguments)]
pub fn sync_all_tree(
    state: &[u64],
    tables: &[u64],
    root: u64,
    depth: u64,
    shadow: &mut [u64],
    map: &mut [u16],
    exclusion: &[u8],
    numbers: &mut [u64],
) -> u64 {
    // SAFETY: each pair is a slice's own pointer and length; see the module's text.
    unsafe {
        guard_sync_all_tree(
            state.as_ptr(),
            state.len(),
            tables.as_ptr(),
            tables.len(),
            root,
            depth,
            shadow.as_mut_ptr(),
            shadow.len(),
            map.as_mut_ptr(),
            map.len(),
            exclusion.as_ptr(),
            exclusion.len(),
            numbers.as_mut_ptr(),
            numbers.len(),
        )
    }
}

/// Fetches a page, which then runs: its frame, twice.
#[inline]
pub fn fetch(state: &mut [u64], shadow: &[u64], page: u64, numbers: &mut [u64]) -> u64 {
    // SAFETY: each pair is a slice's own pointer and length; see the module's text.
    unsafe {
        guard_fetch(
            state.as_mut_ptr(),
            state.len(),
            shadow.as_ptr(),
            shadow.len(),
            page,
            numbers.as_mut_ptr(),
            numbers.len(),
        )
    }
}

/// Writes 1 to 16 bytes at a virtual address: the first and the last frame.
#[inline]
pub fn write(
    state: &[u64],
    shadow: &[u64],
    exclusion: &[u8],
    address: u64,
    length: u64,
    numbers: &mut [u64],
) -> u64 {
    // SAFETY: each pair is a slice's own pointer and length; see the module's text.
    unsafe {
        guard_write(
            state.as_ptr(),
            state.len(),
            shadow.as_ptr(),
            shadow.len(),
            exclusion.as_ptr(),
            exclusion.len(),
            address,
            length,
            numbers.as_mut_ptr(),
            numbers.len(),
        )
    }
}

/// Enters the kernel by an entry index: shadow entries changed, and 0.
#[inline]
pub fn enter(state: &mut [u64], shadow: &mut [u64], index: u64, numbers: &mut [u64]) -> u64 {
    // SAFETY: each pair is a slice's own pointer and length; see the module's text.
    unsafe {
        guard_enter(
            state.as_mut_ptr(),
            state.len(),
            shadow.as_mut_ptr(),
            shadow.len(),
            index,
            numbers.as_mut_ptr(),
            numbers.len(),
        )
    }
}

/// Leaves the kernel to a page: shadow entries changed, and 0.
#[inline]
pub fn leave(state: &mut [u64], shadow: &mut [u64], page: u64, numbers: &mut [u64]) -> u64 {
    // SAFETY: each pair is a slice's own pointer and length; see the module's text.
    unsafe {
        guard_leave(
            state.as_mut_ptr(),
            state.len(),
            shadow.as_mut_ptr(),
            shadow.len(),
            page,
            numbers.as_mut_ptr(),
            numbers.len(),
        )
    }
}

/// Lets a device, named by its place in the list, write 1 to 1,048,576 bytes at a physical address: the first and the last frame.
#[inline]
pub fn device_write(
    state: &[u64],
    exclusion: &[u8],
    devices: &[Device],
    device: u64,
    address: u64,
    length: u64,
    numbers: &mut [u64],
) -> u64 {
    // SAFETY: each pair is a slice's own pointer and length; see the module's text.
    unsafe {
        guard_device_write(
            state.as_ptr(),
            state.len(),
            exclusion.as_ptr(),
            exclusion.len(),
            devices.as_ptr(),
            devices.len(),
            device,
            address,
            length,
            numbers.as_mut_ptr(),
            numbers.len(),
        )
    }
}

/// Asks for the approval of a page with a frame, which is pending from then on: 0 and 0.
#[inline]
pub fn ask(
    state: &mut [u64],
    shadow: &[u64],
    map: &[u16],
    exclusion: &mut [u8],
    page: u64,
    frame: u64,
    numbers: &mut [u64],
) -> u64 {
    // SAFETY: each pair is a slice's own pointer and length; see the module's text.
    unsafe {
        guard_ask(
            state.as_mut_ptr(),
            state.len(),
            shadow.as_ptr(),
            shadow.len(),
            map.as_ptr(),
            map.len(),
            exclusion.as_mut_ptr(),
            exclusion.len(),
            page,
            frame,
            numbers.as_mut_ptr(),
            numbers.len(),
        )
    }
}

/// Approves the pending pair: shadow entries changed, pages that joined the map.
#[inline]
pub fn commit(state: &mut [u64], shadow: &mut [u64], map: &mut [u16], numbers: &mut [u64]) -> u64 {
    // SAFETY: each pair is a slice's own pointer and length; see the module's text.
    unsafe {
        guard_commit(
            state.as_mut_ptr(),
            state.len(),
            shadow.as_mut_ptr(),
            shadow.len(),
            map.as_mut_ptr(),
            map.len(),
            numbers.as_mut_ptr(),
            numbers.len(),
        )
    }
}

/// Drops the pending pair: 0 and 0.
#[inline]
pub fn drop(state: &mut [u64], exclusion: &mut [u8], numbers: &mut [u64]) -> u64 {
    // SAFETY: each pair is a slice's own pointer and length; see the module's text.
    unsafe {
        guard_drop(
            state.as_mut_ptr(),
            state.len(),
            exclusion.as_mut_ptr(),
            exclusion.len(),
            numbers.as_mut_ptr(),
            numbers.len(),
        )
    }
}
