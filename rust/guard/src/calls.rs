//! The guard: its state run, tables and devices, and a method for each call of documents 01 and 02 on them.
//! A refused call changes nothing.

use crate::answer::answer;
use crate::archive;
use crate::archive::{
    Device, MODE_USER, STATE_ENTRIES, STATE_ENTRY, STATE_FRAMES, STATE_MODE, STATE_PAGES,
    STATE_PENDING, STATE_PENDING_FRAME, STATE_PENDING_PAGE, STATE_RUNNING, STATE_WORDS,
};
use crate::{Options, Refusal, Tree};

/// How many entry pages a state run has room for.
pub const ENTRY_PAGES: usize = STATE_MODE - STATE_ENTRY;

/// The number in the approval map of a page without an approved frame.
pub const NO_FRAME: u16 = u16::MAX;

const MAX_PAGES: u16 = 2048;
const MAX_FRAMES: u16 = 4096;

/// Kernel or user, together with the page now running.
#[derive(Clone, Copy, Debug, PartialEq, Eq)]
pub enum Mode {
    Kernel(u64),
    User(u64),
}

/// What a synchronisation changed.
#[derive(Clone, Copy, Debug, PartialEq, Eq)]
pub struct Synchronised {
    /// Shadow entries whose value changed.
    pub changed: u64,
    /// Pages that joined the approval map.
    pub joined: u64,
}

/// What a commit changed.
#[derive(Clone, Copy, Debug, PartialEq, Eq)]
pub struct Committed {
    /// Shadow entries whose value changed.
    pub changed: u64,
    /// Pages that joined the approval map, the asked one included.
    pub joined: u64,
}

/// The page and the frame of an ask that is neither committed nor dropped yet. A later version has more fields.
#[derive(Clone, Copy, Debug, PartialEq, Eq)]
#[non_exhaustive]
pub struct Pending {
    pub page: u64,
    pub frame: u64,
}

/// The frames that the first and the last byte of a write go to.
#[derive(Clone, Copy, Debug, PartialEq, Eq)]
pub struct Frames {
    pub first: u64,
    pub last: u64,
}

/// A started guard. It is not `Clone`: a clone from before an ask, put in the guard's place later, would undo the commit, while the
/// processor runs on with what was approved.
#[derive(Debug, PartialEq, Eq)]
pub struct Guard {
    state: [u64; STATE_WORDS],
    shadow: Vec<u64>,
    map: Vec<u16>,
    exclusion: Vec<u8>,
    devices: Vec<Device>,
}

impl Guard {
    /// Starts a guard by a policy record, in kernel mode on the first entry page, with the devices of the options.
    pub fn start(policy: &[u8], options: Options) -> Result<Guard, Refusal> {
        let (pages, frames) = sizes(policy);
        let Options { devices } = options;
        let mut guard = Guard {
            state: [0; STATE_WORDS],
            shadow: vec![0; pages],
            map: vec![0; pages],
            exclusion: vec![0; frames.div_ceil(8)],
            devices,
        };
        let Guard { state, shadow, map, exclusion, devices } = &mut guard;
        let count = devices.len() as u64;
        answer(|numbers| archive::start(policy, count, state, shadow, map, exclusion, numbers))?;
        Ok(guard)
    }

    /// Makes the shadow entry of one page from the kernel table.
    pub fn synchronise_page(&mut self, kernel: &[u64], page: u64) -> Result<Synchronised, Refusal> {
        let Guard { state, shadow, map, exclusion, .. } = self;
        let [changed, joined] = answer(|numbers| {
            archive::sync_page(state, kernel, shadow, map, exclusion, page, numbers)
        })?;
        Ok(Synchronised { changed, joined })
    }

    /// Makes the shadow entries of all pages from the kernel table.
    pub fn synchronise_all(&mut self, kernel: &[u64]) -> Result<Synchronised, Refusal> {
        let Guard { state, shadow, map, exclusion, .. } = self;
        let [changed, joined] =
            answer(|numbers| archive::sync_all(state, kernel, shadow, map, exclusion, numbers))?;
        Ok(Synchronised { changed, joined })
    }

    /// Makes the shadow entry of one page from the kernel's tree.
    pub fn synchronise_page_tree(
        &mut self,
        tree: &Tree,
        page: u64,
    ) -> Result<Synchronised, Refusal> {
        let Guard { state, shadow, map, exclusion, .. } = self;
        let Tree { words, root, depth } = *tree;
        let [changed, joined] = answer(|numbers| {
            archive::sync_page_tree(
                state, words, root, depth, shadow, map, exclusion, page, numbers,
            )
        })?;
        Ok(Synchronised { changed, joined })
    }

    /// Makes the shadow entries of all pages from the kernel's tree.
    pub fn synchronise_all_tree(&mut self, tree: &Tree) -> Result<Synchronised, Refusal> {
        let Guard { state, shadow, map, exclusion, .. } = self;
        let Tree { words, root, depth } = *tree;
        let [changed, joined] = answer(|numbers| {
            archive::sync_all_tree(state, words, root, depth, shadow, map, exclusion, numbers)
        })?;
        Ok(Synchronised { changed, joined })
    }

    /// Fetches from a page, which then runs: its frame.
    pub fn fetch(&mut self, page: u64) -> Result<u64, Refusal> {
        let Guard { state, shadow, .. } = self;
        let [frame, _] = answer(|numbers| archive::fetch(state, shadow, page, numbers))?;
        Ok(frame)
    }

    /// Asks for a write of 1 to 16 bytes at a virtual address.
    pub fn write(&self, address: u64, length: u64) -> Result<Frames, Refusal> {
        let Guard { state, shadow, exclusion, .. } = self;
        let [first, last] =
            answer(|numbers| archive::write(state, shadow, exclusion, address, length, numbers))?;
        Ok(Frames { first, last })
    }

    /// Enters the kernel by an entry index: how many shadow entries changed.
    pub fn enter(&mut self, index: u64) -> Result<u64, Refusal> {
        let Guard { state, shadow, .. } = self;
        let [changed, _] = answer(|numbers| archive::enter(state, shadow, index, numbers))?;
        Ok(changed)
    }

    /// Leaves the kernel to a page: how many shadow entries changed.
    pub fn leave(&mut self, page: u64) -> Result<u64, Refusal> {
        let Guard { state, shadow, .. } = self;
        let [changed, _] = answer(|numbers| archive::leave(state, shadow, page, numbers))?;
        Ok(changed)
    }

    /// Asks for a device's write of 1 to 1,048,576 bytes at a physical address. The device is named by its number in
    /// [`devices`](Guard::devices). It takes the guard to itself, since a later version counts the bytes of what it allows.
    pub fn device_write(
        &mut self,
        device: u64,
        address: u64,
        length: u64,
    ) -> Result<Frames, Refusal> {
        let Guard { state, exclusion, devices, .. } = self;
        let [first, last] = answer(|numbers| {
            archive::device_write(state, exclusion, devices, device, address, length, numbers)
        })?;
        Ok(Frames { first, last })
    }

    /// Asks for the approval of a page with a frame, which are pending from then on: no write and no transfer may reach the frame, and a page
    /// that is synchronised with it becomes read-only and no-execute. No shadow entry changes here, so synchronise all pages after
    /// it and before the frame is inspected.
    ///
    /// ```
    /// use guard::{Committed, Device, Guard, Options, Policy, Refusal};
    ///
    /// // The kernel maps page 2 to frame 6, read-only: a driver, which the policy does not name.
    /// let policy = Policy::new(4, 8).entry_page(1, 2).record()?;
    /// let mut guard = Guard::start(&policy, Options::new().device(Device::new(3, 7)))?;
    /// let kernel = [0, 0x2001, 0x6001, 0];
    /// guard.synchronise_all(&kernel)?;
    /// assert_eq!(guard.fetch(2), Err(Refusal::NotPermitted));
    ///
    /// // While it is pending and inspected, no device writes to it.
    /// guard.ask(2, 6)?;
    /// guard.synchronise_all(&kernel)?;
    /// assert_eq!(guard.pending().map(|pair| (pair.page, pair.frame)), Some((2, 6)));
    /// assert_eq!(guard.device_write(0, 0x6000, 1), Err(Refusal::Excluded));
    /// assert_eq!(guard.fetch(2), Err(Refusal::NotPermitted));
    ///
    /// // Inspected and found good.
    /// assert_eq!(guard.commit()?, Committed { changed: 1, joined: 1 });
    /// assert_eq!(guard.fetch(2)?, 6);
    /// assert_eq!(guard.pending(), None);
    /// # Ok::<(), Refusal>(())
    /// ```
    pub fn ask(&mut self, page: u64, frame: u64) -> Result<(), Refusal> {
        let Guard { state, shadow, map, exclusion, .. } = self;
        answer(|numbers| archive::ask(state, shadow, map, exclusion, page, frame, numbers))?;
        Ok(())
    }

    /// Approves the pending page with its frame, and so every page without an approval whose present shadow entry has that frame.
    pub fn commit(&mut self) -> Result<Committed, Refusal> {
        let Guard { state, shadow, map, .. } = self;
        let [changed, joined] = answer(|numbers| archive::commit(state, shadow, map, numbers))?;
        Ok(Committed { changed, joined })
    }

    /// Drops what is pending, which opens its frame again. It is not called `drop`, which in Rust ends a value: the guard goes on.
    ///
    /// ```
    /// use guard::{Device, Frames, Guard, Options, Policy, Refusal};
    ///
    /// let policy = Policy::new(4, 8).entry_page(1, 2).record()?;
    /// let mut guard = Guard::start(&policy, Options::new().device(Device::new(3, 7)))?;
    /// guard.ask(2, 6)?;
    /// assert_eq!(guard.device_write(0, 0x6000, 1), Err(Refusal::Excluded));
    ///
    /// // Inspected and found bad.
    /// guard.drop_pending()?;
    /// assert_eq!(guard.device_write(0, 0x6000, 1)?, Frames { first: 6, last: 6 });
    /// assert_eq!(guard.commit(), Err(Refusal::NothingPending));
    /// # Ok::<(), Refusal>(())
    /// ```
    pub fn drop_pending(&mut self) -> Result<(), Refusal> {
        let Guard { state, exclusion, .. } = self;
        answer(|numbers| archive::drop(state, exclusion, numbers))?;
        Ok(())
    }

    /// Gives a device another window, from the first frame to the last. No answer to another device changes. Where there is no such
    /// device nothing changes, and the refusal is 18.
    pub fn set_window(&mut self, device: u64, first: u16, last: u16) -> Result<(), Refusal> {
        let place = usize::try_from(device).ok();
        let Some(device) = place.and_then(|place| self.devices.get_mut(place)) else {
            return Err(Refusal::NoDevice);
        };
        (device.first, device.last) = (first, last);
        Ok(())
    }

    /// V, the number of virtual pages.
    pub fn pages(&self) -> u64 {
        self.state[STATE_PAGES]
    }

    /// F, the number of physical frames.
    pub fn frames(&self) -> u64 {
        self.state[STATE_FRAMES]
    }

    /// The entry pages, by their index.
    pub fn entry_pages(&self) -> &[u64] {
        &self.state[STATE_ENTRY..][..self.state[STATE_ENTRIES] as usize]
    }

    /// Kernel or user, and the page now running.
    pub fn mode(&self) -> Mode {
        let page = self.state[STATE_RUNNING];
        if self.state[STATE_MODE] == MODE_USER {
            Mode::User(page)
        } else {
            Mode::Kernel(page)
        }
    }

    /// The page and the frame that are pending, if any are.
    pub fn pending(&self) -> Option<Pending> {
        let [page, frame] = [STATE_PENDING_PAGE, STATE_PENDING_FRAME].map(|word| self.state[word]);
        (self.state[STATE_PENDING] == 1).then_some(Pending { page, frame })
    }

    /// The shadow table, which the processor walks; include/guard.h has every bit of its entries.
    pub fn shadow(&self) -> &[u64] {
        &self.shadow
    }

    /// The approval map: the frame approved for each page, or [`NO_FRAME`].
    pub fn map(&self) -> &[u16] {
        &self.map
    }

    /// The exclusion vector, a bit a frame.
    pub fn exclusion(&self) -> &[u8] {
        &self.exclusion
    }

    /// The devices with their windows, by their number.
    pub fn devices(&self) -> &[Device] {
        &self.devices
    }

    /// The words of the state, laid out as [`archive`] says.
    pub fn state(&self) -> &[u64; STATE_WORDS] {
        &self.state
    }
}

/// V and F of a record. Sizes out of range are cut to the largest: the start refuses them before it looks at a table.
fn sizes(policy: &[u8]) -> (usize, usize) {
    let &[v0, v1, f0, f1, ..] = policy else {
        return (0, 0);
    };
    let pages = u16::from_le_bytes([v0, v1]).min(MAX_PAGES);
    let frames = u16::from_le_bytes([f0, f1]).min(MAX_FRAMES);
    (pages.into(), frames.into())
}
