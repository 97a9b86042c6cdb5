//! Demand 3 as something that runs: the calls of a list, and the number that the one-page guards settle for each.
//! A test keeps these beside a guard and compares answers, entries, approvals and mode after every call.

use std::ops::RangeInclusive;

use crate::device::Device;
use crate::page_guard::{PageGuard, Record};
use crate::path::Path;
use crate::terms::Terms;
use crate::tree::Tree;

/// A call of the list, with the kernel table or the tree that a synchronising call brings, and the devices that a device write brings.
#[derive(Clone, Copy, Debug)]
pub enum Call<'a> {
    SynchroniseOne { kernel: &'a [u64], page: u64 },
    SynchroniseAll { kernel: &'a [u64] },
    Fetch { page: u64 },
    Write { address: u64, length: u64 },
    Enter { index: u64 },
    Leave { page: u64 },
    DeviceWrite { devices: &'a [Device], device: u64, address: u64, length: u64 },
    SynchroniseOneFromTree { tree: Tree<'a>, page: u64 },
    SynchroniseAllFromTree { tree: Tree<'a> },
    Ask { page: u64, frame: u64 },
    Commit,
    Drop,
}

/// What the questions read of the state that reaches a call: no one-page guard holds it.
#[derive(Clone, Copy, Debug)]
pub struct Reaching {
    /// The number of devices (K5).
    pub devices: u64,
    /// The pending page and frame (K6).
    pub pending: Option<(u64, u64)>,
}

/// The policy, the one-page guards of all its pages, and the terms of frames.
pub struct Claim {
    v: u64,
    f: u64,
    entry_pages: Vec<u16>,
    pages: Vec<PageGuard>,
    terms: Terms,
}

/// The approval of a page that has none.
const NO_APPROVAL: u16 = 65535;

/// A question: its number, and whether the answer is yes.
type Question = (u8, bool);

impl Claim {
    /// The one-page guards as an accepted start of this record leaves them.
    pub fn told_start(record: &[u8]) -> Claim {
        let record = Record::of(record);
        let policy = record.frame_set();
        Claim {
            v: record.v.into(),
            f: record.f.into(),
            entry_pages: record.pages[..record.e.into()].to_vec(),
            pages: (0..record.v).map(|page| PageGuard::told_start(&record, policy, page)).collect(),
            terms: Terms::told_start(policy),
        }
    }

    /// Kernel or user, on which all one-page guards agree.
    fn is_user(&self) -> bool {
        self.pages[0].is_user()
    }

    /// The number of the first question answered no, or 0 where the call is accepted.
    pub fn settled(&self, call: &Call, reaching: &Reaching) -> u8 {
        let first_no = |questions: &[Question]| {
            questions.iter().find(|(_, is_yes)| !is_yes).map_or(0, |&(number, _)| number)
        };
        match *call {
            Call::SynchroniseOne { kernel, page } => {
                first_no(&[(7, kernel.len() as u64 == self.v), (9, page < self.v)])
            }
            Call::SynchroniseAll { kernel } => first_no(&[(7, kernel.len() as u64 == self.v)]),
            Call::Fetch { page } => first_no(&[
                (9, page < self.v),
                (11, self.has(page, 0)),
                (12, !self.has(page, 63) && self.is_open(page)),
            ]),
            Call::Write { address, length } => first_no(&self.write_questions(address, length)),
            Call::Enter { index } => first_no(&self.enter_questions(index)),
            Call::Leave { page } => first_no(&[
                (9, page < self.v),
                (10, !self.is_user()),
                (11, self.has(page, 0)),
                (12, self.has(page, 2) && !self.has(page, 9)),
            ]),
            Call::DeviceWrite { devices, device, address, length } => {
                let frames = || touched(address, length).take(257);
                let last_byte = u128::from(address) + u128::from(length) - u128::from(length > 0);
                first_no(&[
                    (7, devices.len() as u64 == reaching.devices),
                    (8, (1..=1_048_576).contains(&length)),
                    (18, device < devices.len() as u64),
                    (9, last_byte < u128::from(self.f) * 4096),
                    (19, frames().all(|frame| is_permitted(devices, device, frame))),
                    (13, frames().all(|frame| self.is_free(frame))),
                ])
            }
            // A tree has no length that question 7 asks for, and 17 is read from what reaches the call.
            Call::SynchroniseOneFromTree { tree, page } => {
                first_no(&[(17, is_tree(&tree)), (9, page < self.v)])
            }
            Call::SynchroniseAllFromTree { tree } => first_no(&[(17, is_tree(&tree))]),
            // Whether and what is pending is read from the state that reaches the call.
            Call::Ask { page, frame } => first_no(&[
                (9, page < self.v && frame < self.f),
                (20, reaching.pending.is_none()),
                (20, self.approval(page) == NO_APPROVAL),
                (20, !self.pages[0].excludes(frame)),
                (21, !self.is_mapped_writable(frame)),
            ]),
            Call::Commit => first_no(&[
                (20, reaching.pending.is_none_or(|(page, _)| self.approval(page) == NO_APPROVAL)),
                (22, reaching.pending.is_some()),
            ]),
            Call::Drop => first_no(&[(22, reaching.pending.is_some())]),
        }
    }

    /// Tells the one-page guards and the terms of an accepted call.
    pub fn tell(&mut self, call: &Call) {
        match *call {
            Call::SynchroniseOne { kernel, page } => {
                self.pages[page as usize].told_synchronised(kernel[page as usize]);
            }
            Call::SynchroniseAll { kernel } => {
                for (page, &entry) in self.pages.iter_mut().zip(kernel) {
                    page.told_synchronised(entry);
                }
            }
            Call::SynchroniseOneFromTree { tree, page } => {
                self.pages[page as usize].told_synchronised(Path::to(page, &tree).flat());
            }
            Call::SynchroniseAllFromTree { tree } => {
                for (number, page) in (0..).zip(&mut self.pages) {
                    page.told_synchronised(Path::to(number, &tree).flat());
                }
            }
            Call::Enter { .. } => self.pages.iter_mut().for_each(PageGuard::told_entered),
            Call::Leave { .. } => self.pages.iter_mut().for_each(PageGuard::told_left),
            Call::Ask { page, frame } => {
                for (number, guard) in (0..).zip(&mut self.pages) {
                    guard.told_asked(frame as u16, number == page);
                }
                self.terms.told_asked(frame as u16);
            }
            Call::Commit => {
                self.pages.iter_mut().for_each(PageGuard::told_committed);
                self.terms.told_committed();
            }
            Call::Drop => {
                self.pages.iter_mut().for_each(PageGuard::told_dropped);
                self.terms.told_dropped();
            }
            Call::Fetch { .. } | Call::Write { .. } | Call::DeviceWrite { .. } => {}
        }
    }

    /// Whether a shadow table, a map and a mode are those that the one-page guards hold.
    pub fn agrees(&self, shadow: &[u64], map: &[u16], is_user: bool) -> bool {
        let pages = || self.pages.iter();
        pages().map(PageGuard::entry).eq(shadow.iter().copied())
            && pages().map(PageGuard::approval).eq(map.iter().copied())
            && pages().all(|page| page.is_user() == is_user)
    }

    /// Whether an allowed call answers and reaches what it may: a fetch in kernel mode reads a code frame, and no write covers a
    /// protected one or memory beyond the last; a device's write covers no frame outside its window. Which frame a page has is the
    /// one-page guard's word, which frames are code and protected that of the terms, both before the call.
    pub fn is_safe(&self, call: &Call, numbers: (u64, u64)) -> bool {
        let is_clear = |frame| frame < self.f && !self.terms.is_protected(frame);
        match *call {
            Call::Fetch { page } => {
                let frame = self.frame(page);
                numbers == (frame, frame) && (self.is_user() || self.terms.is_code(frame))
            }
            Call::Write { address, length } => {
                let frames: Vec<_> =
                    touched(address, length).map(|page| self.frame(page)).collect();
                (frames.first(), frames.last()) == (Some(&numbers.0), Some(&numbers.1))
                    && frames.iter().all(|&frame| is_clear(frame))
            }
            Call::DeviceWrite { devices, device, address, length } => {
                let mut frames = touched(address, length);
                numbers == (address / 4096, (address + length - 1) / 4096)
                    && frames.all(|frame| is_clear(frame) && is_permitted(devices, device, frame))
            }
            _ => true,
        }
    }

    /// The frames that the bytes of an allowed write or transfer cover, in runs; other calls cover none.
    pub fn covered(&self, call: &Call) -> Vec<RangeInclusive<u64>> {
        match *call {
            Call::Write { address, length } => {
                let frames = touched(address, length).map(|page| self.frame(page));
                frames.map(|frame| frame..=frame).collect()
            }
            Call::DeviceWrite { address, length, .. } => vec![touched(address, length)],
            _ => Vec::new(),
        }
    }

    /// The frame in the entry of a page's one-page guard.
    fn frame(&self, page: u64) -> u64 {
        (self.entry(page) >> 12) % (1 << 40)
    }

    /// Whether a frame is below F and not excluded.
    fn is_free(&self, frame: u64) -> bool {
        frame < self.f && !self.pages[0].excludes(frame)
    }

    fn write_questions(&self, address: u64, length: u64) -> [Question; 5] {
        let pages = || touched(address, length).take(2);
        let permits = |page| self.has(page, 1) && self.is_open(page);
        [
            (8, (1..=16).contains(&length)),
            (9, pages().all(|page| page < self.v)),
            (11, pages().all(|page| self.has(page, 0))),
            (12, pages().all(permits)),
            (13, pages().all(|page| self.is_free(self.frame(page)))),
        ]
    }

    fn enter_questions(&self, index: u64) -> [Question; 4] {
        let named = usize::try_from(index).ok().and_then(|index| self.entry_pages.get(index));
        let page = named.map_or(u64::MAX, |&page| page.into());
        [
            (9, page < self.v),
            (10, self.is_user()),
            (11, self.has(page, 0)),
            (12, self.has(page, 10)),
        ]
    }

    /// The entry of a page's one-page guard; a page that does not exist has none, and question 9 comes first.
    fn entry(&self, page: u64) -> u64 {
        let guard = usize::try_from(page).ok().and_then(|page| self.pages.get(page));
        guard.map_or(0, PageGuard::entry)
    }

    fn has(&self, page: u64, bit: u32) -> bool {
        self.entry(page) >> bit & 1 == 1
    }

    /// The approval of a page's one-page guard; a page that does not exist has none.
    fn approval(&self, page: u64) -> u16 {
        let guard = usize::try_from(page).ok().and_then(|page| self.pages.get(page));
        guard.map_or(NO_APPROVAL, PageGuard::approval)
    }

    /// Whether the entry of some one-page guard is present and writable and has this frame.
    fn is_mapped_writable(&self, frame: u64) -> bool {
        let mut pages = 0..self.v;
        pages.any(|page| self.has(page, 0) && self.has(page, 1) && self.frame(page) == frame)
    }

    /// In user mode a page needs bit 2.
    fn is_open(&self, page: u64) -> bool {
        !self.is_user() || self.has(page, 2)
    }
}

/// The pages, or frames, of the bytes from an address on, with exact sums.
fn touched(address: u64, length: u64) -> RangeInclusive<u64> {
    let last_byte = u128::from(address) + u128::from(length.max(1)) - 1;
    address / 4096..=(last_byte / 4096) as u64
}

/// Whether the device with this place in the list may write to a frame.
fn is_permitted(devices: &[Device], device: u64, frame: u64) -> bool {
    let named = (0..).zip(devices).find(|&(place, _)| place == device);
    named.is_some_and(|(_, window)| (window.first.into()..=window.last.into()).contains(&frame))
}

/// Question 17: whole tables of 512, a depth of 1 to 3, a root in the run.
fn is_tree(tree: &Tree) -> bool {
    let words = tree.tables.len() as u64;
    words.is_multiple_of(512) && (1..=3).contains(&tree.depth) && tree.root < words / 512
}
