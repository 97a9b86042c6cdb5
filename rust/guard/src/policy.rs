//! The policy record, written by the library: from sizes and arrays that are at hand, or from a policy that is built page by page.
//! Nothing is asked here: what is wrong with a policy, the library tells.

use crate::answer::answer;
use crate::archive;
use crate::Refusal;

/// The bytes of the sizes, which begin a record, and of a listed page with its frame.
const SIZES_BYTES: usize = 8;
const LISTED_BYTES: usize = 4;

/// Writes a policy record to the front of a buffer: its length. Bytes past the record stay as they were, and a refused call leaves the
/// whole buffer as it was.
///
/// The numbers before the arrays are V, F, n and e; the first e listed pages are the entry pages. [`Policy`] counts n and e.
pub fn write_record(
    pages: u64,
    frames: u64,
    count: u64,
    entry_count: u64,
    listed_pages: &[u16],
    listed_frames: &[u16],
    buffer: &mut [u8],
) -> Result<usize, Refusal> {
    let [length, _] = answer(|numbers| {
        archive::write_record(
            pages,
            frames,
            count,
            entry_count,
            listed_pages,
            listed_frames,
            buffer,
            numbers,
        )
    })?;
    Ok(length as usize)
}

/// A policy that is built page by page, and becomes a policy record.
///
/// Entry pages stand first in the record; among them, and among the other pages, the order is that in which they were added.
/// Nothing is sorted: add the pages of each group in rising order, the entry pages being the lowest, or the library refuses with 5.
/// n and e are counted, so that each array has n numbers, and refusal 4 never comes.
///
/// ```
/// use guard::{Device, Guard, Options, Policy, Refusal};
///
/// // V 12 and F 16; entry page 0 with frame 1, and page 4 with frame 3.
/// let policy = Policy::new(12, 16).entry_page(0, 1).page(4, 3);
/// let mut guard = Guard::start(&policy.record()?, Options::new().device(Device::new(4, 15)))?;
/// assert_eq!(guard.fetch(4)?, 3);
///
/// // The library asks the questions: there is no page 12.
/// assert_eq!(policy.page(12, 3).record(), Err(Refusal::ListedPage));
/// # Ok::<(), Refusal>(())
/// ```
#[derive(Clone, Debug, PartialEq, Eq)]
#[must_use]
pub struct Policy {
    pages: u64,
    frames: u64,
    entry_count: usize,
    listed_pages: Vec<u16>,
    listed_frames: Vec<u16>,
}

impl Policy {
    /// A policy of V pages and F frames that lists no page yet.
    pub fn new(pages: u64, frames: u64) -> Policy {
        Policy { pages, frames, entry_count: 0, listed_pages: vec![], listed_frames: vec![] }
    }

    /// Lists an entry page with its frame. Its entry index is the number of entry pages added before it.
    pub fn entry_page(mut self, page: u16, frame: u16) -> Policy {
        self.listed_pages.insert(self.entry_count, page);
        self.listed_frames.insert(self.entry_count, frame);
        self.entry_count += 1;
        self
    }

    /// Lists a page that is no entry page, with its frame.
    pub fn page(mut self, page: u16, frame: u16) -> Policy {
        self.listed_pages.push(page);
        self.listed_frames.push(frame);
        self
    }

    /// The policy record, which [`Guard::start`](crate::Guard::start) takes. Its buffer fits: refusal 16 never comes.
    pub fn record(&self) -> Result<Vec<u8>, Refusal> {
        let mut record = vec![0; SIZES_BYTES + LISTED_BYTES * self.listed_pages.len()];
        self.write_record(&mut record)?;
        Ok(record)
    }

    /// Writes the policy record to the front of a buffer: its length. A refused call leaves the buffer as it was.
    pub fn write_record(&self, buffer: &mut [u8]) -> Result<usize, Refusal> {
        let Policy { pages, frames, entry_count, listed_pages, listed_frames } = self;
        let (count, entry_count) = (listed_pages.len() as u64, *entry_count as u64);
        write_record(*pages, *frames, count, entry_count, listed_pages, listed_frames, buffer)
    }
}
