//! Why a start, a device write of the drill or the writing of a record was refused, and by which line of the script or policy.
//! The drill and the library give the number alone; the question behind it is asked once more here, of the same numbers.

use crate::input::SIZES_BYTES;
use crate::policy::{MOST_ENTRIES, MOST_FRAMES, MOST_PAGES};
use crate::refusals::refusal;
use crate::text::counted;
use crate::{DrillInput, LineError, Number, Policy};

/// How many devices the drill has.
const DEVICES: u16 = 64;

impl DrillInput {
    /// What made a write of this device answer this number. The drill's windows have all frames: only another drill gives 19.
    pub(crate) fn device_cause(&self, device: u16, number: u64) -> Option<String> {
        match refusal(number)?.constant {
            "GUARD_NO_DEVICE" if device >= DEVICES => {
                Some(format!("the drill has devices 0 to {}", DEVICES - 1))
            }
            "GUARD_OUTSIDE_WINDOW" => {
                let last = self.policy()?.frames.value.checked_sub(1)?;
                Some(format!("the drill's windows are frames 0 to {last}"))
            }
            _ => None,
        }
    }

    /// What made the start answer this number.
    pub(crate) fn cause(&self, number: u64) -> Option<LineError> {
        match refusal(number)?.constant {
            "GUARD_RECORD_TOO_SHORT" => self.too_short(),
            "GUARD_RECORD_LENGTH" => self.cut_short(),
            _ => self.policy()?.cause_in_record(number),
        }
    }

    fn too_short(&self) -> Option<LineError> {
        let there = self.bytes.len();
        let message = format!("{there} of the first {SIZES_BYTES} bytes are there");
        (there < SIZES_BYTES).then(|| LineError::new(self.first_line, message))
    }

    /// Bytes past the record are calls, so that only too few of them are a fault.
    fn cut_short(&self) -> Option<LineError> {
        let Number { value: n, line } = self.listed()?;
        let (there, needed) = (self.bytes.len(), SIZES_BYTES + 4 * usize::from(n));
        let message = format!("the list of {n} needs {needed} bytes, and {there} are there");
        (there < needed).then(|| LineError::new(line, message))
    }
}

impl Policy {
    /// What makes the library refuse, with this number, the policy that was read, and the line of it.
    pub fn cause(&self, number: u64) -> Option<LineError> {
        match refusal(number)?.constant {
            "GUARD_COUNT_OUT_OF_RANGE" => self.given_count().or_else(|| self.count()),
            "GUARD_RECORD_LENGTH" => self.given_length(),
            _ => self.cause_in_record(number),
        }
    }

    /// What makes a record of these numbers refused, whatever they were made from.
    fn cause_in_record(&self, number: u64) -> Option<LineError> {
        match refusal(number)?.constant {
            "GUARD_SIZE_OUT_OF_RANGE" => self.size(),
            "GUARD_COUNT_OUT_OF_RANGE" => self.count(),
            "GUARD_LISTED_PAGE" => self.listed_page(),
            "GUARD_LISTED_FRAME" => self.listed_frame(),
            _ => None,
        }
    }

    fn size(&self) -> Option<LineError> {
        let limits = [("pages", self.pages, MOST_PAGES), ("frames", self.frames, MOST_FRAMES)];
        let (name, Number { value, line }, most) =
            limits.into_iter().find(|(_, size, most)| !(1..=*most).contains(&size.value))?;
        Some(LineError::new(line, format!("the number of {name} is {value}, not 1 to {most}")))
    }

    fn count(&self) -> Option<LineError> {
        let Policy { pages, listed, entries, .. } = self;
        let (v, n, e) = (pages.value, listed.value, entries.value);
        let (line, message) = if n == 0 {
            (listed.line, "no page is listed".into())
        } else if n > v {
            (listed.line, format!("{n} pages are listed, and the policy has {v}"))
        } else if e == 0 {
            let mark = "mark the lowest listed pages 'entry'";
            (entries.line, format!("there is no entry page: {mark}"))
        } else if e > MOST_ENTRIES {
            (entries.line, format!("there are {e} entry pages, more than {MOST_ENTRIES}"))
        } else if e > n {
            (entries.line, format!("there are {e} entry pages, and {n} listed in all"))
        } else {
            return None;
        };
        Some(LineError::new(line, message))
    }

    /// A given n that is out of range or below e, where it is not the number of approvals.
    fn given_count(&self) -> Option<LineError> {
        let other_length = self.given_length()?;
        let (v, Number { value: n, line }) = (self.pages.value, self.listed);
        if n > v {
            let pages = counted(v.into(), "page", "pages");
            let message = format!("n is given as {n}, and the policy has {pages}");
            return Some(LineError::new(line, message));
        }
        (n == 0 || n < self.entries.value).then_some(other_length)
    }

    /// Both arrays are as long as there are approvals; n is another number only where it is given.
    fn given_length(&self) -> Option<LineError> {
        let (Number { value: n, line }, there) = (self.listed, self.listed_pages.len());
        let approved = counted(there as u64, "page is approved", "pages are approved");
        let message = format!("n is given as {n}, and {approved}");
        (there != usize::from(n)).then(|| LineError::new(line, message))
    }

    fn listed_page(&self) -> Option<LineError> {
        let (v, e, pages) = (self.pages.value, self.entries.value, &self.listed_pages);
        let at = (0..pages.len()).find(|&at| {
            let page = pages[at].value;
            page >= v || at > 0 && page <= pages[at - 1].value
        })?;
        let (Number { value: page, line }, before) = (pages[at], &pages[..at]);
        if page >= v {
            let message = format!("page {page} is not below {v}, the number of pages");
            return Some(LineError::new(line, message));
        }
        if let Some(same) = before.iter().find(|listed| listed.value == page) {
            let (first, second) = (line.min(same.line), line.max(same.line));
            let message = format!("page {page} is listed on line {first} too");
            return Some(LineError::new(second, message));
        }
        let last = before.last()?;
        if at == usize::from(e) {
            let message = format!(
                "entry page {} is not among the lowest: page {page} on line {line} is no entry page",
                last.value
            );
            return Some(LineError::new(last.line, message));
        }
        let message = format!("page {page} comes after page {} on line {}", last.value, last.line);
        Some(LineError::new(line, message))
    }

    fn listed_frame(&self) -> Option<LineError> {
        let f = self.frames.value;
        let Number { value, line } = *self.listed_frames.iter().find(|frame| frame.value >= f)?;
        let message = format!("frame {value} is not below {f}, the number of frames");
        Some(LineError::new(line, message))
    }
}
