//! The drill's input with the script's line of every byte, so that an answer can be traced to its line.
//! Record and calls are told apart as the drill does it.

use crate::policy::MOST_PAGES;
use crate::{LineError, Number, Policy};

pub(crate) const SIZES_BYTES: usize = 8;
const CALL_BYTES: usize = 16;
const MOST_CALLS: usize = 1024;

/// What the drill reads, made from a script.
#[derive(Clone, Debug, PartialEq, Eq)]
pub struct DrillInput {
    pub bytes: Vec<u8>,
    /// For each byte the line to name where it is wrong.
    lines: Vec<usize>,
    /// The line of the first item, which begins the record.
    pub(crate) first_line: usize,
}

impl DrillInput {
    pub(crate) fn new(first_line: usize) -> Self {
        DrillInput { bytes: vec![], lines: vec![], first_line }
    }

    pub(crate) fn push(&mut self, bytes: &[u8], line: usize) {
        self.bytes.extend(bytes);
        self.lines.resize(self.bytes.len(), line);
    }

    /// The number of two bytes at an offset.
    fn number(&self, offset: usize) -> Option<Number> {
        let bytes = self.bytes.get(offset..offset + 2)?;
        let value = u16::from_le_bytes(bytes.try_into().ok()?);
        Some(Number { value, line: self.lines[offset] })
    }

    /// As many numbers from an offset on, or those that are there.
    fn numbers(&self, offset: usize, count: usize) -> Vec<Number> {
        (0..count).map_while(|at| self.number(offset + 2 * at)).collect()
    }

    /// n, the number of listed pages.
    pub(crate) fn listed(&self) -> Option<Number> {
        self.number(4)
    }

    /// The policy as the drill reads it, where the sizes are there.
    pub(crate) fn policy(&self) -> Option<Policy> {
        let listed = self.listed()?;
        let count = listed.value.into();
        Some(Policy {
            pages: self.number(0)?,
            frames: self.number(2)?,
            listed,
            entries: self.number(6)?,
            listed_pages: self.numbers(SIZES_BYTES, count),
            listed_frames: self.numbers(SIZES_BYTES + 2 * count, count),
        })
    }

    /// Where the calls begin. Without a whole record of 1 to 2,048 pages the drill makes none.
    fn calls_begin(&self) -> Option<usize> {
        let listed = self.listed()?.value;
        let end = SIZES_BYTES + 4 * usize::from(listed);
        ((1..=MOST_PAGES).contains(&listed) && end <= self.bytes.len()).then_some(end)
    }

    /// The line and the kind of a call, counted from 0.
    pub(crate) fn call(&self, at: usize) -> Option<(usize, u8)> {
        let offset = self.calls_begin()? + CALL_BYTES * at;
        Some((*self.lines.get(offset)?, self.bytes[offset]))
    }

    /// The value of a call, counted from 0: of an edit, the kernel entry.
    pub(crate) fn value(&self, at: usize) -> Option<u64> {
        let end = self.calls_begin()? + CALL_BYTES * (at + 1);
        let value = self.bytes.get(end - 8..end)?;
        Some(u64::from_le_bytes(value.try_into().ok()?))
    }

    /// The index of a call, counted from 0: of a device write, the device.
    pub(crate) fn index(&self, at: usize) -> Option<u16> {
        let offset = self.calls_begin()? + CALL_BYTES * at + 2;
        Some(self.number(offset)?.value)
    }

    /// The drill reads no further than its last call, so that more of them would be dropped without a word.
    pub(crate) fn check_calls(&self) -> Result<(), LineError> {
        match self.call(MOST_CALLS) {
            None => Ok(()),
            Some((line, _)) => {
                let next = MOST_CALLS + 1;
                let message =
                    format!("this is call {next}, and the drill takes {MOST_CALLS} at most");
                Err(LineError::new(line, message))
            }
        }
    }
}
