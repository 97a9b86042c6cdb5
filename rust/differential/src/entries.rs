//! The entries of accepted calls that K1 and K3 are about. A kernel entry with bit 0 set and a frame below F is mapped, or absent for a
//! reserved bit, which is the only reason left (K1); its bits 3 and 4 are carried by an ordinary entry and lost by an approved one, and
//! a mode switch keeps them (K3). Each must come often.

use std::io::{self, Write};
use std::ops::Range;

use reference::claim::Call;

use crate::call::Lent;
use crate::list::pending_of;

/// The least count of each.
const MINIMUM: u64 = 1000;

/// The rows: the kernel entries of synchronised pages by what the page was before, which is approved, or not and with a frame that is
/// excluded, or that is not; then the shadow entries without the approved mark that an enter and a leave found.
const ROWS: [&str; 5] =
    ["approved page", "alias", "ordinary page", "ordinary at enter", "ordinary at leave"];
const APPROVED: usize = 0;
const ALIAS: usize = 1;
const ORDINARY: usize = 2;
const AT_ENTER: usize = 3;
const AT_LEAVE: usize = 4;

/// What an entry is: absent, or present with these of bits 3 and 4.
const COLUMNS: [&str; 5] = ["absent", "no cache bit", "write-through", "cache disable", "both"];

/// The map's number of a page that is not approved.
const NO_FRAME: u16 = 65535;

#[derive(Clone, Debug, Default)]
pub struct Entries([[u64; COLUMNS.len()]; ROWS.len()]);

impl Entries {
    /// Counts the entries of an accepted call, by the tables before and after it.
    pub fn count(&mut self, call: &Call, frames: u64, before: &Lent, after: &Lent) {
        match *call {
            Call::SynchroniseOne { kernel, page } => {
                let page = page as usize;
                self.count_synchronised(kernel, page..page + 1, frames, before, after);
            }
            Call::SynchroniseAll { kernel } => {
                self.count_synchronised(kernel, 0..kernel.len(), frames, before, after);
            }
            Call::Enter { .. } => self.count_switched(AT_ENTER, &before.shadow),
            Call::Leave { .. } => self.count_switched(AT_LEAVE, &before.shadow),
            Call::Fetch { .. } | Call::Write { .. } | Call::DeviceWrite { .. } => {}
            // The walks of a tree are counted by themselves, and so is what concerns a pending pair.
            Call::SynchroniseOneFromTree { .. } | Call::SynchroniseAllFromTree { .. } => {}
            Call::Ask { .. } | Call::Commit | Call::Drop => {}
        }
    }

    fn count_synchronised(
        &mut self,
        kernel: &[u64],
        pages: Range<usize>,
        frames: u64,
        before: &Lent,
        after: &Lent,
    ) {
        let pending = pending_of(&before.state).map(|(_, frame)| frame);
        for page in pages {
            let frame = kernel[page] >> 12 & ((1 << 40) - 1);
            if kernel[page] & 1 == 0 || frame >= frames || Some(frame) == pending {
                continue;
            }
            let row = if before.map[page] != NO_FRAME {
                APPROVED
            } else if is_excluded(&before.exclusion, frame) {
                ALIAS
            } else {
                ORDINARY
            };
            self.0[row][column(after.shadow[page] != 0, kernel[page])] += 1;
        }
    }

    fn count_switched(&mut self, row: usize, shadow: &[u64]) {
        for &entry in shadow.iter().filter(|&entry| entry >> 10 & 1 == 0) {
            self.0[row][column(entry & 1 == 1, entry)] += 1;
        }
    }

    /// What is wrong with the counts, one line each.
    pub fn complaints(&self) -> Vec<String> {
        let mut complaints = Vec::new();
        for (row, counts) in ROWS.iter().zip(&self.0) {
            for (column, &count) in COLUMNS.iter().zip(counts) {
                if count < MINIMUM {
                    complaints.push(format!(
                        "{row}, {column}: {count} entries, at least {MINIMUM} are asked for"
                    ));
                }
            }
        }
        complaints
    }

    pub fn print(&self, out: &mut impl Write) -> io::Result<()> {
        write!(out, "{:26}", "entries")?;
        COLUMNS.iter().try_for_each(|column| write!(out, "{column:>16}"))?;
        writeln!(out)?;
        for (row, counts) in ROWS.iter().zip(&self.0) {
            write!(out, "{row:26}")?;
            counts.iter().try_for_each(|count| write!(out, "{count:>16}"))?;
            writeln!(out)?;
        }
        Ok(())
    }
}

/// The place in [`COLUMNS`] of an entry, by its bits 3 and 4 where it is present.
fn column(is_present: bool, entry: u64) -> usize {
    if is_present {
        1 + (entry >> 3 & 3) as usize
    } else {
        0
    }
}

fn is_excluded(exclusion: &[u8], frame: u64) -> bool {
    let byte = usize::try_from(frame / 8).ok().and_then(|at| exclusion.get(at));
    byte.is_some_and(|byte| byte >> (frame % 8) & 1 == 1)
}
