//! The calls that K6 is about: how 9, 20, 21 and 22 come about, which frames are asked for, what a commit approves, and the entries that are
//! synchronised while a pair is pending. Each must come often.

use std::io::{self, Write};
use std::ops::Range;

use guard::archive::{
    MODE_USER, STATE_FRAMES, STATE_MODE, STATE_PENDING_FRAME, STATE_PENDING_PAGE,
};
use guard::{Refusal, NO_FRAME};
use reference::claim::Call;
use reference::path::Path;

use crate::call::Lent;
use crate::list::pending_of;
use crate::table::{rows_of, Table};

/// What an ask names that does not exist; it is wide where its lower 16 bits do.
const NOT_THERE: [&str; 5] = ["page", "wide page", "frame", "wide frame", "both"];

/// Why 20 refuses.
const CONFLICTS: [&str; 4] = ["one pending", "page approved", "frame excluded", "several"];
const OF_CONFLICTS: [&str; 2] = ["ask", "commit"];
const OF_THE_PAGE: usize = 1;

/// The pages that map the frame writable, where 21 refuses.
const WRITABLE: [&str; 3] = ["asked page alone", "another alone", "several"];

/// The frame of an accepted ask: no entry has it, an entry that is present, or one that is not present and writable.
const ASKED: [&str; 3] = ["not mapped", "read-only", "not present"];

/// The words of a pair that is not pending, where 22 refuses.
const WORDS: [&str; 2] = ["words 0", "other words"];
const OF_WORDS: [&str; 2] = ["commit", "drop"];

const MODES: [&str; 2] = ["kernel mode", "user mode"];
const COMMITS: [&str; 4] =
    ["kernel mode", "user mode", "kernel mode, started", "user mode, started"];

/// The pages that a commit approves beside the asked one, and the entry of the asked one before it.
const ALIASES: [&str; 3] = ["no alias", "one alias", "several"];
const FOUND: [&str; 4] = ["absent", "with the frame", "with another", "approved entry"];

/// The kernel entries that are synchronised while a pair is pending: with its frame on the asked page, on another and on an approved
/// one, with another excluded frame, and with one that is not excluded.
const ENTRIES: [&str; 5] = ["asked page", "other page", "approved page", "alias", "ordinary"];
const SYNCHRONISED: [&str; 8] = [
    "one, kernel mode",
    "one, user mode",
    "all, kernel mode",
    "all, user mode",
    "one from a tree, kernel",
    "one from a tree, user",
    "all from a tree, kernel",
    "all from a tree, user",
];

/// A table of one row.
type Row<const COLUMNS: usize> = [[u64; COLUMNS]; 1];

#[derive(Clone, Debug, Default)]
pub struct Approvals {
    not_there: Row<{ NOT_THERE.len() }>,
    conflicts: [[u64; CONFLICTS.len()]; OF_CONFLICTS.len()],
    writable: Row<{ WRITABLE.len() }>,
    asked: Row<{ ASKED.len() }>,
    words: [[u64; WORDS.len()]; OF_WORDS.len()],
    aliases: [[u64; ALIASES.len()]; COMMITS.len()],
    found: [[u64; FOUND.len()]; MODES.len()],
    entries: [[u64; ENTRIES.len()]; SYNCHRONISED.len()],
}

/// The frame of an entry.
fn frame_of(entry: u64) -> u64 {
    entry >> 12 & ((1 << 40) - 1)
}

fn has(entry: u64, bit: u32) -> bool {
    entry >> bit & 1 == 1
}

impl Approvals {
    /// Counts a call by its number and what it was lent, where all that question 7 asks for but the kernel's table is in order.
    pub fn count(&mut self, call: &Call, number: u64, before: &Lent, is_started: bool) {
        match *call {
            Call::Ask { page, frame } => self.count_ask(page, frame, number, before),
            Call::Commit => self.count_commit(number, before, is_started),
            Call::Drop if is(number, Refusal::NothingPending) => self.count_words(1, before),
            _ if number == 0 => self.count_synchronised(call, before),
            _ => {}
        }
    }

    fn count_ask(&mut self, page: u64, frame: u64, number: u64, before: &Lent) {
        let (v, f) = (before.shadow.len() as u64, before.state[STATE_FRAMES]);
        let writable = |&(_, &entry): &(u64, &u64)| has(entry, 1) && frame_of(entry) == frame;
        let is_present = |&(_, &entry): &(u64, &u64)| has(entry, 0);
        let entries = || (0..).zip(&before.shadow);
        if is(number, Refusal::DoesNotExist) {
            let column = match (page >= v, frame >= f) {
                (true, true) => 4,
                (true, false) => usize::from(page % (1 << 16) < v),
                _ => 2 + usize::from(frame % (1 << 16) < f),
            };
            self.not_there[0][column] += 1;
        } else if is(number, Refusal::ApprovalConflict) {
            let reasons = [
                pending_of(&before.state).is_some(),
                before.map[page as usize] != NO_FRAME,
                is_excluded(&before.exclusion, frame),
            ];
            let mut found = (0..).zip(reasons).filter(|(_, is_so)| *is_so);
            let column = match (found.next(), found.next()) {
                (Some((only, _)), None) => only,
                _ => CONFLICTS.len() - 1,
            };
            self.conflicts[0][column] += 1;
        } else if is(number, Refusal::MappedWritable) {
            let pages: Vec<_> = entries().filter(writable).filter(is_present).collect();
            let column = match pages[..] {
                [(only, _)] => usize::from(only != page),
                _ => 2,
            };
            self.writable[0][column] += 1;
        } else if number == 0 {
            let mapped = entries().filter(|(_, &entry)| frame_of(entry) == frame);
            let column = if mapped.clone().any(|entry| writable(&entry)) {
                2
            } else {
                usize::from(mapped.clone().any(|entry| is_present(&entry)))
            };
            self.asked[0][column] += 1;
        }
    }

    fn count_commit(&mut self, number: u64, before: &Lent, is_started: bool) {
        if is(number, Refusal::NothingPending) {
            return self.count_words(0, before);
        }
        let Some((page, frame)) = pending_of(&before.state) else { return };
        if is(number, Refusal::ApprovalConflict) {
            self.conflicts[1][OF_THE_PAGE] += 1;
        }
        if number != 0 {
            return;
        }
        let mode = mode_of(before);
        let pages = (0..).zip(before.shadow.iter().zip(&before.map));
        let aliases = pages.filter(|&(other, (&entry, &place))| {
            other != page && place == NO_FRAME && has(entry, 0) && frame_of(entry) == frame
        });
        self.aliases[mode + 2 * usize::from(is_started)][aliases.count().min(2)] += 1;
        let found = before.shadow[page as usize];
        let approved = frame << 12 | 0x401 | (mode as u64) << 63;
        let column = match found {
            _ if found == approved => 3,
            _ if !has(found, 0) => 0,
            _ => 1 + usize::from(frame_of(found) != frame),
        };
        self.found[mode][column] += 1;
    }

    /// Counts the words of a pair that is not pending.
    fn count_words(&mut self, row: usize, before: &Lent) {
        let words = [STATE_PENDING_PAGE, STATE_PENDING_FRAME].map(|place| before.state[place]);
        self.words[row][usize::from(words != [0, 0])] += 1;
    }

    /// Counts the entries of an accepted synchronisation while a pair is pending.
    fn count_synchronised(&mut self, call: &Call, before: &Lent) {
        let Some(pending) = pending_of(&before.state) else { return };
        let all = || 0..before.shadow.len();
        let one = |page: u64| page as usize..page as usize + 1;
        let mode = mode_of(before);
        match *call {
            Call::SynchroniseOne { kernel, page } => {
                self.count_entries(mode, one(page), |page| kernel[page], pending, before);
            }
            Call::SynchroniseAll { kernel } => {
                self.count_entries(2 + mode, all(), |page| kernel[page], pending, before);
            }
            Call::SynchroniseOneFromTree { tree, page } => {
                let entry_of = |page| Path::to(page as u64, &tree).flat();
                self.count_entries(4 + mode, one(page), entry_of, pending, before);
            }
            Call::SynchroniseAllFromTree { tree } => {
                let entry_of = |page| Path::to(page as u64, &tree).flat();
                self.count_entries(6 + mode, all(), entry_of, pending, before);
            }
            _ => {}
        }
    }

    fn count_entries(
        &mut self,
        row: usize,
        pages: Range<usize>,
        entry_of: impl Fn(usize) -> u64,
        (asked, pending): (u64, u64),
        before: &Lent,
    ) {
        for page in pages {
            let entry = entry_of(page);
            let frame = frame_of(entry);
            let is_absent = !has(entry, 0) || (52..=62).any(|bit| has(entry, bit));
            if is_absent || frame >= before.state[STATE_FRAMES] {
                continue;
            }
            let column = match (before.map[page] != NO_FRAME, frame == pending) {
                (true, false) => continue,
                (true, true) => 2,
                (false, true) => usize::from(page as u64 != asked),
                (false, false) => 4 - usize::from(is_excluded(&before.exclusion, frame)),
            };
            self.entries[row][column] += 1;
        }
    }

    fn tables(&self) -> [Table; 8] {
        let names = |names: &[&str]| names.iter().map(|name| name.to_string()).collect();
        let table = |name, columns: &[&str], rows| Table { name, columns: names(columns), rows };
        let everywhere = |_, _| true;
        let at_conflicts = |row: usize, column| row == 0 || column == OF_THE_PAGE;
        let asks = ["asks"];
        [
            table("9", &NOT_THERE, rows_of(asks, &self.not_there, everywhere)),
            table("20", &CONFLICTS, rows_of(OF_CONFLICTS, &self.conflicts, at_conflicts)),
            table("21", &WRITABLE, rows_of(asks, &self.writable, everywhere)),
            table("accepted", &ASKED, rows_of(asks, &self.asked, everywhere)),
            table("22", &WORDS, rows_of(OF_WORDS, &self.words, everywhere)),
            table("commits", &ALIASES, rows_of(COMMITS, &self.aliases, everywhere)),
            table("asked page", &FOUND, rows_of(MODES, &self.found, everywhere)),
            table("while pending", &ENTRIES, rows_of(SYNCHRONISED, &self.entries, everywhere)),
        ]
    }

    /// What is wrong with the counts, one line each.
    pub fn complaints(&self) -> Vec<String> {
        self.tables().iter().flat_map(Table::complaints).collect()
    }

    pub fn print(&self, out: &mut impl Write) -> io::Result<()> {
        self.tables().iter().try_for_each(|table| table.print(out))
    }
}

fn is(number: u64, refusal: Refusal) -> bool {
    number == u64::from(refusal.number())
}

/// The place in [`MODES`].
fn mode_of(lent: &Lent) -> usize {
    usize::from(lent.state[STATE_MODE] == MODE_USER)
}

/// Whether the vector excludes a frame below F.
fn is_excluded(exclusion: &[u8], frame: u64) -> bool {
    exclusion[(frame / 8) as usize] >> (frame % 8) & 1 == 1
}
