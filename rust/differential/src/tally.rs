//! How often each call was accepted and refused with each number, and which numbers a call can be refused with.
//! A number that a call cannot be refused with must not come, and every other must come often enough to say something.

use std::io::{self, Write};

use guard::archive::{STATE_DEVICES, STATE_FRAMES};
use guard::Refusal;
use reference::claim;

use crate::approvals::Approvals;
use crate::call::{Call, Lent, KINDS, WALK, WRITE_RECORD};
use crate::damage::Damage;
use crate::entries::Entries;
use crate::table::{print_cell, wrong};
use crate::transfers::Transfers;
use crate::walks::Walks;

/// The numbers that a call can answer: 0 for accepted, and every refusal. docs/refusals.txt has them, with which rust/guard compares.
const NUMBERS: usize = Refusal::ALL.len() + 1;

/// The refusals of the drill, which no call gives.
const OF_THE_DRILL: [usize; 2] = [14, 15];

/// The numbers of each call, 0 for accepted: all that the questions let concern it. On damaged runs and tables each of them comes.
/// Only the start reads a record (1 to 6); 8 is for calls with a length, 9 for those that name something, 10 for mode
/// switches, 11 and 12 for calls that touch a shadow entry, 13 for writes. Writing a record asks 2 to 7, and it alone asks 16; 17 is
/// for calls with a tree, 18 and 19 are for device writes, 20 is for asks and commits, 21 for asks, 22 for commits and drops.
const OF_THE_CALL: [&[usize]; KINDS.len()] = [
    &[0, 1, 2, 3, 4, 5, 6, 7],
    &[0, 7, 9],
    &[0, 7],
    &[0, 7, 9, 11, 12],
    &[0, 7, 8, 9, 11, 12, 13],
    &[0, 7, 9, 10, 11, 12],
    &[0, 7, 9, 10, 11, 12],
    &[0, 7, 8, 9, 13, 18, 19],
    &[0, 2, 3, 4, 5, 6, 7, 16],
    &[0, 7, 9, 17],
    &[0, 7, 17],
    &[0, 7, 17],
    &[0, 7, 9, 20, 21],
    &[0, 7, 20, 22],
    &[0, 7, 22],
];

/// Of these, the numbers that do not come in a list from an accepted start.
/// Its start is accepted. The state and the guard tables pass question 7 at every call of such a list, so 7 is only about the kernel
/// table that a synchronisation is brought or the devices that a device write is, and not about a tree. A write never gives 13: an
/// entry with the frame of the policy or a committed one is an approved one and has no bit 1, one with the pending frame has no bit 1
/// by question 21 and the rule for it, and an ordinary one has a frame below F. An enter never
/// gives 12: an entry page is listed, so its entry is approved where it is present. No record is written there, and no page is walked
/// to alone.
const NOT_STARTED: [&[usize]; KINDS.len()] = [
    &[1, 2, 3, 4, 5, 6, 7],
    &[],
    &[],
    &[7],
    &[7, 13],
    &[7, 12],
    &[7],
    &[],
    OF_THE_CALL[WRITE_RECORD],
    &[7],
    &[7],
    OF_THE_CALL[WALK],
    &[7],
    &[7],
    &[7],
];

type Numbers = [[u64; NUMBERS]; KINDS.len()];

/// The two halves of a run.
#[derive(Clone, Copy, Debug, PartialEq, Eq)]
enum Half {
    Started,
    Damaged,
}

impl Half {
    fn words(self) -> &'static str {
        match self {
            Half::Started => "from a start",
            Half::Damaged => "damaged",
        }
    }

    fn reaches(self, kind: usize, number: usize) -> bool {
        OF_THE_CALL[kind].contains(&number)
            && (self == Half::Damaged || !NOT_STARTED[kind].contains(&number))
    }
}

/// Whether a call is lent what the damage is about.
fn may_find(kind: usize, damage: Damage) -> bool {
    let others: &[Damage] = match kind {
        WRITE_RECORD => &Damage::OF_BUFFERS,
        WALK => &Damage::OF_WALKS,
        _ => &Damage::OF_TABLES,
    };
    damage == Damage::Contents || others.contains(&damage)
}

/// The counts of a run.
#[derive(Clone, Debug, Default)]
pub struct Tally {
    started: Numbers,
    damaged: Numbers,
    /// By kind of damage and call.
    damage: [[u64; KINDS.len()]; Damage::ALL.len()],
    /// Of the lists from a start.
    entries: Entries,
    /// Of all lists and of bare walks.
    walks: Walks,
    /// Of all lists and of starts.
    transfers: Transfers,
    /// Of all lists.
    approvals: Approvals,
}

impl Tally {
    /// Counts a call of a list from a start, by its place in the calls; a number that is no refusal is an error.
    pub fn count_started(&mut self, kind: usize, number: u64) -> Result<(), String> {
        count(&mut self.started, kind, number)
    }

    /// Counts the entries of an accepted call of a list from a start.
    pub(crate) fn count_entries(&mut self, call: &claim::Call, before: &Lent, after: &Lent) {
        self.entries.count(call, after.state[STATE_FRAMES], before, after);
    }

    /// Counts what a call met of its tree, if it has one.
    pub(crate) fn count_tree(&mut self, call: &Call, number: u64, lent: &Lent) {
        self.walks.count(call, number, lent.shadow.len() as u64);
    }

    /// Counts what a device write met of its devices, if the call is one, where all else that question 7 asks for is in order.
    pub(crate) fn count_transfer(&mut self, call: &claim::Call, number: u64, before: &Lent) {
        self.transfers.count(call, before.state[STATE_DEVICES], number);
    }

    /// Counts what a call of a list from a start has to do with asks, commits, drops and what is pending.
    pub(crate) fn count_approval_started(
        &mut self,
        call: &claim::Call,
        number: u64,
        before: &Lent,
    ) {
        self.approvals.count(call, number, before, true);
    }

    /// The same of another call, where all that question 7 asks for is in order.
    pub(crate) fn count_approval(&mut self, call: &claim::Call, number: u64, before: &Lent) {
        self.approvals.count(call, number, before, false);
    }

    /// Counts a start by its devices.
    pub(crate) fn count_start(&mut self, devices: u64, number: u64, otherwise: u64) {
        self.transfers.count_start(devices, number, otherwise);
    }

    /// Counts a call on damaged runs and tables.
    pub fn count_damaged(
        &mut self,
        kind: usize,
        number: u64,
        damage: Damage,
    ) -> Result<(), String> {
        self.damage[damage as usize][kind] += 1;
        count(&mut self.damaged, kind, number)
    }

    pub fn calls(&self) -> u64 {
        let numbers = self.started.iter().chain(&self.damaged);
        numbers.flatten().sum()
    }

    /// What is wrong with the counts, one line each.
    pub fn complaints(&self) -> Vec<String> {
        let mut complaints = self.complaints_of(Half::Started);
        complaints.extend(self.complaints_of(Half::Damaged));
        complaints.extend(self.entries.complaints());
        complaints.extend(self.walks.complaints());
        complaints.extend(self.transfers.complaints());
        complaints.extend(self.approvals.complaints());
        for number in 0..NUMBERS {
            let of_a_call = OF_THE_CALL.iter().any(|numbers| numbers.contains(&number));
            if of_a_call == OF_THE_DRILL.contains(&number) {
                complaints.push(format!("{number} is to be of a call, or else of the drill"));
            }
        }
        for damage in Damage::ALL {
            for (kind, &count) in self.damage[damage as usize].iter().enumerate() {
                complaints.extend(wrong(may_find(kind, damage), count).map(|wrong| {
                    format!("{}, {}: {count} calls, {wrong}", damage.words(), KINDS[kind])
                }));
            }
        }
        complaints
    }

    fn counts(&self, half: Half) -> &Numbers {
        match half {
            Half::Started => &self.started,
            Half::Damaged => &self.damaged,
        }
    }

    fn complaints_of(&self, half: Half) -> Vec<String> {
        let mut complaints = Vec::new();
        for (kind, counts) in self.counts(half).iter().enumerate() {
            for (number, &count) in counts.iter().enumerate() {
                complaints.extend(wrong(half.reaches(kind, number), count).map(|wrong| {
                    format!("{}, {}, {number}: {count} calls, {wrong}", half.words(), KINDS[kind])
                }));
            }
        }
        complaints
    }

    /// Prints the tables; a cell that cannot be reached is a dash, where nothing was counted.
    pub fn print(&self, out: &mut impl Write) -> io::Result<()> {
        self.print_numbers(out, Half::Started)?;
        self.print_numbers(out, Half::Damaged)?;
        self.print_damage(out)?;
        self.entries.print(out)?;
        self.walks.print(out)?;
        self.transfers.print(out)?;
        self.approvals.print(out)
    }

    fn print_numbers(&self, out: &mut impl Write, half: Half) -> io::Result<()> {
        write!(out, "{:16}{:>9}", half.words(), "accepted")?;
        (1..NUMBERS).try_for_each(|number| write!(out, "{number:>8}"))?;
        writeln!(out)?;
        for (kind, counts) in self.counts(half).iter().enumerate() {
            write!(out, "{:16}", KINDS[kind])?;
            for (number, &count) in counts.iter().enumerate() {
                let width = if number == 0 { 9 } else { 8 };
                print_cell(out, width, half.reaches(kind, number), count)?;
            }
            writeln!(out)?;
        }
        Ok(())
    }

    fn print_damage(&self, out: &mut impl Write) -> io::Result<()> {
        write!(out, "{:26}", "damage")?;
        KINDS.iter().try_for_each(|kind| write!(out, "{kind:>16}"))?;
        writeln!(out)?;
        for damage in Damage::ALL {
            write!(out, "{:26}", damage.words())?;
            for (kind, &count) in self.damage[damage as usize].iter().enumerate() {
                print_cell(out, 16, may_find(kind, damage), count)?;
            }
            writeln!(out)?;
        }
        Ok(())
    }
}

/// Both sides may agree on a number that no table of refusals has: it is not counted, so it is an error.
fn count(counts: &mut Numbers, kind: usize, number: u64) -> Result<(), String> {
    let cell = usize::try_from(number).ok().and_then(|number| counts[kind].get_mut(number));
    match cell {
        Some(cell) => {
            *cell += 1;
            Ok(())
        }
        None => Err(format!("{} answers {number}, which is no refusal", KINDS[kind])),
    }
}
