//! A measured call: its sides, and what a repetition is on each.
//! Arguments pass through a black box, so that nothing is computed ahead of a call; answers in memory are lent to it, not copied.

use guard::archive::NUMBERS;
use reference::Answer;

use crate::sides::{PlainSide, RunSide};
use crate::tables::Tables;

#[derive(Clone, Copy, Debug, PartialEq, Eq, PartialOrd, Ord)]
pub enum Side {
    /// The proved library.
    Archive,
    /// The reference, with a state of its own type.
    Reference,
    /// The reference behind the archive's boundary.
    OnRuns,
    /// The reference without steps 2 and 4; only calls that synchronise from a flat table have this side.
    WithoutApproval,
    /// The proved library's call from the flat table of a tree's walks; only calls that synchronise from a tree have this side.
    Flat,
    /// A copy of the bytes of the tables that the call goes through; only the cases of the plot have this side.
    Copy,
    /// From here on: the reference with a part of the boundary, each with what the one before has and a thing more.
    /// Only some small calls have these sides. The first is lent both runs beside its state, and reads neither.
    Lent,
    /// The lengths of both runs are tested.
    Lengths,
    /// The words of the mode and of what is pending are tested.
    Words,
    /// The two numbers are written to their run, and the number of the refusal is returned.
    Numbers,
    /// What changed of the state is written to its run too.
    Put,
    /// The state is decoded from its run, but for the entry pages.
    Fields,
    /// The entry pages too. Without the state beside the runs it is the reference behind the boundary.
    EntryPages,
}

impl Side {
    pub const ALL: [Side; 13] = [
        Side::Archive,
        Side::Reference,
        Side::OnRuns,
        Side::WithoutApproval,
        Side::Flat,
        Side::Copy,
        Side::Lent,
        Side::Lengths,
        Side::Words,
        Side::Numbers,
        Side::Put,
        Side::Fields,
        Side::EntryPages,
    ];

    /// Those whose time is measured. The others are for instruction counts.
    pub const TIMED: [Side; 6] = [
        Side::Archive,
        Side::Reference,
        Side::OnRuns,
        Side::WithoutApproval,
        Side::Flat,
        Side::Copy,
    ];

    /// In the figures, and as an argument of the program.
    pub fn name(self) -> &'static str {
        match self {
            Side::Archive => "archive",
            Side::Reference => "reference",
            Side::OnRuns => "on-runs",
            Side::WithoutApproval => "without-approval",
            Side::Flat => "flat",
            Side::Copy => "copy",
            Side::Lent => "lent",
            Side::Lengths => "lengths",
            Side::Words => "words",
            Side::Numbers => "numbers",
            Side::Put => "put",
            Side::Fields => "fields",
            Side::EntryPages => "entry-pages",
        }
    }

    pub fn named(name: &str) -> Option<Side> {
        Side::ALL.into_iter().find(|side| side.name() == name)
    }
}

/// A call that is measured, with what each side holds.
pub trait Work {
    /// Repeats the call on one side; false where the case has no such side.
    fn repeat(&mut self, side: Side, count: u64) -> bool;

    /// Whether the archive and the reference stand alike after the same repetitions.
    fn agree(&self) -> bool;

    /// Whether the steps to the boundary stand where the reference does, after the same repetitions of all; true where there are none.
    fn steps_agree(&self) -> bool {
        true
    }
}

/// What the archive and the reference hold.
#[derive(Clone)]
pub struct Sides {
    pub archive: RunSide,
    pub plain: PlainSide,
    pub on_runs: RunSide,
}

impl Sides {
    pub fn new(tables: &Tables, in_user: bool) -> Sides {
        let archive = RunSide::started(tables, in_user);
        Sides {
            on_runs: archive.clone(),
            archive,
            plain: PlainSide::started(tables, in_user, reference::synchronise_all),
        }
    }

    /// Whether all stand alike after the same repetitions.
    pub fn agree(&self) -> bool {
        self.plain.agrees(&self.archive) && self.plain.agrees(&self.on_runs)
    }

    /// Whether all stand alike, and also after one call more on copies of them, which answers the same.
    pub fn agree_after(
        &self,
        archive: impl Fn(&mut RunSide) -> u64,
        plain: impl Fn(&mut PlainSide) -> Answer,
        on_runs: impl Fn(&mut RunSide) -> u64,
    ) -> bool {
        let mut after = self.clone();
        let refusals = [archive(&mut after.archive), on_runs(&mut after.on_runs)];
        let (refusal, numbers) = match plain(&mut after.plain) {
            Ok((first, second)) => (0, [first, second]),
            Err(refusal) => (refusal.number(), [0; NUMBERS]),
        };
        let same_answers = refusals == [refusal.into(); 2]
            && [after.archive.numbers, after.on_runs.numbers] == [numbers; 2];
        self.agree() && same_answers && after.agree()
    }
}

/// The arguments that a case takes in turn: a power of two, so that choosing one costs little.
pub const ARGUMENTS: usize = 64;

pub fn in_turn<T: Copy>(arguments: Vec<T>) -> Vec<T> {
    assert!(!arguments.is_empty(), "no argument is answered as the case wants it");
    arguments.into_iter().cycle().take(ARGUMENTS).collect()
}
