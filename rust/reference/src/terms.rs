//! The terms of frames (K6): from its ask on a frame is protected, until a drop; from its commit on it holds code.
//! They are computed from the policy record and the accepted asks, commits and drops of a list alone: no table, no state and no one-page
//! guard is read, so that what is said of writes is more than that question 13 was asked.

use std::ops::RangeInclusive;

use crate::page_guard::FrameSet;

/// The frames of the policy, those committed since, and the one that is pending.
pub(crate) struct Terms {
    policy: FrameSet,
    committed: FrameSet,
    pending: Option<u16>,
}

impl Terms {
    /// By the frames that the record of an accepted start names.
    pub fn told_start(policy: FrameSet) -> Terms {
        Terms { policy, committed: FrameSet::EMPTY, pending: None }
    }

    pub fn told_asked(&mut self, frame: u16) {
        self.pending = Some(frame);
    }

    pub fn told_committed(&mut self) {
        if let Some(frame) = self.pending.take() {
            self.committed.add(frame);
        }
    }

    pub fn told_dropped(&mut self) {
        self.pending = None;
    }

    /// Whether kernel mode may run it.
    pub fn is_code(&self, frame: u64) -> bool {
        self.policy.has(frame) || self.committed.has(frame)
    }

    /// Whether no write and no transfer may cover a byte of it.
    pub fn is_protected(&self, frame: u64) -> bool {
        self.is_code(frame) || self.pending.is_some_and(|pending| u64::from(pending) == frame)
    }
}

/// K6's own sentence about a whole list: "No write or transfer allowed from its ask onward covers a byte of a committed frame." What was
/// covered between an ask and its commit is judged at the commit.
#[derive(Default)]
pub struct AskToCommit {
    /// The frame of the last accepted ask that is neither committed nor dropped, and what was covered since.
    pending: Option<(u64, Covered)>,
    committed: Vec<u64>,
}

/// The frames that allowed writes and transfers covered, one after another.
type Covered = Vec<RangeInclusive<u64>>;

impl AskToCommit {
    pub fn told_asked(&mut self, frame: u64) {
        self.pending = Some((frame, Vec::new()));
    }

    /// Whether nothing was allowed between the ask and this commit that covers the frame.
    pub fn told_committed(&mut self) -> bool {
        let Some((frame, covered)) = self.pending.take() else { return true };
        self.committed.push(frame);
        !covered.iter().any(|frames| frames.contains(&frame))
    }

    pub fn told_dropped(&mut self) {
        self.pending = None;
    }

    /// Whether an allowed write or transfer covers no committed frame.
    pub fn told_covered(&mut self, frames: RangeInclusive<u64>) -> bool {
        let is_clear = !self.committed.iter().any(|frame| frames.contains(frame));
        if let Some((_, covered)) = &mut self.pending {
            covered.push(frames);
        }
        is_clear
    }
}
