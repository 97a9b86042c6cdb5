//! A readable policy: its lines, and the sizes and arrays of the record that they stand for.
//! Each number has to fit its field, and in a policy file a given e the pages marked `entry`; the rest is for the library to refuse.

use crate::text::{counted, shown};
use crate::words::{field16, items, last_line, Field, Words, PAGE};
use crate::LineError;

pub(crate) const MOST_PAGES: u16 = 2048;
pub(crate) const MOST_FRAMES: u16 = 4096;
pub(crate) const MOST_ENTRIES: u16 = 16;

const PAGES: Field = field16("number of pages");
const FRAMES: Field = field16("number of frames");
const LISTED: Field = field16("number of listed pages");
const ENTRIES: Field = field16("number of entry pages");
const FRAME: Field = field16("frame");

/// A number of a policy record, and the line to name where it is wrong.
#[derive(Clone, Copy, Debug, PartialEq, Eq)]
pub struct Number {
    pub value: u16,
    pub line: usize,
}

/// The sizes and arrays of a policy record.
#[derive(Clone, Debug, PartialEq, Eq)]
pub struct Policy {
    /// V.
    pub pages: Number,
    /// F.
    pub frames: Number,
    /// n; where it is given and not counted, the arrays may have another length.
    pub listed: Number,
    /// e.
    pub entries: Number,
    /// The listed pages, entry pages first.
    pub listed_pages: Vec<Number>,
    /// Their frames.
    pub listed_frames: Vec<Number>,
}

impl Policy {
    /// Reads a text that has a policy and nothing else. A given e must not make entry pages of others than those marked.
    pub fn read(text: &str) -> Result<Policy, LineError> {
        let mut lines: Option<PolicyLines> = None;
        for (name, mut words) in items(text) {
            match (name, &mut lines) {
                ("policy", None) => lines = Some(PolicyLines::read(&mut words)?),
                ("approve", Some(lines)) => lines.approve(&mut words)?,
                _ => return words.error(misplaced(name)),
            }
            words.end()?;
        }
        match lines {
            Some(lines) => {
                lines.check_entries()?;
                Ok(lines.policy())
            }
            None => Err(LineError::new(last_line(text), "there is no 'policy' line")),
        }
    }

    /// The record's numbers in order: sizes, pages, frames.
    pub(crate) fn numbers(&self) -> impl Iterator<Item = Number> + '_ {
        let sizes = [self.pages, self.frames, self.listed, self.entries];
        sizes.into_iter().chain(self.listed_pages.iter().chain(&self.listed_frames).copied())
    }
}

/// Why an item does not stand where it is in a policy.
fn misplaced(name: &str) -> String {
    match name {
        "policy" => "there is one 'policy' line, at the beginning".into(),
        "approve" => "'approve' comes after the 'policy' line".into(),
        _ => format!("'{}' is no item of a policy; an item is policy or approve", shown(name)),
    }
}

/// The lines of a policy, as far as they are read.
pub(crate) struct PolicyLines {
    line: usize,
    pages: u16,
    frames: u16,
    /// Given in scripts to write a record whose counts do not fit its arrays or marks.
    listed: Option<u16>,
    entries: Option<u16>,
    approvals: Vec<Approval>,
}

struct Approval {
    line: usize,
    page: u16,
    frame: u16,
    is_entry: bool,
}

impl PolicyLines {
    /// Reads the policy's own line.
    pub fn read(words: &mut Words) -> Result<PolicyLines, LineError> {
        let line = words.line;
        let pages = words.named16("pages", PAGES)?;
        let frames = words.named16("frames", FRAMES)?;
        let mut count = |name: &str, field| {
            let is_given = words.has_name(name);
            is_given.then(|| words.number(field).map(|number| number as u16)).transpose()
        };
        let listed = count("listed", LISTED)?;
        let entries = count("entries", ENTRIES)?;
        Ok(PolicyLines { line, pages, frames, listed, entries, approvals: vec![] })
    }

    /// Reads a line that approves a page.
    pub fn approve(&mut self, words: &mut Words) -> Result<(), LineError> {
        let page = words.named16("page", PAGE)?;
        let frame = words.named16("frame", FRAME)?;
        if self.approvals.len() == usize::from(u16::MAX) {
            return words.error("a policy lists at most 65535 pages".into());
        }
        let is_entry = words.has_name("entry");
        self.approvals.push(Approval { line: words.line, page, frame, is_entry });
        Ok(())
    }

    fn marked(&self, is_entry: bool) -> impl Iterator<Item = &Approval> {
        self.approvals.iter().filter(move |approval| approval.is_entry == is_entry)
    }

    /// n, with the line of the first page too many where the pages were counted.
    fn listed(&self) -> Number {
        let too_many = self.approvals.get(usize::from(self.pages));
        match self.listed {
            Some(value) => Number { value, line: self.line },
            None => Number {
                value: self.approvals.len() as u16,
                line: too_many.map_or(self.line, |approval| approval.line),
            },
        }
    }

    /// e, with the line of the lowest page where none is marked, or of the first mark too many.
    fn entries(&self) -> Number {
        let count = self.marked(true).count();
        let wrong = match count {
            0 => self.approvals.iter().min_by_key(|approval| approval.page),
            _ => self.marked(true).nth(usize::from(MOST_ENTRIES)),
        };
        match self.entries {
            Some(value) => Number { value, line: self.line },
            None => Number {
                value: count as u16,
                line: wrong.map_or(self.line, |approval| approval.line),
            },
        }
    }

    /// Of a policy file: e, where it is given, is the number of pages marked `entry`.
    fn check_entries(&self) -> Result<(), LineError> {
        let marks = self.marked(true).count();
        match self.entries {
            Some(e) if usize::from(e) != marks => {
                let marked = counted(marks as u64, "page is marked", "pages are marked");
                let message = format!("e is given as {e}, and {marked} 'entry'");
                Err(LineError::new(self.line, message))
            }
            _ => Ok(()),
        }
    }

    /// The numbers that the lines stand for; entry pages come first.
    pub fn policy(&self) -> Policy {
        let approvals = || self.marked(true).chain(self.marked(false));
        let size = |value| Number { value, line: self.line };
        Policy {
            pages: size(self.pages),
            frames: size(self.frames),
            listed: self.listed(),
            entries: self.entries(),
            listed_pages: approvals()
                .map(|&Approval { page, line, .. }| Number { value: page, line })
                .collect(),
            listed_frames: approvals()
                .map(|&Approval { frame, line, .. }| Number { value: frame, line })
                .collect(),
        }
    }
}
