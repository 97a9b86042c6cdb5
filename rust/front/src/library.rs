//! A script for the library: a policy and calls, those that the drill has not among them.
//! What the library answers is told in the words of the drill's lines; the library itself is called elsewhere.

use crate::call::Call;
use crate::explain::{
    explain_edited, explain_entry, explain_outcome, explain_share, in_brackets, Kind, Told,
};
use crate::policy::{Policy, PolicyLines};
use crate::text::shown;
use crate::words::{items, last_line, Words};
use crate::LineError;

const ITEMS: &str = "policy, approve, edit, synchronise, fetch, write, enter, leave, \
device-write, ask, commit or drop";

/// A script that is run through the library.
#[derive(Clone, Debug, PartialEq, Eq)]
pub struct Script {
    pub policy: Policy,
    pub calls: Vec<ScriptCall>,
    /// The line of the policy.
    line: usize,
}

/// A call and its line.
#[derive(Clone, Copy, Debug, PartialEq, Eq)]
pub struct ScriptCall {
    pub line: usize,
    pub call: Call,
}

/// What the library answered, and where the guard stands after it.
#[derive(Clone, Copy, Debug, PartialEq, Eq)]
pub struct Answer {
    /// The two numbers of an accepted call, or the number that refused it.
    pub outcome: Result<(u64, u64), u8>,
    pub is_user: bool,
    /// The page now running.
    pub running: u64,
}

impl Script {
    /// Reads a script. Only that each number fits its field is checked, so refused calls can be written too.
    pub fn read(text: &str) -> Result<Script, LineError> {
        let mut reader = Reader::default();
        for (name, mut words) in items(text) {
            reader.item(name, &mut words)?;
            words.end()?;
        }
        let Some((line, policy)) = reader.policy else {
            return Err(LineError::new(last_line(text), "the script has no policy"));
        };
        Ok(Script { policy: policy.policy(), calls: reader.calls, line })
    }

    /// The policy record, which may be one that a start refuses.
    pub fn record(&self) -> Vec<u8> {
        self.policy.numbers().flat_map(|number| number.value.to_le_bytes()).collect()
    }

    /// What came of the start. A refused one names the line of the policy that caused it.
    pub fn explain_start(&self, answer: Answer) -> String {
        let cause = answer.outcome.err().and_then(|number| self.policy.cause(number.into()));
        let line = cause.as_ref().map_or(self.line, |cause| cause.line);
        let cause = in_brackets(cause.map(|cause| cause.message));
        in_words(Told { cause, ..Told::at(line) }, Kind::Start, answer)
    }
}

impl ScriptCall {
    /// What came of the call, with what made it refused, where that is known.
    pub fn explain(&self, answer: Answer, cause: Option<String>) -> String {
        let by = match self.call {
            Call::DeviceWrite { device, .. } => format!(" by device {device}"),
            Call::Ask { page, frame } => format!(" for page {page} with frame {frame}"),
            _ => String::new(),
        };
        let cause = match self.call {
            Call::Edit { entry, .. } if answer.outcome.is_ok() => explain_edited(entry).into(),
            _ => in_brackets(cause),
        };
        in_words(Told { by, cause, ..Told::at(self.line) }, Kind::of_call(self.call), answer)
    }
}

/// How the guard stands at the end: the shadow entries, the share of excluded frames, and what is pending, as a line each.
pub fn explain_end(shadow: &[u64], share: u64, pending: Option<(u64, u64)>) -> Vec<String> {
    let frame = pending.map(|(_, frame)| frame);
    let entries = (0..).zip(shadow).map(|(page, &entry)| explain_entry(page, entry, frame));
    let pending = pending.map(|(page, frame)| format!("pending: page {page} with frame {frame}"));
    entries.chain([explain_share(share)]).chain(pending).collect()
}

fn in_words(told: Told, kind: Kind, answer: Answer) -> String {
    let (number, numbers) = match answer.outcome {
        Ok(numbers) => (0, numbers),
        Err(number) => (number.into(), (0, 0)),
    };
    let outcome = explain_outcome(kind, number, numbers).expect("a refusal number of the library");
    let mode = if answer.is_user { "user" } else { "kernel" };
    told.words(kind, &outcome, number, mode, answer.running)
}

#[derive(Default)]
struct Reader {
    /// The policy with its line, from its own line on.
    policy: Option<(usize, PolicyLines)>,
    calls: Vec<ScriptCall>,
}

impl Reader {
    fn item(&mut self, name: &str, words: &mut Words) -> Result<(), LineError> {
        match name {
            "policy" if self.policy.is_none() => {
                self.policy = Some((words.line, PolicyLines::read(words)?));
                Ok(())
            }
            "policy" => words.error("a script has one policy, at its beginning".into()),
            "approve" => match &mut self.policy {
                Some((_, policy)) if self.calls.is_empty() => policy.approve(words),
                _ => words.error("'approve' comes after the policy and before the calls".into()),
            },
            "call" | "bytes" => {
                words.error(format!("'{name}' is for the drill's input, and not for the library"))
            }
            _ => self.call(name, words),
        }
    }

    fn call(&mut self, name: &str, words: &mut Words) -> Result<(), LineError> {
        let Some(call) = Call::read(name, words)? else {
            return words.error(format!("'{}' is no item; an item is {ITEMS}", shown(name)));
        };
        if self.policy.is_none() {
            return words.error("a script begins with its policy".into());
        }
        self.calls.push(ScriptCall { line: words.line, call });
        Ok(())
    }
}
