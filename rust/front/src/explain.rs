//! The lines that the drill prints, in words: the start, each call, the shadow entries and the share; and the words for the library's.
//! One line of words for each line of the drill, in the same order; with the script at hand, an answer begins with the line that it answers.

use std::cmp::Ordering;

use crate::call::Call;
use crate::refusals::refusal;
use crate::text::{counted, shown};
use crate::{DrillInput, LineError};

/// Explains the drill's output, and names the lines of the script that made it where that is given.
pub fn explain(lines: &str, script: Option<&DrillInput>) -> Result<String, LineError> {
    let mut words = String::new();
    let mut explainer = Explainer { script, answers: 0, entries: 0 };
    for (at, line) in lines.lines().enumerate() {
        let explained = explainer.line(line);
        words.push_str(&explained.map_err(|message| LineError::new(at + 1, message))?);
        words.push('\n');
    }
    if words.is_empty() {
        return Err(LineError::new(1, "the drill prints at least one line, and none is here"));
    }
    Ok(words)
}

struct Explainer<'a> {
    script: Option<&'a DrillInput>,
    /// How many lines of the start and of calls there were.
    answers: usize,
    /// How many shadow entries there were, which is the page of the next one.
    entries: u64,
}

impl Explainer<'_> {
    fn line(&mut self, line: &str) -> Result<String, String> {
        let fields: Vec<_> = line.split_whitespace().collect();
        match fields[..] {
            [kind, number, first, second, mode, running] => {
                let (number, first, second) = (decimal(number)?, decimal(first)?, decimal(second)?);
                let (mode, running) = (mode_word(mode)?, decimal(running)?);
                let of = Kind::of_drill(kind)?;
                let outcome = explain_outcome(of, number, (first, second))?;
                let told = self.told_by_script(kind, number)?;
                self.answers += 1;
                Ok(told.words(of, &outcome, number, mode, running))
            }
            ["share", share] => Ok(explain_share(decimal(share)?)),
            [entry] => {
                let explained = explain_entry(self.entries, hexadecimal(entry)?, None);
                self.entries += 1;
                Ok(explained)
            }
            _ => Err(no_line(line)),
        }
    }

    fn told_by_script(&self, kind: &str, number: u64) -> Result<Told, String> {
        let Some(script) = self.script else {
            return Ok(Told::default());
        };
        let Some(at) = self.answers.checked_sub(1) else {
            if kind != "S" {
                return Err("the start's line comes first".into());
            }
            let cause = script.cause(number);
            let line = cause.as_ref().map_or(script.first_line, |cause| cause.line);
            let cause = cause.map(|cause| cause.message);
            return Ok(Told { cause: in_brackets(cause), ..Told::at(line) });
        };
        let line = match script.call(at) {
            None => return Err("the script has no call for this line".into()),
            Some((line, code)) if kind == "X" || kind == code.to_string() => line,
            Some((line, _)) => {
                return Err(format!("this does not answer line {line} of the script"))
            }
        };
        let told = Told::at(line);
        Ok(match (kind, script.value(at), script.index(at)) {
            ("0", Some(entry), _) if number == 0 => {
                Told { cause: explain_edited(entry).into(), ..told }
            }
            ("7", _, Some(device)) => Told {
                by: format!(" by device {device}"),
                cause: in_brackets(script.device_cause(device, number)),
                ..told
            },
            _ => told,
        })
    }
}

/// What the script tells about an answer; nothing without it.
#[derive(Default)]
pub(crate) struct Told {
    /// The line that the answer belongs to, as a beginning.
    pub line: String,
    /// The device of a device write; the page and the frame of an ask.
    pub by: String,
    /// What made a call refused, or what an edited entry is.
    pub cause: String,
}

impl Told {
    pub fn at(line: usize) -> Told {
        Told { line: format!("line {line}: "), ..Told::default() }
    }

    /// An answer as a whole line of words.
    pub fn words(
        &self,
        kind: Kind,
        outcome: &str,
        number: u64,
        mode: &str,
        running: u64,
    ) -> String {
        let Told { line, by, cause } = self;
        let is_refused_start = kind == Kind::Start && number != 0;
        let ending = if is_refused_start { "; no guard was started" } else { "" };
        format!("{line}{}{by}{outcome}{cause}; {mode} mode, page {running}{ending}", kind.name())
    }
}

pub(crate) fn in_brackets(cause: Option<String>) -> String {
    cause.map_or(String::new(), |cause| format!(" ({cause})"))
}

fn no_line(line: &str) -> String {
    format!("'{}' is no line of the drill", shown(line))
}

/// What an answer answers.
#[derive(Clone, Copy, PartialEq, Eq)]
pub(crate) enum Kind {
    Start,
    /// The end of the drill's calls.
    End,
    Edit,
    SynchronisePage,
    SynchroniseAll,
    Fetch,
    Write,
    Enter,
    Leave,
    DeviceWrite,
    Ask,
    Commit,
    Drop,
}

impl Kind {
    /// The kind that a line of the drill begins with.
    fn of_drill(word: &str) -> Result<Kind, String> {
        Ok(match word {
            "S" => Kind::Start,
            "X" => Kind::End,
            "0" => Kind::Edit,
            "1" => Kind::SynchronisePage,
            "2" => Kind::SynchroniseAll,
            "3" => Kind::Fetch,
            "4" => Kind::Write,
            "5" => Kind::Enter,
            "6" => Kind::Leave,
            "7" => Kind::DeviceWrite,
            _ => return Err(format!("'{}' is no kind of call", shown(word))),
        })
    }

    pub fn of_call(call: Call) -> Kind {
        match call {
            Call::Edit { .. } => Kind::Edit,
            Call::SynchronisePage { .. } => Kind::SynchronisePage,
            Call::SynchroniseAll => Kind::SynchroniseAll,
            Call::Fetch { .. } => Kind::Fetch,
            Call::Write { .. } => Kind::Write,
            Call::Enter { .. } => Kind::Enter,
            Call::Leave { .. } => Kind::Leave,
            Call::DeviceWrite { .. } => Kind::DeviceWrite,
            Call::Ask { .. } => Kind::Ask,
            Call::Commit => Kind::Commit,
            Call::Drop => Kind::Drop,
        }
    }

    fn name(self) -> &'static str {
        match self {
            Kind::Start => "start",
            Kind::End => "calls ended",
            Kind::Edit => "edit",
            Kind::SynchronisePage => "synchronise page",
            Kind::SynchroniseAll => "synchronise all",
            Kind::Fetch => "fetch",
            Kind::Write => "write",
            Kind::Enter => "enter",
            Kind::Leave => "leave",
            Kind::DeviceWrite => "device write",
            Kind::Ask => "ask",
            Kind::Commit => "commit",
            Kind::Drop => "drop",
        }
    }
}

/// What came of a call.
pub(crate) fn explain_outcome(
    kind: Kind,
    number: u64,
    numbers: (u64, u64),
) -> Result<String, String> {
    if number == 0 {
        return match kind {
            Kind::End => Err("an X line carries a refusal number".into()),
            _ => Ok(format!(" accepted{}", explain_numbers(kind, numbers))),
        };
    }
    let refusal = refusal(number).ok_or(format!("{number} is no refusal number"))?;
    let verb = if kind == Kind::End { "" } else { " refused" };
    Ok(format!("{verb}: {number}, {}", refusal.words))
}

/// What the two numbers of an accepted call say.
fn explain_numbers(kind: Kind, (first, second): (u64, u64)) -> String {
    match kind {
        Kind::Start => {
            let pages = counted(first, "page listed", "pages listed");
            format!(": {pages}, {}", counted(second, "entry page", "entry pages"))
        }
        Kind::SynchronisePage | Kind::SynchroniseAll | Kind::Commit => {
            let joined = counted(second, "page joined the map", "pages joined the map");
            format!(": {}, {joined}", changed(first))
        }
        Kind::Fetch => format!(": frame {first}"),
        Kind::Write | Kind::DeviceWrite => format!(": first frame {first}, last frame {second}"),
        Kind::Enter | Kind::Leave => format!(": {}", changed(first)),
        Kind::End | Kind::Edit | Kind::Ask | Kind::Drop => String::new(),
    }
}

fn changed(count: u64) -> String {
    counted(count, "shadow entry changed", "shadow entries changed")
}

/// A kernel entry that says present and is absent all the same: the processor would fault on it.
pub(crate) fn explain_edited(entry: u64) -> &'static str {
    const RESERVED: u64 = ((1 << 11) - 1) << 52;
    if entry & 1 == 1 && entry & RESERVED != 0 {
        " (an entry with any of bits 52 to 62 set is absent)"
    } else {
        ""
    }
}

/// The excluded frames in percent of all, as the drill prints them: to the nearest percent, an exact half to the even number (K7).
///
/// # Panics
///
/// Where there is no frame. A guard has one at least.
pub fn share(excluded: u64, frames: u64) -> u64 {
    let (whole, rest) = (100 * excluded / frames, 100 * excluded % frames);
    let is_up = match (2 * rest).cmp(&frames) {
        Ordering::Less => false,
        Ordering::Equal => whole % 2 == 1,
        Ordering::Greater => true,
    };
    whole + u64::from(is_up)
}

/// A policy lists a page at least, and no call clears the bit of its frame, so that a share of 0 is not none.
pub(crate) fn explain_share(share: u64) -> String {
    let at_least = if share == 0 { " (at least one is)" } else { "" };
    format!("share: {share} percent of the frames are excluded, to the nearest percent{at_least}")
}

/// A shadow entry by its bits; bits without a name are shown as a number. Bit 9 has another reason while the frame is pending.
pub(crate) fn explain_entry(page: u64, entry: u64, pending_frame: Option<u64>) -> String {
    const FRAME: u64 = ((1 << 40) - 1) << 12;
    const NAMES: [(u32, &str); 8] = [
        (0, "present"),
        (1, "writable"),
        (2, "user"),
        (3, "write-through"),
        (4, "cache disable"),
        (10, "approved"),
        (9, "no-execute in the kernel entry"),
        (63, "no-execute"),
    ];
    if entry == 0 {
        return format!("page {page}: absent");
    }
    let frame = (entry & FRAME) >> 12;
    let is_pending = pending_frame == Some(frame);
    let named = NAMES.iter().filter(|(bit, _)| entry >> bit & 1 == 1);
    let name_of = |&(bit, name): &(u32, &str)| match bit {
        9 if is_pending => "no-execute while pending".to_string(),
        _ => name.to_string(),
    };
    let mut words: Vec<_> = named.map(name_of).collect();
    if entry & 1 == 0 {
        words.insert(0, "absent".into());
    }
    words.push(format!("frame {frame}"));
    let other = NAMES.iter().fold(entry & !FRAME, |rest, (bit, _)| rest & !(1 << bit));
    if other != 0 {
        words.push(format!("other bits 0x{other:x}"));
    }
    format!("page {page}: {}", words.join(", "))
}

fn mode_word(mode: &str) -> Result<&'static str, String> {
    match mode {
        "K" => Ok("kernel"),
        "U" => Ok("user"),
        _ => Err(format!("the mode is K or U, not '{}'", shown(mode))),
    }
}

fn decimal(word: &str) -> Result<u64, String> {
    let is_decimal = word.bytes().all(|digit| digit.is_ascii_digit());
    let number = word.parse().ok().filter(|_| is_decimal);
    number.ok_or_else(|| format!("a decimal number is expected, not '{}'", shown(word)))
}

fn hexadecimal(word: &str) -> Result<u64, String> {
    let is_entry = word.len() == 16 && word.bytes().all(|digit| digit.is_ascii_hexdigit());
    let number = u64::from_str_radix(word, 16).ok().filter(|_| is_entry);
    number.ok_or_else(|| no_line(word))
}
