//! `guard-script`: runs a readable script through the proved library, and tells what came of each line.
//! Bad input gives a message on standard error, nothing on standard output and exit status 1; wrong use gives 2.

use std::process::ExitCode;

use front::console::{done, input, misused, print};
use front::{explain_end, share, Answer, Call, Script};
use guard::{Device, Guard, Mode, Options, Refusal, MAX_DEVICES, NO_FRAME};

const USAGE: &str = "\
usage: guard-script < SCRIPT    runs a script through the proved library, and explains it

A script has one item a line; # begins a comment; numbers are decimal, or hexadecimal with 0x.
  policy pages V frames F          first, then its approve lines; n and e are counted,
                                   or given: policy pages V frames F listed N entries E
  approve page P frame F [entry]   entry pages come first in the record
  edit page P entry X              synchronise page P            synchronise all
  fetch page P                     write address A length L      enter index I
  leave page P
  device-write [device D] address A length L
                                   device 0 where none is named; there are devices 0 to 63,
                                   and all frames are the window of each, as in the drill
  ask page P frame F               a driver's page and frame, which are pending from then on
  commit                           approves them
  drop                             opens the frame again
The same script without ask, commit and drop can be run by the drill: guard-front.
";

/// The 40 bits of a frame, once an entry is shifted by the 12 bits below them.
const FRAME_BITS: u64 = (1 << 40) - 1;

fn main() -> ExitCode {
    let arguments: Vec<_> = std::env::args_os().skip(1).collect();
    let arguments: Vec<_> = arguments.iter().map(|argument| argument.to_str()).collect();
    match arguments[..] {
        [] => done(run()),
        [Some("help" | "--help" | "-h")] => done(print(USAGE.as_bytes())),
        _ => misused(USAGE),
    }
}

fn run() -> Result<(), String> {
    let script = Script::read(&input()?).map_err(|error| error.to_string())?;
    let lines = explained(&script);
    print((lines.join("\n") + "\n").as_bytes())
}

/// The start, each call, and how the guard stands at the end; the start alone where it is refused.
fn explained(script: &Script) -> Vec<String> {
    let policy = &script.policy;
    let mut guard = match Guard::start(&script.record(), devices(policy.frames.value)) {
        Ok(guard) => guard,
        Err(refusal) => {
            let outcome = Err(refusal.number());
            return vec![script.explain_start(Answer { outcome, is_user: true, running: 0 })];
        }
    };
    let numbers = (policy.listed.value.into(), policy.entries.value.into());
    let mut lines = vec![script.explain_start(answer(&guard, Ok(numbers)))];
    let mut kernel = vec![0; guard.shadow().len()];
    for call in &script.calls {
        let outcome = make(&mut guard, &mut kernel, call.call);
        let cause = outcome.err().and_then(|refusal| cause(&guard, call.call, refusal));
        lines.push(call.explain(answer(&guard, outcome), cause));
    }
    let pending = guard.pending().map(|pair| (pair.page, pair.frame));
    let share = share(excluded(&guard), guard.frames());
    lines.extend(explain_end(guard.shadow(), share, pending));
    lines
}

/// The devices of the drill: as many as there can be, each with all frames as its window.
fn devices(frames: u16) -> Options {
    let device = Device::new(0, frames.saturating_sub(1));
    (0..MAX_DEVICES).fold(Options::new(), |options, _| options.device(device))
}

/// An outcome, with the mode and the page in which the guard stands after it.
fn answer(guard: &Guard, outcome: Result<(u64, u64), Refusal>) -> Answer {
    let (is_user, running) = match guard.mode() {
        Mode::Kernel(page) => (false, page),
        Mode::User(page) => (true, page),
    };
    Answer { outcome: outcome.map_err(Refusal::number), is_user, running }
}

/// Makes a call: its two numbers.
fn make(guard: &mut Guard, kernel: &mut [u64], call: Call) -> Result<(u64, u64), Refusal> {
    Ok(match call {
        Call::Edit { page, entry } => {
            *kernel.get_mut(usize::from(page)).ok_or(Refusal::DoesNotExist)? = entry;
            (0, 0)
        }
        Call::SynchronisePage { page } => {
            let counts = guard.synchronise_page(kernel, page.into())?;
            (counts.changed, counts.joined)
        }
        Call::SynchroniseAll => {
            let counts = guard.synchronise_all(kernel)?;
            (counts.changed, counts.joined)
        }
        Call::Fetch { page } => {
            let frame = guard.fetch(page.into())?;
            (frame, frame)
        }
        Call::Write { address, length } => {
            let frames = guard.write(address, length.into())?;
            (frames.first, frames.last)
        }
        Call::Enter { index } => (guard.enter(index.into())?, 0),
        Call::Leave { page } => (guard.leave(page.into())?, 0),
        Call::DeviceWrite { device, address, length } => {
            let frames = guard.device_write(device.into(), address, length.into())?;
            (frames.first, frames.last)
        }
        Call::Ask { page, frame } => {
            guard.ask(page, frame)?;
            (0, 0)
        }
        Call::Commit => {
            let counts = guard.commit()?;
            (counts.changed, counts.joined)
        }
        Call::Drop => {
            guard.drop_pending()?;
            (0, 0)
        }
    })
}

/// Why a call was refused, where its number has several reasons. The guard is as before the call.
fn cause(guard: &Guard, call: Call, refusal: Refusal) -> Option<String> {
    match (call, refusal) {
        (Call::DeviceWrite { .. }, Refusal::NoDevice) => {
            Some(format!("there are devices 0 to {}", MAX_DEVICES - 1))
        }
        (Call::Ask { page, .. }, Refusal::DoesNotExist) if page >= guard.pages() => {
            Some(format!("page {page} is not below {}, the number of pages", guard.pages()))
        }
        (Call::Ask { frame, .. }, Refusal::DoesNotExist) => {
            Some(format!("frame {frame} is not below {}, the number of frames", guard.frames()))
        }
        (Call::Ask { page, frame }, Refusal::ApprovalConflict) => {
            Some(match (guard.pending(), approval(guard, page)) {
                (Some(pair), _) => {
                    format!("page {} with frame {} is pending", pair.page, pair.frame)
                }
                (None, Some(approved)) => format!("page {page} is approved with frame {approved}"),
                (None, None) => format!("frame {frame} is excluded"),
            })
        }
        (Call::Ask { frame, .. }, Refusal::MappedWritable) => {
            let is_writable = |entry: u64| entry & 3 == 3 && entry >> 12 & FRAME_BITS == frame;
            let page = guard.shadow().iter().position(|&entry| is_writable(entry))?;
            Some(format!("that of page {page}"))
        }
        (Call::Commit, Refusal::ApprovalConflict) => {
            let page = guard.pending()?.page;
            let approved = approval(guard, page)?;
            Some(format!("page {page} is approved with frame {approved} by now"))
        }
        _ => None,
    }
}

/// The frame that the map has for a page.
fn approval(guard: &Guard, page: u64) -> Option<u16> {
    let place = usize::try_from(page).ok()?;
    guard.map().get(place).copied().filter(|&frame| frame != NO_FRAME)
}

/// How many frames are excluded.
fn excluded(guard: &Guard) -> u64 {
    guard.exclusion().iter().map(|byte| u64::from(byte.count_ones())).sum()
}
