//! The start: the policy record is read, questions 1 to 7 are asked of it and of what else is given, and the tables are set.
//! All questions come before the first store, so a refused start leaves the tables as they were.

use crate::entry::{approved, framed, NO_FRAME};
use crate::mistake;
use crate::record::{are_below, are_rising_below, ask_sizes};
use crate::state::{
    vector_len, Answer, Mode, Refusal, State, ENTRY_PAGES, MAX_DEVICES, MAX_VECTOR,
};

/// Two bytes of a record: a little-endian 16-bit number.
type Word = [u8; 2];

/// The record's bytes and how far they have been read.
struct Reader<'a> {
    bytes: &'a [u8],
    at: usize,
}

impl<'a> Reader<'a> {
    fn new(bytes: &'a [u8]) -> Self {
        Reader { bytes, at: 0 }
    }

    /// The next `count` words, or none where the record has too few bytes left.
    #[inline(always)]
    fn words(&mut self, count: usize) -> Option<&'a [Word]> {
        let end = self.at + 2 * count;
        let (words, _) = self.bytes.get(self.at..end)?.as_chunks::<2>();
        self.at = end;
        Some(words)
    }

    fn is_at_end(&self) -> bool {
        self.at == self.bytes.len()
    }
}

/// A policy record and a number of devices that questions 1 to 6 accept.
struct Policy<'a> {
    v: u16,
    f: u16,
    e: u16,
    devices: u16,
    pages: &'a [Word],
    frames: &'a [Word],
}

impl<'a> Policy<'a> {
    fn read<const VARIANT: u8>(record: &'a [u8], devices: u64) -> Result<Self, Refusal> {
        let mut reader = Reader::new(record);
        let sizes = reader.words(4).ok_or(Refusal::RecordTooShort)?;
        let [v, f, n, e] = [0, 1, 2, 3].map(|i| u16::from_le_bytes(sizes[i]));
        if VARIANT == mistake::COUNT_BEFORE_SIZES {
            ask_devices::<VARIANT>(devices)?;
        }
        ask_sizes([v, f, n, e])?;
        if VARIANT != mistake::COUNT_AFTER_LENGTH {
            ask_devices::<VARIANT>(devices)?;
        }
        let pages = reader.words(n.into()).ok_or(Refusal::RecordLength)?;
        let frames = reader.words(n.into()).ok_or(Refusal::RecordLength)?;
        if !reader.is_at_end() {
            return Err(Refusal::RecordLength);
        }
        if VARIANT == mistake::COUNT_AFTER_LENGTH {
            ask_devices::<VARIANT>(devices)?;
        }
        if !are_rising_below(numbers(pages), v) {
            return Err(Refusal::ListedPage);
        }
        if !are_below(numbers(frames), f) {
            return Err(Refusal::ListedFrame);
        }
        let devices = if VARIANT == mistake::COUNT_NOT_KEPT { MAX_DEVICES } else { devices as u16 };
        Ok(Policy { v, f, e, devices, pages, frames })
    }

    /// The listed pages with their frames.
    fn listed(&self) -> impl Iterator<Item = (u16, u16)> + 'a {
        numbers(self.pages).zip(numbers(self.frames))
    }

    /// Kernel mode on the first entry page, and nothing pending.
    fn state(&self) -> State {
        let mut entry_pages = [0; ENTRY_PAGES];
        for (place, (page, _)) in entry_pages.iter_mut().zip(self.listed()).take(self.e.into()) {
            *place = page;
        }
        let mode = Mode::Kernel(entry_pages[0]);
        let Policy { v, f, e, devices, .. } = *self;
        State { v, f, e, entry_pages, mode, devices, pending: None }
    }
}

/// Question 3 about the number of devices, in the width that it comes in.
#[inline(always)]
fn ask_devices<const VARIANT: u8>(devices: u64) -> Result<(), Refusal> {
    let (devices, least, most) = match VARIANT {
        mistake::CUT_COUNT => (u64::from(devices as u16), 1, MAX_DEVICES),
        mistake::NO_DEVICE_AT_ALL => (devices, 0, MAX_DEVICES),
        mistake::ONE_DEVICE_MORE => (devices, 1, MAX_DEVICES + 1),
        _ => (devices, 1, MAX_DEVICES),
    };
    if (least..=u64::from(most)).contains(&devices) {
        Ok(())
    } else {
        Err(Refusal::CountOutOfRange)
    }
}

/// Words as numbers.
fn numbers(words: &[Word]) -> impl Iterator<Item = u16> + '_ {
    words.iter().map(|&word| u16::from_le_bytes(word))
}

/// Starts the guard with a number of devices: the state, and n and e or the refusal.
#[inline(always)]
pub fn start(
    record: &[u8],
    devices: u64,
    shadow: &mut [u64],
    map: &mut [u16],
    exclusion: &mut [u8],
) -> (State, Answer) {
    start_where::<{ mistake::NONE }>(true, record, devices, shadow, map, exclusion)
}

/// Starts the guard where what else question 7 asks for is in order.
#[inline(always)]
pub(crate) fn start_where<const VARIANT: u8>(
    in_order: bool,
    record: &[u8],
    devices: u64,
    shadow: &mut [u64],
    map: &mut [u16],
    exclusion: &mut [u8],
) -> (State, Answer) {
    let policy = match Policy::read::<VARIANT>(record, devices) {
        Ok(policy) => policy,
        Err(refusal) => return (State::REFUSED, Err(refusal)),
    };
    let v = usize::from(policy.v);
    let tables_fit = shadow.len() == v && map.len() == v && exclusion.len() == vector_len(policy.f);
    if !tables_fit || !in_order {
        return (State::REFUSED, Err(Refusal::StateOrTable));
    }
    set_tables(&policy, shadow, map, exclusion);
    (policy.state(), Ok((policy.pages.len() as u64, policy.e.into())))
}

fn set_tables(policy: &Policy, shadow: &mut [u64], map: &mut [u16], exclusion: &mut [u8]) {
    let mut gathered = [0u8; MAX_VECTOR];
    shadow.fill(0);
    map.fill(NO_FRAME);
    for (page, frame) in policy.listed() {
        shadow[usize::from(page)] = approved::<false>(framed(frame));
        map[usize::from(page)] = frame;
        gathered[usize::from(frame / 8)] |= 1 << (frame % 8);
    }
    exclusion.copy_from_slice(&gathered[..exclusion.len()]);
}
