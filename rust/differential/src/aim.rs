//! Where a list aims: policies, kernel tables and arguments near the edges of what exists and of what is excluded.
//! An aimed list goes for aliases, ends of pages and neighbours of excluded frames; another is mostly random.

use inputs::{random_record, record, KernelEntry, Parts, Random};
use reference::claim::Call;
use reference::{Device, Tree, NO_FRAME};

use crate::call::Lent;

/// The sizes of a list's policy, some of its excluded frames, and what is pending.
pub struct Aim {
    v: u64,
    f: u64,
    e: u64,
    excluded: Vec<u64>,
    is_aimed: bool,
    /// Whether asks, commits and drops are frequent, and what they are about: synchronisations of all pages, and mode switches.
    of_drivers: bool,
    /// The page and the frame that are pending.
    pending: Option<(u64, u64)>,
    /// Those that were pending last.
    last: Option<(u64, u64)>,
}

/// How many frames of a policy are aimed at.
const SOME: usize = 64;

/// A valid record: mostly with few pages and frames, so that aliases are frequent, and now and then of the largest sizes.
pub fn policy(random: &mut Random) -> Vec<u8> {
    let (v, f) = match random.below(60) {
        0 => (2048, 4096),
        1 => (1 + random.below(2048), 1 + random.below(4096)),
        2..=9 => (1 + random.below(80), 1 + random.below(600)),
        _ => (1 + random.below(12), 1 + random.below(20)),
    };
    random_record(random, v as u16, f as u16)
}

/// A valid record that lists one page or two of few: a page that is approved stays so, and an ask needs one that is not.
pub fn policy_for_drivers(random: &mut Random) -> Vec<u8> {
    let (v, f) = match random.below(120) {
        0 => (2048, 4096),
        1 => (6 + random.below(2043) as u16, 8 + random.below(4089) as u16),
        _ => (6 + random.below(13) as u16, 8 + random.below(40) as u16),
    };
    let mut frame = || random.below(f.into()) as u16;
    let listed = [(0, frame()), (v / 2, frame())];
    record(v, f, 1, &listed[..1 + random.below(2) as usize])
}

/// The sizes of a record that is long enough to have them: V, F, n, e.
pub fn sizes(policy: &[u8]) -> [u16; 4] {
    std::array::from_fn(|place| u16::from_le_bytes([policy[2 * place], policy[2 * place + 1]]))
}

impl Aim {
    pub fn new(random: &mut Random, policy: &[u8], of_drivers: bool) -> Aim {
        let Parts { sizes: [v, f, _, e], frames, .. } = Parts::of(policy);
        let excluded = frames.iter().take(SOME).map(|&frame| frame.into()).collect();
        Aim {
            v,
            f,
            e,
            excluded,
            is_aimed: !of_drivers && random.one_in(2),
            of_drivers,
            pending: None,
            last: None,
        }
    }

    /// Says what is pending at the next call.
    pub fn set_pending(&mut self, pending: Option<(u64, u64)>) {
        self.last = pending.or(self.last);
        self.pending = pending;
    }

    /// The page that is pending.
    pub fn asked(&self) -> Option<u64> {
        self.pending.map(|(page, _)| page)
    }

    /// V.
    pub fn pages(&self) -> u64 {
        self.v
    }

    /// F.
    pub fn frames(&self) -> u64 {
        self.f
    }

    /// A kernel table with two places to spare, so that a call can be brought one of another length.
    pub fn kernel(&self, random: &mut Random) -> Vec<u64> {
        (0..self.v + 2).map(|_| self.entry(random).bits()).collect()
    }

    /// An entry; where something is pending, often one with its frame.
    pub fn entry(&self, random: &mut Random) -> KernelEntry {
        let mut entry = KernelEntry::random(random, self.f);
        if let Some((_, frame)) = self.pending.filter(|_| random.one_in(2)) {
            // Now and then one that has it in its lower bits alone.
            entry.frame = frame + if random.one_in(20) { 1 << 16 } else { 0 };
            return entry;
        }
        if !self.is_aimed || random.one_in(2) {
            return entry;
        }
        KernelEntry { frame: self.near_excluded(random), ..entry }
    }

    /// An excluded frame, or one beside it.
    fn near_excluded(&self, random: &mut Random) -> u64 {
        (random.pick(&self.excluded) + random.below(3)).saturating_sub(random.below(2))
    }

    /// Edits some entries, or now and then all.
    pub fn edit(&self, random: &mut Random, kernel: &mut Vec<u64>) {
        if random.one_in(30) {
            *kernel = self.kernel(random);
        }
        let more = if self.of_drivers && self.pending.is_some() { 3 } else { 0 };
        for _ in 0..random.below(3) + more {
            let page = random.below(kernel.len() as u64) as usize;
            kernel[page] = self.entry(random).bits();
        }
        // What becomes of the asked page before its commit.
        let asked = self.asked().and_then(|page| usize::try_from(page).ok());
        if let Some(entry) =
            asked.and_then(|page| kernel.get_mut(page)).filter(|_| random.one_in(4))
        {
            *entry = self.entry(random).bits();
        }
    }

    /// How many entries of the kernel table a call is brought: V, or now and then another number.
    pub fn brought(&self, random: &mut Random) -> usize {
        let length = if random.one_in(20) { random.below(self.v + 3) } else { self.v };
        length as usize
    }

    /// A call on what is lent.
    pub fn call<'a>(
        &self,
        random: &mut Random,
        lent: &Lent,
        kernel: &'a [u64],
        tree: Tree<'a>,
        devices: &'a [Device],
    ) -> Call<'a> {
        // From 26 on: lists of drivers alone.
        match random.below(if self.of_drivers { 42 } else { 26 }) {
            0..3 => Call::SynchroniseOne { kernel, page: self.page_to_synchronise(random) },
            3 | 4 | 26..34 => Call::SynchroniseAll { kernel },
            5 | 6 => Call::Fetch { page: self.page(random) },
            7..10 => {
                let length = if random.one_in(30) { random.word() } else { random.below(18) };
                Call::Write { address: self.address(random, self.v), length }
            }
            10 | 11 => Call::Enter { index: near(random, self.e) },
            12 | 13 | 34..37 => Call::Leave { page: self.page_to_leave_to(random, &lent.shadow) },
            14..17 => self.device_write(random, devices),
            17 | 18 => {
                Call::SynchroniseOneFromTree { tree, page: self.page_to_synchronise(random) }
            }
            19 | 20 => Call::SynchroniseAllFromTree { tree },
            _ => self.approval(random, lent),
        }
    }

    /// An ask, a commit or a drop: mostly one that what is pending allows.
    fn approval<'a>(&self, random: &mut Random, lent: &Lent) -> Call<'a> {
        match (random.below(10), self.pending) {
            (0, _) => Call::Commit,
            (1, _) => Call::Drop,
            (2..5, Some(_)) => Call::Commit,
            (5, Some(_)) => Call::Drop,
            _ => self.ask(random, lent),
        }
    }

    /// An ask for any page and frame, for those that were pending last, for a frame that is excluded, or for one that a page has. Mostly
    /// the page is one without an approval, and often the frame one that is not excluded.
    fn ask<'a>(&self, random: &mut Random, lent: &Lent) -> Call<'a> {
        let is_approved = |page: u64| lent.map.get(page as usize).is_some_and(|&of| of != NO_FRAME);
        let is_excluded = |frame: u64| {
            let byte = lent.exclusion.get(frame as usize / 8);
            byte.is_some_and(|byte| byte >> (frame % 8) & 1 == 1)
        };
        let (mut page, mut frame) = (self.page(random), near(random, self.f));
        for _ in 0..random.below(8) {
            if is_approved(page) {
                page = random.below(self.v);
            }
        }
        for _ in 0..random.below(3) {
            if is_excluded(frame) {
                frame = random.below(self.f);
            }
        }
        match (random.below(10), self.last) {
            (0, Some(last)) => (page, frame) = last,
            (1, Some((_, last))) => frame = last,
            (2, _) => frame = self.near_excluded(random),
            // Neither exists.
            (3, _) if random.one_in(4) => {
                page = self.v + random.below(3);
                frame = self.f + random.below(3);
            }
            (4 | 5, _) if !lent.shadow.is_empty() => {
                frame = random.pick(&lent.shadow) >> 12 & ((1 << 40) - 1);
            }
            _ => {}
        }
        Call::Ask { page, frame }
    }

    /// Any page, or where one is pending often that one.
    fn page_to_synchronise(&self, random: &mut Random) -> u64 {
        match self.pending {
            Some((asked, _)) if random.one_in(4) => asked,
            _ => self.page(random),
        }
    }

    /// Often a page that is mapped as user and executable: a list is to reach user mode.
    fn page_to_leave_to(&self, random: &mut Random, shadow: &[u64]) -> u64 {
        let is_user_code = |page: u64| {
            let entry = usize::try_from(page).ok().and_then(|page| shadow.get(page));
            entry.is_some_and(|entry| entry & (1 << 9 | 0b101) == 0b101)
        };
        let tries = random.below(6);
        let found = (0..tries).map(|_| self.page(random)).find(|&page| is_user_code(page));
        found.unwrap_or_else(|| self.page(random))
    }

    fn page(&self, random: &mut Random) -> u64 {
        near(random, self.v)
    }

    /// An address in `count` pages or frames: often within 20 bytes of the end of one, or near the largest number.
    fn address(&self, random: &mut Random, count: u64) -> u64 {
        match random.below(20) {
            0 => random.word(),
            1 => u64::MAX - random.below(20),
            2..10 => ((random.below(count) + 1) * 4096).saturating_sub(random.below(20)),
            _ => random.below(count * 4096 + 1),
        }
    }

    fn device_write<'a>(&self, random: &mut Random, devices: &'a [Device]) -> Call<'a> {
        let device = device(random, devices.len() as u64);
        let window = usize::try_from(device).ok().and_then(|place| devices.get(place));
        let (address, length) = match window {
            Some(window) if !random.one_in(3) => self.near_window(random, window),
            _ => self.transfer(random),
        };
        let length = if random.one_in(20) { wrong_length(random) } else { length };
        Call::DeviceWrite { devices, device, address, length }
    }

    /// The address and the length of a transfer that has to do with no window.
    fn transfer(&self, random: &mut Random) -> (u64, u64) {
        let most = random.pick(&[20, 5000, 20_000, 1_048_600]);
        let length = random.below(most);
        if self.is_aimed && random.one_in(2) {
            // It ends at an excluded frame, before it or in it.
            let end = self.near_excluded(random) * 4096 + random.below(3);
            (end.saturating_sub(length), length)
        } else {
            (self.address(random, self.f), length)
        }
    }

    /// The address and the length of a transfer that begins and ends near the ends of a window, and mostly exists.
    fn near_window(&self, random: &mut Random, window: &Device) -> (u64, u64) {
        let most = if random.one_in(8) { self.f } else { self.f - 1 };
        // By how many frames it goes beyond an end, or stays behind it.
        let mut beyond = || {
            let further = 1 + random.below(4) as i64;
            random.pick(&[-1, 0, 0, 0, 1, further])
        };
        let first = u64::from(window.first).saturating_add_signed(-beyond()).min(most);
        let last = u64::from(window.last).saturating_add_signed(beyond()).min(most);
        let last = last.clamp(first, first + 255);
        let any = random.below(4096);
        let begin = 4096 * first + random.pick(&[0, 4095, any]);
        let end = 4096 * last + random.pick(&[0, 4095, any]);
        (begin, end.max(begin) - begin + 1)
    }
}

/// A length of a transfer that question 8 refuses.
fn wrong_length(random: &mut Random) -> u64 {
    match random.below(4) {
        0 => 0,
        1 => 1_048_577,
        2 => u64::MAX - random.below(20),
        _ => random.word() | 1 << 32,
    }
}

/// A device of a list with this length, or one next to its ends, or one that is small in its lower bits.
fn device(random: &mut Random, length: u64) -> u64 {
    match random.below(16) {
        0 => random.pick(&[0, length.saturating_sub(1), length, 63, 64]),
        1 => near(random, length.max(1)),
        2 => random.below(length.max(1)) + (1 << random.pick(&[16, 32, 63])),
        _ => random.below(length.max(1)),
    }
}

/// A number mostly below `count`, or `count` itself, or now and then any, also one that is small in its lower 16 bits.
fn near(random: &mut Random, count: u64) -> u64 {
    match random.below(30) {
        0 => random.word(),
        1 => random.below(count) + (1 << random.pick(&[16, 32, 63])),
        _ => random.below(count + 1),
    }
}
