//! Fetch, write and device write, each with arguments that are all answered with the same number.
//! The arguments are chosen by asking the reference beforehand.

use std::hint::black_box;

use guard::archive::{self, NUMBERS};
use reference::{Answer, Device, State};

use crate::plain::{self, on_runs};
use crate::sides::{PlainSide, RunSide};
use crate::steps::{self, Reply, Stepped, Steps};
use crate::tables::Tables;
use crate::work::{in_turn, Side, Sides, Work, ARGUMENTS};

/// 0 for an accepted call, else the number of the refusal.
pub fn number(answer: Answer) -> u8 {
    answer.map_or_else(|refusal| refusal.number(), |_| 0)
}

/// Fetch: the pages that are answered with one number, in turn.
pub struct Fetch {
    sides: Sides,
    stepped: Stepped,
    pages: Vec<u64>,
}

impl Fetch {
    pub fn new(tables: &Tables, wanted: u8) -> Fetch {
        let sides = Sides::new(tables, false);
        let answered = |page: u64| {
            let mut state: State = sides.plain.state;
            number(reference::fetch(&mut state, &sides.plain.shadow, page))
        };
        let pages = (0..tables.v.into()).filter(|&page| answered(page) == wanted).collect();
        Fetch { pages: in_turn(pages), stepped: Stepped::new(&sides), sides }
    }
}

#[inline(always)]
fn fetch_on_runs(
    side: &mut RunSide,
    pages: impl Iterator<Item = u64>,
    call: impl Fn(&mut [u64], &[u64], u64, &mut [u64]) -> u64,
) {
    let RunSide { state, numbers, shadow, .. } = side;
    for page in pages {
        black_box(call(state, shadow, black_box(page), numbers));
    }
}

#[inline(always)]
fn fetch_on_state(side: &mut PlainSide, pages: impl Iterator<Item = u64>) {
    let PlainSide { state, shadow, .. } = side;
    for page in pages {
        black_box(&plain::fetch(state, shadow, black_box(page)));
    }
}

impl Steps for Fetch {
    fn repeat_step<const STEP: u8, R: Reply>(&mut self, count: u64) {
        let Stepped { state, run: RunSide { state: run, numbers, shadow, .. } } = &mut self.stepped;
        for page in (0..count as usize).map(|i| self.pages[i % ARGUMENTS]) {
            steps::fetch::<STEP, R>(state, run, shadow, black_box(page), numbers).keep();
        }
    }
}

impl Work for Fetch {
    fn repeat(&mut self, side: Side, count: u64) -> bool {
        let pages = (0..count as usize).map(|i| self.pages[i % ARGUMENTS]);
        match side {
            Side::Archive => fetch_on_runs(&mut self.sides.archive, pages, archive::fetch),
            Side::Reference => fetch_on_state(&mut self.sides.plain, pages),
            Side::OnRuns => fetch_on_runs(&mut self.sides.on_runs, pages, on_runs::fetch),
            _ => return steps::repeat(self, side, count),
        }
        true
    }

    fn agree(&self) -> bool {
        self.sides.agree()
    }

    fn steps_agree(&self) -> bool {
        self.stepped.agrees(&self.sides.plain)
    }
}

/// Write: the addresses that are answered with one number, in turn, with one length.
pub struct Write {
    sides: Sides,
    stepped: Stepped,
    addresses: Vec<u64>,
    length: u64,
}

impl Write {
    /// Writes that begin this many bytes before the end of a page.
    pub fn new(tables: &Tables, before_end: u64, length: u64, wanted: u8) -> Write {
        let sides = Sides::new(tables, false);
        let PlainSide { state, shadow, exclusion, .. } = &sides.plain;
        let answered =
            |address| number(reference::write(state, shadow, exclusion, address, length));
        let ends = (1..u64::from(tables.v)).map(|page| page * 4096 - before_end);
        let addresses = ends.filter(|&address| answered(address) == wanted).collect();
        Write { addresses: in_turn(addresses), length, stepped: Stepped::new(&sides), sides }
    }
}

#[inline(always)]
fn write_on_runs(
    side: &mut RunSide,
    places: impl Iterator<Item = (u64, u64)>,
    call: impl Fn(&[u64], &[u64], &[u8], u64, u64, &mut [u64]) -> u64,
) {
    let RunSide { state, numbers, shadow, exclusion, .. } = side;
    for place in places {
        let (address, length) = black_box(place);
        black_box(call(state, shadow, exclusion, address, length, numbers));
    }
}

#[inline(always)]
fn write_on_state(side: &PlainSide, places: impl Iterator<Item = (u64, u64)>) {
    let PlainSide { state, shadow, exclusion, .. } = side;
    for place in places {
        let (address, length) = black_box(place);
        black_box(&plain::write(state, shadow, exclusion, address, length));
    }
}

impl Steps for Write {
    fn repeat_step<const STEP: u8, R: Reply>(&mut self, count: u64) {
        let Stepped { state, run } = &mut self.stepped;
        let RunSide { state: run, numbers, shadow, exclusion, .. } = run;
        for place in (0..count as usize).map(|i| (self.addresses[i % ARGUMENTS], self.length)) {
            let (address, length) = black_box(place);
            steps::write::<STEP, R>(state, run, shadow, exclusion, address, length, numbers).keep();
        }
    }
}

impl Work for Write {
    fn repeat(&mut self, side: Side, count: u64) -> bool {
        let places = (0..count as usize).map(|i| (self.addresses[i % ARGUMENTS], self.length));
        match side {
            Side::Archive => write_on_runs(&mut self.sides.archive, places, archive::write),
            Side::Reference => write_on_state(&self.sides.plain, places),
            Side::OnRuns => write_on_runs(&mut self.sides.on_runs, places, on_runs::write),
            _ => return steps::repeat(self, side, count),
        }
        true
    }

    fn agree(&self) -> bool {
        self.sides.agree()
    }

    fn steps_agree(&self) -> bool {
        self.stepped.agrees(&self.sides.plain)
    }
}

/// Device write: each device in turn, at addresses at the beginning of a frame that are answered with one number, with one length.
pub struct DeviceWrite {
    sides: Sides,
    /// The list of devices, for the archive and for the others.
    lent: Vec<archive::Device>,
    plain: Vec<Device>,
    transfers: Vec<Transfer>,
}

/// A device, an address and a length.
type Transfer = (u64, u64, u64);

impl DeviceWrite {
    /// Every device has this window.
    pub fn new(tables: &Tables, window: Device, length: u64, wanted: u8) -> DeviceWrite {
        let sides = Sides::new(tables, false);
        let plain = vec![window; tables.devices.into()];
        let PlainSide { state, exclusion, .. } = &sides.plain;
        let answered =
            |address| number(reference::device_write(state, exclusion, &plain, 0, address, length));
        let begins = (0..2 * u64::from(tables.v)).rev().map(|frame| frame * 4096);
        let addresses = begins.filter(|&address| answered(address) == wanted).collect();
        let devices = (0..u64::from(tables.devices)).cycle();
        let transfers = devices.zip(in_turn(addresses));
        DeviceWrite {
            lent: vec![archive::Device::new(window.first, window.last); plain.len()],
            transfers: transfers.map(|(device, address)| (device, address, length)).collect(),
            sides,
            plain,
        }
    }
}

#[inline(always)]
fn device_on_runs<D>(
    side: &mut RunSide,
    devices: &[D],
    transfers: impl Iterator<Item = Transfer>,
    call: impl Fn(&[u64], &[u8], &[D], u64, u64, u64, &mut [u64]) -> u64,
) {
    let RunSide { state, numbers, exclusion, .. } = side;
    for transfer in transfers {
        let (device, address, length) = black_box(transfer);
        black_box(call(state, exclusion, devices, device, address, length, numbers));
    }
}

#[inline(always)]
fn device_on_state(
    side: &PlainSide,
    devices: &[Device],
    transfers: impl Iterator<Item = Transfer>,
) {
    let PlainSide { state, exclusion, .. } = side;
    for transfer in transfers {
        let (device, address, length) = black_box(transfer);
        black_box(&plain::device_write(state, exclusion, devices, device, address, length));
    }
}

impl Work for DeviceWrite {
    fn repeat(&mut self, side: Side, count: u64) -> bool {
        let DeviceWrite { sides, lent, plain, transfers } = self;
        let transfers = (0..count as usize).map(|i| transfers[i % ARGUMENTS]);
        match side {
            Side::Archive => {
                device_on_runs(&mut sides.archive, lent, transfers, archive::device_write);
            }
            Side::Reference => device_on_state(&sides.plain, plain, transfers),
            Side::OnRuns => {
                device_on_runs(&mut sides.on_runs, plain, transfers, on_runs::device_write);
            }
            _ => return false,
        }
        true
    }

    /// A device write changes nothing, so that every one is made again.
    fn agree(&self) -> bool {
        let DeviceWrite { sides, lent, plain, transfers } = self;
        let RunSide { state, exclusion, .. } = &sides.archive;
        let same_answers = transfers.iter().all(|&(device, at, length)| {
            let mut numbers = [[0; NUMBERS]; 2];
            let [by_archive, by_runs] = &mut numbers;
            let refusals = [
                archive::device_write(state, exclusion, lent, device, at, length, by_archive),
                on_runs::device_write(state, exclusion, plain, device, at, length, by_runs),
            ];
            let state = &sides.plain.state;
            let answer = plain::device_write(state, exclusion, plain, device, at, length);
            let frames = answer.map_or([0; NUMBERS], |(first, last)| [first, last]);
            refusals == [number(answer).into(); 2] && numbers == [frames; 2]
        });
        sides.agree() && same_answers
    }
}
