//! The device writes that K5 is about: where accepted transfers stand in their windows, how 19 comes about, which devices 18 refuses and
//! which lists 7 does; and the numbers of devices that starts are given. Each must come often.

use std::io::{self, Write};

use guard::Refusal;
use reference::claim::Call;
use reference::Device;

use crate::devices::MOST;
use crate::table::{rows_of, Table};

/// Whether an accepted transfer begins and ends where its window does.
const ENDS: [&str; 4] = ["at neither end", "at its first", "at its last", "at both"];
const WINDOWS: [&str; 2] = ["window of one frame", "window of more"];
const AT_BOTH: usize = 3;

/// How a transfer is outside its window.
const OUTSIDE: [&str; 8] = [
    "empty window",
    "one frame below",
    "further below",
    "one frame above",
    "further above",
    "on both sides",
    "wholly below",
    "wholly above",
];

/// Which device is not in the list.
const NO_DEVICES: [&str; 3] = ["next to the last", "by lower bits", "any other"];

/// Which list has another length than the state says.
const LISTS: [&str; 4] = ["empty list", "one too few", "one too many", "any other"];

/// A number of devices that a start is given: one that alone gives 3, and one that is accepted.
const OUT_OF_RANGE: [&str; 4] = ["0", "65", "by lower bits", "any other"];
const WITHIN: [&str; 3] = ["1", "2 to 63", "64"];

/// What a start with a number out of range would answer with one device: it answers this where it is 1 or 2, and else 3.
const OTHERWISE: [&str; 8] = ["accepted", "1", "2", "3", "4", "5", "6", "7"];

const COUNT_OUT_OF_RANGE: u64 = Refusal::CountOutOfRange as u64;

/// A table of one row.
type Row<const COLUMNS: usize> = [[u64; COLUMNS]; 1];

#[derive(Clone, Debug, Default)]
pub struct Transfers {
    accepted: [[u64; ENDS.len()]; WINDOWS.len()],
    outside: Row<{ OUTSIDE.len() }>,
    no_device: Row<{ NO_DEVICES.len() }>,
    lists: Row<{ LISTS.len() }>,
    out_of_range: Row<{ OUT_OF_RANGE.len() }>,
    within: Row<{ WITHIN.len() }>,
    otherwise: Row<{ OTHERWISE.len() }>,
}

impl Transfers {
    /// Counts a device write by its number. The state has `count` devices, and all else that question 7 asks for is in order.
    pub fn count(&mut self, call: &Call, count: u64, number: u64) {
        let Call::DeviceWrite { devices, device, address, length } = *call else {
            return;
        };
        let is = |refusal: Refusal| number == u64::from(refusal.number());
        let window = usize::try_from(device).ok().and_then(|place| devices.get(place));
        if is(Refusal::StateOrTable) {
            self.lists[0][list_column(devices.len() as u64, count)] += 1;
        } else if is(Refusal::NoDevice) {
            self.no_device[0][device_column(device, count)] += 1;
        } else if let Some(window) = window {
            if number == 0 {
                let (row, column) = end_cell(window, address, length);
                self.accepted[row][column] += 1;
            } else if is(Refusal::OutsideWindow) {
                self.outside[0][outside_column(window, address, length)] += 1;
            }
        }
    }

    /// Counts a start by the devices that it was given, its number, and what it would answer with one device.
    pub fn count_start(&mut self, devices: u64, number: u64, otherwise: u64) {
        let is_within = |devices| (1..=MOST).contains(&devices);
        if is_within(devices) {
            let column = match devices {
                1 => 0,
                MOST => 2,
                _ => 1,
            };
            self.within[0][column] += u64::from(number == 0);
            return;
        }
        let column = match devices {
            0 => 0,
            65 => 1,
            _ if is_within(devices % (1 << 16)) => 2,
            _ => 3,
        };
        let by_devices_alone = number == COUNT_OUT_OF_RANGE && otherwise != COUNT_OUT_OF_RANGE;
        self.out_of_range[0][column] += u64::from(by_devices_alone);
        self.otherwise[0][otherwise as usize] += 1;
    }

    fn tables(&self) -> [Table; 7] {
        let names = |names: &[&str]| names.iter().map(|name| name.to_string()).collect();
        let table = |name, columns: &[&str], rows| Table { name, columns: names(columns), rows };
        let everywhere = |_, _| true;
        let at_one_frame = |row: usize, column| row > 0 || column == AT_BOTH;
        let transfers = ["device writes"];
        let starts = ["devices at the start"];
        [
            table("accepted", &ENDS, rows_of(WINDOWS, &self.accepted, at_one_frame)),
            table("19", &OUTSIDE, rows_of(transfers, &self.outside, everywhere)),
            table("18", &NO_DEVICES, rows_of(transfers, &self.no_device, everywhere)),
            table("7", &LISTS, rows_of(transfers, &self.lists, everywhere)),
            table("3", &OUT_OF_RANGE, rows_of(starts, &self.out_of_range, everywhere)),
            table("accepted", &WITHIN, rows_of(starts, &self.within, everywhere)),
            table("with one device", &OTHERWISE, rows_of(starts, &self.otherwise, everywhere)),
        ]
    }

    /// What is wrong with the counts, one line each.
    pub fn complaints(&self) -> Vec<String> {
        self.tables().iter().flat_map(Table::complaints).collect()
    }

    pub fn print(&self, out: &mut impl Write) -> io::Result<()> {
        self.tables().iter().try_for_each(|table| table.print(out))
    }
}

fn list_column(length: u64, count: u64) -> usize {
    match length {
        0 => 0,
        _ if length + 1 == count => 1,
        _ if length == count + 1 => 2,
        _ => 3,
    }
}

fn device_column(device: u64, count: u64) -> usize {
    match device {
        _ if device == count => 0,
        _ if device % (1 << 16) < count => 1,
        _ => 2,
    }
}

/// The first and the last frame of a transfer that exists.
fn frames(address: u64, length: u64) -> (u64, u64) {
    (address / 4096, (address + length - 1) / 4096)
}

/// The row and the column of an accepted transfer.
fn end_cell(window: &Device, address: u64, length: u64) -> (usize, usize) {
    let (first, last) = frames(address, length);
    let is_at = (first == window.first.into(), last == window.last.into());
    let row = usize::from(window.first != window.last);
    (row, usize::from(is_at.0) + 2 * usize::from(is_at.1))
}

fn outside_column(window: &Device, address: u64, length: u64) -> usize {
    let (first, last) = frames(address, length);
    let (from, to) = (u64::from(window.first), u64::from(window.last));
    match (first < from, to < last) {
        _ if from > to => 0,
        _ if last < from => 6,
        _ if to < first => 7,
        (true, true) => 5,
        (true, false) => 1 + usize::from(first + 1 < from),
        _ => 3 + usize::from(to + 1 < last),
    }
}
