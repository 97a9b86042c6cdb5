//! A started guard with its tables, for the tests of the reference.
//! Each test file uses a part of it.
#![allow(dead_code)]

pub use inputs::record;
use reference::{Answer, Device, Mode, Refusal, State};

/// The policy of document 01's cases: V 4, F 4, page 1 with frame 2.
pub fn cases_record() -> Vec<u8> {
    record(4, 4, 1, &[(1, 2)])
}

#[derive(Clone, Debug, PartialEq, Eq)]
pub struct Guard {
    pub state: State,
    pub kernel: Vec<u64>,
    pub shadow: Vec<u64>,
    pub map: Vec<u16>,
    pub exclusion: Vec<u8>,
    pub devices: Vec<Device>,
}

impl Guard {
    /// Starts on tables of the record's sizes that hold other values, which the start has to overwrite. Two devices may write to
    /// every frame.
    pub fn started(record: &[u8]) -> Guard {
        let (guard, answer) = Guard::try_start(record);
        answer.expect("the start is accepted");
        guard
    }

    pub fn try_start(record: &[u8]) -> (Guard, Answer) {
        let size = |place: usize| u16::from_le_bytes([record[place], record[place + 1]]);
        let (v, f) = (usize::from(size(0)), size(2));
        let mut guard = Guard {
            state: State::REFUSED,
            kernel: vec![0; v],
            shadow: vec![0x1234; v],
            map: vec![7; v],
            exclusion: vec![0xff; reference::vector_len(f)],
            devices: vec![Device { first: 0, last: f - 1 }; 2],
        };
        let Guard { shadow, map, exclusion, devices, .. } = &mut guard;
        let (state, answer) =
            reference::start(record, devices.len() as u64, shadow, map, exclusion);
        guard.state = state;
        (guard, answer)
    }

    pub fn cases() -> Guard {
        Guard::started(&cases_record())
    }

    /// The started guard with its mode replaced by user; no leave can reach it there.
    pub fn cases_in_user_mode() -> Guard {
        let mut guard = Guard::cases();
        guard.state.mode = Mode::User(1);
        guard
    }

    /// Edits one kernel entry and synchronises its page.
    pub fn synchronise(&mut self, page: usize, entry: u64) -> Answer {
        self.kernel[page] = entry;
        self.synchronise_one(page as u64)
    }

    pub fn synchronise_one(&mut self, page: u64) -> Answer {
        let Guard { state, kernel, shadow, map, exclusion, .. } = self;
        reference::synchronise_one(state, kernel, shadow, map, exclusion, page)
    }

    pub fn synchronise_all(&mut self) -> Answer {
        let Guard { state, kernel, shadow, map, exclusion, .. } = self;
        reference::synchronise_all(state, kernel, shadow, map, exclusion)
    }

    pub fn fetch(&mut self, page: u64) -> Answer {
        reference::fetch(&mut self.state, &self.shadow, page)
    }

    pub fn write(&self, address: u64, length: u64) -> Answer {
        reference::write(&self.state, &self.shadow, &self.exclusion, address, length)
    }

    pub fn enter(&mut self, index: u64) -> Answer {
        reference::enter(&mut self.state, &mut self.shadow, index)
    }

    pub fn leave(&mut self, page: u64) -> Answer {
        reference::leave(&mut self.state, &mut self.shadow, page)
    }

    pub fn ask(&mut self, page: u64, frame: u64) -> Answer {
        let Guard { state, shadow, map, exclusion, .. } = self;
        reference::ask(state, shadow, map, exclusion, page, frame)
    }

    pub fn commit(&mut self) -> Answer {
        reference::commit(&mut self.state, &mut self.shadow, &mut self.map)
    }

    pub fn drop_pending(&mut self) -> Answer {
        reference::drop(&mut self.state, &mut self.exclusion)
    }

    /// A write of the first device.
    pub fn device_write(&self, address: u64, length: u64) -> Answer {
        self.write_of(0, address, length)
    }

    pub fn write_of(&self, device: u64, address: u64, length: u64) -> Answer {
        let Guard { state, exclusion, devices, .. } = self;
        reference::device_write(state, exclusion, devices, device, address, length)
    }
}

/// A refusal by its number.
pub fn refused(number: u8) -> Answer {
    Err(Refusal::ALL[usize::from(number) - 1])
}
