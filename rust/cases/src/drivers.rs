// The guard that the cases of K6 stand on: V 8, F 9, two entry pages, page 1 approved for frame 2 and page 3 for frame 8, three devices.
// A case gives all that it holds, with the 25 words of its state run, and all that a call is to leave of it.
use crate::calls::answer;
use crate::calls::Answer;
use crate::calls::UNWRITTEN;
use crate::tally::Tally;
use ::guard::archive;
use ::guard::Device;

pub const NO_EXECUTE: u64 = 0x8000000000000000;

#[derive(Clone, Copy, PartialEq)]
pub struct Guard {
    pub run: [u64; 25],
    pub shadow: [u64; 8],
    pub map: [u16; 8],
    pub exclusion: [u8; 2],
}

// As its start leaves it: words 0 to 18 are V, F, e and the entry pages, then come kernel mode on page 1, the devices and no pair.
pub fn started() -> Guard {
    Guard {
        run: [8, 9, 2, 1, 3, 0, 0, 0, 0, 0, 0, 0, 0, 0, 0, 0, 0, 0, 0, 0, 1, 3, 0, 0, 0],
        shadow: [0, 0x2401, 0, 0x8401, 0, 0, 0, 0],
        map: [65535, 2, 65535, 8, 65535, 65535, 65535, 65535],
        exclusion: [0x04, 0x01],
    }
}

// The same in user mode on page 7.
pub fn in_user_mode() -> Guard {
    let shadow = [0, NO_EXECUTE | 0x2401, 0, NO_EXECUTE | 0x8401, 0, 0, 0, 0];
    Guard { shadow, ..started() }.running([1, 7])
}

impl Guard {
    // With these words of the pair.
    pub fn pair(mut self, words: [u64; 3]) -> Guard {
        [self.run[22], self.run[23], self.run[24]] = words;
        self
    }

    // With these words of the mode and of the page running.
    pub fn running(mut self, words: [u64; 2]) -> Guard {
        [self.run[19], self.run[20]] = words;
        self
    }

    // With this shadow entry of a page.
    pub fn entry(mut self, page: usize, entry: u64) -> Guard {
        self.shadow[page] = entry;
        self
    }

    // With this number of a page in the map.
    pub fn number(mut self, page: usize, number: u16) -> Guard {
        self.map[page] = number;
        self
    }

    // With this exclusion vector.
    pub fn excluding(self, exclusion: [u8; 2]) -> Guard {
        Guard { exclusion, ..self }
    }

    // The approved entry of a frame in its mode.
    pub fn approved(&self, frame: u64) -> u64 {
        frame << 12 | 0x401 | self.run[19] << 63
    }
}

pub fn ask(page: u64, frame: u64) -> impl Fn(&mut Guard) -> Answer {
    move |Guard { run, shadow, map, exclusion }| {
        let mut numbers = UNWRITTEN;
        let number = archive::ask(run, shadow, map, exclusion, page, frame, &mut numbers);
        answer(number, numbers)
    }
}

pub fn commit(Guard { run, shadow, map, .. }: &mut Guard) -> Answer {
    let mut numbers = UNWRITTEN;
    let number = archive::commit(run, shadow, map, &mut numbers);
    answer(number, numbers)
}

pub fn drop(Guard { run, exclusion, .. }: &mut Guard) -> Answer {
    let mut numbers = UNWRITTEN;
    let number = archive::drop(run, exclusion, &mut numbers);
    answer(number, numbers)
}

pub fn sync_page(kernel: [u64; 8], page: u64) -> impl Fn(&mut Guard) -> Answer {
    move |Guard { run, shadow, map, exclusion }| {
        let mut numbers = UNWRITTEN;
        let number = archive::sync_page(run, &kernel, shadow, map, exclusion, page, &mut numbers);
        answer(number, numbers)
    }
}

pub fn sync_all(kernel: [u64; 8]) -> impl Fn(&mut Guard) -> Answer {
    move |Guard { run, shadow, map, exclusion }| {
        let mut numbers = UNWRITTEN;
        let number = archive::sync_all(run, &kernel, shadow, map, exclusion, &mut numbers);
        answer(number, numbers)
    }
}

// A tree of depth 1 whose first entries are these.
fn table(kernel: &[u64; 8]) -> [u64; 512] {
    let mut table = [0; 512];
    table[..8].copy_from_slice(kernel);
    table
}

pub fn sync_page_tree(kernel: [u64; 8], page: u64) -> impl Fn(&mut Guard) -> Answer {
    move |Guard { run, shadow, map, exclusion }| {
        let (tables, mut numbers) = (table(&kernel), UNWRITTEN);
        let number =
            archive::sync_page_tree(run, &tables, 0, 1, shadow, map, exclusion, page, &mut numbers);
        answer(number, numbers)
    }
}

pub fn sync_all_tree(kernel: [u64; 8]) -> impl Fn(&mut Guard) -> Answer {
    move |Guard { run, shadow, map, exclusion }| {
        let (tables, mut numbers) = (table(&kernel), UNWRITTEN);
        let number =
            archive::sync_all_tree(run, &tables, 0, 1, shadow, map, exclusion, &mut numbers);
        answer(number, numbers)
    }
}

pub fn fetch(page: u64) -> impl Fn(&mut Guard) -> Answer {
    move |Guard { run, shadow, .. }| {
        let mut numbers = UNWRITTEN;
        let number = archive::fetch(run, shadow, page, &mut numbers);
        answer(number, numbers)
    }
}

pub fn write(address: u64, length: u64) -> impl Fn(&mut Guard) -> Answer {
    move |Guard { run, shadow, exclusion, .. }| {
        let mut numbers = UNWRITTEN;
        let number = archive::write(run, shadow, exclusion, address, length, &mut numbers);
        answer(number, numbers)
    }
}

pub fn enter(index: u64) -> impl Fn(&mut Guard) -> Answer {
    move |Guard { run, shadow, .. }| {
        let mut numbers = UNWRITTEN;
        let number = archive::enter(run, shadow, index, &mut numbers);
        answer(number, numbers)
    }
}

pub fn leave(page: u64) -> impl Fn(&mut Guard) -> Answer {
    move |Guard { run, shadow, .. }| {
        let mut numbers = UNWRITTEN;
        let number = archive::leave(run, shadow, page, &mut numbers);
        answer(number, numbers)
    }
}

// Device 0 writes; every device has all frames as window.
pub fn device_write(address: u64, length: u64) -> impl Fn(&mut Guard) -> Answer {
    move |Guard { run, exclusion, .. }| {
        let (devices, mut numbers) = ([Device::new(0, 8); 3], UNWRITTEN);
        let number =
            archive::device_write(run, exclusion, &devices, 0, address, length, &mut numbers);
        answer(number, numbers)
    }
}

// A case: what is given, the call, its answer, and what is left.
pub fn case(
    t: Tally,
    call: &str,
    name: &str,
    given: Guard,
    made: impl Fn(&mut Guard) -> Answer,
    wanted: Answer,
    left: Guard,
) -> Tally {
    let mut guard = given;
    let answer = made(&mut guard);
    t.case(call, name, answer == wanted && guard == left)
}

// A refused call leaves all as it was.
pub fn refused(
    t: Tally,
    call: &str,
    name: &str,
    given: Guard,
    made: impl Fn(&mut Guard) -> Answer,
    number: u64,
) -> Tally {
    case(t, call, name, given, made, Answer::Refused(number), given)
}

// Calls one after another on a started guard, each with its answer and what it leaves.
pub struct List {
    name: &'static str,
    guard: Guard,
}

impl List {
    pub fn new(name: &'static str, guard: Guard) -> List {
        List { name, guard }
    }

    pub fn then(
        &mut self,
        t: Tally,
        call: &str,
        made: impl Fn(&mut Guard) -> Answer,
        wanted: Answer,
        left: Guard,
    ) -> Tally {
        let t = case(t, "list", &format!("{}: {call}", self.name), self.guard, made, wanted, left);
        self.guard = left;
        t
    }
}
