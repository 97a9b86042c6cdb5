//! The calls of the proved archive on a state by value, as the cases make them.
//! A state crosses the boundary as a run of words; the two numbers come back in a run of their own.

use ::guard::archive::{
    self, Device, MODE_KERNEL, MODE_USER, NUMBERS, STATE_DEVICES, STATE_ENTRIES, STATE_ENTRY,
    STATE_FRAMES, STATE_MODE, STATE_PAGES, STATE_PENDING, STATE_RUNNING, STATE_WORDS,
};
use ::guard::ENTRY_PAGES;
use std::hint::black_box;

#[derive(Clone, Copy, PartialEq, Eq)]
pub enum Mode {
    Kernel(u16),
    User(u16),
}

#[derive(Clone, Copy, PartialEq, Eq)]
pub struct State {
    pub pages: u16,
    pub frames: u16,
    pub entry_count: u16,
    pub entry_pages: [u16; ENTRY_PAGES],
    pub mode: Mode,
    pub devices: u16,
    /// The three words of a pending pair, as they stand in the run: those that are not read may be any.
    pub pending: [u64; 3],
}

#[derive(Clone, Copy, PartialEq, Eq)]
pub enum Answer {
    Done(u64, u64),
    Refused(u64),
}

#[derive(Clone, Copy)]
pub struct Called {
    pub answer: Answer,
    pub state: State,
}

/// A run of numbers that holds neither zeros nor an answer, so that a call which does not write it is seen.
pub const UNWRITTEN: [u64; NUMBERS] = [0xdead, 0xbeef];

pub fn words(s: State) -> [u64; STATE_WORDS] {
    let mut run = [0; STATE_WORDS];
    run[STATE_PAGES] = s.pages.into();
    run[STATE_FRAMES] = s.frames.into();
    run[STATE_ENTRIES] = s.entry_count.into();
    for (word, page) in run[STATE_ENTRY..].iter_mut().zip(s.entry_pages) {
        *word = page.into();
    }
    let (mode, page) = match s.mode {
        Mode::Kernel(page) => (MODE_KERNEL, page),
        Mode::User(page) => (MODE_USER, page),
    };
    run[STATE_MODE] = mode;
    run[STATE_RUNNING] = page.into();
    run[STATE_DEVICES] = s.devices.into();
    run[STATE_PENDING..].copy_from_slice(&s.pending);
    run
}

/// A word of a run that the archive wrote, or that came from `words`: it fits its field.
fn field(word: u64) -> u16 {
    word.try_into().expect("a word of the state run fits its field")
}

fn state(run: [u64; STATE_WORDS]) -> State {
    let page = field(run[STATE_RUNNING]);
    State {
        pages: field(run[STATE_PAGES]),
        frames: field(run[STATE_FRAMES]),
        entry_count: field(run[STATE_ENTRIES]),
        entry_pages: std::array::from_fn(|i| field(run[STATE_ENTRY + i])),
        mode: match run[STATE_MODE] {
            MODE_KERNEL => Mode::Kernel(page),
            MODE_USER => Mode::User(page),
            other => panic!("mode word {other}"),
        },
        devices: field(run[STATE_DEVICES]),
        pending: std::array::from_fn(|i| run[STATE_PENDING + i]),
    }
}

/// "with the call's other numbers 0": a refused call that leaves other numbers is told apart from every wanted answer.
pub fn answer(number: u64, numbers: [u64; NUMBERS]) -> Answer {
    match (number, numbers) {
        (0, [first, second]) => Answer::Done(first, second),
        (number, [0, 0]) => Answer::Refused(number),
        (number, numbers) => panic!("refused with {number} and the numbers {numbers:?}"),
    }
}

/// The run is the caller's: a start takes one with any words, and a refused start leaves them as they were.
pub fn start(
    policy: &[u8],
    devices: u64,
    run: &mut [u64; STATE_WORDS],
    shadow: &mut [u64],
    map: &mut [u16],
    exclusion: &mut [u8],
) -> Answer {
    let mut numbers = UNWRITTEN;
    let number = archive::start(policy, devices, run, shadow, map, exclusion, &mut numbers);
    answer(number, numbers)
}

pub fn sync_page(
    s: State,
    kernel: &[u64],
    shadow: &mut [u64],
    map: &mut [u16],
    exclusion: &[u8],
    page: u64,
) -> Answer {
    let mut numbers = UNWRITTEN;
    let number = archive::sync_page(&words(s), kernel, shadow, map, exclusion, page, &mut numbers);
    answer(number, numbers)
}

pub fn sync_all(
    s: State,
    kernel: &[u64],
    shadow: &mut [u64],
    map: &mut [u16],
    exclusion: &[u8],
) -> Answer {
    let mut numbers = UNWRITTEN;
    let number = archive::sync_all(&words(s), kernel, shadow, map, exclusion, &mut numbers);
    answer(number, numbers)
}

/// A run of tables, the number of its root table and its depth.
#[derive(Clone, Copy)]
pub struct Tree<'a> {
    pub tables: &'a [u64],
    pub root: u64,
    pub depth: u64,
}

pub fn walk(tree: Tree, page: u64) -> Answer {
    let Tree { tables, root, depth } = tree;
    let mut numbers = UNWRITTEN;
    let number = archive::walk(tables, root, depth, page, &mut numbers);
    answer(number, numbers)
}

pub fn sync_page_tree(
    s: State,
    tree: Tree,
    shadow: &mut [u64],
    map: &mut [u16],
    exclusion: &[u8],
    page: u64,
) -> Answer {
    let Tree { tables, root, depth } = tree;
    let run = words(s);
    let mut numbers = UNWRITTEN;
    let number = archive::sync_page_tree(
        &run,
        tables,
        root,
        depth,
        shadow,
        map,
        exclusion,
        page,
        &mut numbers,
    );
    answer(number, numbers)
}

pub fn sync_all_tree(
    s: State,
    tree: Tree,
    shadow: &mut [u64],
    map: &mut [u16],
    exclusion: &[u8],
) -> Answer {
    let Tree { tables, root, depth } = tree;
    let run = words(s);
    let mut numbers = UNWRITTEN;
    let number =
        archive::sync_all_tree(&run, tables, root, depth, shadow, map, exclusion, &mut numbers);
    answer(number, numbers)
}

pub fn fetch(s: State, shadow: &[u64], page: u64) -> Called {
    let (mut run, mut numbers) = (words(s), UNWRITTEN);
    let number = archive::fetch(&mut run, shadow, page, &mut numbers);
    Called { answer: answer(number, numbers), state: state(run) }
}

pub fn write(s: State, shadow: &[u64], exclusion: &[u8], address: u64, length: u64) -> Answer {
    let mut numbers = UNWRITTEN;
    let number = archive::write(&words(s), shadow, exclusion, address, length, &mut numbers);
    answer(number, numbers)
}

pub fn enter(s: State, shadow: &mut [u64], index: u64) -> Called {
    let (mut run, mut numbers) = (words(s), UNWRITTEN);
    let number = archive::enter(&mut run, shadow, index, &mut numbers);
    Called { answer: answer(number, numbers), state: state(run) }
}

pub fn leave(s: State, shadow: &mut [u64], page: u64) -> Called {
    let (mut run, mut numbers) = (words(s), UNWRITTEN);
    let number = archive::leave(&mut run, shadow, page, &mut numbers);
    Called { answer: answer(number, numbers), state: state(run) }
}

/// The list is lent to be read: a call that writes it is told apart from every wanted answer.
pub fn device_write(
    s: State,
    exclusion: &[u8],
    devices: &[Device],
    device: u64,
    address: u64,
    length: u64,
) -> Answer {
    let (run, list) = (words(s), devices.to_vec());
    let mut numbers = UNWRITTEN;
    let number =
        archive::device_write(&run, exclusion, &list, device, address, length, &mut numbers);
    assert!(*black_box(&list) == *devices, "the list of devices is changed");
    answer(number, numbers)
}

pub fn ask(
    s: State,
    shadow: &[u64],
    map: &[u16],
    exclusion: &mut [u8],
    page: u64,
    frame: u64,
) -> Called {
    let (mut run, mut numbers) = (words(s), UNWRITTEN);
    let number = archive::ask(&mut run, shadow, map, exclusion, page, frame, &mut numbers);
    Called { answer: answer(number, numbers), state: state(run) }
}

pub fn commit(s: State, shadow: &mut [u64], map: &mut [u16]) -> Called {
    let (mut run, mut numbers) = (words(s), UNWRITTEN);
    let number = archive::commit(&mut run, shadow, map, &mut numbers);
    Called { answer: answer(number, numbers), state: state(run) }
}

pub fn drop(s: State, exclusion: &mut [u8]) -> Called {
    let (mut run, mut numbers) = (words(s), UNWRITTEN);
    let number = archive::drop(&mut run, exclusion, &mut numbers);
    Called { answer: answer(number, numbers), state: state(run) }
}

/// The sizes are V, F, n and e.
pub fn write_record(sizes: [u64; 4], pages: &[u16], frames: &[u16], buffer: &mut [u8]) -> Answer {
    let [v, f, n, e] = sizes;
    let mut numbers = UNWRITTEN;
    let number = archive::write_record(v, f, n, e, pages, frames, buffer, &mut numbers);
    answer(number, numbers)
}
