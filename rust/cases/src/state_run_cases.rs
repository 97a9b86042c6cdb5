// The state run of every call: 25 words, of which word 21 is the number of devices (K5), and words 22 to 24 are a pending pair (K6). "A word
// of the state that is wider than its field, or out of its range, gives 7; the pair's words [..] only where a pair is pending", and so does a
// run of another length, that of before K6 included. Nothing is changed then. An accepted call leaves each word that it does not change.
// The numbers run of every call has two words.
use crate::calls::words;
use crate::calls::Mode::Kernel;
use crate::calls::Mode::User;
use crate::calls::State;
use crate::guard;
use crate::tally::Tally;
use ::guard::archive;
use ::guard::Device;

// What the calls are lent beside both runs: page 0 is an ordinary user page, and the exclusion vector is that of pages 1 and 3.
#[derive(Clone, PartialEq)]
struct Tables {
    shadow: [u64; 4],
    map: [u16; 4],
    exclusion: [u8; 2],
}

fn tables() -> Tables {
    Tables {
        shadow: [0x8000000000003007, 0x2401, 0, 0x8401],
        map: [65535, 2, 65535, 8],
        exclusion: [0x04, 0x01],
    }
}

// The kernel maps page 0 to frame 3 and nothing else; flat, and as a table of depth 1.
const KERNEL: [u64; 4] = [0x3007, 0, 0, 0];

fn tree() -> Vec<u64> {
    guard::run_of(1, &[(0, 0, 0x3007)])
}

// A call on a state run and a numbers run.
type OnRun = fn(&mut [u64], &mut Tables, &mut [u64]) -> u64;

// V 4, F 9, e 2, three devices, in kernel mode on page 1, or in user mode on page 0; page 2 is pending with frame 5, or nothing is.
fn kernel() -> State {
    guard::state_in(Kernel(1))
}

fn user() -> State {
    guard::state_in(User(0))
}

fn pending() -> State {
    State { pending: [1, 2, 5], ..kernel() }
}

// The last six words of the run, from the mode on, after a call that changes none of them.
const KEPT: [u64; 6] = [0, 1, 3, 0, 0, 0];

// A call: its name, the state that it is made in, the numbers that it gives where the run is in order, and the last six words of the run
// after it.
type Called = (&'static str, State, OnRun, [u64; 2], [u64; 6]);

// Every call with a state.
fn calls() -> [Called; 12] {
    [
        (
            "sync_page",
            kernel(),
            |state, Tables { shadow, map, exclusion }, numbers| {
                archive::sync_page(state, &KERNEL, shadow, map, exclusion, 1, numbers)
            },
            [1, 0],
            KEPT,
        ),
        (
            "sync_all",
            kernel(),
            |state, Tables { shadow, map, exclusion }, numbers| {
                archive::sync_all(state, &KERNEL, shadow, map, exclusion, numbers)
            },
            [2, 0],
            KEPT,
        ),
        (
            "sync_page_tree",
            kernel(),
            |state, Tables { shadow, map, exclusion }, numbers| {
                archive::sync_page_tree(state, &tree(), 0, 1, shadow, map, exclusion, 1, numbers)
            },
            [1, 0],
            KEPT,
        ),
        (
            "sync_all_tree",
            kernel(),
            |state, Tables { shadow, map, exclusion }, numbers| {
                archive::sync_all_tree(state, &tree(), 0, 1, shadow, map, exclusion, numbers)
            },
            [2, 0],
            KEPT,
        ),
        (
            "fetch",
            kernel(),
            |state, tables, numbers| archive::fetch(state, &tables.shadow, 3, numbers),
            [8, 8],
            [0, 3, 3, 0, 0, 0],
        ),
        (
            "write",
            kernel(),
            |state, Tables { shadow, exclusion, .. }, numbers| {
                archive::write(state, shadow, exclusion, 0, 16, numbers)
            },
            [3, 3],
            KEPT,
        ),
        (
            "enter",
            user(),
            |state, tables, numbers| archive::enter(state, &mut tables.shadow, 1, numbers),
            [0, 0],
            [0, 3, 3, 0, 0, 0],
        ),
        (
            "leave",
            kernel(),
            |state, tables, numbers| archive::leave(state, &mut tables.shadow, 0, numbers),
            [3, 0],
            [1, 0, 3, 0, 0, 0],
        ),
        (
            "device_write",
            kernel(),
            |state, tables, numbers| {
                let devices = [Device::new(1, 0), Device::new(1, 0), Device::new(3, 7)];
                archive::device_write(state, &tables.exclusion, &devices, 2, 12288, 20480, numbers)
            },
            [3, 7],
            KEPT,
        ),
        (
            "ask",
            kernel(),
            |state, Tables { shadow, map, exclusion }, numbers| {
                archive::ask(state, shadow, map, exclusion, 2, 5, numbers)
            },
            [0, 0],
            [0, 1, 3, 1, 2, 5],
        ),
        (
            "commit",
            pending(),
            |state, Tables { shadow, map, .. }, numbers| {
                archive::commit(state, shadow, map, numbers)
            },
            [1, 1],
            KEPT,
        ),
        (
            "drop",
            pending(),
            |state, Tables { exclusion, .. }, numbers| archive::drop(state, exclusion, numbers),
            [0, 0],
            KEPT,
        ),
    ]
}

// A run as it is, so that the runs below differ from it in one thing.
fn in_order(t: Tally) -> Tally {
    let mut t = t;
    for (call, state, on_run, wanted, last) in calls() {
        let (mut run, mut numbers) = (words(state), [77; 2]);
        let number = on_run(&mut run, &mut tables(), &mut numbers);
        let mut left = [4, 9, 2, 1, 3, 0, 0, 0, 0, 0, 0, 0, 0, 0, 0, 0, 0, 0, 0, 0, 0, 0, 0, 0, 0];
        left[19..].copy_from_slice(&last);
        let is_right = number == 0 && numbers == wanted && run == left;
        t = t.case(call, "a state run of 25 words", is_right);
    }
    t
}

fn refused(t: Tally, name: &str, damage: impl Fn(&mut Vec<u64>)) -> Tally {
    let mut t = t;
    for (call, state, on_run, ..) in calls() {
        let mut given = words(state).to_vec();
        damage(&mut given);
        let (mut state, mut left, mut numbers) = (given.clone(), tables(), [77; 2]);
        let number = on_run(&mut state, &mut left, &mut numbers);
        let unchanged = state == given && left == tables();
        t = t.case(call, name, number == 7 && numbers == [0, 0] && unchanged);
    }
    t
}

// "a number outside that gives [..] 7 later". Word 21 is 3.
fn devices(t: Tally) -> Tally {
    let with = |devices: u64| move |run: &mut Vec<u64>| run[21] = devices;
    let t = refused(t, "a word of 0 devices", with(0));
    let t = refused(t, "a word of 65 devices", with(65));
    let t = refused(t, "a word of 65535 devices", with(65535));
    let t = refused(t, "a word of 65539 devices", with(65539));
    let t = refused(t, "a word of 2^32 + 3 devices", with(4294967299));
    let t = refused(t, "a word of 2^63 + 3 devices", with(9223372036854775811));
    refused(t, "the highest number of devices", with(18446744073709551615))
}

// Words 22 to 24 are 0, or 1, 2 and 5.
fn pair(t: Tally) -> Tally {
    let with = |pair: [u64; 3]| move |run: &mut Vec<u64>| run[22..].copy_from_slice(&pair);
    let t = refused(t, "a word 22 of 2", with([2, 2, 5]));
    let t = refused(t, "a word 22 of 2 and no pair", with([2, 0, 0]));
    let t = refused(t, "a word 22 of 65536", with([65536, 2, 5]));
    let t = refused(t, "a word 22 of 65537", with([65537, 2, 5]));
    let t = refused(t, "a word 22 of 2^32 + 1", with([4294967297, 2, 5]));
    let t = refused(t, "the highest word 22", with([18446744073709551615, 2, 5]));
    let t = refused(t, "a word 23 of V", with([1, 4, 5]));
    let t = refused(t, "a word 23 of 65538", with([1, 65538, 5]));
    let t = refused(t, "a word 23 of 2^32 + 2", with([1, 4294967298, 5]));
    let t = refused(t, "a word 23 of 2^63 + 2", with([1, 9223372036854775810, 5]));
    let t = refused(t, "the highest word 23", with([1, 18446744073709551615, 5]));
    let t = refused(t, "a word 24 of F", with([1, 2, 9]));
    let t = refused(t, "a word 24 of 65541", with([1, 2, 65541]));
    let t = refused(t, "a word 24 of 2^32 + 5", with([1, 2, 4294967301]));
    let t = refused(t, "a word 24 of 2^63 + 5", with([1, 2, 9223372036854775813]));
    refused(t, "the highest word 24", with([1, 2, 18446744073709551615]))
}

fn lengths(t: Tally) -> Tally {
    let t = refused(t, "a state run of 24 words", |run| run.truncate(24));
    let t = refused(t, "a state run of 23 words", |run| run.truncate(23));
    let t = refused(t, "a state run of 22 words", |run| run.truncate(22));
    let t = refused(t, "a state run of 21 words", |run| run.truncate(21));
    let t = refused(t, "an empty state run", |run| run.clear());
    let t = refused(t, "a state run of 26 words", |run| run.push(0));
    refused(t, "a state run of 26 words, the last of them 5", |run| run.push(5))
}

// A numbers run of another length is not written.
fn numbers(t: Tally) -> Tally {
    let mut t = t;
    for (name, length) in
        [("an empty numbers run", 0), ("a numbers run of 1", 1), ("a numbers run of 3", 3)]
    {
        for (call, state, on_run, ..) in calls() {
            let given = words(state);
            let (mut state, mut left, mut numbers) = (given, tables(), vec![77; length]);
            let number = on_run(&mut state, &mut left, &mut numbers);
            let unchanged = state == given && left == tables() && numbers == vec![77; length];
            t = t.case(call, name, number == 7 && unchanged);
        }
    }
    t
}

// A start asks for the length of the run after all else, and reads none of its words.
fn starts(t: Tally) -> Tally {
    let record = [4, 0, 9, 0, 2, 0, 2, 0, 1, 0, 3, 0, 2, 0, 8, 0];
    let mut t = t;
    for (name, length, devices, wanted) in [
        ("a state run of 21 words", 21, 3, 7),
        ("a state run of 22 words", 22, 3, 7),
        ("a state run of 24 words", 24, 3, 7),
        ("a state run of 26 words", 26, 3, 7),
        ("an empty state run", 0, 3, 7),
        ("a state run of 22 words and 0 devices", 22, 0, 3),
        ("a state run of 26 words and 65 devices", 26, 65, 3),
        ("a state run of 24 words and 65537 devices", 24, 65537, 3),
    ] {
        let mut state = vec![99; length];
        let (mut left, mut numbers) = (tables(), [77; 2]);
        let Tables { shadow, map, exclusion } = &mut left;
        let number =
            archive::start(&record, devices, &mut state, shadow, map, exclusion, &mut numbers);
        let unchanged = state == vec![99; length] && left == tables();
        t = t.case("start", name, number == wanted && numbers == [0, 0] && unchanged);
    }
    t
}

pub fn all(t: Tally) -> Tally {
    let t = in_order(t);
    let t = devices(t);
    let t = pair(t);
    let t = lengths(t);
    let t = numbers(t);
    starts(t)
}
