//! The pending pair in the state run: request K6's three words, which only ask, commit, drop and the start write.
//! Other runs than a guard's own go through the archive's functions.

mod common;

use common::one_device;
use guard::archive::{
    self, NUMBERS, STATE_DEVICES, STATE_PENDING, STATE_PENDING_FRAME, STATE_PENDING_PAGE,
    STATE_WORDS,
};
use guard::Guard;
use inputs::record;

/// The driver's page and frame.
const DRIVER: u64 = 4;
const FRAME: u64 = 6;

const KERNEL: [u64; 7] = [0, 0x2001, 0x9001, 0, 0, 0x3007, 0];

/// V 7, F 12, entry page 1 with frame 2, and page 2 with frame 9.
fn started() -> Guard {
    let policy = record(7, 12, 1, &[(1, 2), (2, 9)]);
    Guard::start(&policy, one_device()).expect("the start is accepted")
}

/// A guard that was asked for the driver.
fn asked() -> Guard {
    let mut guard = started();
    assert_eq!(guard.ask(DRIVER, FRAME), Ok(()));
    guard
}

fn words(guard: &Guard) -> [u64; 3] {
    [STATE_PENDING, STATE_PENDING_PAGE, STATE_PENDING_FRAME].map(|word| guard.state()[word])
}

fn pair(guard: &Guard) -> Option<(u64, u64)> {
    guard.pending().map(|pending| (pending.page, pending.frame))
}

/// "the state holds at most one pending pair": ask writes its three words, commit and drop write 0 there.
#[test]
fn the_words_of_the_pair() {
    let mut guard = started();
    assert_eq!((words(&guard), pair(&guard)), ([0, 0, 0], None));
    guard.ask(DRIVER, FRAME).unwrap();
    assert_eq!((words(&guard), pair(&guard)), ([1, DRIVER, FRAME], Some((DRIVER, FRAME))));
    let mut dropped = asked();
    dropped.drop_pending().unwrap();
    assert_eq!((words(&dropped), pair(&dropped)), ([0, 0, 0], None));
    guard.commit().unwrap();
    assert_eq!((words(&guard), pair(&guard)), ([0, 0, 0], None));
    // Page 0 and frame 0 are a pair as any other.
    guard.ask(0, 0).unwrap();
    assert_eq!((words(&guard), pair(&guard)), ([1, 0, 0], Some((0, 0))));
}

/// Fetch, enter, leave, both writes and synchronisations leave the three words as they stand.
#[test]
fn other_calls_leave_the_words() {
    let mut guard = asked();
    let before = words(&guard);
    guard.synchronise_all(&KERNEL).unwrap();
    guard.synchronise_page(&KERNEL, DRIVER).unwrap();
    guard.fetch(2).unwrap();
    guard.leave(5).unwrap();
    guard.enter(0).unwrap();
    guard.write(5 * 4096, 16).unwrap();
    guard.device_write(0, 0, 1).unwrap();
    assert_eq!((words(&guard), before), (before, [1, DRIVER, FRAME]));
}

/// A start writes 0 there, whatever the run held.
#[test]
fn a_start_has_nothing_pending() {
    let (mut state, mut shadow, mut map) = ([u64::MAX; STATE_WORDS], [9; 7], [9; 7]);
    let (mut exclusion, mut numbers) = ([9; 2], [9; NUMBERS]);
    let policy = record(7, 12, 1, &[(1, 2), (2, 9)]);
    let (s, sh, m, x) = (&mut state, &mut shadow, &mut map, &mut exclusion);
    assert_eq!(archive::start(&policy, 1, s, sh, m, x, &mut numbers), 0);
    assert_eq!(&state, started().state());
    assert_eq!(state[STATE_PENDING..], [0, 0, 0]);
}

/// What a call answered, and what it left of its runs, the words of the pair aside.
#[derive(Debug, PartialEq)]
struct Left {
    number: u64,
    numbers: [u64; NUMBERS],
    state: Vec<u64>,
    shadow: Vec<u64>,
    map: Vec<u16>,
    exclusion: Vec<u8>,
}

/// What each call of the archive leaves on a state run, with the tables of the driver's guard.
fn on_run(run: &[u64]) -> [Left; 12] {
    let guard = asked();
    let tree = [0x3007; 512];
    std::array::from_fn(|call| {
        let (mut state, mut shadow) = (run.to_vec(), guard.shadow().to_vec());
        let (mut map, mut exclusion) = (guard.map().to_vec(), guard.exclusion().to_vec());
        let (s, sh, m, x) = (&mut state, &mut shadow, &mut map, &mut exclusion);
        let mut numbers = [7; NUMBERS];
        let n = &mut numbers;
        let number = match call {
            0 => archive::sync_page(s, &KERNEL, sh, m, x, 5, n),
            1 => archive::sync_all(s, &KERNEL, sh, m, x, n),
            2 => archive::sync_page_tree(s, &tree, 0, 1, sh, m, x, 0, n),
            3 => archive::sync_all_tree(s, &tree, 0, 1, sh, m, x, n),
            4 => archive::fetch(s, sh, 1, n),
            5 => archive::write(s, sh, x, 0, 0, n),
            6 => archive::enter(s, sh, 1, n),
            7 => archive::leave(s, sh, 7, n),
            8 => archive::device_write(s, x, guard.devices(), 0, 0, 1, n),
            9 => archive::ask(s, sh, m, x, 7, 0, n),
            10 => archive::commit(s, sh, m, n),
            _ => archive::drop(s, x, n),
        };
        // None of these calls is an accepted one that writes the pair.
        assert_eq!(state.get(STATE_PENDING..), run.get(STATE_PENDING..));
        state.truncate(STATE_PENDING);
        Left { number, numbers, state, shadow, map, exclusion }
    })
}

/// Every call gives 7 on this state run, and changes nothing.
fn assert_all_give_7(run: &[u64]) {
    let guard = asked();
    for left in on_run(run) {
        assert_eq!((left.number, left.numbers), (7, [0, 0]), "{run:x?}");
        assert_eq!(left.state, run[..run.len().min(STATE_PENDING)]);
        assert_eq!((&left.shadow[..], &left.map[..]), (guard.shadow(), guard.map()));
        assert_eq!(left.exclusion, guard.exclusion());
    }
}

/// The run of the driver's guard with other words for the pair.
fn with_words(words: [u64; 3]) -> [u64; STATE_WORDS] {
    let mut run = *asked().state();
    run[STATE_PENDING..].copy_from_slice(&words);
    run
}

/// "Question 7 wants a pending pair below V and F", of every call; a word is neither cut nor anything but 0 or 1.
#[test]
fn states_with_another_pair_give_7() {
    let pairs = [
        [2, DRIVER, FRAME],
        [256, DRIVER, FRAME],
        [1 << 32, DRIVER, FRAME],
        [1 << 32 | 1, DRIVER, FRAME],
        [u64::MAX, 0, 0],
        [1, 7, FRAME],
        [1, 65536 + DRIVER, FRAME],
        [1, 1 << 32 | DRIVER, FRAME],
        [1, u64::MAX, FRAME],
        [1, DRIVER, 12],
        [1, DRIVER, 65536 + FRAME],
        [1, DRIVER, 1 << 32 | FRAME],
        [1, DRIVER, u64::MAX],
    ];
    for words in pairs {
        assert_all_give_7(&with_words(words));
    }
}

/// Where none is pending both words of the pair are not read: each call leaves the same, whatever they hold. The last has an approved
/// page, and the frame of a page that is synchronised.
#[test]
fn the_pair_is_not_read_where_none_is_pending() {
    let expected = on_run(&with_words([0, 0, 0]));
    let numbers: Vec<_> = expected.iter().map(|left| left.number).collect();
    assert_eq!(numbers, [0, 0, 0, 0, 0, 8, 9, 9, 0, 9, 22, 22]);
    let pairs = [[7, 12], [DRIVER, FRAME], [u64::MAX, u64::MAX], [1 << 32, 65536], [1, 3]];
    for [page, frame] in pairs {
        let words = [0, page, frame];
        let run = with_words(words);
        assert_eq!(on_run(&run), expected, "{words:x?}");
        let mut guard = started();
        let mut state = run;
        let mut exclusion = guard.exclusion().to_vec();
        let mut numbers = [7; NUMBERS];
        let number = archive::ask(
            &mut state,
            guard.shadow(),
            guard.map(),
            &mut exclusion,
            DRIVER,
            FRAME,
            &mut numbers,
        );
        guard.ask(DRIVER, FRAME).unwrap();
        assert_eq!((number, numbers, &state), (0, [0, 0], guard.state()), "{words:x?}");
    }
}

/// A state run of the version before this request has 22 words.
#[test]
fn a_state_run_without_a_pair_gives_7() {
    for length in [STATE_DEVICES, STATE_PENDING, STATE_WORDS - 2, STATE_WORDS - 1] {
        assert_all_give_7(&with_words([0, 0, 0])[..length]);
    }
}
