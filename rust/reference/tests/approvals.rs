//! Ask, commit and drop (K6), questions 20 to 22, synchronising while a pair is pending, and the three words of the pair.
//! Most tests stand on eight pages and nine frames: page 1 is approved for frame 2 and page 3 for frame 8.

mod common;

use common::{record, refused, Guard};
use inputs::Random;
use reference::claim::{Call, Claim, Reaching};
use reference::{
    boundary, mistaken, Answer, AskToCommit, Mistake, Mode, Pair, State, Tree, NO_FRAME,
};

const NO_EXECUTE: u64 = 1 << 63;

fn nine_frames() -> Guard {
    Guard::started(&record(8, 9, 1, &[(1, 2), (3, 8)]))
}

/// The same with its mode replaced by user.
fn in_user_mode() -> Guard {
    let mut guard = nine_frames();
    guard.state.mode = Mode::User(1);
    guard
}

const fn pair(page: u16, frame: u16) -> Option<Pair> {
    Some(Pair { page, frame })
}

/// The answer of a refused call, which changes nothing.
fn assert_refused(guard: &Guard, call: impl Fn(&mut Guard) -> Answer, number: u8) {
    let mut after = guard.clone();
    assert_eq!(call(&mut after), refused(number));
    assert_eq!(after, *guard);
}

#[test]
fn an_ask_excludes_the_frame_and_is_pending() {
    for (page, frame, exclusion) in
        [(0, 5, [0x24, 0x01]), (7, 0, [0x05, 0x01]), (2, 7, [0x84, 0x01])]
    {
        let before = nine_frames();
        let mut guard = before.clone();
        assert_eq!(guard.ask(page, frame), Ok((0, 0)));
        assert_eq!(guard.exclusion, exclusion);
        assert_eq!(guard.state.pending, pair(page as u16, frame as u16));
        guard.exclusion = before.exclusion.clone();
        guard.state.pending = None;
        assert_eq!(guard, before, "an ask changes nothing else");
    }
}

/// Every page and frame that exists and conflicts with nothing is accepted, and no other.
#[test]
fn every_page_and_every_frame() {
    let guard = nine_frames();
    for page in 0..10 {
        for frame in 0..11 {
            let wanted = if page >= 8 || frame >= 9 {
                refused(9)
            } else if [1, 3].contains(&page) || [2, 8].contains(&frame) {
                refused(20)
            } else {
                Ok((0, 0))
            };
            assert_eq!(guard.clone().ask(page, frame), wanted, "{page} {frame}");
        }
    }
    for wide in [1 << 16, 1 << 32, 1 << 63] {
        assert_refused(&guard, |guard| guard.ask(wide, 5), 9);
        assert_refused(&guard, |guard| guard.ask(0, wide + 5), 9);
        assert_refused(&guard, |guard| guard.ask(wide + 7, wide), 9);
    }
}

#[test]
fn the_four_ways_into_20() {
    let mut guard = nine_frames();
    assert_refused(&guard, |guard| guard.ask(1, 5), 20);
    assert_refused(&guard, |guard| guard.ask(0, 2), 20);
    assert_eq!(guard.ask(0, 5), Ok((0, 0)));
    assert_refused(&guard, |guard| guard.ask(4, 6), 20);
    assert_refused(&guard, |guard| guard.ask(0, 5), 20);
    // The asked page joins with frame 2 before the commit.
    assert_eq!(guard.synchronise(0, 0x2007), Ok((1, 1)));
    assert_refused(&guard, Guard::commit, 20);
    assert_eq!(guard.drop_pending(), Ok((0, 0)));
    assert_refused(&guard, |guard| guard.ask(0, 5), 20);
    assert_eq!(guard.ask(4, 5), Ok((0, 0)));
}

/// "Has an approval" is the map's word: a mark in the shadow entry is none.
#[test]
fn an_approval_is_a_number_in_the_map() {
    let mut guard = nine_frames();
    guard.shadow[0] = 0x7401;
    assert_eq!(guard.clone().ask(0, 5), Ok((0, 0)));
    guard.map[0] = 60000;
    assert_refused(&guard, |guard| guard.ask(0, 5), 20);
    guard.state.pending = pair(0, 5);
    assert_refused(&guard, Guard::commit, 20);
}

/// 21: bits 0 and 1 and the frame, on any page, approved ones included.
#[test]
fn a_frame_that_is_mapped_writable() {
    for page in 0..8 {
        for (entry, is_writable) in [
            (0x5003, true),
            (0x5002, false),
            (0x5001, false),
            (0x4003, false),
            (0x6003, false),
            (NO_EXECUTE | 0x5207, true),
            (0x7ff0_0000_0000_5ffb, true),
            (NO_EXECUTE | 0x5205, false),
            (0x0008_0000_0000_5003, false),
            (0xffff_ffff_ffff_fffe, false),
        ] {
            let mut guard = nine_frames();
            guard.shadow[page] = entry;
            let wanted = if is_writable { refused(21) } else { Ok((0, 0)) };
            assert_eq!(guard.ask(0, 5), wanted, "{page} {entry:x}");
        }
    }
}

/// 7, 9, 20, 21: an input for each that fails it with all that come after.
#[test]
fn the_order_of_the_questions() {
    let mut guard = nine_frames();
    guard.shadow[4] = 0x2003;
    guard.state.pending = pair(0, 5);
    guard.map[0] = 4;
    assert_refused(&guard, |guard| guard.ask(0, 2), 20);
    assert_refused(&guard, |guard| guard.ask(8, 2), 9);
    assert_refused(&guard, |guard| guard.ask(0, 9), 9);
    guard.state.pending = None;
    assert_refused(&guard, |guard| guard.ask(0, 2), 20);
    guard.map[0] = NO_FRAME;
    assert_refused(&guard, |guard| guard.ask(0, 2), 20);
    guard.exclusion = vec![0, 1];
    assert_refused(&guard, |guard| guard.ask(0, 2), 21);
    guard.map.pop();
    assert_refused(&guard, |guard| guard.ask(8, 9), 7);
    assert_refused(&guard, Guard::commit, 7);
    guard.exclusion.pop();
    assert_refused(&guard, Guard::drop_pending, 7);
}

#[test]
fn nothing_is_pending() {
    let mut guard = nine_frames();
    assert_refused(&guard, Guard::commit, 22);
    assert_refused(&guard, Guard::drop_pending, 22);
    for end in [Guard::commit, Guard::drop_pending] {
        assert_eq!(guard.ask(0, 5), Ok((0, 0)));
        assert!(end(&mut guard).is_ok());
        assert_refused(&guard, Guard::commit, 22);
        assert_refused(&guard, Guard::drop_pending, 22);
        guard.map[0] = NO_FRAME;
        guard.exclusion = vec![0x04, 0x01];
    }
}

/// The entry of a page with the pending frame 5 in kernel and in user mode, by its kernel entry: not writable, bit 9, bits 2 to 4 kept.
const RESTRICTED: [(u64, u64); 8] = [
    (0x5003, NO_EXECUTE | 0x5201),
    (0x5001, NO_EXECUTE | 0x5201),
    (0x5007, NO_EXECUTE | 0x5205),
    (0x5005, NO_EXECUTE | 0x5205),
    (0x501f, NO_EXECUTE | 0x521d),
    (0x500b, NO_EXECUTE | 0x5209),
    (NO_EXECUTE | 0x5013, NO_EXECUTE | 0x5211),
    (NO_EXECUTE | 0x5fe7, NO_EXECUTE | 0x5205),
];

#[test]
fn a_page_with_the_pending_frame() {
    for start in [nine_frames, in_user_mode] {
        for (entry, shadow) in RESTRICTED {
            // The asked page and another.
            for page in [0, 4] {
                let mut guard = start();
                assert_eq!(guard.ask(0, 5), Ok((0, 0)));
                assert_eq!(guard.synchronise(page, entry), Ok((1, 0)), "{entry:x}");
                assert_eq!(guard.shadow[page], shadow, "{entry:x}");
                assert_eq!(guard.map[page], NO_FRAME);
                assert_eq!(guard.synchronise_all().unwrap().1, 0);
                assert_eq!(guard.shadow[page], shadow, "{entry:x}");
                assert_eq!(guard.state.pending, pair(0, 5));
            }
        }
    }
}

/// From a tree: the last entry has frame 5 and all bits, the one above is not user. Writable is cleared, whatever the levels say.
#[test]
fn a_page_of_a_tree_with_the_pending_frame() {
    let mut tables = vec![0; 1024];
    tables[0] = 0x1003;
    tables[512 + 4] = 0x501f;
    tables[512 + 6] = 0x6007;
    let tree = Tree { tables: &tables, root: 0, depth: 2 };
    for start in [nine_frames, in_user_mode] {
        let mut guard = start();
        assert_eq!(guard.ask(0, 5), Ok((0, 0)));
        let Guard { state, shadow, map, exclusion, .. } = &mut guard;
        let one = reference::synchronise_one_from_tree(state, tree, shadow, map, exclusion, 4);
        assert_eq!(one, Ok((1, 0)));
        assert_eq!((shadow[4], map[4]), (NO_EXECUTE | 0x5219, NO_FRAME));
        shadow[4] = 0;
        let all = reference::synchronise_all_from_tree(state, tree, shadow, map, exclusion);
        // Pages 1 and 3 are absent in the tree.
        assert_eq!(all, Ok((4, 0)));
        let wanted = [0, 0, 0, 0, NO_EXECUTE | 0x5219, 0, NO_EXECUTE | 0x6003, 0];
        assert_eq!((&shadow[..], map[4]), (&wanted[..], NO_FRAME));
    }
}

/// Steps 1 to 3 come before the rule: an absent entry, an approved page, a frame beyond the last that has the same lower bits.
#[test]
fn steps_before_the_rule() {
    for (start, approved) in
        [(nine_frames as fn() -> Guard, 0x2401), (in_user_mode, NO_EXECUTE | 0x2401)]
    {
        let mut guard = start();
        assert_eq!(guard.ask(0, 5), Ok((0, 0)));
        for entry in [0x5006, 1 << 52 | 0x5007, 1 << 62 | 0x5003, 0x1000_5003, 1 << 44 | 0x5003] {
            guard.shadow[4] = 0x1234;
            assert_eq!(guard.synchronise(4, entry), Ok((1, 0)), "{entry:x}");
            assert_eq!((guard.shadow[4], guard.map[4]), (0, NO_FRAME), "{entry:x}");
        }
        guard.shadow[1] = 0;
        assert_eq!(guard.synchronise(1, 0x5007), Ok((1, 0)));
        assert_eq!((guard.shadow[1], guard.map[1]), (approved, 2));
    }
}

/// The frames beside the pending one are no other than before: an excluded one is joined, an ordinary one stays writable.
#[test]
fn other_frames_while_one_is_pending() {
    let mut guard = nine_frames();
    assert_eq!(guard.ask(0, 5), Ok((0, 0)));
    guard.kernel = vec![0x4007, 0x5007, 0x2003, 0x5003, 0x6003, 0x5007, 0x8007, 0];
    assert_eq!(guard.synchronise_all(), Ok((5, 2)));
    let (none, frame) = (NO_FRAME, |frame: u64| frame << 12 | 0x401);
    let ordinary = |entry: u64| NO_EXECUTE | entry;
    assert_eq!(
        guard.shadow,
        [
            ordinary(0x4007),
            frame(2),
            frame(2),
            frame(8),
            ordinary(0x6003),
            ordinary(0x5205),
            frame(8),
            0
        ]
    );
    assert_eq!(guard.map, [none, 2, 2, 8, none, none, 8, none]);
}

/// The rule does not read the exclusion vector: the bit of the pending frame may be clear in a damaged one.
#[test]
fn the_rule_reads_no_exclusion_bit() {
    let mut guard = nine_frames();
    guard.state.pending = pair(0, 5);
    assert_eq!(guard.synchronise(4, 0x5007), Ok((1, 0)));
    assert_eq!(guard.shadow[4], NO_EXECUTE | 0x5205);
}

/// Commits with no alias, one and three, in both modes; page 3 has another number and page 6 an entry that is not present.
#[test]
fn a_commit_takes_the_pages_with_the_frame() {
    for (start, no_execute) in [(nine_frames as fn() -> Guard, 0), (in_user_mode, NO_EXECUTE)] {
        let approved = no_execute | 0x5401;
        for aliases in [0, 1, 3] {
            let mut guard = start();
            assert_eq!(guard.ask(2, 5), Ok((0, 0)));
            guard.shadow[3] = 0x5001;
            guard.shadow[6] = 0x5004;
            let mut wanted = (guard.shadow.clone(), guard.map.clone());
            for page in [0, 4, 7].into_iter().take(aliases) {
                guard.shadow[page] = [0x5005, NO_EXECUTE | 0x5201, 0x7ff0_0000_0000_5ffb][page % 3];
                (wanted.0[page], wanted.1[page]) = (approved, 5);
            }
            (wanted.0[2], wanted.1[2]) = (approved, 5);
            let exclusion = guard.exclusion.clone();
            let count = aliases as u64 + 1;
            assert_eq!(guard.commit(), Ok((count, count)));
            assert_eq!((guard.shadow, guard.map), wanted);
            assert_eq!((guard.exclusion, guard.state.pending), (exclusion, None));
        }
    }
}

/// The asked page: absent, with the frame, with another one, writable, and with the entry that it gets.
#[test]
fn a_commit_approves_the_asked_page_whatever_its_entry_is() {
    for (start, approved) in
        [(nine_frames as fn() -> Guard, 0x5401), (in_user_mode, NO_EXECUTE | 0x5401)]
    {
        for found in [0, 0x5205, 0x4003, NO_EXECUTE | 0x6007, 0x5006, approved] {
            let mut guard = start();
            assert_eq!(guard.ask(2, 5), Ok((0, 0)));
            guard.shadow[2] = found;
            assert_eq!(guard.commit(), Ok((u64::from(found != approved), 1)), "{found:x}");
            assert_eq!((guard.shadow[2], guard.map[2]), (approved, 5), "{found:x}");
        }
    }
}

/// Frame 0: an entry of 0 has its number, and is not present.
#[test]
fn absent_pages_have_no_frame() {
    let mut guard = nine_frames();
    assert_eq!(guard.ask(2, 0), Ok((0, 0)));
    assert_eq!(guard.commit(), Ok((1, 1)));
    assert_eq!(guard.map, [NO_FRAME, 2, 0, 8, NO_FRAME, NO_FRAME, NO_FRAME, NO_FRAME]);
    assert_eq!(guard.shadow, [0, 0x2401, 0x401, 0x8401, 0, 0, 0, 0]);
}

/// A drop opens the frame again and no other; it may be asked for again, and so may another.
#[test]
fn a_drop_and_an_ask_again() {
    let before = nine_frames();
    let mut guard = before.clone();
    for (page, frame) in [(0, 5), (0, 5), (4, 5), (0, 6), (7, 0)] {
        assert_eq!(guard.ask(page, frame), Ok((0, 0)));
        assert_eq!(guard.device_write(4096 * frame, 1), refused(13));
        assert_eq!(guard.drop_pending(), Ok((0, 0)));
        assert_eq!(guard, before);
        assert_eq!(guard.device_write(4096 * frame, 1), Ok((frame, frame)));
    }
}

/// A driver that arrives, is inspected and runs.
#[test]
fn a_driver_from_its_ask_to_its_commit() {
    let mut guard = nine_frames();
    guard.kernel = vec![0x5007, 0x2003, 0x5001, 0x8003, 0, 0, 0, 0x6007];
    assert_eq!(guard.synchronise_all(), Ok((3, 0)));
    assert_refused(&guard, |guard| guard.ask(2, 5), 21);
    assert_eq!(guard.write(0, 1), Ok((5, 5)));
    guard.kernel[0] = 0x5005;
    assert_eq!(guard.synchronise_one(0), Ok((1, 0)));
    assert_eq!(guard.ask(2, 5), Ok((0, 0)));
    assert_eq!(guard.write(0, 1), refused(12));
    assert_eq!(guard.device_write(20480, 1), refused(13));
    assert_eq!(guard.fetch(2), refused(12));
    // Page 0 keeps the entry of before the ask, and user code may run there; synchronised, it does not.
    assert_eq!(guard.clone().leave(0), Ok((4, 0)));
    assert_eq!(guard.synchronise_all(), Ok((2, 0)));
    assert_eq!(guard.shadow[..3], [NO_EXECUTE | 0x5205, 0x2401, NO_EXECUTE | 0x5201]);
    assert_eq!(guard.leave(0), refused(12));
    assert_eq!(guard.fetch(2), refused(12));
    assert_eq!(guard.commit(), Ok((2, 2)));
    assert_eq!(guard.fetch(2), Ok((5, 5)));
    assert_eq!(guard.write(0, 1), refused(12));
    assert_eq!(guard.device_write(20480, 1), refused(13));
    assert_eq!(guard.leave(7), Ok((5, 0)));
    assert_eq!(guard.shadow[0], NO_EXECUTE | 0x5401);
}

/// A made-up entry that has the pending frame and is writable: 13.
#[test]
fn a_write_to_a_pending_frame() {
    let mut guard = nine_frames();
    assert_eq!(guard.ask(2, 5), Ok((0, 0)));
    guard.shadow[0] = 0x5003;
    assert_eq!(guard.write(0, 1), refused(13));
}

/// A state run with these words of the pair.
fn run_with(pair: [u64; 3]) -> [u64; 25] {
    let mut run = [0; 25];
    run[..4].copy_from_slice(&[8, 9, 1, 1]);
    run[20] = 1;
    run[21] = 2;
    run[22..].copy_from_slice(&pair);
    run
}

/// A call on a run: its number, and the words of the pair after it. A refused call leaves them.
fn on_run(words: [u64; 3], call: fn(&mut State) -> Answer) -> (u64, [u64; 3]) {
    let mut run = run_with(words);
    let mut numbers = [77; 2];
    let number = boundary::with_pending(&mut run, &mut numbers, call);
    let left = [run[22], run[23], run[24]];
    assert_eq!(run, run_with(left));
    assert_eq!(numbers, [0, 0]);
    (number, left)
}

fn ask_for_5(state: &mut State) -> Answer {
    let (shadow, mut map) = ([0; 8], [NO_FRAME; 8]);
    map[1] = 2;
    reference::ask(state, &shadow, &map, &mut [0x04, 0x01], 7, 5)
}

#[test]
fn the_words_of_the_pair() {
    let drop: fn(&mut State) -> Answer = |state| reference::drop(state, &mut [0x24, 0x01]);
    let nothing: fn(&mut State) -> Answer = |_| Ok((0, 0));
    for junk in [[0, 0, 0], [0, 8, 9], [0, u64::MAX, 1 << 16]] {
        assert_eq!(on_run(junk, ask_for_5), (0, [1, 7, 5]));
        assert_eq!(on_run(junk, drop), (22, junk), "words that are not read stay");
    }
    for words in [[1, 0, 5], [1, 7, 8]] {
        assert_eq!(on_run(words, ask_for_5), (20, words));
        assert_eq!(on_run(words, drop), (0, [0, 0, 0]));
        assert_eq!(on_run(words, nothing), (0, words));
    }
    let wide = [1 << 16, 1 << 32, 1 << 63];
    let out_of_range = wide.iter().flat_map(|wide| [[1, wide + 1, 5], [1, 1, wide + 5]]);
    let not_a_word = [2, 3, 1 << 32, (1 << 63) + 1, u64::MAX].map(|word| [word, 1, 5]);
    for words in
        [[1, 8, 5], [1, 0, 9], [1, 65535, 65535]].into_iter().chain(out_of_range).chain(not_a_word)
    {
        for call in [ask_for_5, drop] {
            assert_eq!(on_run(words, call), (7, words), "{words:?}");
        }
    }
}

/// A call that concerns no pair leaves its words, whatever they are where none is pending.
#[test]
fn other_calls_leave_the_words() {
    for words in [[0, 99, 1 << 40], [1, 7, 8], [0, 0, 0]] {
        let mut run = run_with(words);
        let (mut numbers, shadow) = ([0; 2], [0x401; 8]);
        let number =
            boundary::with_mode(&mut run, &mut numbers, |s| reference::fetch(s, &shadow, 6));
        let mut wanted = run_with(words);
        wanted[20] = 6;
        assert_eq!((number, run), (0, wanted));
    }
}

/// A start writes all three words.
#[test]
fn a_start_clears_the_words() {
    let record = record(8, 9, 1, &[(1, 2), (3, 8)]);
    for words in [[1, 7, 5], [2, 1 << 40, u64::MAX], [0, 3, 3]] {
        let mut run = run_with(words);
        let (mut shadow, mut map, mut exclusion) = ([5; 8], [6; 8], [7; 2]);
        let number = boundary::start(
            &record,
            2,
            &mut run,
            &mut shadow,
            &mut map,
            &mut exclusion,
            &mut [77; 2],
        );
        assert_eq!((number, run), (0, run_with([0, 0, 0])));
    }
}

/// A drawn guard with any contents, and something pending in half of them.
fn drawn(random: &mut Random) -> Guard {
    let mut guard = if random.one_in(2) { nine_frames() } else { in_user_mode() };
    for page in 0..8 {
        let entry =
            |random: &mut Random| random.word() & (0xfff << 52 | 0xfff) | random.below(10) << 12;
        let ordinary = random.below(10) << 12 | random.word() & 0x1f | random.below(2) << 63;
        guard.kernel[page] = ordinary | u64::from(!random.one_in(4));
        guard.shadow[page] = entry(random);
        guard.map[page] = if random.one_in(3) { random.below(10) as u16 } else { NO_FRAME };
    }
    guard.exclusion = vec![random.word() as u8, random.word() as u8];
    if random.one_in(2) {
        guard.state.pending = pair(random.below(9) as u16, random.below(10) as u16);
    }
    guard
}

/// The calls in which mistakes are planted answer as the plain calls where they have none of them.
#[test]
fn the_calls_without_a_mistake() {
    // The mistake of no call but the start.
    let of_the_start = Mistake::StartLeavesPair;
    let mut random = Random::new(7);
    for _ in 0..20_000 {
        let drawn = drawn(&mut random);
        let (page, frame) = (random.below(9), random.below(10));
        let [mut plain, mut with_mistake] = [drawn.clone(), drawn];
        let Guard { state, kernel, shadow, map, exclusion, .. } = &mut with_mistake;
        let answers = match random.below(5) {
            0 => (
                plain.ask(page, frame),
                mistaken::ask(of_the_start, state, shadow, map, exclusion, page, frame),
            ),
            1 => (plain.commit(), mistaken::commit(of_the_start, state, shadow, map)),
            2 => (plain.drop_pending(), mistaken::drop(of_the_start, state, exclusion)),
            3 => (
                plain.synchronise_one(page),
                mistaken::synchronise_one(
                    of_the_start,
                    state,
                    kernel,
                    shadow,
                    map,
                    exclusion,
                    page,
                ),
            ),
            _ => (
                plain.synchronise_all(),
                mistaken::synchronise_all(of_the_start, state, kernel, shadow, map, exclusion),
            ),
        };
        assert_eq!(answers.0, answers.1);
        assert_eq!(plain, with_mistake);
    }
}

const NOTHING: Reaching = Reaching { devices: 2, pending: None };
const PENDING: Reaching = Reaching { devices: 2, pending: Some((2, 5)) };

/// The one-page guards of a list, told what it accepts.
fn told(calls: &[Call]) -> Claim {
    let mut claim = Claim::told_start(&record(8, 9, 1, &[(1, 2), (3, 8)]));
    calls.iter().for_each(|call| claim.tell(call));
    claim
}

/// What the one-page guards settle, by the state that reaches the call for what is pending and by themselves for all else.
#[test]
fn the_one_page_guards_settle_the_three_calls() {
    let kernel = [0x5001, 0, 0x5001, 0, 0x6003, 0, 0, 0];
    let claim = told(&[Call::SynchroniseAll { kernel: &kernel }]);
    for (page, frame, number) in
        [(2, 5, 0), (8, 5, 9), (2, 9, 9), (1, 5, 20), (2, 8, 20), (2, 6, 21), (1, 6, 20)]
    {
        assert_eq!(claim.settled(&Call::Ask { page, frame }, &NOTHING), number);
    }
    assert_eq!(claim.settled(&Call::Ask { page: 2, frame: 7 }, &PENDING), 20);
    assert_eq!(claim.settled(&Call::Ask { page: 2, frame: 9 }, &PENDING), 9);
    assert_eq!(claim.settled(&Call::Commit, &NOTHING), 22);
    assert_eq!(claim.settled(&Call::Drop, &NOTHING), 22);
    assert_eq!(claim.settled(&Call::Commit, &PENDING), 0);
    assert_eq!(claim.settled(&Call::Drop, &PENDING), 0);
    let of_page_1 = Reaching { pending: Some((1, 5)), ..NOTHING };
    assert_eq!(claim.settled(&Call::Commit, &of_page_1), 20);
}

/// The tables that the one-page guards hold after an ask, a synchronisation, and a commit or a drop.
#[test]
fn the_one_page_guards_are_told() {
    let kernel = [0x5007, 0x5007, 0, 0, 0x2003, 0, 0x6003, 0];
    let ask = Call::Ask { page: 2, frame: 5 };
    let all = Call::SynchroniseAll { kernel: &kernel };
    let none = NO_FRAME;
    let map = [none, 2, none, 8, 2, none, none, none];
    let pending = [NO_EXECUTE | 0x5205, 0x2401, 0, 0, 0x2401, 0, NO_EXECUTE | 0x6003, 0];
    assert!(told(&[ask, all]).agrees(&pending, &map, false));
    let committed = [0x5401, 0x2401, 0x5401, 0, 0x2401, 0, NO_EXECUTE | 0x6003, 0];
    let joined = [5, 2, 5, 8, 2, none, none, none];
    assert!(told(&[ask, all, Call::Commit]).agrees(&committed, &joined, false));
    assert!(told(&[ask, all, Call::Drop]).agrees(&pending, &map, false));
    let ordinary = [NO_EXECUTE | 0x5007, 0x2401, 0, 0, 0x2401, 0, NO_EXECUTE | 0x6003, 0];
    assert!(told(&[ask, all, Call::Drop, all]).agrees(&ordinary, &map, false));
}

/// A protected frame is one of the policy, or one from its ask to its drop; a code frame one of the policy, or one from its commit on.
#[test]
fn protected_frames_and_code_frames() {
    let devices = [reference::Device { first: 0, last: 8 }; 2];
    let transfer = |frame: u64| Call::DeviceWrite {
        devices: &devices,
        device: 0,
        address: 4096 * frame,
        length: 1,
    };
    let ask = Call::Ask { page: 2, frame: 5 };
    let kernel = [0, 0, 0x5001, 0, 0, 0, 0, 0];
    let one = Call::SynchroniseOne { kernel: &kernel, page: 2 };
    let covers_5 = |calls: &[Call]| told(calls).is_safe(&transfer(5), (5, 5));
    let fetches_5 =
        |calls: &[Call]| told(&[&[one], calls].concat()).is_safe(&Call::Fetch { page: 2 }, (5, 5));
    assert!(covers_5(&[]) && !fetches_5(&[]));
    assert!(!covers_5(&[ask]) && !fetches_5(&[ask]));
    assert!(covers_5(&[ask, Call::Drop]) && !fetches_5(&[ask, Call::Drop]));
    assert!(!covers_5(&[ask, Call::Commit]) && fetches_5(&[ask, Call::Commit]));
    assert!(!covers_5(&[ask, Call::Drop, ask]) && !fetches_5(&[ask, Call::Drop, ask]));
    for frame in [2, 8, 9] {
        assert!(!told(&[]).is_safe(&transfer(frame), (frame, frame)));
    }
}

/// "No write or transfer allowed from its ask onward covers a byte of a committed frame."
#[test]
fn what_was_covered_from_the_ask_to_the_commit() {
    let asked = || {
        let mut sentence = AskToCommit::default();
        assert!(sentence.told_covered(0..=8), "before the ask");
        sentence.told_asked(5);
        sentence
    };
    let mut clear = asked();
    assert!(clear.told_covered(0..=4) && clear.told_covered(6..=6));
    assert!(clear.told_committed());
    assert!(clear.told_covered(0..=4) && !clear.told_covered(4..=6));
    for frames in [5..=5, 0..=5, 5..=8, 0..=8] {
        let mut covered = asked();
        assert!(covered.told_covered(frames.clone()), "nothing is committed yet");
        assert!(!covered.told_committed());
        let mut dropped = asked();
        assert!(dropped.told_covered(frames.clone()));
        dropped.told_dropped();
        dropped.told_asked(5);
        assert!(dropped.told_committed(), "the ask that counts is the one after the drop");
        assert!(!dropped.told_covered(frames));
    }
}
