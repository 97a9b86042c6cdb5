//! Drivers approved while running, through the safe guard: request K6 sentence by sentence.
//! Made-up shadow tables, which the safe guard cannot pass, go through the archive's functions; state runs are in pending_state.rs.

mod common;
mod contents;

use common::one_device;
use contents::contents;
use guard::archive::{self, NUMBERS, STATE_PENDING};
use guard::{Committed, Frames, Guard, Mode, Refusal, Synchronised, Tree, NO_FRAME, TABLE_ENTRIES};
use inputs::{record, KernelEntry, Random};

const NO_EXECUTE: u64 = 1 << 63;

/// The driver's page and frame, and a page of a user program.
const DRIVER: u64 = 4;
const FRAME: u64 = 6;
const PROGRAM: u64 = 5;

/// V 7, F 12, entry page 1 with frame 2, and page 2 with frame 9.
fn started() -> Guard {
    let policy = record(7, 12, 1, &[(1, 2), (2, 9)]);
    Guard::start(&policy, one_device()).expect("the start is accepted")
}

/// The kernel's table: its own pages, and a user program on frame 3.
const KERNEL: [u64; 7] = [0, 0x2001, 0x9001, 0, 0, 0x3007, 0];

/// The kernel's table with entries for some pages more.
fn kernel(entries: &[(usize, u64)]) -> [u64; 7] {
    let mut kernel = KERNEL;
    for &(page, entry) in entries {
        kernel[page] = entry;
    }
    kernel
}

/// A guard that was asked for the driver, just started before.
fn asked() -> Guard {
    let mut guard = started();
    assert_eq!(guard.ask(DRIVER, FRAME), Ok(()));
    guard
}

/// The same guard in user mode on the program's page.
fn in_user_mode(mut guard: Guard) -> Guard {
    guard.synchronise_page(&KERNEL, PROGRAM).unwrap();
    guard.leave(PROGRAM).unwrap();
    guard
}

fn asked_in_user_mode() -> Guard {
    in_user_mode(asked())
}

fn pair(guard: &Guard) -> Option<(u64, u64)> {
    guard.pending().map(|pending| (pending.page, pending.frame))
}

/// "Ask sets the frame's exclusion bit", and nothing else but the pair.
#[test]
fn an_ask_excludes_the_frame() {
    let before = started();
    assert_eq!(before.exclusion(), [0b0000_0100, 0b0000_0010]);
    for (frame, exclusion) in [(6, [0b0100_0100, 0b10]), (11, [0b0000_0100, 0b1010])] {
        let mut guard = started();
        assert_eq!(guard.ask(DRIVER, frame), Ok(()));
        assert_eq!(guard.exclusion(), exclusion);
        assert_eq!((guard.shadow(), guard.map()), (before.shadow(), before.map()));
        assert_eq!(guard.state()[..STATE_PENDING], before.state()[..STATE_PENDING]);
    }
}

/// "while pending, synchronising an ordinary entry for it clears writable and sets bit 9": user and cache bits stay, no page joins.
#[test]
fn synchronised_while_pending() {
    let entries = [
        (0x6001, 0x6201),
        (0x6003, 0x6201),
        (0x6007, 0x6205),
        (0x601b, 0x6219),
        (0x601f, 0x621d),
        (NO_EXECUTE | 0x6007, 0x6205),
    ];
    for asked in [asked, asked_in_user_mode] {
        let guard = asked();
        for page in [0, DRIVER, 6] {
            for (entry, made) in entries {
                let kernel = kernel(&[(page as usize, entry)]);
                let made = NO_EXECUTE | made;
                let counts = Ok(Synchronised { changed: 1, joined: 0 });
                let mut one = asked();
                assert_eq!(one.synchronise_page(&kernel, page), counts, "{entry:#x}");
                assert_eq!(one.shadow()[page as usize], made, "{entry:#x}");
                assert_eq!((one.map(), one.exclusion()), (guard.map(), guard.exclusion()));
                assert_eq!(pair(&one), Some((DRIVER, FRAME)));
                let mut all = asked();
                all.synchronise_all(&kernel).unwrap();
                assert_eq!(all.shadow()[page as usize], made, "{entry:#x}");
                assert_eq!(all.map(), guard.map());
            }
        }
    }
}

/// A synchronisation from a tree makes the same of the flat entries of its walks.
#[test]
fn synchronised_from_a_tree_while_pending() {
    for asked in [asked, asked_in_user_mode] {
        let flat = kernel(&[(0, 0x6007), (3, 0x6001), (4, 0x601f), (6, 0x7003)]);
        let mut words = [0; TABLE_ENTRIES];
        words[..7].copy_from_slice(&flat);
        let tree = Tree { words: &words, root: 0, depth: 1 };
        let (mut from_flat, mut from_tree) = (asked(), asked());
        assert_eq!(from_tree.synchronise_all_tree(&tree), from_flat.synchronise_all(&flat));
        assert_eq!(from_tree, from_flat);
        assert_eq!(from_tree.shadow()[4], NO_EXECUTE | 0x621d);
        words[4] = 0x6003;
        let tree = Tree { words: &words, root: 0, depth: 1 };
        let counts = Ok(Synchronised { changed: 1, joined: 0 });
        assert_eq!(from_tree.synchronise_page_tree(&tree, 4), counts);
        assert_eq!(from_tree.shadow()[4], NO_EXECUTE | 0x6201);
    }
}

/// The rule is for the pending frame alone, and comes after steps 1 to 3 and before step 4.
#[test]
fn other_pages_while_pending() {
    let mut guard = asked();
    // An approved page keeps its frame, an absent one and one past the last frame are absent, and another excluded frame joins.
    let kernel = [0x6000, 0x6003, 0x9001, 0x1000_6003, 0x0010_0000_0000_6003, 0x3007, 0x2007];
    assert_eq!(guard.synchronise_all(&kernel), Ok(Synchronised { changed: 2, joined: 1 }));
    assert_eq!(guard.shadow(), [0, 0x2401, 0x9401, 0, 0, NO_EXECUTE | 0x3007, 0x2401]);
    assert_eq!(guard.map(), [NO_FRAME, 2, 9, NO_FRAME, NO_FRAME, NO_FRAME, 2]);
}

/// "Commit approves the asked page with its frame, in map and shadow", even where its shadow entry was 0 or had another frame.
#[test]
fn a_commit_approves_the_asked_page() {
    for (entry, changed) in [(0, 1), (0x6001, 1), (0x7003, 1), (0x601f, 1)] {
        let mut guard = asked();
        guard.synchronise_page(&kernel(&[(DRIVER as usize, entry)]), DRIVER).unwrap();
        let before = contents(&guard);
        assert_eq!(guard.commit(), Ok(Committed { changed, joined: 1 }), "{entry:#x}");
        assert_eq!(guard.shadow()[DRIVER as usize], 0x6401, "{entry:#x}");
        assert_eq!(guard.map()[DRIVER as usize], 6, "{entry:#x}");
        assert_eq!(guard.exclusion(), before.exclusion, "the bit stays set");
        assert_eq!((guard.mode(), pair(&guard)), (Mode::Kernel(1), None));
        assert_eq!(guard.fetch(DRIVER), Ok(FRAME));
    }
}

/// In user mode the approved entry has bit 63, and an enter clears it.
#[test]
fn a_commit_uses_the_current_mode() {
    let mut guard = asked_in_user_mode();
    assert_eq!(guard.commit(), Ok(Committed { changed: 1, joined: 1 }));
    assert_eq!(guard.shadow()[DRIVER as usize], NO_EXECUTE | 0x6401);
    assert_eq!(guard.fetch(DRIVER), Err(Refusal::NotPermitted));
    guard.enter(0).unwrap();
    assert_eq!(guard.fetch(DRIVER), Ok(FRAME));
}

/// "and so every unapproved page whose present shadow entry has that frame", synchronised before the ask or while it was pending.
#[test]
fn a_commit_approves_every_alias() {
    for in_user in [false, true] {
        for synchronised in [false, true] {
            let mut guard = started();
            let kernel = kernel(&[(0, 0x6005), (3, 0x7003), (6, 0x6001)]);
            guard.synchronise_all(&kernel).unwrap();
            if in_user {
                guard.leave(PROGRAM).unwrap();
            }
            guard.ask(DRIVER, FRAME).unwrap();
            if synchronised {
                assert_eq!(guard.synchronise_all(&kernel).unwrap().joined, 0);
            }
            let before = contents(&guard);
            assert_eq!(guard.commit(), Ok(Committed { changed: 3, joined: 3 }));
            let approved = if in_user { NO_EXECUTE | 0x6401 } else { 0x6401 };
            for page in 0..7 {
                let expected = match page {
                    0 | 4 | 6 => (approved, 6),
                    page => (before.shadow[page], before.map[page]),
                };
                assert_eq!((guard.shadow()[page], guard.map()[page]), expected, "{page}");
            }
        }
    }
}

/// "Drop clears the exclusion bit": the guard is as before the ask, where nothing was synchronised in between.
#[test]
fn a_drop_restores_the_exclusion_vector() {
    let before = started();
    let mut guard = started();
    for frame in [FRAME, 0, 11, FRAME] {
        assert_eq!(guard.ask(DRIVER, frame), Ok(()));
        assert_ne!(guard, before);
        assert_eq!(guard.drop_pending(), Ok(()));
        assert_eq!(guard, before);
    }
    // A pending entry stays until it is synchronised.
    let kernel = kernel(&[(DRIVER as usize, 0x6003)]);
    guard.ask(DRIVER, FRAME).unwrap();
    guard.synchronise_all(&kernel).unwrap();
    guard.drop_pending().unwrap();
    assert_eq!(guard.shadow()[DRIVER as usize], NO_EXECUTE | 0x6201);
    assert_eq!(guard.synchronise_page(&kernel, DRIVER).unwrap().changed, 1);
    assert_eq!(guard.shadow()[DRIVER as usize], NO_EXECUTE | 0x6003);
}

/// The four ways into 20: one is pending, the page has an approval (an ask and a commit), the frame is excluded.
#[test]
fn approvals_that_conflict_give_20() {
    let mut guard = asked();
    let before = contents(&guard);
    assert_eq!(guard.ask(0, 7), Err(Refusal::ApprovalConflict), "one is pending");
    assert_eq!(guard.ask(DRIVER, FRAME), Err(Refusal::ApprovalConflict), "the same once more");
    assert_eq!(contents(&guard), before);
    let mut guard = started();
    let before = contents(&guard);
    for page in [1, 2] {
        assert_eq!(guard.ask(page, FRAME), Err(Refusal::ApprovalConflict), "page {page}");
    }
    for frame in [2, 9] {
        assert_eq!(guard.ask(DRIVER, frame), Err(Refusal::ApprovalConflict), "frame {frame}");
    }
    assert_eq!(contents(&guard), before);
    // "Has an approval" is the map's word: page 1 keeps it while it is absent.
    guard.synchronise_page(&[0; 7], 1).unwrap();
    assert_eq!(guard.shadow()[1], 0);
    assert_eq!(guard.ask(1, FRAME), Err(Refusal::ApprovalConflict));
    // While the pair is pending, the kernel maps its page to an approved frame.
    let mut guard = asked();
    let kernel = kernel(&[(DRIVER as usize, 0x9001)]);
    assert_eq!(guard.synchronise_page(&kernel, DRIVER).unwrap().joined, 1);
    let before = contents(&guard);
    assert_eq!(guard.commit(), Err(Refusal::ApprovalConflict));
    assert_eq!(contents(&guard), before);
    assert_eq!(guard.drop_pending(), Ok(()));
    assert_eq!(guard.commit(), Err(Refusal::NothingPending));
}

/// A committed page and a committed frame are approved as those of the policy.
#[test]
fn committed_pages_and_frames_give_20() {
    let mut guard = asked();
    guard.commit().unwrap();
    assert_eq!(guard.ask(DRIVER, 7), Err(Refusal::ApprovalConflict));
    assert_eq!(guard.ask(0, FRAME), Err(Refusal::ApprovalConflict));
    assert_eq!(guard.ask(0, 7), Ok(()));
    assert_eq!(guard.commit(), Ok(Committed { changed: 1, joined: 1 }));
    assert_eq!((guard.fetch(0), guard.fetch(DRIVER)), (Ok(7), Ok(6)));
}

/// "with 21 an ask for a frame that a present shadow entry maps writable", on any page, and 20 before it.
#[test]
fn a_frame_that_is_mapped_writable_gives_21() {
    for page in [0, 3, 4, 6] {
        let mut guard = started();
        guard.synchronise_all(&kernel(&[(page, 0x6003)])).unwrap();
        let before = contents(&guard);
        assert_eq!(guard.ask(DRIVER, FRAME), Err(Refusal::MappedWritable), "{page}");
        assert_eq!(guard.ask(1, FRAME), Err(Refusal::ApprovalConflict), "{page}");
        assert_eq!(guard.ask(7, FRAME), Err(Refusal::DoesNotExist), "{page}");
        assert_eq!(contents(&guard), before);
        assert_eq!(guard.ask(DRIVER, 7), Ok(()), "another frame");
        guard.drop_pending().unwrap();
        assert_eq!(contents(&guard), before);
        // The kernel takes the writable mapping away.
        guard.synchronise_all(&kernel(&[(page, 0x6001)])).unwrap();
        assert_eq!(guard.ask(DRIVER, FRAME), Ok(()), "{page}");
    }
}

/// What the archive answers an ask for the driver on this shadow table.
fn ask_on(shadow: &[u64]) -> u64 {
    let guard = started();
    let (mut state, mut exclusion) = (*guard.state(), guard.exclusion().to_vec());
    let mut numbers = [7; NUMBERS];
    let number =
        archive::ask(&mut state, shadow, guard.map(), &mut exclusion, DRIVER, FRAME, &mut numbers);
    assert_eq!(numbers, [0, 0]);
    number
}

/// An entry counts where bits 0 and 1 are set and all 40 bits of its frame are the asked ones.
#[test]
fn bits_that_21_reads() {
    let entries = [
        (0x6003, 21),
        (NO_EXECUTE | 0x6e03, 21),
        (0x7ff0_0000_0000_6003, 21),
        (0x6002, 0),
        (NO_EXECUTE | 0x6e0e, 0),
        (0x6001, 0),
        (0x6401, 0),
        (0x7003, 0),
        (0x1000_0000_6003, 0),
        (0x0008_0000_0000_6003, 0),
    ];
    for (entry, number) in entries {
        for page in 0..7 {
            let mut shadow = started().shadow().to_vec();
            shadow[page] = entry;
            assert_eq!(ask_on(&shadow), number, "{entry:#x} on {page}");
        }
    }
}

/// "with 22 a commit or drop with nothing pending"
#[test]
fn nothing_pending_gives_22() {
    let assert_none = |mut guard: Guard| {
        let before = contents(&guard);
        assert_eq!(guard.commit(), Err(Refusal::NothingPending));
        assert_eq!(guard.drop_pending(), Err(Refusal::NothingPending));
        assert_eq!(contents(&guard), before);
    };
    assert_none(started());
    assert_none(in_user_mode(started()));
    let mut guard = asked();
    guard.drop_pending().unwrap();
    assert_none(guard);
    let mut guard = asked();
    guard.commit().unwrap();
    assert_none(guard);
}

/// Pages and frames are not cut, and 9 comes before 20 and 21.
#[test]
fn wide_pages_and_frames_give_9() {
    let mut guard = asked();
    guard.synchronise_all(&kernel(&[(0, 0x7003)])).unwrap();
    let before = contents(&guard);
    for wide in [65536, 1 << 32, 1 << 63, u64::MAX - 4095] {
        assert_eq!(guard.ask(wide | 1, FRAME), Err(Refusal::DoesNotExist));
        assert_eq!(guard.ask(1, wide | FRAME), Err(Refusal::DoesNotExist));
    }
    assert_eq!(guard.ask(7, 2), Err(Refusal::DoesNotExist));
    assert_eq!(guard.ask(1, 12), Err(Refusal::DoesNotExist));
    assert_eq!(contents(&guard), before);
}

/// Every write and transfer to the driver's page, to an alias of it and to its frame is refused, and others are not.
fn assert_protected(guard: &mut Guard) {
    for address in [DRIVER * 4096, DRIVER * 4096 + 4080, 6 * 4096] {
        assert_eq!(guard.write(address, 16), Err(Refusal::NotPermitted), "{address:#x}");
    }
    for (address, length) in [(0x6000, 1), (0x6fff, 1), (0x5fff, 2), (0x3000, 0x4000)] {
        let answer = guard.device_write(0, address, length);
        assert_eq!(answer, Err(Refusal::Excluded), "{address:#x} {length}");
    }
    assert_eq!(guard.device_write(0, 0x7000, 4096), Ok(Frames { first: 7, last: 7 }));
}

/// "No write or transfer allowed from its ask onward covers a byte of a committed frame." "Kernel fetches now read policy or committed
/// frames."
#[test]
fn a_driver_arrives() {
    let mut guard = started();
    guard.synchronise_all(&kernel(&[(4, 0x6003)])).unwrap();
    assert_eq!(guard.write(DRIVER * 4096, 16), Ok(Frames { first: 6, last: 6 }));
    assert_eq!(guard.device_write(0, 0x6000, 4096), Ok(Frames { first: 6, last: 6 }));
    // It is written. The kernel takes its writable mapping away; an intruder makes another one after the ask.
    guard.synchronise_all(&kernel(&[(4, 0x6001)])).unwrap();
    assert_eq!(guard.ask(DRIVER, FRAME), Ok(()));
    let kernel = kernel(&[(4, 0x6001), (6, 0x6007)]);
    guard.synchronise_all(&kernel).unwrap();
    assert_protected(&mut guard);
    for page in [DRIVER, 6] {
        assert_eq!(guard.fetch(page), Err(Refusal::NotPermitted), "in kernel mode");
        assert_eq!(guard.leave(page), Err(Refusal::NotPermitted), "in user mode");
    }
    assert_eq!(guard.commit(), Ok(Committed { changed: 2, joined: 2 }));
    assert_protected(&mut guard);
    assert_eq!((guard.fetch(DRIVER), guard.fetch(6)), (Ok(6), Ok(6)));
    // Both pages keep the frame, whatever the kernel's table says later.
    guard.synchronise_all(&[0x7003; 7]).unwrap();
    assert_protected(&mut guard);
    assert_eq!((guard.fetch(DRIVER), guard.fetch(6)), (Ok(6), Ok(6)));
}

/// A page that mapped the frame read-only before the ask keeps its entry until it is synchronised: user code may run there.
#[test]
fn a_page_of_the_frame_from_before_the_ask() {
    let kernel = kernel(&[(6, 0x6005)]);
    let asked = || {
        let mut guard = started();
        guard.synchronise_all(&kernel).unwrap();
        guard.ask(DRIVER, FRAME).unwrap();
        assert_eq!(guard.shadow()[6], NO_EXECUTE | 0x6005);
        guard
    };
    let left = || {
        let mut guard = asked();
        assert_eq!(guard.leave(6), Ok(4));
        assert_eq!(guard.fetch(6), Ok(FRAME));
        assert_eq!(guard.write(6 * 4096, 1), Err(Refusal::NotPermitted));
        guard
    };
    // A synchronisation ends it in either mode, and so does the commit.
    let mut synchronised = left();
    assert_eq!(synchronised.synchronise_page(&kernel, 6).unwrap().changed, 1);
    assert_eq!(synchronised.fetch(6), Err(Refusal::NotPermitted));
    let mut committed = left();
    committed.commit().unwrap();
    assert_eq!(committed.fetch(6), Err(Refusal::NotPermitted));
    let mut guard = asked();
    guard.synchronise_all(&kernel).unwrap();
    assert_eq!(guard.leave(6), Err(Refusal::NotPermitted));
}

/// A pending entry is no-execute in both modes: switches keep it as it is.
#[test]
fn a_pending_entry_over_switches() {
    let kernel = kernel(&[(4, 0x601b)]);
    let mut guard = asked();
    guard.synchronise_all(&kernel).unwrap();
    assert_eq!(guard.shadow()[4], NO_EXECUTE | 0x6219);
    guard.leave(PROGRAM).unwrap();
    assert_eq!(guard.shadow()[4], NO_EXECUTE | 0x6219);
    assert_eq!(guard.synchronise_all(&kernel), Ok(Synchronised { changed: 0, joined: 0 }));
    guard.enter(0).unwrap();
    assert_eq!(guard.shadow()[4], NO_EXECUTE | 0x6219);
}

/// A frame field, and whether an entry has the driver's frame in it.
const FRAME_FIELD: u64 = 0x000f_ffff_ffff_f000;

fn is_of_frame(entry: u64) -> bool {
    entry & FRAME_FIELD == FRAME << 12
}

/// A kernel table without writable entries, in which a third of the entries have the driver's frame.
fn random_table(random: &mut Random) -> Vec<u64> {
    let mut entry = || {
        let entry = KernelEntry::random(random, 12).bits() & !2;
        if random.one_in(3) {
            entry & !FRAME_FIELD | FRAME << 12
        } else {
            entry
        }
    };
    (0..7).map(|_| entry()).collect()
}

/// A guard with a random table in a random mode, which was asked for a page that has no approval.
fn random_guard(random: &mut Random, table: &[u64], page: u64) -> Option<Guard> {
    let mut guard = started();
    guard.synchronise_all(table).unwrap();
    if random.one_in(2) {
        // Where the program's page joined the map, the guard stays in kernel mode.
        guard.synchronise_page(&KERNEL, PROGRAM).unwrap();
        let _ = guard.leave(PROGRAM);
    }
    let has_approval = guard.map()[page as usize] != NO_FRAME;
    let expected = if has_approval { Err(Refusal::ApprovalConflict) } else { Ok(()) };
    assert_eq!(guard.ask(page, FRAME), expected);
    (!has_approval).then_some(guard)
}

/// Synchronises all pages: those of the driver's frame get pending entries, by the request's words.
fn assert_pending_entries(guard: &mut Guard, table: &[u64]) {
    guard.synchronise_all(table).unwrap();
    for (page, &entry) in table.iter().enumerate() {
        let is_present = entry & (0x7ff << 52 | 1) == 1;
        if guard.map()[page] == NO_FRAME && is_present && is_of_frame(entry) {
            let made = NO_EXECUTE | entry & (FRAME_FIELD | 0x1d) | 0x200;
            assert_eq!(guard.shadow()[page], made, "{entry:#x}");
        }
    }
}

/// Commits: the pages that are approved then, and both counts, by the request's words. How many aliases there were.
fn assert_commit(guard: &mut Guard, asked: u64) -> u64 {
    let before = contents(guard);
    let committed = guard.commit().unwrap();
    let approved = if let Mode::User(_) = guard.mode() { NO_EXECUTE | 0x6401 } else { 0x6401 };
    let mut expected = Committed { changed: 0, joined: 0 };
    for page in 0..7 {
        let (entry, approval) = (before.shadow[page], before.map[page]);
        let is_alias = entry & 1 == 1 && is_of_frame(entry);
        let joins = approval == NO_FRAME && (page as u64 == asked || is_alias);
        let want = if joins { (approved, 6) } else { (entry, approval) };
        assert_eq!((guard.shadow()[page], guard.map()[page]), want, "{page}");
        expected.changed += u64::from(want.0 != entry);
        expected.joined += u64::from(joins);
    }
    assert_eq!(committed, expected);
    expected.joined - 1
}

#[test]
fn random_tables_and_pages() {
    let mut random = Random::new(6);
    let mut aliases = 0;
    for _ in 0..2000 {
        let table = random_table(&mut random);
        let page = random.below(7);
        let Some(mut guard) = random_guard(&mut random, &table, page) else {
            continue;
        };
        if random.one_in(2) {
            assert_pending_entries(&mut guard, &table);
        }
        if guard.map()[page as usize] == NO_FRAME {
            aliases += assert_commit(&mut guard, page);
        } else {
            assert_eq!(guard.commit(), Err(Refusal::ApprovalConflict));
        }
    }
    assert!(aliases > 500, "{aliases}");
}
