//! Walks of trees, and synchronisations from them, through the safe guard: request K4 sentence by sentence.
//! What a walk should give is written out.

mod common;
mod contents;

use common::one_device;
use contents::contents;
use guard::archive::{self, NUMBERS};
use guard::{Guard, Refusal, Synchronised, Tree, Walk, MAX_DEPTH, NO_FRAME, TABLE_ENTRIES};
use inputs::{record, KernelEntry, Random};

const NO_EXECUTE: u64 = 1 << 63;

/// A run of tables with these entries: table, place in it, entry.
fn run(tables: usize, entries: &[(usize, usize, u64)]) -> Vec<u64> {
    let mut words = vec![0; tables * TABLE_ENTRIES];
    for &(table, place, entry) in entries {
        words[table * TABLE_ENTRIES + place] = entry;
    }
    words
}

fn walked(words: &[u64], root: u64, depth: u64, page: u64) -> (u64, u64) {
    let Walk { entry, reads } = Tree { words, root, depth }.walk(page).expect("a whole tree");
    (entry, reads)
}

/// Page 7 + 5 * 2^9 + 3 * 2^18, and a tree of three levels that leads to it: tables 0, 2 and 1.
const PAGE: u64 = 7 | 5 << 9 | 3 << 18;

fn three_levels(level_3: u64, level_2: u64, level_1: u64) -> (u64, u64) {
    let entries = [(0, 3, 0x2000 | level_3), (2, 5, 0x1000 | level_2), (1, 7, 0x4_5000 | level_1)];
    walked(&run(3, &entries), 0, 3, PAGE)
}

#[test]
fn depth_1_is_one_table() {
    let words = run(2, &[(1, 5, 0x4_5007), (1, 511, 0x1), (0, 0, 0x6003)]);
    assert_eq!(walked(&words, 1, 1, 5), (0x4_5007, 1));
    assert_eq!(walked(&words, 1, 1, 511), (0x1, 1));
    assert_eq!(walked(&words, 1, 1, 6), (0, 1));
    assert_eq!(walked(&words, 0, 1, 0), (0x6003, 1));
}

#[test]
fn each_level_is_chosen_by_the_next_nine_bits() {
    let words = run(3, &[(0, 3, 0x2007), (2, 5, 0x1007), (1, 7, 0x4_5007)]);
    assert_eq!(walked(&words, 0, 3, PAGE), (0x4_5007, 3));
    assert_eq!(walked(&words, 2, 2, PAGE & 0x3_ffff), (0x4_5007, 2));
    assert_eq!(walked(&words, 1, 1, PAGE & 0x1ff), (0x4_5007, 1));
    // Beside the way: the entry that is not there was read.
    assert_eq!(walked(&words, 0, 3, PAGE - 1), (0, 3));
    assert_eq!(walked(&words, 0, 3, PAGE - (1 << 9)), (0, 2));
    assert_eq!(walked(&words, 0, 3, PAGE - (1 << 18)), (0, 1));
    // The last page of each depth.
    let last = run(1, &[(0, 511, 0x7)]);
    for depth in 1..=MAX_DEPTH {
        assert_eq!(walked(&last, 0, depth, (1 << (9 * depth)) - 1), (0x7, depth));
    }
}

#[test]
fn a_page_of_too_many_bits_is_absent_and_nothing_is_read() {
    let words = run(1, &[(0, 0, 0x7), (0, 1, 0x7)]);
    for depth in 1..=MAX_DEPTH {
        assert_eq!(walked(&words, 0, depth, 0), (0x7, depth));
        for bit in 9 * depth..64 {
            assert_eq!(walked(&words, 0, depth, 1 << bit | 1), (0, 0), "{depth}, bit {bit}");
        }
        assert_eq!(walked(&words, 0, depth, u64::MAX), (0, 0));
    }
}

/// Bits 0 to 4 and 63 and the frame, with every other bit set that does not make the page absent.
#[test]
fn a_flat_entry_has_the_named_bits_alone() {
    assert_eq!(walked(&run(1, &[(0, 0, 0x800f_ffff_ffff_ffff)]), 0, 1, 0).0, 0x800f_ffff_ffff_f01f);
    assert_eq!(walked(&run(1, &[(0, 0, 0x0000_0000_0000_0fe1)]), 0, 1, 0).0, 0x1);
    assert_eq!(three_levels(0xfff, 0xf7f, 0xfff), (0x4_501f, 3));
    let large = run(1, &[(0, 0, 0x800f_ffff_ffe0_0fff)]);
    assert_eq!(walked(&large, 0, 2, 0x1a5), (0x800f_ffff_fffa_501f, 1));
}

#[test]
fn rights_need_levels_1_and_2_and_not_level_3() {
    for right in [0x2, 0x4, 0x6] {
        assert_eq!(three_levels(0x7, 0x7, 0x1 | right).0, 0x4_5001 | right);
        assert_eq!(three_levels(0x7, 0x1 | right, 0x7).0, 0x4_5001 | right);
        assert_eq!(three_levels(0x1, 0x7, 0x1 | right).0, 0x4_5001 | right);
        assert_eq!(three_levels(0x7, 0x1, 0x1 | right).0, 0x4_5001);
    }
    assert_eq!(three_levels(0x1, 0x3, 0x5).0, 0x4_5001);
    assert_eq!(three_levels(0x1, 0x1, 0x1), (0x4_5001, 3));
}

#[test]
fn no_execute_needs_one_of_levels_1_and_2() {
    assert_eq!(three_levels(0x7, 0x7, NO_EXECUTE | 0x7).0, NO_EXECUTE | 0x4_5007);
    assert_eq!(three_levels(0x7, NO_EXECUTE | 0x7, 0x7).0, NO_EXECUTE | 0x4_5007);
    assert_eq!(three_levels(0x7, NO_EXECUTE | 0x7, NO_EXECUTE | 0x7).0, NO_EXECUTE | 0x4_5007);
    assert_eq!(three_levels(NO_EXECUTE | 0x7, 0x7, 0x7).0, 0x4_5007);
}

#[test]
fn cache_bits_are_those_of_the_last_entry() {
    for bits in [0x00, 0x08, 0x10, 0x18] {
        let others = 0x18 - bits;
        assert_eq!(three_levels(0x7 | others, 0x7 | others, 0x7 | bits).0, 0x4_5007 | bits);
        let large = run(2, &[(0, 0, 0x1007 | others), (1, 1, 0x40_0087 | bits)]);
        assert_eq!(walked(&large, 0, 3, 0x3ff), (0x5f_f007 | bits, 2));
    }
}

#[test]
fn a_large_page() {
    // Level 2 in a tree of two levels, and of three: frame 0x400 on. Table 1 would be next if bit 7 did not count.
    let words = run(2, &[(0, 0, 0x1007), (1, 6, 0x40_0083), (1, 0, 0x1007)]);
    for (root, depth, reads) in [(1, 2, 1), (0, 3, 2)] {
        assert_eq!(walked(&words, root, depth, 6 << 9), (0x40_0003, reads));
        assert_eq!(walked(&words, root, depth, 6 << 9 | 0x1a5), (0x5a_5003, reads));
        assert_eq!(walked(&words, root, depth, 6 << 9 | 0x1ff), (0x5f_f003, reads));
    }
    // The low nine bits of its frame field must be 0; the next one may be set.
    for bit in 12..=20 {
        let words = run(2, &[(0, 0, 0x83 | 1 << bit), (1, 0, 0x7007)]);
        assert_eq!(walked(&words, 0, 2, 0), (0, 1), "bit {bit}");
    }
    assert_eq!(walked(&run(1, &[(0, 0, 0x83 | 1 << 21)]), 0, 2, 0), (0x20_0003, 1));
    // Its frame has all 40 bits, and there need not be a table of that number.
    assert_eq!(walked(&run(1, &[(0, 0, 0xf_ffff_ffe0_0083)]), 0, 2, 511), (0xf_ffff_ffff_f003, 1));
}

/// At levels 1 and 3 bit 7 means nothing.
#[test]
fn bit_7_counts_at_level_2_only() {
    assert_eq!(three_levels(0x87, 0x7, 0x7), (0x4_5007, 3));
    assert_eq!(three_levels(0x7, 0x7, 0x87), (0x4_5007, 3));
    // At level 2 it does: the frame field 1 is no multiple of 512.
    assert_eq!(three_levels(0x7, 0x87, 0x7), (0, 2));
}

#[test]
fn an_absent_entry_of_any_level_was_read() {
    for marker in (52..=62).map(|bit| 1 << bit | 0x7).chain([0x6, 0x7ff0_0000_0000_0007]) {
        assert_eq!(three_levels(marker, 0x7, 0x7), (0, 1), "{marker:#x}");
        assert_eq!(three_levels(0x7, marker, 0x7), (0, 2), "{marker:#x}");
        assert_eq!(three_levels(0x7, 0x7, marker), (0, 3), "{marker:#x}");
        let large = run(1, &[(0, 0, 0x20_0080 | marker)]);
        assert_eq!(walked(&large, 0, 2, 0), (0, 1), "{marker:#x}");
    }
}

#[test]
fn a_table_outside_the_run_makes_the_page_absent() {
    // Table 1 of two is the last; every number above it, cut at no width, is outside.
    for outside in [2, 3, 512, 1 << 16, 1 << 32 | 1, 1 << 39 | 1, (1 << 40) - 1] {
        let entry = outside << 12 | 0x7;
        let words = run(2, &[(0, 0, entry), (0, 1, 0x1007), (1, 0, entry)]);
        assert_eq!(walked(&words, 0, 3, 0), (0, 1), "{outside}");
        assert_eq!(walked(&words, 0, 2, 0), (0, 1), "{outside}");
        assert_eq!(walked(&words, 0, 3, 1 << 18), (0, 2), "{outside}");
        // A last entry has a frame there and no table.
        assert_eq!(walked(&words, 0, 2, 1 << 9), (entry, 2), "{outside}");
    }
}

/// A table may name itself, or one above it: the walk goes down a level all the same.
#[test]
fn a_table_that_names_itself() {
    let words = run(1, &[(0, 0, 0x3), (0, 1, 0x9005)]);
    assert_eq!(walked(&words, 0, 3, 0), (0x3, 3));
    assert_eq!(walked(&words, 0, 3, 1), (0x9001, 3));
    assert_eq!(walked(&words, 0, 3, 1 << 18), (0, 1));
}

#[test]
fn other_runs_depths_and_roots_give_17() {
    let mut guard = started();
    let before = contents(&guard);
    let mut refused = |words: &[u64], root, depth| {
        let tree = Tree { words, root, depth };
        assert_eq!(tree.walk(0), Err(Refusal::Tree), "{} {root} {depth}", words.len());
        assert_eq!(guard.synchronise_page_tree(&tree, 0), Err(Refusal::Tree));
        // 17 is asked before 9.
        assert_eq!(guard.synchronise_page_tree(&tree, 4), Err(Refusal::Tree));
        assert_eq!(guard.synchronise_all_tree(&tree), Err(Refusal::Tree));
    };
    let words = [0x3007; 3 * TABLE_ENTRIES];
    for length in [0, 1, 511, 513, 768, 1023, 1025, 1280, 1535] {
        refused(&words[..length], 0, 1);
    }
    for depth in [0, 4, 9, 256 + 1, 1 << 16 | 2, 1 << 32 | 3, 1 << 63 | 1, u64::MAX] {
        refused(&words, 0, depth);
    }
    for root in [3, 4, 512, 1 << 16, 1 << 32, 1 << 55, 1 << 63 | 1, u64::MAX] {
        refused(&words, root, 1);
        refused(&words, root, 3);
    }
    assert_eq!(contents(&guard), before);
    assert_eq!(walked(&words, 2, 1, 0), (0x3007, 1));
}

/// V 4, F 4, page 1 with frame 2.
fn started() -> Guard {
    Guard::start(&record(4, 4, 1, &[(1, 2)]), one_device()).expect("the start is accepted")
}

#[test]
fn one_page_from_a_tree() {
    // Page 0: an alias of frame 2. Page 1: moved to frame 3. Page 2: a frame past the last. Page 3: ordinary.
    let level_1 = [0x2007, 0x3007, 0x4007, 0x301f].map(|entry| entry | 0xf00);
    let mut words = run(3, &[(2, 0, 0x1007), (1, 0, 0x7)]);
    words[..4].copy_from_slice(&level_1);
    for (root, depth) in [(0, 1), (1, 2), (2, 3)] {
        let tree = Tree { words: &words, root, depth };
        let mut guard = started();
        let counts = |changed, joined| Ok(Synchronised { changed, joined });
        assert_eq!(guard.synchronise_page_tree(&tree, 0), counts(1, 1));
        assert_eq!(guard.synchronise_page_tree(&tree, 1), counts(0, 0));
        assert_eq!(guard.synchronise_page_tree(&tree, 2), counts(0, 0));
        assert_eq!(guard.synchronise_page_tree(&tree, 3), counts(1, 0));
        assert_eq!(guard.shadow(), [0x2401, 0x2401, 0, NO_EXECUTE | 0x301f]);
        assert_eq!(guard.map(), [2, 2, NO_FRAME, NO_FRAME]);
        let before = contents(&guard);
        for page in [4, 65536, 1 << 32, u64::MAX] {
            assert_eq!(guard.synchronise_page_tree(&tree, page), Err(Refusal::DoesNotExist));
        }
        assert_eq!(guard.synchronise_all_tree(&tree), counts(0, 0));
        assert_eq!(contents(&guard), before);
    }
}

/// Pages past the depth, of a read-only upper entry, of a large page, and a page that an upper entry makes absent, approval kept.
#[test]
fn all_pages_from_a_tree() {
    let policy = record(1600, 2048, 1, &[(1, 2), (1030, 9)]);
    let mut guard = Guard::start(&policy, one_device()).unwrap();
    let words = run(2, &[(0, 0, 0x1005), (0, 1, 0x40_0097), (1, 1, 0x7003), (1, 4, 0x8003)]);
    let tree = Tree { words: &words, root: 0, depth: 2 };
    // Pages 4 and 512 to 1,023 come, page 1,030 goes, page 1 stays.
    assert_eq!(guard.synchronise_all_tree(&tree), Ok(Synchronised { changed: 514, joined: 0 }));
    assert_eq!((guard.shadow()[1], guard.shadow()[4]), (0x2401, NO_EXECUTE | 0x8001));
    assert_eq!(guard.shadow()[512], NO_EXECUTE | 0x40_0017);
    assert_eq!(guard.shadow()[1023], NO_EXECUTE | 0x5f_f017);
    assert_eq!((guard.shadow()[1030], guard.map()[1030]), (0, 9));
    // Table 1 as a tree of one level: pages from 512 on need too many bits.
    let tree = Tree { root: 1, depth: 1, ..tree };
    assert_eq!(guard.synchronise_all_tree(&tree), Ok(Synchronised { changed: 513, joined: 0 }));
    assert_eq!((guard.shadow()[4], guard.shadow()[512]), (NO_EXECUTE | 0x8003, 0));
}

/// Any tree of a few tables: mostly whole.
fn random_tree(random: &mut Random, words: &mut Vec<u64>) -> (u64, u64) {
    let tables = 1 + random.below(4);
    words.clear();
    for _ in 0..tables * TABLE_ENTRIES as u64 {
        let mut entry = KernelEntry::random(random, 8);
        if random.one_in(2) {
            entry.frame = random.below(tables + 1);
        }
        words.push(entry.bits());
    }
    if random.one_in(16) {
        words.pop();
    }
    let root = if random.one_in(16) { random.word() } else { random.below(tables) };
    let depth = if random.one_in(16) { random.word() } else { 1 + random.below(3) };
    (root, depth)
}

/// Synchronising from a tree is synchronising from the flat table of its walks, and a tree that is refused changes nothing.
#[test]
fn synchronising_from_a_tree_is_doing_so_from_the_flat_table_of_its_walks() {
    let mut random = Random::new(4);
    let mut words = Vec::new();
    let (mut accepted, mut present) = (0, 0);
    for round in 0..600 {
        let pages = if round % 8 == 0 { 1300 } else { 20 };
        let policy = record(pages, 8, 1, &[(1, 2), (5, 3)]);
        let mut guard = Guard::start(&policy, one_device()).unwrap();
        let mut flat_guard = Guard::start(&policy, one_device()).unwrap();
        for _ in 0..3 {
            let (root, depth) = random_tree(&mut random, &mut words);
            let tree = Tree { words: &words, root, depth };
            let before = contents(&guard);
            let walks: Result<Vec<_>, _> = (0..guard.pages()).map(|page| tree.walk(page)).collect();
            let Ok(walks) = walks else {
                assert_eq!(guard.synchronise_page_tree(&tree, 0), Err(Refusal::Tree));
                assert_eq!(guard.synchronise_all_tree(&tree), Err(Refusal::Tree));
                assert_eq!(contents(&guard), before);
                continue;
            };
            assert!(walks.iter().all(|walk| walk.reads <= depth));
            let flat: Vec<_> = walks.iter().map(|walk| walk.entry).collect();
            accepted += 1;
            present += flat.iter().filter(|&&entry| entry != 0).count();
            for page in 0..8 {
                let counts = guard.synchronise_page_tree(&tree, page);
                assert_eq!(counts, flat_guard.synchronise_page(&flat, page));
            }
            assert_eq!(guard, flat_guard);
            assert_eq!(guard.synchronise_all_tree(&tree), flat_guard.synchronise_all(&flat));
            assert_eq!(guard, flat_guard);
        }
    }
    assert!(accepted > 1000 && present > 10_000, "{accepted}, {present}");
}

/// 7 is about the numbers run of a walk, and comes before 17.
#[test]
fn a_numbers_run_of_another_length_gives_7() {
    let words = run(1, &[(0, 0, 0x7)]);
    for length in [0, 1, 3] {
        let mut numbers = vec![9; length];
        assert_eq!(archive::walk(&words, 0, 1, 0, &mut numbers), 7);
        assert_eq!(archive::walk(&words, 1, 4, 0, &mut numbers), 7);
        assert_eq!(numbers, vec![9; length]);
    }
    let mut numbers = [9; NUMBERS];
    assert_eq!(archive::walk(&words, 1, 1, 0, &mut numbers), 17);
    assert_eq!(numbers, [0, 0]);
}
