//! Trees (K4): the walk level by level, question 17 and its place among the others, and synchronising from a tree.
//! A run here is of zeros but for the entries named, each by its table, its index there and its value.

mod common;

use common::{record, refused, Guard};
use inputs::Random;
use reference::path::Path;
use reference::{boundary, walk, Answer, Mode, Tree, NO_FRAME};

const NO_EXECUTE: u64 = 1 << 63;
/// The highest number in a frame field.
const HIGHEST: u64 = 0x000f_ffff_ffff_f000;

fn run(tables: usize, entries: &[(usize, usize, u64)]) -> Vec<u64> {
    let mut run = vec![0; 512 * tables];
    for &(table, index, entry) in entries {
        run[512 * table + index] = entry;
    }
    run
}

fn walked(tables: &[u64], root: u64, depth: u64, page: u64) -> Answer {
    walk(Tree { tables, root, depth }, page)
}

/// The walk to page 517 through three tables, by the entries met at levels 3, 2 and 1.
fn of_three_levels([third, second, first]: [u64; 3]) -> Answer {
    let tables = run(3, &[(0, 0, third), (1, 1, second), (2, 5, first)]);
    walked(&tables, 0, 3, 517)
}

/// The walk to page 517 from level 2 on, with nothing above.
fn of_two_levels(second: u64, first: u64) -> Answer {
    let tables = run(3, &[(1, 1, second), (2, 5, first)]);
    walked(&tables, 1, 2, 517)
}

#[test]
fn a_depth_of_one_is_a_flat_table() {
    let tables = run(2, &[(1, 0, 0x3003), (1, 5, 0x7007), (1, 511, 0x9001), (0, 5, 0x4001)]);
    assert_eq!(walked(&tables, 1, 1, 0), Ok((0x3003, 1)));
    assert_eq!(walked(&tables, 1, 1, 5), Ok((0x7007, 1)));
    assert_eq!(walked(&tables, 1, 1, 511), Ok((0x9001, 1)));
    assert_eq!(walked(&tables, 1, 1, 6), Ok((0, 1)));
    assert_eq!(walked(&tables, 0, 1, 5), Ok((0x4001, 1)));
}

#[test]
fn each_level_takes_the_next_nine_bits() {
    // By the indices 3, 2 and 5, through the tables 1, 4 and 2.
    let tables = run(5, &[(1, 3, 0x4007), (4, 2, 0x2007), (2, 5, 0x7007)]);
    assert_eq!(walked(&tables, 1, 3, 3 << 18 | 2 << 9 | 5), Ok((0x7007, 3)));
    assert_eq!(walked(&tables, 4, 2, 2 << 9 | 5), Ok((0x7007, 2)));
    assert_eq!(walked(&tables, 2, 1, 5), Ok((0x7007, 1)));
    assert_eq!(walked(&tables, 1, 3, 3 << 18 | 2 << 9 | 6), Ok((0, 3)));
    assert_eq!(walked(&tables, 1, 3, 3 << 18 | 3 << 9 | 5), Ok((0, 2)));
    assert_eq!(walked(&tables, 1, 3, 2 << 18 | 2 << 9 | 5), Ok((0, 1)));
}

/// A table that names itself is walked as often as there are levels. None of the bits above is dropped, and nothing is read then.
#[test]
fn a_page_number_with_too_many_bits() {
    let tables = run(1, &[(0, 0, 0x7), (0, 5, 0x7), (0, 511, 0x7)]);
    for depth in 1..=3 {
        let end = 1 << (9 * depth);
        assert_eq!(walked(&tables, 0, depth, 0), Ok((0x7, depth)));
        assert_eq!(walked(&tables, 0, depth, end - 1), Ok((0x7, depth)));
        for page in [end, end + 5, end << 1, end << 9, 1 << 32, 1 << 63, u64::MAX] {
            assert_eq!(walked(&tables, 0, depth, page), Ok((0, 0)), "depth {depth}, page {page}");
        }
    }
}

/// Writable and user need levels 1 and 2, no-execute needs one of them; at level 3 the three do not count.
#[test]
fn the_rights_of_every_level() {
    let rows = [
        (0x2007, 0x7007, 0x7007),
        (0x2007, 0x7005, 0x7005),
        (0x2007, 0x7003, 0x7003),
        (0x2005, 0x7007, 0x7005),
        (0x2003, 0x7007, 0x7003),
        (0x2003, 0x7005, 0x7001),
        (0x2001, 0x7007, 0x7001),
        (0x2007, NO_EXECUTE | 0x7007, NO_EXECUTE | 0x7007),
        (NO_EXECUTE | 0x2007, 0x7007, NO_EXECUTE | 0x7007),
        (NO_EXECUTE | 0x2007, NO_EXECUTE | 0x7007, NO_EXECUTE | 0x7007),
        (NO_EXECUTE | 0x2005, 0x7003, NO_EXECUTE | 0x7001),
    ];
    for (second, first, flat) in rows {
        assert_eq!(of_two_levels(second, first), Ok((flat, 2)), "{second:x} {first:x}");
        for third in [0x1007, 0x1001, NO_EXECUTE | 0x1007, NO_EXECUTE | 0x1001] {
            let answer = of_three_levels([third, second, first]);
            assert_eq!(answer, Ok((flat, 3)), "{third:x} {second:x} {first:x}");
        }
    }
}

#[test]
fn the_cache_bits_of_the_last_entry() {
    for bits in [0, 0x8, 0x10, 0x18] {
        for above in [0, 0x8, 0x10, 0x18] {
            let levels = [0x1007 | above, 0x2007 | above, 0x7007 | bits];
            assert_eq!(of_three_levels(levels), Ok((0x7007 | bits, 3)), "{levels:x?}");
            let large = [0x1007 | above, 0x20_0087 | bits, 0];
            assert_eq!(of_three_levels(large), Ok((0x20_5007 | bits, 2)), "{large:x?}");
        }
    }
}

/// Bits 5 to 11 are in no flat entry, and bit 7 counts at level 2 alone.
#[test]
fn the_other_bits_are_ignored() {
    assert_eq!(of_three_levels([0x1fe7, 0x2f67, 0x7fe7]), Ok((0x7007, 3)));
    assert_eq!(of_two_levels(0x2f67, 0x7fe7), Ok((0x7007, 2)));
    assert_eq!(of_two_levels(0x2007, HIGHEST | 0xfff), Ok((HIGHEST | 0x1f, 2)));
    assert_eq!(of_two_levels(0x20_0fe7, 0x7007), Ok((0x20_5007, 1)));
}

/// Bit 0 clear or any of bits 52 to 62 set, at every level: the entry is read and makes the page absent.
#[test]
fn an_absent_entry_ends_the_walk() {
    let present = [0x1007, 0x2007, 0x7007];
    for level in 0..3 {
        let read = level as u64 + 1;
        let with = |entry| {
            let mut levels = present;
            levels[level] = entry;
            of_three_levels(levels)
        };
        assert_eq!(with(present[level]), Ok((0x7007, 3)));
        assert_eq!(with(present[level] & !1), Ok((0, read)), "level {}", 3 - level);
        for bit in 52..=62 {
            assert_eq!(with(1 << bit | present[level]), Ok((0, read)), "bit {bit}");
        }
    }
    // Of a large page too.
    assert_eq!(of_two_levels(0x20_0086, 0), Ok((0, 1)));
    assert_eq!(of_two_levels(1 << 52 | 0x20_0087, 0), Ok((0, 1)));
    assert_eq!(of_two_levels(1 << 62 | 0x20_0087, 0), Ok((0, 1)));
}

/// The number of the next table is the whole frame field; one outside the run is not read.
#[test]
fn a_table_outside_the_run() {
    for outside in [0x3007, 0x4007, HIGHEST | 7, 1 << 44 | 0x2007, 1 << 28 | 0x2007] {
        assert_eq!(of_two_levels(outside, 0x7007), Ok((0, 1)), "{outside:x}");
        assert_eq!(of_three_levels([0x1007, outside, 0x7007]), Ok((0, 2)), "{outside:x}");
        assert_eq!(of_three_levels([outside, 0x2007, 0x7007]), Ok((0, 1)), "{outside:x}");
    }
}

#[test]
fn a_large_page() {
    // Page 517 is the sixth of the large page.
    assert_eq!(of_two_levels(0x87, 0), Ok((0x5007, 1)));
    assert_eq!(of_two_levels(0x20_0087, 0), Ok((0x20_5007, 1)));
    assert_eq!(of_three_levels([0x1007, 0x20_0087, 0]), Ok((0x20_5007, 2)));
    assert_eq!(of_two_levels(NO_EXECUTE | 0x20_0085, 0), Ok((NO_EXECUTE | 0x20_5005, 1)));
    assert_eq!(of_three_levels([NO_EXECUTE | 0x1001, 0x20_0083, 0]), Ok((0x20_5003, 2)));
    let highest = 0x000f_ffff_ffe0_0087;
    assert_eq!(of_two_levels(highest, 0), Ok((0x000f_ffff_ffe0_5007, 1)));
    let tables = run(1, &[(0, 1, highest)]);
    assert_eq!(walked(&tables, 0, 2, 512), Ok((0x000f_ffff_ffe0_0007, 1)));
    assert_eq!(walked(&tables, 0, 2, 1023), Ok((HIGHEST | 0x7, 1)));
    assert_eq!(walked(&tables, 0, 2, 1024), Ok((0, 1)));
}

#[test]
fn a_misaligned_large_page_is_absent() {
    for bit in 12..=20 {
        let entry = 1 << bit | 0x20_0087;
        assert_eq!(of_two_levels(entry, 0x7007), Ok((0, 1)), "bit {bit}");
        assert_eq!(of_three_levels([0x1007, entry, 0x7007]), Ok((0, 2)), "bit {bit}");
    }
}

/// Neither an entry of level 1 nor one of level 3 is that of a large page, be its frame field aligned or not.
#[test]
fn bit_7_at_levels_1_and_3() {
    for first in [0x20_0087, 0x20_1087] {
        assert_eq!(of_two_levels(0x2007, first), Ok((first & !0x80, 2)));
        let tables = run(1, &[(0, 5, first)]);
        assert_eq!(walked(&tables, 0, 1, 5), Ok((first & !0x80, 1)));
    }
    assert_eq!(of_three_levels([0x1087, 0x2007, 0x7007]), Ok((0x7007, 3)));
    // Table 0 is its own level 2 by an aligned field.
    let tables = run(3, &[(0, 0, 0x87), (0, 1, 0x2007), (2, 5, 0x7007)]);
    assert_eq!(walked(&tables, 0, 3, 517), Ok((0x7007, 3)));
}

/// One table at two places, and as its own next one.
#[test]
fn shared_tables_and_cycles() {
    let tables = run(2, &[(0, 0, 0x1005), (0, 1, 0x1003), (1, 5, 0x7007)]);
    assert_eq!(walked(&tables, 0, 2, 5), Ok((0x7005, 2)));
    assert_eq!(walked(&tables, 0, 2, 517), Ok((0x7003, 2)));
    let tables = run(1, &[(0, 0, 0x5), (0, 5, 0x7007)]);
    assert_eq!(walked(&tables, 0, 3, 5), Ok((0x7005, 3)));
    assert_eq!(walked(&tables, 0, 3, 0), Ok((0x5, 3)));
}

/// The trees that question 17 refuses: the words of the run, the root, the depth.
const NO_TREES: [(usize, u64, u64); 19] = [
    (0, 0, 1),
    (1, 0, 1),
    (511, 0, 1),
    (513, 0, 1),
    (1023, 0, 1),
    (1025, 1, 2),
    (512, 0, 0),
    (512, 0, 4),
    (512, 0, 5),
    (512, 0, 1 << 32 | 1),
    (512, 0, u64::MAX),
    (512, 1, 1),
    (1024, 2, 2),
    (1024, 3, 3),
    (1536, 1 << 32, 3),
    (1536, 1 << 32 | 1, 3),
    (1536, 1 << 55, 3),
    (1536, 1 << 63, 3),
    (1536, u64::MAX, 3),
];

#[test]
fn question_17() {
    let tables = vec![0x7; 1536];
    for (words, root, depth) in NO_TREES {
        for page in [0, 600, u64::MAX] {
            let answer = walked(&tables[..words], root, depth, page);
            assert_eq!(answer, refused(17), "{words} words, root {root}, depth {depth}");
        }
    }
    for (words, root, depth) in [(512, 0, 1), (512, 0, 3), (1024, 1, 2), (1536, 2, 3)] {
        assert!(walked(&tables[..words], root, depth, 0).is_ok());
    }
}

/// The bare walk asks 7 of its numbers run, then 17; a run of two gets zeros where it is refused, another is not written.
#[test]
fn the_numbers_run_of_a_walk() {
    let tables = run(1, &[(0, 5, 0x7ff7)]);
    let walk = |depth: u64, words: usize| {
        let mut numbers = vec![77; words];
        let tree = Tree { tables: &tables, root: 0, depth };
        (boundary::walk(tree, 5, &mut numbers), numbers)
    };
    assert_eq!(walk(1, 2), (0, vec![0x7017, 1]));
    assert_eq!(walk(0, 2), (17, vec![0, 0]));
    for words in [0, 1, 3] {
        assert_eq!(walk(1, words), (7, vec![77; words]));
        assert_eq!(walk(0, words), (7, vec![77; words]));
    }
}

/// V 4, F 9, page 1 with frame 2 and page 3 with frame 8; the tree maps page 0 to frame 2, page 1 to 3, page 2 to 5 without the
/// right to write, and page 3 to nothing.
fn guard_and_tables() -> (Guard, Vec<u64>) {
    let guard = Guard::started(&record(4, 9, 1, &[(1, 2), (3, 8)]));
    let leaves = [(2, 0, 0x2003), (2, 1, 0x3003), (2, 2, 0x5007), (2, 3, 0x8002)];
    let tables = run(3, &[[(0, 0, 0x1007), (1, 0, 0x2005)].as_slice(), &leaves].concat());
    (guard, tables)
}

fn one(guard: &mut Guard, tables: &[u64], root: u64, depth: u64, page: u64) -> Answer {
    let Guard { state, shadow, map, exclusion, .. } = guard;
    let tree = Tree { tables, root, depth };
    reference::synchronise_one_from_tree(state, tree, shadow, map, exclusion, page)
}

fn all(guard: &mut Guard, tables: &[u64], root: u64, depth: u64) -> Answer {
    let Guard { state, shadow, map, exclusion, .. } = guard;
    let tree = Tree { tables, root, depth };
    reference::synchronise_all_from_tree(state, tree, shadow, map, exclusion)
}

#[test]
fn synchronising_all_pages_from_a_tree() {
    let (mut guard, tables) = guard_and_tables();
    assert_eq!(all(&mut guard, &tables, 0, 3), Ok((3, 1)));
    assert_eq!(guard.shadow, [0x2401, 0x2401, NO_EXECUTE | 0x5005, 0]);
    assert_eq!(guard.map, [2, 2, NO_FRAME, 8]);
    assert_eq!(all(&mut guard, &tables, 0, 3), Ok((0, 0)));
    assert_eq!(all(&mut guard, &tables, 1, 2), Ok((0, 0)), "level 3 takes nothing away");
    assert_eq!(all(&mut guard, &tables, 2, 1), Ok((1, 0)), "level 2 took the right to write away");
    assert_eq!(guard.shadow[2], NO_EXECUTE | 0x5007);
    guard.state.mode = Mode::User(1);
    assert_eq!(all(&mut guard, &tables, 0, 3), Ok((3, 0)));
    assert_eq!(guard.shadow, [NO_EXECUTE | 0x2401, NO_EXECUTE | 0x2401, 0x5005, 0]);
}

#[test]
fn synchronising_one_page_from_a_tree() {
    let (mut guard, tables) = guard_and_tables();
    assert_eq!(one(&mut guard, &tables, 0, 3, 2), Ok((1, 0)));
    assert_eq!(guard.shadow, [0, 0x2401, NO_EXECUTE | 0x5005, 0x8401]);
    assert_eq!(one(&mut guard, &tables, 1, 2, 0), Ok((1, 1)));
    assert_eq!((guard.shadow[0], guard.map[0]), (0x2401, 2));
    assert_eq!(one(&mut guard, &tables, 2, 1, 3), Ok((1, 0)));
    assert_eq!((guard.shadow[3], guard.map[3]), (0, 8), "an absent page stays approved");
    assert_eq!(one(&mut guard, &tables, 2, 1, 1), Ok((0, 0)));
}

/// Pages past those of depth 1 are absent, on approved pages too.
#[test]
fn more_pages_than_the_depth_has() {
    let mut guard = Guard::started(&record(514, 9, 1, &[(512, 2)]));
    let tables = run(1, &[(0, 0, 0x3003), (0, 1, 0x4003)]);
    assert_eq!(all(&mut guard, &tables, 0, 1), Ok((3, 0)));
    assert_eq!(guard.shadow[..2], [NO_EXECUTE | 0x3003, NO_EXECUTE | 0x4003]);
    assert_eq!(guard.shadow[2..], [0; 512]);
    assert_eq!(guard.map[512], 2);
    assert_eq!(one(&mut guard, &tables, 0, 1, 513), Ok((0, 0)));
}

/// 7 of each guard table, then 17, then 9; nothing is changed.
#[test]
fn the_order_of_the_questions() {
    let (guard, tables) = guard_and_tables();
    let assert_refused = |guard: &Guard, words: usize, root: u64, depth: u64, number: u8| {
        for page in [0, 4, u64::MAX] {
            let mut after = guard.clone();
            let answer = one(&mut after, &tables[..words], root, depth, page);
            assert_eq!(answer, refused(number), "{words} words, root {root}, depth {depth}");
            assert_eq!(&after, guard);
        }
        let mut after = guard.clone();
        assert_eq!(all(&mut after, &tables[..words], root, depth), refused(number));
        assert_eq!(&after, guard);
    };
    for (words, root, depth) in NO_TREES {
        assert_refused(&guard, words, root, depth, 17);
    }
    let damages: [fn(&mut Guard); 5] = [
        |guard| guard.state.v = 0,
        |guard| guard.shadow.push(0),
        |guard| guard.map.truncate(3),
        |guard| guard.exclusion.truncate(1),
        |guard| guard.state.mode = Mode::User(4),
    ];
    for damage in damages {
        let mut damaged = guard.clone();
        damage(&mut damaged);
        assert_refused(&damaged, 1536, 0, 3, 7);
        assert_refused(&damaged, 511, 0, 1, 7);
    }
    for page in [4, 1 << 32, u64::MAX] {
        assert_eq!(one(&mut guard.clone(), &tables, 0, 3, page), refused(9));
    }
}

/// A word that is often an entry with the number of a table, or with an aligned frame.
fn word(random: &mut Random, tables: u64) -> u64 {
    let table = random.below(tables + 1);
    let aligned = 512 * random.below(9);
    let marker = if random.one_in(8) { random.word() & 0x7ff0_0000_0000_0000 } else { 0 };
    let bits = random.word() & 0x8000_0000_0000_0fff;
    let present = u64::from(!random.one_in(8));
    bits & !1 | present | random.pick(&[0, table, aligned]) << 12 | marker
}

/// The walk of the table code and that of the one-page guards, each written from document 02.
#[test]
fn the_two_walks_agree() {
    let mut random = Random::new(4);
    for _ in 0..200 {
        let count = 1 + random.below(4);
        let tables: Vec<_> = (0..512 * count).map(|_| word(&mut random, count)).collect();
        for depth in 1..=3 {
            let tree = Tree { tables: &tables, root: random.below(count), depth };
            for _ in 0..200 {
                let bits = 9 * depth + u64::from(random.one_in(8));
                let page = random.below(1 << bits);
                let path = Path::to(page, &tree);
                let answer = walk(tree, page);
                assert_eq!(answer, Ok((path.flat(), path.read())), "depth {depth}, page {page}");
                assert!(path.read() <= depth);
            }
        }
    }
}
