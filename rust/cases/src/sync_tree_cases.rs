// Synchronising from a tree (K4), one page and all: "For every depth, synchronising from a tree equals doing so from the flat table of
// its walks." Questions 7, 17 and, of one page, 9, in this order. Steps 1 to 5 by flat entries are in sync_page_cases and sync_all_cases.
use crate::calls::Answer;
use crate::calls::Answer::Done;
use crate::calls::Answer::Refused;
use crate::calls::Mode;
use crate::calls::Mode::Kernel;
use crate::calls::Mode::User;
use crate::calls::State;
use crate::calls::Tree;
use crate::guard;
use crate::tally::Tally;
use ::guard::archive;

const NO_EXECUTE: u64 = 0x8000000000000000;

#[derive(Clone, PartialEq)]
struct Tables {
    shadow: Vec<u64>,
    map: Vec<u16>,
}

impl Tables {
    fn new(shadow: &[u64], map: &[u16]) -> Tables {
        Tables { shadow: shadow.to_vec(), map: map.to_vec() }
    }
}

// One page of these tables, and all of them: whether the call answers so and leaves this.
fn one(s: State, tree: Tree, page: u64, given: &Tables, wanted: Answer, left: &Tables) -> bool {
    let Tables { mut shadow, mut map } = given.clone();
    let exclusion = [0x04, 0x01];
    let answer = crate::calls::sync_page_tree(s, tree, &mut shadow, &mut map, &exclusion, page);
    answer == wanted && Tables { shadow, map } == *left
}

fn all_of(s: State, tree: Tree, given: &Tables, wanted: Answer, left: &Tables) -> bool {
    let Tables { mut shadow, mut map } = given.clone();
    let answer = crate::calls::sync_all_tree(s, tree, &mut shadow, &mut map, &[0x04, 0x01]);
    answer == wanted && Tables { shadow, map } == *left
}

// Page 0 of V 4 and F 9 by its entries of levels 3, 2 and 1, with a tree of depth 3. Given: its shadow entry and its number in the map.
// Wanted: the changed and joined counts, the shadow entry and the number in the map. Every other place has to stay as it is, though its
// entry of level 1 would change it.
fn page_0(
    t: Tally,
    name: &str,
    mode: Mode,
    [third, second, first]: [u64; 3],
    given: (u64, u16),
    counts: [u64; 2],
    left: (u64, u16),
) -> Tally {
    let others = [(2, 1, 0), (2, 2, 0x5007), (2, 3, 0x6007)];
    let page = [(0, 0, third), (1, 0, second), (2, 0, first)];
    let run = guard::run_of(3, &[page, others].concat());
    let tree = Tree { tables: &run, root: 0, depth: 3 };
    let tables = |(entry, number): (u64, u16)| {
        Tables::new(&[entry, 0x2401, 0x7001, 0], &[number, 2, 65535, 8])
    };
    let wanted = Done(counts[0], counts[1]);
    let s = guard::state_in(mode);
    t.case("sync_page_tree", name, one(s, tree, 0, &tables(given), wanted, &tables(left)))
}

// Steps 1 and 3: a walk that ends before a page leaves shadow 0 and the map unchanged.
fn absent(t: Tally) -> Tally {
    let mut t = t;
    for (name, entries) in [
        ("absent at level 1", [0x1007, 0x2007, 0x3006]),
        ("absent at level 2", [0x1007, 0x2006, 0x3007]),
        ("absent at level 3", [0x1006, 0x2007, 0x3007]),
        ("bit 52 at level 1", [0x1007, 0x2007, 0x0010000000003007]),
        ("bit 62 at level 2", [0x1007, 0x4000000000002007, 0x3007]),
        ("bit 57 at level 3", [0x0200000000001007, 0x2007, 0x3007]),
        ("a table outside the run at level 2", [0x1007, 0x3007, 0x3007]),
        ("the highest table number at level 3", [0x000ffffffffff007, 0x2007, 0x3007]),
        ("a misaligned large page", [0x1007, 0x2087, 0x3007]),
    ] {
        let ordinary = (NO_EXECUTE | 0x3007, 65535);
        let name_of = |page: &str| format!("{name}: {page}");
        t = page_0(
            t,
            &name_of("an ordinary page goes"),
            Kernel(1),
            entries,
            ordinary,
            [1, 0],
            (0, 65535),
        );
        t = page_0(
            t,
            &name_of("an approved page stays approved"),
            User(1),
            entries,
            (NO_EXECUTE | 0x2401, 2),
            [1, 0],
            (0, 2),
        );
        t = page_0(
            t,
            &name_of("nothing changes"),
            Kernel(1),
            entries,
            (0, 65535),
            [0, 0],
            (0, 65535),
        );
    }
    let t = page_0(
        t,
        "frame F is not mapped",
        Kernel(1),
        [0x1007, 0x2007, 0x9007],
        (NO_EXECUTE | 0x3007, 65535),
        [1, 0],
        (0, 65535),
    );
    page_0(
        t,
        "a large page from frame 512 on is not mapped",
        Kernel(1),
        [0x1007, 0x200087, 0x3007],
        (NO_EXECUTE | 0x3007, 65535),
        [1, 0],
        (0, 65535),
    )
}

// Steps 2 and 4.
fn approved(t: Tally) -> Tally {
    let t = page_0(
        t,
        "an approved page keeps its frame",
        Kernel(1),
        [0x1007, 0x2007, 0x301f],
        (0, 2),
        [1, 0],
        (0x2401, 2),
    );
    let t = page_0(
        t,
        "an approved page keeps its frame in a large page",
        User(1),
        [0x1007, 0x20009f, 0],
        (0x2401, 2),
        [1, 0],
        (NO_EXECUTE | 0x2401, 2),
    );
    let t = page_0(
        t,
        "an approved entry as before is no change, whatever the rights above",
        Kernel(1),
        [NO_EXECUTE | 0x1001, NO_EXECUTE | 0x2001, 0x2007],
        (0x2401, 2),
        [0, 0],
        (0x2401, 2),
    );
    let t = page_0(
        t,
        "an alias joins",
        Kernel(1),
        [0x1007, 0x2007, 0x2007],
        (NO_EXECUTE | 0x3007, 65535),
        [1, 1],
        (0x2401, 2),
    );
    let t = page_0(
        t,
        "an alias joins with no rights at all",
        User(1),
        [0x1001, NO_EXECUTE | 0x2001, NO_EXECUTE | 0x8001],
        (0, 65535),
        [1, 1],
        (NO_EXECUTE | 0x8401, 8),
    );
    page_0(
        t,
        "a page may join with its shadow entry unchanged",
        Kernel(1),
        [0x1007, 0x2007, 0x2007],
        (0x2401, 65535),
        [0, 1],
        (0x2401, 2),
    )
}

// Step 5: "Writable and user need every level, no-execute needs one; at level 3 these three bits do not count." No-execute goes to bit 9.
// Page 0 by its entries, over an entry of 0: its shadow entry in kernel mode and in user mode.
fn ordinary(t: Tally, name: &str, entries: [u64; 3], kernel: u64, user: u64) -> Tally {
    let in_kernel = format!("{name} in kernel mode");
    let t = page_0(t, &in_kernel, Kernel(1), entries, (0, 65535), [1, 0], (kernel, 65535));
    let in_user = format!("{name} in user mode");
    page_0(t, &in_user, User(1), entries, (0, 65535), [1, 0], (user, 65535))
}

fn rights(t: Tally) -> Tally {
    let t =
        ordinary(t, "a page with all rights", [0x1007, 0x2007, 0x3007], 0x8000000000003007, 0x3007);
    let t = ordinary(
        t,
        "not writable at level 2",
        [0x1007, 0x2005, 0x3007],
        0x8000000000003005,
        0x3005,
    );
    let t = ordinary(
        t,
        "not user at level 2",
        [0x1007, 0x2003, 0x3007],
        0x8000000000003003,
        0x8000000000003003,
    );
    let t = ordinary(
        t,
        "no-execute at level 2",
        [0x1007, 0x8000000000002007, 0x3007],
        0x8000000000003207,
        0x8000000000003207,
    );
    let t = ordinary(
        t,
        "not user at level 2, not writable at 1",
        [0x1007, 0x2003, 0x3005],
        0x8000000000003001,
        0x8000000000003001,
    );
    let t = ordinary(
        t,
        "no right at level 3",
        [0x8000000000001001, 0x2007, 0x3007],
        0x8000000000003007,
        0x3007,
    );
    let t = ordinary(
        t,
        "cache bits of the last entry",
        [0x1007, 0x2007, 0x301f],
        0x800000000000301f,
        0x301f,
    );
    let t = ordinary(t, "cache bits above", [0x101f, 0x201f, 0x3007], 0x8000000000003007, 0x3007);
    let t = ordinary(
        t,
        "bits 5 to 11 of every level",
        [0x1fe7, 0x2f67, 0x3fe7],
        0x8000000000003007,
        0x3007,
    );
    ordinary(
        t,
        "a large page with bit 4, not writable",
        [0x8000000000001081, 0x0095, 0x3007],
        0x8000000000000015,
        0x15,
    )
}

// "shadow entries whose value changed": a right that comes or goes above is a change.
fn changes(t: Tally) -> Tally {
    let t = page_0(
        t,
        "the same entry is no change",
        User(1),
        [0x1007, 0x2005, 0x3007],
        (0x3005, 65535),
        [0, 0],
        (0x3005, 65535),
    );
    let t = page_0(
        t,
        "a right taken away at level 2 is a change",
        User(1),
        [0x1007, 0x2005, 0x3007],
        (0x3007, 65535),
        [1, 0],
        (0x3005, 65535),
    );
    page_0(
        t,
        "a right taken away at level 3 is none",
        User(1),
        [0x1001, 0x2007, 0x3007],
        (0x3007, 65535),
        [0, 0],
        (0x3007, 65535),
    )
}

// The entries of sync_all_cases: absent, approved for 2, at F, an alias of 8, ordinary, ordinary as before, approved for 8 and absent,
// ordinary no-execute.
const EVERY_KIND: [u64; 8] =
    [0x3002, 0x3003, 0x9003, 0x8003, 0x4003, 0x5005, 0x8002, 0x8000000000006007];

fn state_of_eight(mode: Mode) -> State {
    guard::state(8, 9, 1, [1, 0, 0, 0], mode)
}

fn before() -> Tables {
    Tables::new(
        &[0x8000000000003003, 0x2401, 0x8000000000001001, 0, 0, 0x8000000000005005, 0x8401, 0],
        &[65535, 2, 65535, 65535, 65535, 65535, 8, 65535],
    )
}

fn after_in_kernel_mode() -> Tables {
    Tables::new(
        &[0, 0x2401, 0, 0x8401, 0x8000000000004003, 0x8000000000005005, 0, 0x8000000000006207],
        &[65535, 2, 65535, 8, 65535, 65535, 8, 65535],
    )
}

fn after_in_user_mode() -> Tables {
    Tables::new(
        &[
            0,
            0x8000000000002401,
            0,
            0x8000000000008401,
            0x8000000000004003,
            0x5005,
            0,
            0x8000000000006207,
        ],
        &[65535, 2, 65535, 8, 65535, 65535, 8, 65535],
    )
}

// Every kind of page in a tree of each depth, whose tables stand in no order: level 1 is table 2, level 2 is table 0, level 3 is table 1.
fn run_of_every_kind() -> Vec<u64> {
    let mut run = guard::run_of(3, &[(1, 0, 0x0001), (0, 0, 0x2007)]);
    run[1024..1032].copy_from_slice(&EVERY_KIND);
    run
}

fn every_kind(t: Tally) -> Tally {
    let mut t = t;
    let run = run_of_every_kind();
    for (depth, root) in [(1, 2), (2, 0), (3, 1)] {
        let tree = Tree { tables: &run, root, depth };
        let kernel = state_of_eight(Kernel(1));
        let user = state_of_eight(User(1));
        let rows = [
            ("in kernel mode", kernel, before(), [6, 1], after_in_kernel_mode()),
            ("in user mode", user, before(), [8, 1], after_in_user_mode()),
            ("a second time", kernel, after_in_kernel_mode(), [0, 0], after_in_kernel_mode()),
            ("after the mode changed", user, after_in_kernel_mode(), [3, 0], after_in_user_mode()),
        ];
        for (name, s, given, [changed, joined], left) in rows {
            let right = all_of(s, tree, &given, Done(changed, joined), &left);
            t = t.case(
                "sync_all_tree",
                &format!("every kind of page {name}, depth {depth}"),
                right,
            );
        }
        // One page after the other: the counts of each, and the tables that all leave.
        let (mut tables, mut counts) = (before(), [0, 0]);
        for page in 0..8 {
            let Tables { shadow, map } = &mut tables;
            let exclusion = [0x04, 0x01];
            let answer = crate::calls::sync_page_tree(kernel, tree, shadow, map, &exclusion, page);
            if let Done(changed, joined) = answer {
                counts = [counts[0] + changed, counts[1] + joined];
            }
        }
        let right = counts == [6, 1] && tables == after_in_kernel_mode();
        let name = format!("every kind of page, one after the other, depth {depth}");
        t = t.case("sync_page_tree", &name, right);
    }
    t
}

// Rights taken away from all pages at once, by level 2.
fn rights_of_all(t: Tally) -> Tally {
    let mut run = run_of_every_kind();
    run[0] = 0x8000000000002001;
    let tree = Tree { tables: &run, root: 1, depth: 3 };
    let left = Tables::new(
        &[0, 0x2401, 0, 0x8401, 0x8000000000004201, 0x8000000000005201, 0, 0x8000000000006201],
        &[65535, 2, 65535, 8, 65535, 65535, 8, 65535],
    );
    let right = all_of(state_of_eight(Kernel(1)), tree, &before(), Done(7, 1), &left);
    let t = t.case("sync_all_tree", "level 2 takes every right away", right);
    run[0] = 0x2006;
    let tree = Tree { tables: &run, root: 1, depth: 3 };
    let none = Tables::new(&[0; 8], &[65535, 2, 65535, 65535, 65535, 65535, 8, 65535]);
    let right = all_of(state_of_eight(Kernel(1)), tree, &before(), Done(5, 0), &none);
    t.case("sync_all_tree", "an absent entry of level 2 makes every page absent", right)
}

// Pages 0 to 7 as frames 0 to 7 of a large page: page 1 keeps frame 2, page 2 joins with frame 2, page 6 keeps frame 8.
fn large_page(t: Tally) -> Tally {
    let run = guard::run_of(2, &[(0, 0, 0x1007), (1, 0, 0x8f)]);
    let map_left = [65535, 2, 2, 65535, 65535, 65535, 8, 65535];
    let kernel = Tables::new(
        &[
            0x800000000000000f,
            0x2401,
            0x2401,
            0x800000000000300f,
            0x800000000000400f,
            0x800000000000500f,
            0x8401,
            0x800000000000700f,
        ],
        &map_left,
    );
    let user = Tables::new(
        &[
            0xf,
            0x8000000000002401,
            0x8000000000002401,
            0x300f,
            0x400f,
            0x500f,
            0x8000000000008401,
            0x700f,
        ],
        &map_left,
    );
    let mut t = t;
    for (depth, root) in [(2, 1), (3, 0)] {
        let tree = Tree { tables: &run, root, depth };
        let right = all_of(state_of_eight(Kernel(1)), tree, &before(), Done(6, 1), &kernel);
        let name = format!("a large page, depth {depth}, in kernel mode");
        t = t.case("sync_all_tree", &name, right);
        let right = all_of(state_of_eight(User(1)), tree, &before(), Done(8, 1), &user);
        let name = format!("a large page, depth {depth}, in user mode");
        t = t.case("sync_all_tree", &name, right);
        let mut left = before();
        left.shadow[7] = 0x800000000000700f;
        let right = one(state_of_eight(Kernel(1)), tree, 7, &before(), Done(1, 0), &left);
        let name = format!("the last page in a large page, depth {depth}");
        t = t.case("sync_page_tree", &name, right);
        let mut left = before();
        left.shadow[2] = 0x2401;
        left.map[2] = 2;
        let right = one(state_of_eight(Kernel(1)), tree, 2, &before(), Done(1, 1), &left);
        let name = format!("an alias in a large page, depth {depth}");
        t = t.case("sync_page_tree", &name, right);
    }
    t
}

// V 2,048 and F 4,096, frame 4095 excluded. Given: the tree; wanted: the counts, and the entry and the number of each page.
fn largest(
    t: Tally,
    name: &str,
    tree: Tree,
    [changed, joined]: [u64; 2],
    left: impl Fn(u64) -> (u64, u16),
) -> Tally {
    let s = guard::state(2048, 4096, 1, [0, 0, 0, 0], Kernel(2047));
    let mut exclusion = [0u8; 512];
    exclusion[511] = 0x80;
    let mut shadow = [0x2401u64; 2048];
    let mut map = [65535u16; 2048];
    let answer = crate::calls::sync_all_tree(s, tree, &mut shadow, &mut map, &exclusion);
    let pages = || (0..2048).zip(shadow.iter().zip(&map));
    let right = pages().all(|(page, (&entry, &number))| (entry, number) == left(page));
    t.case("sync_all_tree", name, answer == Done(changed, joined) && right)
}

fn largest_tables(t: Tally) -> Tally {
    // Four tables of level 1 under table 0; in table i every entry has frame 1024 + i.
    let mut run =
        guard::run_of(5, &[(0, 0, 0x1007), (0, 1, 0x2007), (0, 2, 0x3007), (0, 3, 0x4007)]);
    for (index, entry) in run[512..].iter_mut().enumerate() {
        *entry = (1025 + index as u64 / 512) << 12 | 0x7;
    }
    let tree = Tree { tables: &run, root: 0, depth: 2 };
    let t = largest(t, "2048 pages in four tables", tree, [2048, 0], |page| {
        (0x8000000000000007 | (1025 + page / 512) << 12, 65535)
    });
    let tree = Tree { tables: &run, root: 3, depth: 1 };
    let t = largest(t, "2048 pages of which depth 1 has 512", tree, [2048, 0], |page| {
        (if page < 512 { 0x8000000000403007 } else { 0 }, 65535)
    });
    // Four large pages, the last of which ends with the excluded frame 4095.
    let large = guard::run_of(1, &[(0, 0, 0x87), (0, 1, 0x200083), (0, 2, 0x85), (0, 3, 0xe00087)]);
    let tree = Tree { tables: &large, root: 0, depth: 2 };
    largest(t, "2048 pages in four large pages", tree, [2048, 1], |page| match page {
        0..512 => (0x8000000000000007 | page << 12, 65535),
        512..1024 => (0x8000000000000003 | page << 12, 65535),
        1024..1536 => (0x8000000000000005 | (page - 1024) << 12, 65535),
        2047 => (0xfff401, 4095),
        _ => (0x8000000000000007 | (page + 2048) << 12, 65535),
    })
}

// The page named is the one synchronised, from a tree of depth 1 whose every entry is 0x5003.
fn pages(t: Tally) -> Tally {
    let run = [0x5003; 512];
    let tree = Tree { tables: &run, root: 0, depth: 1 };
    let given = Tables::new(&[0, 0x2401, 0, 0x8401], &[65535, 2, 65535, 8]);
    let mut t = t;
    for (name, page, entry) in [
        ("page 0 of 4", 0, 0x8000000000005003),
        ("page 1 of 4", 1, 0x2401),
        ("page 2 of 4", 2, 0x8000000000005003),
        ("page 3 of 4", 3, 0x8401),
    ] {
        let mut left = given.clone();
        left.shadow[page] = entry;
        let changed = u64::from(page % 2 == 0);
        let s = guard::state_in(Kernel(1));
        let right = one(s, tree, page as u64, &given, Done(changed, 0), &left);
        t = t.case("sync_page_tree", name, right);
    }
    // No number is narrowed: 65536 is not page 0.
    for (name, page) in [
        ("page 4 of 4", 4),
        ("page 512 of 4", 512),
        ("page 65536 of 4", 65536),
        ("page 2^32 of 4", 4294967296),
        ("page 2^63 of 4", 9223372036854775808),
        ("the highest page number", 18446744073709551615),
    ] {
        let right = one(guard::state_in(Kernel(1)), tree, page, &given, Refused(9), &given);
        t = t.case("sync_page_tree", name, right);
    }
    // Page 512 of 514 has too many bits for depth 1, and not for depth 2.
    let s = guard::state(514, 9, 1, [1, 0, 0, 0], Kernel(1));
    let given = Tables::new(&[0x2401; 514], &[65535; 514]);
    let mut left = given.clone();
    left.shadow[512] = 0;
    let t = t.case(
        "sync_page_tree",
        "page 512 has too many bits for depth 1",
        one(s, tree, 512, &given, Done(1, 0), &left),
    );
    let run = guard::run_of(2, &[(0, 1, 0x1007), (1, 0, 0x5003)]);
    let tree = Tree { tables: &run, root: 0, depth: 2 };
    left.shadow[512] = 0x8000000000005003;
    let right = one(s, tree, 512, &given, Done(1, 0), &left);
    t.case("sync_page_tree", "page 512 of depth 2", right)
}

// 17, and that it comes before 9: nothing changes.
fn question_17(t: Tally) -> Tally {
    let run = [0x5003; 1536];
    let given = Tables::new(&[0, 0x2401, 0, 0x8401], &[65535, 2, 65535, 8]);
    let s = guard::state_in(Kernel(1));
    let mut t = t;
    for (name, words, root, depth) in guard::no_trees() {
        let tree = Tree { tables: &run[..words], root, depth };
        let right = one(s, tree, 0, &given, Refused(17), &given);
        t = t.case("sync_page_tree", name, right);
        let right = one(s, tree, 4, &given, Refused(17), &given);
        t = t.case("sync_page_tree", &format!("{name}, and page 4 of 4"), right);
        let right = all_of(s, tree, &given, Refused(17), &given);
        t = t.case("sync_all_tree", name, right);
    }
    t
}

// 7 comes before 17 and 9: each guard table of another length, with a tree in order and with a run of 511 words.
fn question_7(t: Tally) -> Tally {
    let run = [0x5003; 512];
    let s = guard::state_in(Kernel(1));
    let mut t = t;
    for (name, shadow, map, bytes) in [
        ("a shadow table too short", 3, 4, 2),
        ("a shadow table too long", 5, 4, 2),
        ("a map too short", 4, 3, 2),
        ("a map too long", 4, 5, 2),
        ("an exclusion vector too short", 4, 4, 1),
        ("an exclusion vector too long", 4, 4, 3),
    ] {
        for (of_tree, words) in [("a tree in order", 512), ("511 words", 511)] {
            let tree = Tree { tables: &run[..words], root: 0, depth: 1 };
            let given = Tables::new(&vec![0x2401; shadow], &vec![65535; map]);
            let exclusion = &[0; 3][..bytes];
            let name = format!("{name} and {of_tree}");
            let Tables { mut shadow, mut map } = given.clone();
            let answer = crate::calls::sync_page_tree(s, tree, &mut shadow, &mut map, exclusion, 4);
            let unchanged = Tables { shadow, map } == given;
            t = t.case("sync_page_tree", &name, answer == Refused(7) && unchanged);
            let Tables { mut shadow, mut map } = given.clone();
            let answer = crate::calls::sync_all_tree(s, tree, &mut shadow, &mut map, exclusion);
            let unchanged = Tables { shadow, map } == given;
            t = t.case("sync_all_tree", &name, answer == Refused(7) && unchanged);
        }
    }
    t
}

// The two runs of question 7: a state run and a numbers run of other lengths, with a run of 511 words and page 4 of 4.
fn runs(t: Tally) -> Tally {
    let tables = [0x5003; 511];
    let words = crate::calls::words(guard::state_in(Kernel(1)));
    let mut longer = words.to_vec();
    longer.push(0);
    let mut t = t;
    for (name, state, length) in [
        ("a state run too short", &words[..21], 2),
        ("a state run too long", &longer[..], 2),
        ("an empty state run", &[], 2),
        ("an empty numbers run", &words[..], 0),
        ("a numbers run of 1", &words[..], 1),
        ("a numbers run of 3", &words[..], 3),
    ] {
        let given = Tables::new(&[0, 0x2401, 0, 0x8401], &[65535, 2, 65535, 8]);
        let exclusion = [0x04, 0x01];
        // A numbers run of two is written with zeros, and no other is written.
        let numbers_left = if length == 2 { [0, 0, 77] } else { [77; 3] };
        let Tables { mut shadow, mut map } = given.clone();
        let mut numbers = [77; 3];
        let answered = archive::sync_page_tree(
            state,
            &tables,
            0,
            1,
            &mut shadow,
            &mut map,
            &exclusion,
            4,
            &mut numbers[..length],
        );
        let unchanged = Tables { shadow, map } == given && numbers == numbers_left;
        t = t.case("sync_page_tree", name, answered == 7 && unchanged);
        let Tables { mut shadow, mut map } = given.clone();
        let mut numbers = [77; 3];
        let answered = archive::sync_all_tree(
            state,
            &tables,
            0,
            1,
            &mut shadow,
            &mut map,
            &exclusion,
            &mut numbers[..length],
        );
        let unchanged = Tables { shadow, map } == given && numbers == numbers_left;
        t = t.case("sync_all_tree", name, answered == 7 && unchanged);
    }
    t
}

pub fn all(t: Tally) -> Tally {
    let t = absent(t);
    let t = approved(t);
    let t = rights(t);
    let t = changes(t);
    let t = every_kind(t);
    let t = rights_of_all(t);
    let t = large_page(t);
    let t = largest_tables(t);
    let t = pages(t);
    let t = question_17(t);
    let t = question_7(t);
    runs(t)
}
