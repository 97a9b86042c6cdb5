// The walk of a tree (K4): "A page's walk gives its flat entry, of the named bits alone and 0 if absent, and the count of entries read,
// never above the depth." Question 7 of its numbers run, then 17; there is no question 9.
use crate::calls::Answer::Done;
use crate::calls::Answer::Refused;
use crate::calls::Tree;
use crate::guard;
use crate::tally::Tally;
use ::guard::archive;

const NO_EXECUTE: u64 = 0x8000000000000000;

// Walks to a page of a run, by its root and its depth: the flat entry, and the entries read.
fn walked(
    t: Tally,
    name: &str,
    tables: &[u64],
    [root, depth, page]: [u64; 3],
    [entry, read]: [u64; 2],
) -> Tally {
    let answer = crate::calls::walk(Tree { tables, root, depth }, page);
    t.case("walk", name, answer == Done(entry, read))
}

// Page 517 by its entries of levels 2 and 1, in tables 1 and 2, from level 2 on and from an entry of level 3 on, in table 0. Bits 9 to
// 17 of 517 are 1, its bits 0 to 8 are 5. Wanted: the flat entry, and the entries read from level 2 on.
fn page_517(t: Tally, name: &str, entries: [u64; 2], [entry, read]: [u64; 2]) -> Tally {
    let [second, first] = entries;
    let tables = guard::run_of(3, &[(0, 0, 0x1007), (1, 1, second), (2, 5, first)]);
    let t = walked(t, &format!("{name}, depth 2"), &tables, [1, 2, 517], [entry, read]);
    walked(t, &format!("{name}, depth 3"), &tables, [0, 3, 517], [entry, read + 1])
}

// Page 517 from level 3 on, by its entries of all three.
fn from_level_3(t: Tally, name: &str, entries: [u64; 3], wanted: [u64; 2]) -> Tally {
    let [third, second, first] = entries;
    let tables = guard::run_of(3, &[(0, 0, third), (1, 1, second), (2, 5, first)]);
    walked(t, name, &tables, [0, 3, 517], wanted)
}

// "Level 1 is chosen by page bits 0 to 8, each level above by the next nine bits; the walk goes down one level at a time."
fn depths(t: Tally) -> Tally {
    // Two roots of depth 1; table 4 is the root of depth 2, and table 3 that of depth 3.
    let tables = guard::run_of(
        5,
        &[
            (0, 0, 0x3003),
            (0, 5, 0x7007),
            (0, 511, 0x9001),
            (2, 5, 0x8005),
            (4, 2, 0x0007),
            (4, 3, 0x2007),
            (3, 1, 0x4007),
            (3, 511, 0x4007),
        ],
    );
    let t = walked(t, "page 0 of depth 1", &tables, [0, 1, 0], [0x3003, 1]);
    let t = walked(t, "page 5 of depth 1", &tables, [0, 1, 5], [0x7007, 1]);
    let t = walked(t, "page 511 of depth 1", &tables, [0, 1, 511], [0x9001, 1]);
    let t = walked(t, "page 6 of depth 1 is absent", &tables, [0, 1, 6], [0, 1]);
    let t = walked(t, "page 5 of depth 1 from another root", &tables, [2, 1, 5], [0x8005, 1]);
    let t = walked(t, "page 1029 of depth 2", &tables, [4, 2, 1029], [0x7007, 2]);
    let t = walked(t, "page 1541 of depth 2", &tables, [4, 2, 1541], [0x8005, 2]);
    let t = walked(t, "page 1535 of depth 2", &tables, [4, 2, 1535], [0x9001, 2]);
    let t = walked(t, "page 1536 of depth 2 is absent", &tables, [4, 2, 1536], [0, 2]);
    let t = walked(t, "page 2048 of depth 2 is absent at level 2", &tables, [4, 2, 2048], [0, 1]);
    let t = walked(t, "page 263173 of depth 3", &tables, [3, 3, 263173], [0x7007, 3]);
    let t = walked(t, "page 263685 of depth 3", &tables, [3, 3, 263685], [0x8005, 3]);
    let t = walked(t, "page 263174 of depth 3 is absent", &tables, [3, 3, 263174], [0, 3]);
    let t =
        walked(t, "page 262144 of depth 3 is absent at level 2", &tables, [3, 3, 262144], [0, 2]);
    let t = walked(t, "page 0 of depth 3 is absent at level 3", &tables, [3, 3, 0], [0, 1]);
    walked(t, "page 133956613 of depth 3", &tables, [3, 3, 133956613], [0x7007, 3])
}

// "A page whose number needs more bits than the depth has is absent": no entry is read, and no bit is dropped. The one table here is its
// own next table.
fn too_many_bits(t: Tally) -> Tally {
    let tables = guard::run_of(1, &[(0, 0, 0x7), (0, 5, 0x7), (0, 511, 0x7)]);
    let mut t = t;
    for (depth, last) in [(1, 511), (2, 262143), (3, 134217727)] {
        t = walked(
            t,
            &format!("page {last}, the last of depth {depth}"),
            &tables,
            [0, depth, last],
            [0x7, depth],
        );
        let beyond = [
            last + 1,
            last + 6,
            2 * last + 2,
            2 * last + 1,
            4294967296,
            4294967301,
            9223372036854775808,
            9223372036854775813,
            18446744073709551615,
        ];
        for page in beyond {
            let name = format!("page {page} has too many bits for depth {depth}");
            t = walked(t, &name, &tables, [0, depth, page], [0, 0]);
        }
    }
    let leaves = guard::run_of(2, &[(0, 3, 0x1007), (1, 511, 0x7007)]);
    let t = walked(t, "page 2047 of depth 2", &leaves, [0, 2, 2047], [0x7007, 2]);
    walked(t, "page 2047 has too many bits for depth 1", &leaves, [1, 1, 2047], [0, 0])
}

// "Writable and user need every level, no-execute needs one".
fn rights(t: Tally) -> Tally {
    let t = page_517(t, "all rights", [0x2007, 0x7007], [0x7007, 2]);
    let t = page_517(t, "not writable at level 1", [0x2007, 0x7005], [0x7005, 2]);
    let t = page_517(t, "not user at level 1", [0x2007, 0x7003], [0x7003, 2]);
    let t = page_517(t, "not writable at level 2", [0x2005, 0x7007], [0x7005, 2]);
    let t = page_517(t, "not user at level 2", [0x2003, 0x7007], [0x7003, 2]);
    let t = page_517(t, "neither at level 1", [0x2007, 0x7001], [0x7001, 2]);
    let t = page_517(t, "neither at level 2", [0x2001, 0x7007], [0x7001, 2]);
    let t = page_517(t, "not user at level 2, not writable at 1", [0x2003, 0x7005], [0x7001, 2]);
    let t = page_517(t, "not writable at level 2, not user at 1", [0x2005, 0x7003], [0x7001, 2]);
    let t = page_517(
        t,
        "no-execute at level 1",
        [0x2007, NO_EXECUTE | 0x7007],
        [NO_EXECUTE | 0x7007, 2],
    );
    let t = page_517(
        t,
        "no-execute at level 2",
        [NO_EXECUTE | 0x2007, 0x7007],
        [NO_EXECUTE | 0x7007, 2],
    );
    let t = page_517(
        t,
        "no-execute at levels 1 and 2",
        [NO_EXECUTE | 0x2007, NO_EXECUTE | 0x7007],
        [NO_EXECUTE | 0x7007, 2],
    );
    page_517(
        t,
        "no-execute and not writable at level 2, not user at 1",
        [NO_EXECUTE | 0x2005, 0x7003],
        [NO_EXECUTE | 0x7001, 2],
    )
}

// "at level 3 these three bits do not count".
fn rights_of_level_3(t: Tally) -> Tally {
    let mut t = t;
    for (bits, third) in [
        ("not writable", 0x1005),
        ("not user", 0x1003),
        ("neither", 0x1001),
        ("no-execute", NO_EXECUTE | 0x1007),
        ("no-execute and neither", NO_EXECUTE | 0x1001),
    ] {
        t = from_level_3(
            t,
            &format!("level 3 {bits} takes nothing away"),
            [third, 0x2007, 0x7007],
            [0x7007, 3],
        );
        t = from_level_3(
            t,
            &format!("level 3 {bits} gives nothing back"),
            [third, 0x2007, NO_EXECUTE | 0x7001],
            [NO_EXECUTE | 0x7001, 3],
        );
        t = from_level_3(
            t,
            &format!("level 3 {bits} takes nothing away from a large page"),
            [third, 0x200087, 0],
            [0x205007, 2],
        );
    }
    from_level_3(t, "all rights of level 3 give nothing", [0x1007, 0x2001, 0x7007], [0x7001, 3])
}

// "Cache bits come from the last entry."
fn cache_bits(t: Tally) -> Tally {
    let mut t = t;
    for (name, bits) in [("neither bit", 0), ("bit 3", 0x8), ("bit 4", 0x10), ("both", 0x18)] {
        for (above_name, above) in [("neither", 0), ("bit 3", 0x8), ("bit 4", 0x10), ("both", 0x18)]
        {
            t = from_level_3(
                t,
                &format!("cache bits, {name} in the last entry and {above_name} above"),
                [0x1007 | above, 0x2007 | above, 0x7007 | bits],
                [0x7007 | bits, 3],
            );
            t = from_level_3(
                t,
                &format!("cache bits of a large page, {name} there and {above_name} above"),
                [0x1007 | above, 0x200087 | bits, 0],
                [0x205007 | bits, 2],
            );
        }
    }
    t
}

// "of the named bits alone": bits 5 to 11 are in no flat entry, and a frame has 40 bits.
fn named_bits(t: Tally) -> Tally {
    let t = page_517(t, "bits 5 to 11 of the last entry", [0x2007, 0x7fe7], [0x7007, 2]);
    let t = page_517(t, "bits 3 to 6 and 8 to 11 above", [0x2f7f, 0x7007], [0x7007, 2]);
    let t = page_517(t, "bits 3 to 6 and 8 to 11 at both levels", [0x2f7f, 0x7f7f], [0x701f, 2]);
    let t = page_517(t, "the highest frame", [0x2007, 0x000ffffffffff007], [0x000ffffffffff007, 2]);
    let t = page_517(
        t,
        "all bits but the reserved ones",
        [0x2007, 0x800fffffffffffff],
        [0x800ffffffffff01f, 2],
    );
    let t = page_517(t, "frame 0", [0x2007, 0x7], [0x7, 2]);
    let t = page_517(t, "bits 3 to 11 of a large page", [0x200fff, 0], [0x20501f, 1]);
    from_level_3(t, "bits 3 to 11 of level 3", [0x1fff, 0x2007, 0x7007], [0x7007, 3])
}

// "Bit 7 at level 2 means a large page: the low nine bits of its frame field must be 0, else the page is absent, and the page number's
// low nine are added."
fn large_pages(t: Tally) -> Tally {
    let t = page_517(t, "a large page of frame 0", [0x87, 0x7007], [0x5007, 1]);
    let t = page_517(t, "a large page of frame 512", [0x200087, 0x7007], [0x205007, 1]);
    let t = page_517(t, "a large page of frame 3584", [0xe00087, 0x7007], [0xe05007, 1]);
    let t = page_517(t, "the highest large page", [0x000fffffffe00087, 0], [0x000fffffffe05007, 1]);
    let t = page_517(t, "a large page that is not writable", [0x200085, 0], [0x205005, 1]);
    let t = page_517(t, "a large page that is not user", [0x200083, 0], [0x205003, 1]);
    let t = page_517(
        t,
        "a no-execute large page",
        [NO_EXECUTE | 0x200087, 0],
        [NO_EXECUTE | 0x205007, 1],
    );
    let t = page_517(t, "the same entry without bit 7", [0x2007, 0x7007], [0x7007, 2]);
    let tables = guard::run_of(1, &[(0, 1, 0x000fffffffe00087), (0, 2, 0x200087)]);
    let t =
        walked(t, "the first page of a large page", &tables, [0, 2, 512], [0x000fffffffe00007, 1]);
    let t =
        walked(t, "the last page of a large page", &tables, [0, 2, 1023], [0x000ffffffffff007, 1]);
    let t = walked(t, "the first page of the next one", &tables, [0, 2, 1024], [0x200007, 1]);
    let t = walked(t, "the last page of the next one", &tables, [0, 2, 1535], [0x3ff007, 1]);
    walked(t, "no page after them", &tables, [0, 2, 1536], [0, 1])
}

fn misaligned(t: Tally) -> Tally {
    let mut t = t;
    for bit in 12..=20 {
        let name = format!("a large page with bit {bit} is misaligned");
        t = page_517(t, &name, [1 << bit | 0x200087, 0x7007], [0, 1]);
    }
    let t = page_517(t, "a large page of frame 1, which is a table", [0x1087, 0x7007], [0, 1]);
    let t = page_517(t, "a large page of frame 511", [0x1ff087, 0x7007], [0, 1]);
    page_517(t, "a large page of the highest frame", [0x000ffffffffff087, 0x7007], [0, 1])
}

// Bit 7 counts at level 2 alone.
fn bit_7_elsewhere(t: Tally) -> Tally {
    let tables = guard::run_of(1, &[(0, 5, 0x200087), (0, 6, 0x7087)]);
    let t = walked(t, "bit 7 at level 1 of depth 1", &tables, [0, 1, 5], [0x200007, 1]);
    let t = walked(t, "bit 7 with frame 7 at level 1", &tables, [0, 1, 6], [0x7007, 1]);
    let t = page_517(t, "bit 7 at level 1", [0x2007, 0x200087], [0x200007, 2]);
    let t = page_517(t, "bit 7 with frame 7 at level 1", [0x2007, 0x7087], [0x7007, 2]);
    let t = from_level_3(t, "bit 7 at level 3", [0x1087, 0x2007, 0x7007], [0x7007, 3]);
    let name = "bit 7 at level 3 above a large page";
    let t = from_level_3(t, name, [0x1087, 0x200087, 0x7007], [0x205007, 2]);
    // Table 0 is its own level 2, by the aligned number 0.
    let tables = guard::run_of(3, &[(0, 0, 0x87), (0, 1, 0x2007), (2, 5, 0x7007)]);
    walked(t, "bit 7 with table 0 at level 3", &tables, [0, 3, 517], [0x7007, 3])
}

// "An absent entry .. makes the page absent", of any level; it is read. K1: bits 52 to 62 make it absent too.
fn absent_entries(t: Tally) -> Tally {
    let third = 0x1007;
    let t = page_517(t, "absent at level 1", [0x2007, 0x7006], [0, 2]);
    let t = page_517(t, "all bits but bit 0 at level 1", [0x2007, 0x800ffffffffffffe], [0, 2]);
    let t = page_517(t, "absent at level 2", [0x2006, 0x7007], [0, 1]);
    let t = page_517(t, "all bits but bit 0 at level 2", [0x800000000000267e, 0x7007], [0, 1]);
    let t = page_517(t, "an absent large page", [0x200086, 0x7007], [0, 1]);
    let t = from_level_3(t, "absent at level 3", [0x1006, 0x2007, 0x7007], [0, 1]);
    let mut t = from_level_3(t, "0 at level 3", [0, 0x2007, 0x7007], [0, 1]);
    for bit in 52..=62 {
        let set = 1 << bit;
        t = page_517(t, &format!("bit {bit} at level 1"), [0x2007, set | 0x7007], [0, 2]);
        t = page_517(t, &format!("bit {bit} at level 2"), [set | 0x2007, 0x7007], [0, 1]);
        t = page_517(t, &format!("bit {bit} of a large page"), [set | 0x200087, 0x7007], [0, 1]);
        let name = format!("bit {bit} at level 3");
        t = from_level_3(t, &name, [set | third, 0x2007, 0x7007], [0, 1]);
    }
    let all = 0x7ff0000000000000;
    let t = page_517(t, "bits 52 to 62 at level 2", [all | 0x2007, 0x7007], [0, 1]);
    from_level_3(t, "bits 52 to 62 at level 3", [all | third, 0x2007, 0x7007], [0, 1])
}

// "The frame field of an upper entry is the number of the next table in the run." "a table number outside the run, makes the page
// absent": nothing more is read, and no bit of the number is dropped.
fn next_tables(t: Tally) -> Tally {
    let mut t = t;
    for (name, outside) in [
        ("table 3 of 3", 0x3007),
        ("table 4 of 3", 0x4007),
        ("table 258 of 3", 0x102007),
        ("table 65538 of 3", 0x10002007),
        ("table 2^32 + 2 of 3", 0x100000002007),
        ("table 2^39 + 2 of 3", 0x8000000002007),
        ("the highest table number", 0x000ffffffffff007),
    ] {
        t = page_517(t, &format!("{name}, at level 2"), [outside, 0x7007], [0, 1]);
        let name = format!("{name}, at level 3");
        t = from_level_3(t, &name, [outside, 0x2007, 0x7007], [0, 1]);
    }
    let shared = guard::run_of(2, &[(0, 0, 0x1005), (0, 1, 0x1003), (1, 5, 0x7007)]);
    let t = walked(t, "a table at its first place", &shared, [0, 2, 5], [0x7005, 2]);
    let t = walked(t, "the same table at its second place", &shared, [0, 2, 517], [0x7003, 2]);
    let round = guard::run_of(1, &[(0, 0, 0x5), (0, 5, 0x7007)]);
    let t = walked(t, "a table that is its own next one, depth 2", &round, [0, 2, 5], [0x7005, 2]);
    let t = walked(t, "a table that is its own next one, depth 3", &round, [0, 3, 5], [0x7005, 3]);
    let t = walked(t, "a table that is its own last one", &round, [0, 3, 0], [0x5, 3]);
    let back = guard::run_of(2, &[(0, 0, 0x1007), (1, 0, 0x3), (0, 5, 0x7007)]);
    walked(t, "a table that is above itself", &back, [0, 3, 5], [0x7003, 3])
}

// "It refuses with 17, after question 7, a run that is not whole tables of 512, a depth outside 1 to 3 or a root outside the run."
fn question_17(t: Tally) -> Tally {
    let mut t = t;
    let run = [0x7; 1536];
    for (name, words, root, depth) in guard::no_trees() {
        let tree = Tree { tables: &run[..words], root, depth };
        t = t.case("walk", name, crate::calls::walk(tree, 0) == Refused(17));
        let name = format!("{name}, and the highest page number");
        let answer = crate::calls::walk(tree, 18446744073709551615);
        t = t.case("walk", &name, answer == Refused(17));
    }
    let t = walked(t, "one table", &run[..512], [0, 1, 0], [0x7, 1]);
    let t = walked(t, "the last of two tables", &run[..1024], [1, 2, 0], [0x7, 2]);
    walked(t, "the last of three tables", &run, [2, 3, 0], [0x7, 3])
}

// A numbers run of another length gives 7 before 17, and is not written.
fn question_7(t: Tally) -> Tally {
    let mut t = t;
    let run = [0x7; 512];
    for words in [0, 1, 3] {
        for (name, tables, depth) in
            [("a tree in order", &run[..], 1), ("511 words", &run[..511], 1), ("depth 0", &run, 0)]
        {
            let mut numbers = [77; 3];
            let answered = archive::walk(tables, 0, depth, 0, &mut numbers[..words]);
            let name = format!("a numbers run of {words} and {name}");
            t = t.case("walk", &name, answered == 7 && numbers == [77; 3]);
        }
    }
    t
}

pub fn all(t: Tally) -> Tally {
    let t = depths(t);
    let t = too_many_bits(t);
    let t = rights(t);
    let t = rights_of_level_3(t);
    let t = cache_bits(t);
    let t = named_bits(t);
    let t = large_pages(t);
    let t = misaligned(t);
    let t = bit_7_elsewhere(t);
    let t = absent_entries(t);
    let t = next_tables(t);
    let t = question_17(t);
    question_7(t)
}
